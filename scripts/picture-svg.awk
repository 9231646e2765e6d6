# Lays out a component's picture as SVG 1.1. Reads what picture-instants.awk prints, with the demand and the supply behind each
# instant; the same lines stand in the picture's metadata, so that every number in it can be read back. Computes positions only:
# the straight line is the one number that isn't an answer to a call, and the legend says what it is.

BEGIN {
    width = 960; left = 106; right = 38         # of the picture; beside a window
    supply_colour = "#0072B2"; supply_fill = "#DCEBF5"
    demand_colour = "#D55E00"; demand_fill = "#F8CFB0"
    line_colour = "#5F5F5F"
    supply_thick = 5; demand_thick = 2          # so that both are seen where they run together
    minus = "\342\210\222"
}
{ said[NR] = $0 }
$1 == "component" { number = $2; asked = $3 == "asked" }
$1 == "own" { own = $2; parent = 1 }
$1 == "verdict" { verdict = $2 }
$1 == "short" { short = $2 + 0 }
$1 == "margin" { margin = $2 + 0; instant = $3 + 0 }
$1 == "table" { tasks = $2; for (i = 6; i <= NF; i += 4) note_lateness($i + 0) }
$1 == "interface" { period = $2; capacity = $3; deadline = $4 }
$1 == "window" { w++; from[w] = $2 + 0; to[w] = $3 + 0; every[w] = $4 == "every"; count[w] = 0; window_at[NR] = w }
$1 == "window" && instant && instant >= $2 && instant <= $3 { last_margin = w }
$1 == "at" {
    i = ++count[w]
    t[w, i] = $2 + 0; demand[w, i] = $3 + 0; supply[w, i] = $4 + 0
    if (instant && t[w, i] == instant) { demand_there = $3 + 0; supply_there = $4 + 0 }
}
END {
    height = place_windows() + (late ? 22 : 0)
    print "<?xml version=\"1.0\" encoding=\"UTF-8\"?>"
    printf "<svg xmlns=\"http://www.w3.org/2000/svg\" version=\"1.1\" width=\"%d\" height=\"%d\" viewBox=\"0 0 %d %d\" font-family=\"sans-serif\" font-size=\"13\" fill=\"#000000\">\n", width, height, width, height
    words()
    print "<title>" heading "</title>"
    print "<desc>" drawn " " caption (line_words == "" ? "" : " " line_words) (late ? " " late_words : "") "</desc>"
    metadata()
    print "<rect x=\"0\" y=\"0\" width=\"" width "\" height=\"" height "\" fill=\"#FFFFFF\"/>"
    text(24, 34, "start", heading, " font-size=\"20\" font-weight=\"bold\"")
    text(24, 58, "start", drawn, " font-size=\"14\"")
    legend()
    for (v = 1; v <= w; v++)
        draw(v)
    foot = height - (late ? 22 : 0)
    text(24, foot - 38, "start", caption, " font-size=\"14\"")
    if (line_words != "") text(24, foot - 16, "start", line_words, " font-size=\"14\"")
    if (late) text(24, height - 16, "start", late_words, " font-size=\"14\"")
    print "</svg>"
}

# ---- words

function words() {
    heading = "Component " number ": "
    if (verdict == "accepted") heading = heading "accepted"
    if (verdict == "short") heading = heading "short at instant " grouped(short)
    if (verdict == "none") heading = heading "none, no capacity is enough"
    drawn = "Period \316\240 = " counted(period, "slot") ", capacity \316\230 = " counted(capacity, "unit")
    drawn = drawn (verdict == "none" ? " (the largest there is)" : asked ? " (asked: the smallest accepted)" : " (stated)")
    drawn = drawn ", deadline \316\224 = " counted(deadline, "slot") "."
    late_words = "Jobs of " counted(late, "task") " may become ready late, by up to " counted(latest, "slot") ": their work counts as due at D " minus " J, not at D."
    if (!tasks) caption = "There are no tasks: demand is 0 at every instant, and there is no margin."
    else {
        caption = "At instant " grouped(instant) " demand is " counted(demand_there, "unit") " and supply " counted(supply_there, "unit") ": margin " signed(margin) "."
        if (capacity) line_words = "The straight line reads " line_read(instant) " there" (margin < 0 && line_at(instant) >= demand_there ? ", which would pass." : ".")
    }
}
function note_lateness(slots) { if (slots > 0) { late++; latest = most(latest, slots) } }
function counted(n, word) { return grouped(n) " " word (n == 1 ? "" : "s") }
function signed(n) { return n < 0 ? minus grouped(-n) : n > 0 ? "+" grouped(n) : "0" }
function grouped(n,    s) {
    for (s = ""; n >= 1000; n = int(n / 1000))
        s = sprintf(",%03d", n % 1000) s
    return sprintf("%d", n) s
}

# The line with the budget's slope through the supply's upper corners, at an instant: cut after two places, never rounded up.
function line_at(t) { return capacity * (t - (deadline - capacity)) / period }
function line_read(t,    part, s) {
    part = capacity * (t - (deadline - capacity))
    if (part <= 0) return "0"
    s = sprintf(".%02d", int(part % period * 100 / period))
    if (part % period * 100 % period) s = s "\342\200\246"
    else sub(/\.?0+$/, "", s)
    return grouped(int(part / period)) s
}

# ---- the windows' boxes: the first over the whole width, those around an instant below it, side by side

function place_windows(    v, columns, top) {
    top = 112
    for (v = 1; v <= w; v++) {
        columns = v == 1 ? 1 : w - 1
        box_width[v] = width / columns - left - right
        box_height[v] = v == 1 ? 360 : 280
        box_left[v] = left + (v > 2 ? (v - 2) * width / columns : 0)
        box_top[v] = (v == 1 ? top : top + 465) + 58
        find_range(v)
    }
    return top + (w > 1 ? 465 + 280 : 360) + 58 + 118
}

# The units that a window shows: in the first all of them, in the others those around the marks. A frame that cuts a curve off stands
# between two units, so that no step runs along it.
function find_range(v,    fewest, top, spare) {
    fewest = least(supply[v, 1], demand[v, 1])
    top = most(supply[v, count[v]], demand[v, count[v]])
    if (v > 1) {
        find_marked(v, top, fewest)
        spare = apart > 2 ? 3 * apart : 8
        fewest = most(fewest, marked_least - spare)
        top = least(top, marked_most + spare)
    }
    spare = int((top - fewest) / 16)
    low[v] = v == 1 || fewest - spare < 1 ? 0 : fewest - spare - 0.6
    high[v] = top + spare + (v == 1 ? 1 : 0.6)
}
function find_marked(v, top, fewest,    i) {
    marked_least = top; marked_most = fewest; apart = 0
    for (i = 1; i <= count[v]; i++)
        if (t[v, i] == instant || t[v, i] == short) note(supply[v, i], demand[v, i])
}
function note(one, other) {
    marked_least = least(marked_least, least(one, other))
    marked_most = most(marked_most, most(one, other))
    apart = most(apart, most(one - other, other - one))
}
function x_of(v, instant) { return box_left[v] + (instant - from[v]) * box_width[v] / (to[v] - from[v]) }
function y_of(v, units) { return box_top[v] + box_height[v] - (units - low[v]) * box_height[v] / (high[v] - low[v]) }

# ---- what can be read back: each window's line ends in its units and its box

function metadata(    i, v) {
    print "<metadata>"
    for (i = 1; i <= NR; i++) {
        v = window_at[i]
        print said[i] (v ? sprintf(" %.1f %.1f %.2f %.2f %.2f %.2f", low[v], high[v], box_left[v], box_top[v], box_width[v], box_height[v]) : "")
    }
    print "</metadata>"
}

# ---- the legend

function legend() {
    swatch(24, 82, supply_colour, "", supply_thick)
    text(64, 86, "start", "supply: the fewest units that any legal delivery gives", "")
    if (tasks) {
        swatch(440, 82, demand_colour, "", demand_thick)
        text(480, 86, "start", parent ? "demand: the units due by then, of " workload() : "demand: the units that must be done by then", "")
    }
    if (capacity) {
        swatch(24, 102, line_colour, " stroke-dasharray=\"7 4\"", 1.5)
        text(64, 106, "start", "straight line \316\230/\316\240 \302\267 (t " minus " (\316\224 " minus " \316\230)): an estimate, above the supply except at its upper corners", "")
    }
    if (margin < 0) {
        print "<rect x=\"702\" y=\"95\" width=\"32\" height=\"13\" fill=\"" demand_fill "\"/>"
        text(742, 106, "start", "demand above supply", "")
    }
}
function workload() { return (own + 0 ? counted(own, "task") " and " : "") (tasks - own == 1 ? "1 child" : tasks - own " children") }
function swatch(x, y, colour, dashes, thick) { stroke(x, y, x + 32, y, colour, thick, dashes) }

# ---- a window

function draw(v) {
    clip("area" v, v, 0)
    clip("curves" v, v, 3)
    printf "<g clip-path=\"url(#area%d)\">\n", v
    if (tasks) under(v, demand_points(v), demand_fill)
    under(v, supply_points(v), supply_fill)
    print "</g>"
    axes(v)
    labels(v)
    printf "<g clip-path=\"url(#area%d)\">\n", v
    if (capacity) straight_line(v)
    print "</g>"
    printf "<g clip-path=\"url(#curves%d)\">\n", v
    curve("supply" v, supply_points(v), supply_colour, supply_thick)
    if (tasks) curve("demand" v, demand_points(v), demand_colour, demand_thick)
    print "</g>"
    if (shows_margin) dimension(v)
}
function clip(id, v, room) {
    printf "<clipPath id=\"%s\"><rect x=\"%.2f\" y=\"%.2f\" width=\"%.2f\" height=\"%.2f\"/></clipPath>\n", id, box_left[v] - room, box_top[v] - room, box_width[v] + 2 * room, box_height[v] + 2 * room
}

# The straight line, from where it enters the box to where it leaves it: nothing is drawn far outside.
function straight_line(v,    begin, end) {
    begin = most(from[v], deadline - capacity + low[v] * period / capacity)
    end = least(to[v], deadline - capacity + high[v] * period / capacity)
    if (begin < end) stroke(x_of(v, begin), y_of(v, line_at(begin)), x_of(v, end), y_of(v, line_at(end)), line_colour, 1.5, " stroke-dasharray=\"7 4\" id=\"line" v "\"")
}

# Both curves hold until the instant where they rise, but in a window that asks for corners only the supply rises in a straight line
# from corner to corner, a unit a slot. A step that leads far out of the box is cut a little outside it.
function demand_points(v,    i, s) {
    s = step_point(v, t[v, 1], demand[v, 1])
    for (i = 2; i <= count[v]; i++)
        if (demand[v, i] != demand[v, i - 1]) s = s " " step_point(v, t[v, i], demand[v, i - 1]) " " step_point(v, t[v, i], demand[v, i])
    return s " " step_point(v, to[v], demand[v, count[v]])
}
function supply_points(v,    i, s) {
    s = every[v] ? step_point(v, t[v, 1], supply[v, 1]) : point(v, t[v, 1], supply[v, 1])
    for (i = 2; i <= count[v]; i++)
        if (!every[v]) s = s " " point(v, t[v, i], supply[v, i])
        else if (supply[v, i] != supply[v, i - 1]) s = s " " step_point(v, t[v, i], supply[v, i - 1]) " " step_point(v, t[v, i], supply[v, i])
    return every[v] ? s " " step_point(v, to[v], supply[v, count[v]]) : s
}
function point(v, instant, units) { return sprintf("%.2f,%.2f", x_of(v, instant), y_of(v, units)) }
function step_point(v, instant, units) { return sprintf("%.2f,%.2f", x_of(v, instant), most(box_top[v] - 20, least(box_top[v] + box_height[v] + 20, y_of(v, units)))) }
function curve(id, points, colour, thick) {
    printf "<polyline id=\"%s\" points=\"%s\" fill=\"none\" stroke=\"%s\" stroke-width=\"%s\" stroke-linejoin=\"round\"/>\n", id, points, colour, thick
}
function under(v, points, colour) {
    printf "<polygon points=\"%s %s %s\" fill=\"%s\"/>\n", points, point(v, to[v], low[v]), point(v, from[v], low[v]), colour
}

function axes(v) {
    instants_axis(v, box_top[v] + box_height[v])
    units_axis(v, box_left[v] - left + 18, box_top[v] + box_height[v] / 2)
    printf "<rect x=\"%.2f\" y=\"%.2f\" width=\"%.2f\" height=\"%.2f\" fill=\"none\" stroke=\"#404040\" stroke-width=\"1\"/>\n", box_left[v], box_top[v], box_width[v], box_height[v]
}
function instants_axis(v, bottom,    x, step, tick) {
    step = tick_step(to[v] - from[v], box_width[v] / (26 + 7.5 * length(grouped(to[v]))))
    for (tick = up(from[v] / step) * step; tick <= to[v]; tick += step) {
        x = x_of(v, tick)
        stroke(x, box_top[v], x, bottom + 5, "#C4C4C4", 0.6, "")
        text(x, bottom + 20, "middle", grouped(tick), "")
    }
    text(box_left[v] + box_width[v] / 2, bottom + 40, "middle", "instant t, in slots" nearer(v), "")
}
function units_axis(v, beside, middle,    y, step, tick) {
    step = tick_step(high[v] - low[v], box_height[v] / 28)
    for (tick = up(low[v] / step) * step; tick <= high[v]; tick += step) {
        y = y_of(v, tick)
        stroke(box_left[v] - 5, y, box_left[v] + box_width[v], y, "#C4C4C4", 0.6, "")
        text(box_left[v] - 9, y + 4.5, "end", grouped(tick), "")
    }
    text(beside, middle, "middle", "units", sprintf(" transform=\"rotate(-90 %.2f %.2f)\"", beside, middle))
}
function nearer(v) {
    if (v == 1) return ""
    return instant > to[v] ? ": around the first short instant" : ": around the margin"
}

# The step between ticks: 1, 2 or 5 with zeros, so that no more than MANY of them fit into SPAN.
function tick_step(span, many,    step, n) {
    step = 1
    for (n = 0; span / step > many; n++)
        step = step * (n % 3 == 1 ? 2.5 : 2)
    return step
}
function up(x) { return int(x) < x ? int(x) + 1 : int(x) }

# ---- the marks: the first short instant as a line, the margin as a dimension between the curves. Their labels stand above the box, to
# the right of their lines where there is room. The first short instant is never the later one: its label is the upper one where the
# margin's runs to the right, and the lower one where that runs to the left, so that no line crosses a label.

function labels(v,    edge, margin_left, short_left, upper, lower) {
    edge = box_left[v] + box_width[v]
    shows_short = short && short >= from[v] && short <= to[v]
    shows_margin = instant && instant >= from[v] && instant <= to[v]
    short_words = "first short instant: " grouped(short)
    margin_words = "margin " signed(margin) " at instant " grouped(instant)
    margin_left = shows_margin && x_of(v, instant) + room(margin_words) > edge
    short_left = x_of(v, short) + room(short_words) > edge || margin_left && x_of(v, short) - room(short_words) > 0
    lower = box_top[v] - 8
    upper = shows_short && shows_margin ? lower - 22 : lower
    if (shows_short) {
        stroke(x_of(v, short), (margin_left ? lower : upper) - 10, x_of(v, short), box_top[v] + box_height[v], "#000000", 1.4, " stroke-dasharray=\"2 3\"")
        label(x_of(v, short), margin_left ? lower : upper, short_words, short_left)
    }
    if (shows_margin) {
        if (short != instant) stroke(x_of(v, instant), (margin_left ? upper : lower) - 10, x_of(v, instant), y_of(v, most(demand_there, supply_there)), "#000000", 0.8, "")
        label(x_of(v, instant), margin_left ? upper : lower, margin_words, margin_left)
    }
}
function room(s) { return 10 + 7.8 * letters(s) }
function letters(s) { gsub(/[\200-\277]/, "", s); return length(s) }
function label(x, y, s, leftward) { text(x + (leftward ? -6 : 6), y, leftward ? "end" : "start", s, " font-weight=\"bold\"") }

function dimension(v,    x, upper, lower) {
    x = x_of(v, instant)
    upper = y_of(v, most(demand_there, supply_there))
    lower = y_of(v, least(demand_there, supply_there))
    if (margin == 0) printf "<circle id=\"margin%d\" cx=\"%.2f\" cy=\"%.2f\" r=\"5\" fill=\"#FFFFFF\" stroke=\"#000000\" stroke-width=\"2\"/>\n", v, x, upper
    else {
        printf "<line id=\"margin%d\" x1=\"%.2f\" y1=\"%.2f\" x2=\"%.2f\" y2=\"%.2f\" stroke=\"#000000\" stroke-width=\"2.5\"/>\n", v, x, y_of(v, demand_there), x, y_of(v, supply_there)
        stroke(x - 8, upper, x + 8, upper, "#000000", 2, "")
        stroke(x - 8, lower, x + 8, lower, "#000000", 2, "")
    }
    if (v == last_margin) dimension_words(v, x, upper, lower, signed(margin))
}

# The number goes where no curve runs: left of a negative margin, right of a positive one, above and left of 0.
function dimension_words(v, x, upper, lower, s,    long) {
    long = 14 + 10 * letters(s)
    if (margin == 0) haloed(x - 9, upper - 9, x - long > box_left[v] ? "end" : "start", s)
    else if (margin < 0 && x - long > box_left[v] || x + long > box_left[v] + box_width[v]) haloed(x - 12, (upper + lower) / 2 + 5, "end", s)
    else haloed(x + 12, (upper + lower) / 2 + 5, "start", s)
}
function haloed(x, y, anchor, s) {
    text(x, y, anchor, s, " font-size=\"16\" font-weight=\"bold\" stroke=\"#FFFFFF\" stroke-width=\"4\" stroke-linejoin=\"round\"")
    text(x, y, anchor, s, " font-size=\"16\" font-weight=\"bold\"")
}
function least(a, b) { return a < b ? a : b }
function most(a, b) { return a > b ? a : b }

# ---- elements

function text(x, y, anchor, s, more) { printf "<text x=\"%.2f\" y=\"%.2f\" text-anchor=\"%s\"%s>%s</text>\n", x, y, anchor, more, s }
function stroke(x1, y1, x2, y2, colour, thick, more) {
    printf "<line x1=\"%.2f\" y1=\"%.2f\" x2=\"%.2f\" y2=\"%.2f\" stroke=\"%s\" stroke-width=\"%s\"%s/>\n", x1, y1, x2, y2, colour, thick, more
}
