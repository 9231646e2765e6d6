# Holds a picture against what the second program says of its component.
# First with ask=1: prints the calls for the instants in the picture's metadata, of the component in COMPONENT (as a call has it, the
# first OWN of its tasks its own and the others its children) with the capacity CAPACITY. Then without: reads the ANSWERS to them, the ANSWER, the VERDICT at that capacity and the MARGIN that must be
# found, and fails where a number in the metadata, a point of a curve, a mark or a label isn't theirs, or where what is drawn between
# the instants isn't so.
BEGIN {
    many = split(component, word, " ")
    first = word[2] == "asked" ? 3 : 4
    for (i = first + 3; i <= many; i++) table = table " " word[i]
    tasks = word[first + 3]
    for (i = first + 7; i <= many; i += 4) if (word[i] > 0) { late++; if (word[i] > latest) latest = word[i] + 0 }
    period = word[first]
    deadline = word[first + 1]
    interface = period " " capacity " " deadline
    split(margin, of_margin, " ")
    split(verdict, of_verdict, " ")
    short = of_verdict[1] == "short" ? of_verdict[2] : ""
}
$0 == "<metadata>" { inside = 1; next }
$0 == "</metadata>" { inside = 0; next }
inside && $1 == "at" && ask { print "demand" table, $2; print "supply", interface, $2; print "demand" table, $2 ? $2 - 1 : 0 }
ask { next }

inside && $1 == "component" { expect($0, "component " component) }
inside && $1 == "own" { expect($0, "own " own); owns++ }
inside && $1 == "interface" { expect($0, "interface " interface) }
inside && $1 == "table" { expect($0, "table" table) }
inside && $1 == "short" { expect($0, "short " short); shorts++ }
inside && $1 == "margin" { expect($0, "margin " margin); margins++ }
inside && $1 == "window" {
    w++
    from[w] = $2; to[w] = $3; every[w] = $4 == "every"; low[w] = $5; high[w] = $6; box_left[w] = $7; box_top[w] = $8; box_width[w] = $9; box_height[w] = $10
    if (w == 1) expect($2, 0)
}
inside && $1 == "at" {
    i = ++count[w]
    t[w, i] = $2; demand[w, i] = value(); supply[w, i] = value(); before = value()
    expect("at " $2 " " $3 " " $4, "at " t[w, i] " " demand[w, i] " " supply[w, i])
    # the straight line lies nowhere below the supply, and on it at the end of each rise
    if (capacity && t[w, i] > deadline - capacity && line(t[w, i]) < period * supply[w, i]) wrong("the straight line is no upper bound at " $2)
    if (capacity && (t[w, i] - deadline + capacity) % period == 0 && t[w, i] >= deadline && line(t[w, i]) != period * supply[w, i]) wrong("the straight line misses the corner at " $2)
    if (i == 1) expect($2, from[w])
    else {
        gone = t[w, i] - t[w, i - 1]
        come = supply[w, i] - supply[w, i - 1]
        if (every[w]) expect(gone, 1)
        # demand rises at no instant left out; supply, which gives at most a unit a slot, is flat or gives one in every slot
        if (gone < 1 || before != demand[w, i - 1] || !every[w] && come != 0 && come != gone) wrong("between the instants up to " $2)
    }
}

match($0, /^<polyline id="[a-z]+[0-9]"/) { follow(substr($0, 15, 6), substr($0, 21, 1), part($0, "points")) }
match($0, /^<line id="margin[0-9]"/) {
    v = substr($0, 17, 1); shown++
    expect(part($0, "x1") " " part($0, "x2"), x_of(v, of_margin[2]) " " x_of(v, of_margin[2]))
    expect(part($0, "y1") " " part($0, "y2"), y_of(v, at(demand, v, of_margin[2])) " " y_of(v, at(supply, v, of_margin[2])))
}
match($0, /^<circle id="margin[0-9]"/) {
    v = substr($0, 19, 1); shown++
    expect(part($0, "cx") " " part($0, "cy"), x_of(v, of_margin[2]) " " y_of(v, at(supply, v, of_margin[2])))
    expect(of_margin[1], 0)
}
match($0, /id="line[0-9]"/) { v = substr($0, RSTART + 8, 1); lines[v]++; on_line(v, part($0, "x1"), part($0, "y1"), 0); on_line(v, part($0, "x2"), part($0, "y2"), 1) }
/^<svg / { width = part($0, "width") + 0 }
/<text / { inside_picture($0) }
/<text / { label = $0; gsub(/<[^>]*>/, "", label); gsub(/,/, "", label); sub(/\342\210\222/, "-", label); labels[label]++ }

END {
    if (ask) exit
    if (!w) wrong("no window")
    for (v = 1; v <= w; v++) {
        expect(t[v, count[v]], to[v])
        expect(curves["supply", v] + 0, 1)
        expect(curves["demand", v] + 0, tasks > 0)
        expect(lines[v] + 0, capacity > 0 && to[v] > deadline - capacity && line(to[v]) > low[v] * period && line(from[v]) < high[v] * period)
    }
    expect(owns + 0, own < tasks)
    if (own < tasks) {
        of_own = own > 0 ? own " task" (own == 1 ? "" : "s") " and " : ""
        if (!labels["demand: the units due by then of " of_own (tasks - own == 1 ? "1 child" : tasks - own " children")]) wrong("no label for the workload")
    }
    expect(labels[late_words()] + 0, late > 0)
    expect(shorts + 0, short != "")
    expect(margins + 0, margin != "none")
    if (short != "" && !labels["first short instant: " short]) wrong("no label for the first short instant")
    if (margin != "none") {
        if (!shown) wrong("no mark for the margin")
        if (!labels["margin " (of_margin[1] > 0 ? "+" : "") of_margin[1] " at instant " of_margin[2]]) wrong("no label for the margin")
        if (!labels[(of_margin[1] > 0 ? "+" : "") of_margin[1]]) wrong("no number at the margin's mark")
        if (!labels[caption()]) wrong("no caption like this: " caption())
    }
    if (!labels[heading()]) wrong("no heading like this: " heading())
    exit failed
}

function heading() {
    return "Component " word[1] ": " (answer == "none" ? "none no capacity is enough" : answer == "short" ? "short at instant " short : "accepted")
}
function caption(    v, d, s) {
    for (v = w; v > 1 && (of_margin[2] < from[v] + 0 || of_margin[2] > to[v] + 0); v--) ;
    d = at(demand, v, of_margin[2])
    s = at(supply, v, of_margin[2])
    return "At instant " of_margin[2] " demand is " d (d == 1 ? " unit" : " units") " and supply " s (s == 1 ? " unit" : " units") ": margin " (of_margin[1] > 0 ? "+" : "") of_margin[1] "."
}
function late_words() {
    return "Jobs of " late (late == 1 ? " task" : " tasks") " may become ready late by up to " latest (latest == 1 ? " slot" : " slots") ": their work counts as due at D - J not at D."
}
# An end of the straight line lies on it, and where it enters or leaves the box; pixels are given to two places.
function on_line(v, x, y, leaves,    t, near) {
    t = from[v] + (x - box_left[v]) * (to[v] - from[v]) / box_width[v]
    near = 0.01 + 0.01 * capacity / period * (to[v] - from[v]) / box_width[v] * box_height[v] / (high[v] - low[v])
    if (!close_to(y, y_of(v, line(t) / period), near)) wrong("the straight line passes by " x ", " y)
    if (!close_to(x, box_left[v] + leaves * box_width[v], 0.01) && !close_to(y, box_top[v] + !leaves * box_height[v], 0.01)) wrong("the straight line ends at " x ", " y)
}
function close_to(a, b, near) { return a - b <= near && b - a <= near }
function line(t) { return capacity * (t - (deadline - capacity)) }
function value() { if ((getline said <answers) < 1 || said !~ /^ok [0-9]+$/) wrong("an answer"); return substr(said, 4) }
function at(curve, v, instant,    i) {
    for (i = 1; i <= count[v]; i++) if (t[v, i] == instant) return curve[v, i]
    wrong("instant " instant " is marked where it isn't shown")
}
function part(element, name) { if (!match(element, " " name "=\"[^\"]*\"")) return ""; return substr(element, RSTART + length(name) + 3, RLENGTH - length(name) - 4) }
function x_of(v, instant) { return sprintf("%.2f", box_left[v] + (instant - from[v]) * box_width[v] / (to[v] - from[v])) }
function y_of(v, units) { return sprintf("%.2f", box_top[v] + box_height[v] - (units - low[v]) * box_height[v] / (high[v] - low[v])) }

# A curve's points are, in order: its value at each instant where it changes, before that the value held until then, and its value at
# the window's end; where it isn't drawn in steps, its value at each instant. Steps may be cut 20 pixels outside the box.
function follow(name, v, points,    i, n, ramp) {
    curves[name, v]++
    ramp = name == "supply" && !every[v]
    n = 0
    for (i = 1; i <= count[v]; i++) {
        now = name == "supply" ? supply[v, i] : demand[v, i]
        if (i > 1 && !ramp && now != held) must[++n] = x_of(v, t[v, i]) "," cut(v, y_of(v, held))
        if (i == 1 || ramp || now != held) must[++n] = x_of(v, t[v, i]) "," (ramp ? y_of(v, now) : cut(v, y_of(v, now)))
        held = now
    }
    if (!ramp) must[++n] = x_of(v, to[v]) "," cut(v, y_of(v, held))
    expect(split(points, found, " "), n)
    for (i = 1; i <= n; i++) expect(found[i], must[i])
}
# A text's letters, at the width that a wide font gives them, lie inside the picture.
function inside_picture(element,    s, size, anchor, x) {
    s = element
    gsub(/<[^>]*>|[\200-\277]/, "", s)
    size = part(element, "font-size") ? part(element, "font-size") : 13
    size *= length(s) * (element ~ /bold/ ? 0.62 : 0.52)
    anchor = part(element, "text-anchor")
    x = part(element, "x") - (anchor == "end" ? size : anchor == "middle" ? size / 2 : 0)
    if (x < 0 || x + size > width) wrong("cut off: " s)
}
function cut(v, y) {
    if (y + 0 < box_top[v] - 20) y = box_top[v] - 20
    if (y + 0 > box_top[v] + box_height[v] + 20) y = box_top[v] + box_height[v] + 20
    return sprintf("%.2f", y)
}
function expect(found, must) { if (found "" != must "") wrong("found '" found "', not '" must "'") }
function wrong(what) { print what; failed = 1 }
