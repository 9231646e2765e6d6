# Reads what the judge said of a component and chooses the windows of its picture and the instants to ask for.
# Prints what it read, the task table and the interface as calls take them, and for each window a line `window FROM TO every` or
# `... corners`, followed by a line `at INSTANT` for every instant of the window, or for those where a curve can bend.
# Where the curves bend (RULES 4 and 6) only decides where to ask; their values are answers to calls.

BEGIN {
    last = 1048576   # no call takes a later instant
    wide = 240       # a window up to this many slots shows every instant
    many = 200       # and a wider one at most this many corners
    tall = 360       # pixels of the first window's height
}
$1 == "component" { asked = $3 == "asked"; first = asked ? 4 : 5; period = $first; deadline = $(first + 1); read_table(first + 3) }
$1 == "capacity" { capacity = $2 }
$1 == "short" { short = $2 }
$1 == "margin" { margin = $2 < 0 ? -$2 : $2; instant = $3 }
{ print }
END {
    gap = period + deadline - 2 * capacity
    print "table" table
    print "interface", period, capacity, deadline
    overview()
    if (instant) details()
}

function read_table(at,    i) {
    tasks = $at
    table = " " tasks
    for (i = 0; i < tasks; i++) {
        T[i] = $(at + 1 + 4 * i)
        C[i] = $(at + 2 + 4 * i)
        D[i] = $(at + 3 + 4 * i)
        J[i] = $(at + 4 + 4 * i)
        span[i] = D[i] - J[i]
        table = table " " T[i] " " C[i] " " D[i] " " J[i]
    }
}

# From 0 to where the supply has risen twice and the margin's instant is past; without that instant where it is too far to be drawn,
# and as far as can be drawn where even the first two periods have too many corners.
function overview(    twice, low, middle) {
    twice = gap + capacity + period + up(period / 8)
    end = least(last, most(twice, instant + most(2, up(instant / 8))))
    if (!drawable(0, end))
        end = least(last, twice)
    if (!drawable(0, end)) {
        for (low = wide; end - low > 1; ) {
            middle = int((low + end) / 2)
            if (drawable(0, middle)) low = middle; else end = middle
        }
        end = low
    }
    window(0, end)
}

# Around the margin's instant and the first short one, together where they are near.
function details(    near, near_short) {
    near = slots_around(instant, margin)
    near_short = short ? slots_around(short, least(margin, due(short))) : 0
    if (short && instant - short <= 2 * near_short && drawable(short - near_short, instant + near_short))
        detail(short, instant, near_short)
    else {
        if (short) detail(short, short, near_short)
        detail(instant, instant, near)
    }
}

# How many slots to show on each side of an instant where the curves are so many units apart.
function slots_around(t, units,    around) {
    for (around = most(12, 4 * units); !drawable(t - around, t + around); )
        around = int(around / 2)
    return around
}

# The work that falls due at an instant: no fewer units than are short where it is the first short one.
function due(t,    i, sum) {
    for (i = 0; i < tasks; i++)
        if (t >= span[i] && (t - span[i]) % T[i] == 0) sum += C[i]
    return sum
}

# A window around instants that the first window doesn't show, or that it shows at less than a quarter of the size and either in corners
# only or with less than 10 pixels between the curves.
function detail(first, second, around) {
    if (second > end || 8 * around < end && (end > wide || tall * around * period < 40 * end * capacity))
        window(most(0, first - around), least(last, second + around))
}

function drawable(from, to) { return to - from <= wide || corners(from, to) <= many }

# How many corners lie after FROM and up to TO, counted once for each task and for the supply.
function corners(from, to,    i, sum) {
    sum = capacity ? 2 * (counted(to, gap, period) - counted(from, gap, period)) + 2 : 0
    for (i = 0; i < tasks; i++)
        sum += counted(to, span[i], T[i]) - counted(from, span[i], T[i])
    return sum
}
function counted(t, begin, step) { return t < begin ? 0 : int((t - begin) / step) + 1 }

function window(from, to,    i, t, every) {
    every = to - from <= wide
    print "window", from, to, every ? "every" : "corners"
    count = 0
    if (every)
        for (t = from; t <= to; t++)
            keep(t)
    else {
        keep(from)
        keep(to)
        if (instant) keep_within(instant, last + 1, from, to)
        if (short) keep_within(short, last + 1, from, to)
        if (capacity) {
            keep_within(gap, period, from, to)
            keep_within(gap + capacity, period, from, to)
        }
        for (i = 0; i < tasks; i++)
            keep_within(span[i], T[i], from, to)
    }
    for (i = 1; i <= count; i++) {
        print "at", kept[i]
        delete seen[kept[i]]
    }
}
function keep_within(begin, step, from, to,    t) {
    for (t = begin < from ? begin + up((from - begin) / step) * step : begin; t <= to; t += step)
        keep(t)
}

# Keeps an instant, in rising order and once.
function keep(t,    i) {
    if (t in seen) return
    seen[t] = 1
    for (i = ++count; i > 1 && kept[i - 1] > t; i--)
        kept[i] = kept[i - 1]
    kept[i] = t
}

function up(x) { return int(x) < x ? int(x) + 1 : int(x) }
function least(a, b) { return a + 0 < b + 0 ? a + 0 : b + 0 }
function most(a, b) { return a + 0 > b + 0 ? a + 0 : b + 0 }
