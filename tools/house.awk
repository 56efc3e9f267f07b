# The picture of the house, from the lines of tools/house:
# crate|NAME|library or program|SUBJECT|KNOWS and step|CRATE|FUNCTION|TEXT.

# Floors from the ground up. A crate that none of them names stands where the highest crate that it knows does; programs on top.
BEGIN {
    floor("ground", "general facts", "laws")
    floor("wire", "what 24 bits say", "frames words composing")
    floor("map", "map, store and reset image", "records banks looks")
    floor("without a unit", "tools over bytes, map and store; no state", "compare entries")
    floor("unit", "who a frame is for, the state, and what a frame does", "memory hearing rooms numbers unit")
    floor("above the unit", "many frames in a row", "session history tracing")
    floor("faces", "bytes, words and calls for others", "packing faces text places telling showing streams mirtofalko")
    floor("claims", "demand 3 of the C calls, and what is promised, on one page", "lifted claims")
    floor("programs", "what is run", "")
    split("#e3e7ec #eaf2ea #eef3fa #f3f3ef #f4f0f8 #eef3fa #eaf2ea #f6f1e4 #f3f3ef", tint, " ")
    wide = 900; edge = 20; pad = 12; gap = 12; most = 5 # boxes in a row
    roof = 78; label = 25; stairs = 30; corridor = 12; step_high = 21
}

function floor(name, subject, crates,    i, n, c) {
    title[++floors] = name
    about[floors] = subject
    n = split(crates, c, " ")
    for (i = 1; i <= n; i++) named[c[i]] = floors
}

function fail(text) { print "house: " text | "cat 1>&2"; failed = 1 }

$1 == "crate" {
    crate[++crates] = $2
    number[$2] = crates
    program[crates] = $3 == "program"
    subject[crates] = $4
    known[crates] = $5
    if ($4 == "") fail($2 ": its main file begins with no comment")
}

$1 == "step" {
    step_crate[++steps] = $2
    step_function[steps] = $3
    step_text[steps] = $4
}

$1 == "gone" { failed = 1 }

END {
    for (i = 1; i <= crates; i++) place(i)
    for (i = 1; i <= crates; i++) describe(i)
    for (i = 1; i <= steps; i++) mark(i)
    if (!failed) draw()
    exit failed
}

# On which floor crate i stands; what it knows comes before it in crates.txt.
function place(i,    n, k, j, highest) {
    n = split(known[i], k, " ")
    highest = 1
    for (j = 1; j <= n; j++) {
        if (!(k[j] in number)) continue
        reaches[i, k[j]] = 1
        if (number[k[j]] >= i) fail(crate[i] " stands before " k[j] ", which it knows")
        else if (at[number[k[j]]] > highest) highest = at[number[k[j]]]
    }
    at[i] = crate[i] in named ? named[crate[i]] : program[i] ? floors : highest
    if (at[i] < highest) fail(crate[i] " knows a crate on a floor above its own")
    on[at[i], ++many[at[i]]] = i
}

# What crate i knows, less what one of these knows; crates that are not ours are the kit's.
function describe(i,    n, k, j, m, ours, kits) {
    n = split(known[i], k, " ")
    for (j = 1; j <= n; j++) {
        if (!(k[j] in number)) { kits = kits (kits == "" ? "" : ", ") k[j]; continue }
        for (m = 1; m <= n; m++) if (k[m] in number && ((number[k[m]], k[j]) in reaches)) break
        if (m > n) ours = ours (ours == "" ? "" : ", ") k[j]
    }
    knows[i] = (ours == "" ? "knows no other" : "knows " ours) (kits == "" ? "" : "; the kit's " kits)
}

function mark(s,    i) {
    i = number[step_crate[s]]
    if (!i) { fail(step_function[s] " stands in no crate of crates.txt"); return }
    marks[i, ++marked[i]] = s
}

# The width of a text, by eye: the letters of a wide font at that size.
function width(text, size,    i, c, w) {
    for (i = 1; i <= length(text); i++) {
        c = substr(text, i, 1)
        w += index("iljI.,:;'|!()[]", c) ? 0.36 : index(" ftr/-", c) ? 0.41 : index("mwMW%@", c) ? 0.93 : 0.63
    }
    return w * size
}

# Breaks a text into lines[1..n] of that width.
function wrap(text, size, room,    n, w, i, count) {
    split("", lines)
    count = split(text, w, " ")
    n = 1
    lines[1] = w[1]
    for (i = 2; i <= count; i++) {
        if (width(lines[n] " " w[i], size) <= room) lines[n] = lines[n] " " w[i]
        else lines[++n] = w[i]
    }
    return n
}

# The size and place of each box, floors from the top down; under a row with a box on the way there is a corridor.
function arrange(    f, rows, row, each, k, y) {
    y = roof
    for (f = floors; f >= 1; f--) {
        if (!many[f]) continue
        top[f] = y
        y += label
        rows = int((many[f] + most - 1) / most)
        each = int((many[f] + rows - 1) / rows)
        for (row = 0; row < rows; row++) {
            k = many[f] - row * each
            y = arrange_row(f, row * each, k < each ? k : each, y)
        }
        below[f] = y
    }
    return y
}

function arrange_row(f, skip, k, y,    i, j, w, need, tall, passed) {
    w = (wide - 2 * edge - 2 * pad - stairs + gap) / k
    tall = passed = 0
    for (j = 1; j <= k; j++) {
        i = on[f, skip + j]
        upper[i] = y
        left[i] = edge + pad + int((j - 1) * w)
        across[i] = edge + pad + int(j * w) - gap - left[i]
        need = 39 + 14 * wrap(subject[i], 11, across[i] - 20) + 13 * wrap(knows[i], 10, across[i] - 20)
        if (need > tall) tall = need
        if (marked[i]) passed = corridor
    }
    for (j = 1; j <= k; j++) down[on[f, skip + j]] = tall
    return y + tall + gap + passed
}

function plain(text) { gsub(/&/, "\\&amp;", text); gsub(/</, "\\&lt;", text); gsub(/>/, "\\&gt;", text); return text }
function say(x, y, class, text) { printf "<text x=\"%d\" y=\"%d\" class=\"%s\">%s</text>\n", x, y, class, plain(text) }
function rect(x, y, w, h, rest) {
    printf "<rect x=\"%d\" y=\"%d\" width=\"%d\" height=\"%d\" %s/>\n", x, y, w, h, rest
}

# A text, and a paler one behind it.
function both(x, y, class, text, more) {
    printf "<text x=\"%d\" y=\"%d\"><tspan class=\"%s\">%s</tspan>", x, y, class, plain(text)
    printf "<tspan class=\"about\" dx=\"9\">%s</tspan></text>\n", plain(more)
}

function disc(x, y, n) {
    printf "<circle cx=\"%d\" cy=\"%d\" r=\"10\" class=\"disc\"/>\n", x, y
    say(x, y + 4, "count", n)
}

function head(high) {
    printf "<svg xmlns=\"http://www.w3.org/2000/svg\" width=\"%d\" height=\"%d\" ", wide, high
    printf "viewBox=\"0 0 %d %d\" role=\"img\">\n", wide, high
    print "<title>Mirtofalko: the floors, what each crate knows, and the way of a frame</title>"
    print "<!-- drawn by tools/house -->"
    print "<style>"
    print "text { font-family: 'DejaVu Sans', Verdana, Helvetica, Arial, sans-serif; fill: #24303c }"
    print ".big { font-size: 20px; font-weight: bold; text-anchor: middle }"
    print ".under { font-size: 11px; text-anchor: middle; fill: #55626f }"
    print ".floor { font-size: 12px; font-weight: bold; fill: #3b4a59 }"
    print ".about { font-size: 11px; fill: #6b7885 }"
    print ".name { font-size: 14px; font-weight: bold }"
    print ".line { font-size: 11px }"
    print ".knows { font-size: 10px; fill: #5f6c79 }"
    print ".step { font-size: 12px; font-weight: bold }"
    print ".count { font-size: 11px; font-weight: bold; fill: #ffffff; text-anchor: middle }"
    print ".box { fill: #ffffff; stroke: #aab6c2 }"
    print ".on { fill: #fffaf3; stroke: #d9730d; stroke-width: 1.6 }"
    print ".disc { fill: #d9730d }"
    print ".way { fill: none; stroke: #edb27a; stroke-width: 3; stroke-linecap: round }"
    print ".roof { fill: #dfe5ec; stroke: #c3ccd6 }"
    print "</style>"
    rect(0, 0, wide, high, "fill=\"#ffffff\"")
}

function cover() {
    printf "<path d=\"M%d %d L%d 12 L%d %d Z\" class=\"roof\"/>\n", edge - 10, roof, wide / 2, wide - edge + 10, roof
    say(wide / 2, 50, "big", "Mirtofalko")
    say(wide / 2, 67, "under", \
        "a crate knows only what stands on its own floor or below; what it knows through another is not listed")
}

# Where the mark of step s stands: in the corridor under its crate's box.
function spot(s,    i, j) {
    i = number[step_crate[s]]
    for (j = 1; marks[i, j] != s; j++) ;
    spot_x[s] = left[i] + 20 + 26 * (j - 1)
    spot_y[s] = upper[i] + down[i] + corridor
}

# Each corridor leads to the stairs on the right.
function way_through(    s, x, high, low) {
    x = wide - edge - pad - 9
    high = low = spot_y[1]
    printf "<path class=\"way\" d=\""
    for (s = 1; s <= steps; s++) {
        printf "M%d %d L%d %d ", spot_x[s], spot_y[s], x, spot_y[s]
        if (spot_y[s] < high) high = spot_y[s]
        if (spot_y[s] > low) low = spot_y[s]
    }
    printf "M%d %d L%d %d\"/>\n", x, high, x, low
}

function box(i,    n, j) {
    rect(left[i], upper[i], across[i], down[i], "rx=\"4\" class=\"" (marked[i] ? "box on" : "box") "\"")
    say(left[i] + 10, upper[i] + 20, "name", crate[i])
    n = wrap(subject[i], 11, across[i] - 20)
    for (j = 1; j <= n; j++) say(left[i] + 10, upper[i] + 23 + 14 * j, "line", lines[j])
    n = wrap(knows[i], 10, across[i] - 20)
    for (j = 1; j <= n; j++) say(left[i] + 10, upper[i] + down[i] - 8 - 13 * (n - j), "knows", lines[j])
}

function draw(    f, i, s, y) {
    y = arrange()
    head(y + 44 + steps * step_high)
    cover()
    for (f = floors; f >= 1; f--) {
        if (!many[f]) continue
        rect(edge, top[f], wide - 2 * edge, below[f] - top[f], "fill=\"" tint[f] "\" stroke=\"#c3ccd6\"")
        both(edge + pad, top[f] + 17, "floor", title[f], about[f])
    }
    for (s = 1; s <= steps; s++) spot(s)
    way_through()
    for (i = 1; i <= crates; i++) box(i)
    for (s = 1; s <= steps; s++) disc(spot_x[s], spot_y[s], s)
    y += 28
    say(edge + pad, y, "floor", "The way of a frame")
    for (s = 1; s <= steps; s++) {
        y += step_high
        disc(edge + pad + 10, y - 4, s)
        both(edge + pad + 28, y, "step", step_function[s], step_text[s])
    }
    print "</svg>"
}
