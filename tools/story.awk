# The story of a writing that a power-on cut short. On standard input the map, the capture and what the trace program wrote,
# each after a line with its name. It knows the frames that the example is made of: DTR0, DTR1 and WRITE MEMORY LOCATION.
$1 ~ /^[a-z]/ { name = $1; next }
{ for (i = 1; i <= NF; i++) byte[name, length_of[name]++] = $i }

function clock(i) { return ((b(i, 0) * 256 + b(i, 1)) * 256 + b(i, 2)) * 256 + b(i, 3) }
function b(i, k) { return byte["capture", 8 * i + k] }
function is(i, second) { return b(i, 4) == 0 && b(i, 5) == 193 && b(i, 6) == second }
function answered(i) { return byte["out", 4 * i + 1] }

# the map's record that has this location
function record(bank, location,    i, at) {
    for (i = 0; 8 * i < length_of["map"]; i++) {
        at = byte["map", 8 * i + 1]
        if (byte["map", 8 * i] == bank && at <= location && location < at + byte["map", 8 * i + 2]) return i
    }
    return -1
}

function bytes(list, n,    i, text) {
    for (i = 0; i < n; i++) text = text (i ? " " : "") sprintf("%02X", list[i])
    return text
}

function number(list, n,    i, sum) {
    for (i = 0; i < n; i++) sum = sum * 256 + list[i]
    return sum + 0
}

# what the folder's page calls the value of this record
function meaning(r,    i, key, line, part) {
    key = "`"
    for (i = 0; i < 8; i++) key = key sprintf(i == 0 || i == 7 ? "%02X" : " %02X", byte["map", 8 * r + i])
    while ((getline line < (dir "/README.md")) > 0)
        if (index(line, key)) {
            split(line, part, / *[|,] */)
            return part[5]
        }
    return "a value that its page does not name"
}

# goes through the records up to the first power-on: `came` bytes of record r have come then, and are in `sent`
function read_up_to_the_cut(    dtr0) {
    for (cut = 0; cut < records && b(cut, 4) == 0; cut++) {
        if (is(cut, 48)) dtr0 = b(cut, 7)
        if (is(cut, 49)) bank = b(cut, 7)
        if (!is(cut, 32) || !answered(cut)) continue
        r = record(bank, dtr0)
        came = dtr0 - byte["map", 8 * r + 1]
        sent[came++] = b(cut, 7)
        width = byte["map", 8 * r + 2]
        if (came == width) whole[r] = bytes(sent, width)
        dtr0++
    }
}

END {
    records = length_of["capture"] / 8
    read_up_to_the_cut()
    if (cut == records || came == width) { print "No setting of this capture was cut."; exit }
    for (i = cut + 1; is(i, 32) && came + late < width; i++) {
        sent[came + late++] = b(i, 7)
        answers += answered(i)
    }
    offset = byte["map", 8 * r + 6] * 256 + byte["map", 8 * r + 7]
    for (i = 0; i < width; i++) works[i] = byte["out", length_of["out"] - stored + offset + i]
    printf "At %d ms the power failed in the middle of a setting: %d of its %d bytes had come.\n", clock(cut), came, width
    printf "%s (%d) would have arrived. The other bytes came later, and %s were answered.\n",
        bytes(sent, width), number(sent, width), answers ? answers : "none of them"
    printf "The unit works from %s (%d), ", bytes(works, width), number(works, width)
    if (bytes(works, width) == whole[r]) print "the last value that was written completely."
    else print "which no setting of this capture has written."
    printf "It is the %s, in bank %d from location %02X on. All of this unit: %s\n",
        meaning(r), bank, byte["map", 8 * r + 1], dir
}
