# The place of a refusal 6 to 11, 14 or 16, as a sentence; status 1 where there is one. Records are counted from 1, as a person
# counts them. On standard input each file: a line with its name and size, then its first bytes as numbers; of an image, only
# where it is another store, to be tested as the first is. A word behind the size says that the file has more than is allowed, and
# it is not known how many. The files are called unit.map, unit.sto and unit.rst, or what the variables `map`, `sto` and `rst`
# say. Of a session the variable `asked` has the short address, the bank, the location, and how many bytes are given.
BEGIN {
    if (map == "") map = "unit.map"
    if (sto == "") sto = "unit.sto"
    if (rst == "") rst = "unit.rst"
}
function end_with(sentence, place) {
    print number ": " sentence (place == "" ? "" : ", " place)
    exit 1
}
function record(i) { return "record " (i + 1) " of " map " (bytes " (8 * i) " to " (8 * i + 7) ")" }

$1 ~ /^[a-z]/ { name = $1; size[name] = $2; more[name] = $3 != ""; next }
{ for (i = 1; i <= NF; i++) byte[name, count[name]++] = $i }

END {
    n = int(size["map"] / 8)
    if (number == 6 && asked == "") address()
    if (number == 7) length_of_map()
    read_records()
    if (number == 8) fields()
    if (number == 9) order()
    if (number == 10) places()
    if (number == 11) banks()
    if (asked != "") session()
    else if (number != 0 && size["sto"] != 4) end_with("the start is refused")
}

function read_records(    i) {
    for (i = 0; i < n; i++) {
        bank[i] = byte["map", 8 * i]; from[i] = byte["map", 8 * i + 1]; width[i] = byte["map", 8 * i + 2]
        kind[i] = byte["map", 8 * i + 3]; lockable[i] = byte["map", 8 * i + 4]; zero[i] = byte["map", 8 * i + 5]
        offset[i] = byte["map", 8 * i + 6] * 256 + byte["map", 8 * i + 7]
        end[i] = from[i] + width[i] - 1
        writable[i] = kind[i] == 2 || kind[i] == 4
    }
}

function address(    a) {
    if (size["adr"] != 5) end_with("unit.adr has " size["adr"] " bytes, not 5")
    a = byte["adr", 0]
    if (a > 63 && a != 255) end_with("the address is " a ", not 0 to 63 or 255", "byte 0 of unit.adr")
}

function length_of_map() {
    if (more["map"]) end_with(map " has more than 512 bytes")
    if (size["map"] > 512) end_with(map " has " size["map"] " bytes, more than 512")
    if (size["map"] % 8 != 0) end_with(map " has " size["map"] " bytes, not a multiple of 8")
}

function fields(    i) {
    for (i = 0; i < n; i++) {
        if (bank[i] > 199) end_with("the bank is " bank[i] ", more than 199", record(i))
        if (width[i] < 1 || width[i] > 8) end_with("the width is " width[i] ", not 1 to 8", record(i))
        if (end[i] > 254) end_with("the last location is " end[i] ", more than 254", record(i))
        if (kind[i] > 4) end_with("the kind is " kind[i] ", not 0 to 4", record(i))
        if (lockable[i] > 1) end_with("the byte for lockable is " lockable[i] ", not 0 or 1", record(i))
        if (lockable[i] == 1 && !writable[i])
            end_with("a value of kind " kind[i] " is lockable; only kinds 2 and 4 may be", record(i))
        if (zero[i] != 0) end_with("the byte that has to be 0 is " zero[i], record(i))
    }
}

function order(    i) {
    for (i = 1; i < n; i++) {
        if (bank[i] < bank[i - 1]) end_with("bank " bank[i] " comes after bank " bank[i - 1], record(i))
        if (bank[i] == bank[i - 1] && from[i] <= end[i - 1])
            end_with("the value begins at location " from[i] ", and the one before it ends at " end[i - 1], record(i))
    }
}

function long(name) { return more[name] ? "more than 4096" : size[name] }

function places(    i, j) {
    if (size["sto"] != size["rst"]) end_with(sto " has " long("sto") " bytes, and " rst " has " long("rst"))
    if (more["sto"]) end_with(sto " has more than 4096 bytes")
    if (size["sto"] > 4096) end_with(sto " has " size["sto"] " bytes, more than 4096")
    for (i = 0; i < n; i++)
        if (offset[i] + width[i] > size["sto"])
            end_with("the value's bytes end at " (offset[i] + width[i] - 1) ", outside the store of " size["sto"] " bytes",
                record(i))
    for (i = 0; i < n; i++)
        for (j = i + 1; j < n; j++)
            if (offset[i] < offset[j] + width[j] && offset[j] < offset[i] + width[i])
                end_with("two values share a byte of the store", record(i) " and " record(j))
}

function banks(    i, j, head, lock) {
    for (i = 0; i < n; i++) {
        head = -1; lock = -1
        for (j = 0; j < n; j++) {
            if (bank[j] != bank[i]) continue
            if (from[j] == 0 && width[j] == 1 && kind[j] == 0) head = j
            if (from[j] == 2 && width[j] == 1 && kind[j] == 2 && lockable[j] == 0) lock = j
        }
        if (head < 0) end_with("bank " bank[i] " has no value of width 1 and kind 0 at location 0")
        if (bank[i] == 0 && writable[i]) end_with("bank 0 has a value of kind " kind[i] ", which is writable", record(i))
        if (bank[i] > 0 && lock < 0)
            end_with("bank " bank[i] " has no lock byte (width 1, kind 2, not lockable) at location 2")
    }
    stored("sto", sto)
    if (count["rst"] > 0) stored("rst", rst)
}

function stored(name, called,    i, j, head, b) {
    for (i = 0; i < n; i++) {
        for (j = 0; j < n; j++) if (bank[j] == bank[i] && from[j] == 0) head = j
        b = byte[name, offset[head]]
        if (b < 3 || b > 254)
            end_with("the stored byte of bank " bank[i] " at location 0 is " b ", not 3 to 254",
                "byte " offset[head] " of " called)
        if (end[i] > b)
            end_with("the stored byte of bank " bank[i] " at location 0 is " b ", below its location " end[i],
                "byte " offset[head] " of " called)
    }
}

# of a number over 255 only that is known
function session(    a, i, at, place, called) {
    split(asked, a, " ")
    if (number == 14 && a[2] > 255) end_with("no value begins there: the bank is over 255")
    if (number == 14 && a[3] > 255) end_with("no value begins there: the location is over 255")
    place = sprintf("bank %d, location 0x%02X", a[2], a[3])
    at = -1
    for (i = 0; i < n; i++) if (bank[i] == a[2] && from[i] <= a[3] && a[3] <= end[i]) at = i
    if (number == 14 && at < 0) end_with("no value begins at " place ": " why(a[2], a[3]))
    if (number == 14) end_with(sprintf("no value begins at %s: the value there begins at 0x%02X", place, from[at]))
    split("ROM RAM-RO RAM-RW NVM-RO NVM-RW", called, " ")
    if (number == 16) end_with("the value at " place " is not writable: it is " called[kind[at] + 1])
    if (number == 6) end_with(wrong_fields(a[1] > 63, width[at], a[4]))
}

# why nothing is mapped there, in a map that keeps 9
function why(its_bank, location,    i, there) {
    for (i = 0; i < n; i++) {
        if (bank[i] != its_bank) continue
        if (from[i] > location) return sprintf("there is a hole, and the next mapped location is 0x%02X", from[i])
        there = 1
    }
    return there ? "that is past the bank's last mapped location" : "the bank is absent"
}

function wrong_fields(over, has, given,    counts) {
    counts = "the value has " has (has == 1 ? " byte" : " bytes") ", and " given (given == 1 ? " was" : " were") " given"
    if (!over) return counts
    return "the address is over 63" (has == given ? "" : "; " counts)
}
