# From a bench sheet's bytes, in decimal, to its text (docs/SHEETS.md), an entry a line.
# Status 1 if not all of them can be shown: then the last line says where it stopped, and why.

# What is too long is so wherever else it is wrong.
function stop(at, why) {
    if (size > longest) {
        at = longest
        why = "a sheet has at most " longest " bytes"
    }
    print "# byte " at ": " why
    exit 1
}

# The number at `place`, which moves past it.
function number(    at, value, weight, group) {
    at = place
    weight = 1
    do {
        if (place == size) stop(size, "the sheet ends before its block does")
        if (place == longest) stop()
        group = byte[place++]
        if (group % 128 > 0) value += group % 128 * weight
        weight *= 128
    } while (group >= 128)
    if (group == 0 && place > at + 1) stop(at, "a number that is not in its shortest form")
    if (value >= 4294967296) stop(at, "a number that is not below 2^32")
    return value + 0
}

function hex(value, width,    digits) {
    for (; value > 0 || length(digits) < width; value = int(value / 16))
        digits = substr("0123456789ABCDEF", value % 16 + 1, 1) digits
    return "0x" digits
}

function named(names, value) { return value in names ? names[value] : value }

function operation(    kind, partition, type, address, count, text) {
    kind = number()
    partition = number()
    type = number()
    address = number()
    count = number()
    text = (kind in kinds ? "" : "operation ") named(kinds, kind) " " named(partitions, partition)
    text = text " " type " " hex(address, 4) " " count
    if (kind == 1 && count <= 16)
        for (; count > 0; count--) text = text " " hex(number(), 8)
    return text
}

function line(text) { print indent text "  # byte " at }

BEGIN {
    CONVFMT = "%.0f" # some awks write numbers from 2^31 on by it
    longest = 4096
    kinds[0] = "read"
    kinds[1] = "program"
    kinds[2] = "page-erase"
    kinds[3] = "bank-erase"
    partitions[0] = "data"
    partitions[1] = "info"
    size = place = 0
}

{ for (i = 1; i <= NF; i++) byte[size++] = $i }

END {
    for (;;) {
        at = place
        tag = number()
        if (tag == 0) {
            if (indent == "") break
            indent = substr(indent, 5)
            line("}")
        } else if (tag == 1) {
            line(operation())
        } else if (tag == 2) {
            line("repeat " number() " {")
            indent = indent "    "
        } else if (tag == 3) {
            line("rights " number())
        } else {
            stop(at, "no entry has the number " tag)
        }
    }
    if (place < size) stop(place, "the sheet has more after its block")
}
