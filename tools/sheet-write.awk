# From a bench sheet's text (docs/SHEETS.md) to its bytes, as escapes for printf %b.
# Status 1 if the text has no bytes: then the line and what is wrong with it are printed.

function fail(line, why) {
    print line ": " why
    failed = 1
    exit 1
}

# -1 if a character is no digit.
function value_of(digits, base,    i, digit, sum) {
    if (digits == "") return -1
    for (i = 1; i <= length(digits); i++) {
        digit = index("0123456789abcdef", substr(digits, i, 1)) - 1
        if (digit < 0 || digit >= base) return -1
        sum = sum * base + digit
    }
    return sum
}

function number(word,    value) {
    value = word ~ /^0[xX]/ ? value_of(tolower(substr(word, 3)), 16) : value_of(word, 10)
    if (value < 0 || value >= 4294967296) fail(NR, "not a number below 2^32: " word)
    return value
}

# Seven bits at a time, the lowest first.
function put(value) {
    for (; value >= 128; value = int(value / 128)) bytes[size++] = 128 + value % 128
    bytes[size++] = value
}

function takes(fields, form) {
    if (NF < fields) fail(NR, "too little for '" form "'")
    if (NF > fields) fail(NR, "too much for '" form "': " $(fields + 1))
}

function operation(    form, kind, count, words, i) {
    form = "KIND PARTITION TYPE ADDRESS N"
    if (NF < 5) takes(5, form)
    kind = $1 in kinds ? kinds[$1] : number($1)
    count = number($5)
    words = kind == 1 && count <= 16 ? count : 0
    takes(5 + words, form (words > 0 ? " and " words " words" : ""))
    put(1)
    put(kind)
    put($2 in partitions ? partitions[$2] : number($2))
    for (i = 3; i <= NF; i++) put(number($i))
}

BEGIN {
    kinds["read"] = 0
    kinds["program"] = 1
    kinds["page-erase"] = 2
    kinds["bank-erase"] = 3
    partitions["data"] = 0
    partitions["info"] = 1
}

{ sub(/#.*/, ""); sub(/\r$/, "") }

NF == 0 { next }

$1 == "rights" {
    takes(2, "rights NUMBER")
    put(3)
    put(number($2))
    next
}

$1 == "repeat" {
    takes(3, "repeat COUNT {")
    if ($3 != "{") fail(NR, "not a {: " $3)
    put(2)
    put(number($2))
    opened[++depth] = NR
    next
}

$1 == "}" {
    takes(1, "}")
    if (depth == 0) fail(NR, "a } without its repeat")
    put(0)
    depth--
    next
}

$1 == "operation" {
    sub(/operation/, "")
    operation()
    next
}

$1 in kinds {
    operation()
    next
}

{ fail(NR, "unknown word: " $1) }

END {
    if (failed) exit 1
    if (depth > 0) fail(opened[depth], "a repeat without its }")
    put(0)
    for (i = 0; i < size; i++) printf "\\0%o", bytes[i]
}
