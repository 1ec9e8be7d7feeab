# Reads store.txt into arrays, for the awk programs that write a host's tables.
#   version, magic
#   numbers: number_name[i], number_what[i], i from 1
#   arrays: array_name[i], array_width[i], array_length[i], array_what[i]
#   calls: call_number[i], call_name[i], call_asks[i] (1 or 0), call_arguments[i], call_values[i], call_refusals[i], call_what[i]
#   direct calls: direct[call name], what is lent, for each call that has such a line
#   arguments: argument_what[name], the same for all calls
#   values: value_what[call name, value name], of each call that has several
#   refusals: refusal_name[n], reason[n], by number
#   files: file_name[n], file_message[n], by number
# An END rule of the program after this one writes the block named by -v block=NAME.

BEGIN { FS = " *[|] *"; numbers = arrays = calls = refusals = files = 0 }

# The line is the one read last, where no other is given.
function bad(why, line) {
    printf "store.txt, line %d: %s\n", line ? line : NR, why > "/dev/stderr"
    failed = 1
    exit 1
}

/^#/ || /^$/ { next }
$1 == "version" && NF == 2 { version = $2; next }
$1 == "magic" && NF == 2 { magic = $2; next }
$1 == "number" && NF == 3 {
    numbers++
    number_name[numbers] = $2; number_what[numbers] = $3
    number_place[$2] = numbers
    next
}
$1 == "array" && NF == 5 {
    arrays++
    array_name[arrays] = $2; array_width[arrays] = $3; array_length[arrays] = $4; array_what[arrays] = $5
    array_place[$2] = arrays
    next
}
$1 == "call" && NF == 8 {
    calls++
    if ($2 != calls) bad("call " calls " is expected here")
    if ($4 != "acts" && $4 != "asks") bad("a call acts or asks")
    call_number[calls] = $2; call_name[calls] = $3; call_asks[calls] = $4 == "asks"
    call_arguments[calls] = $5; call_values[calls] = $6; call_refusals[calls] = $7; call_what[calls] = $8
    call_line[calls] = NR
    call_place[$3] = calls
    note_arguments($5)
    note_values($3, $6)
    next
}
$1 == "direct" && NF == 3 {
    if (!($2 in call_place)) bad("there is no call " $2)
    if ($2 in direct) bad("the call " $2 " has such a line already")
    direct[$2] = $3
    test_direct(call_place[$2], $3)
    next
}
$1 == "argument" && NF == 3 {
    if (!($2 in argument_wanted)) bad("there is no call with an argument " $2)
    if ($2 in argument_what) bad("the argument " $2 " has a line already")
    argument_what[$2] = $3
    next
}
$1 == "value" && NF == 4 {
    if (!(($2, $3) in value_wanted)) bad("there is no call " $2 " with several values, " $3 " among them")
    if (($2, $3) in value_what) bad("the value " $3 " of " $2 " has a line already")
    value_what[$2, $3] = $4
    next
}
$1 == "refusal" && NF == 4 {
    refusals++
    if ($2 != refusals) bad("refusal " refusals " is expected here")
    refusal_name[refusals] = $3; reason[refusals] = $4
    next
}
$1 == "file" && NF == 4 {
    files++
    if ($2 != files) bad("file " files " is expected here")
    file_name[files] = $3; file_message[files] = $4
    next
}
{ bad("no such line") }

END {
    if (failed) exit 1
    for (i = 1; i <= calls; i++) {
        test_arguments(i)
        test_values(i)
    }
}

# What a direct call is lent: numbers, then arrays in their order, then the heap; nothing is written by a call that only asks.
function test_direct(i, lent,    parts, n, j, name, at, last) {
    n = split(lent, parts, " ")
    last = 0
    for (j = 1; j <= n; j++) {
        name = bare(parts[j])
        if (name in number_place) at = 0
        else if (name in array_place) at = array_place[name]
        else if (name == "heap") at = arrays + 1
        else bad("there is no number or array " name)
        if (at < last || (at > 0 && at == last)) bad(name " is not in its place: numbers, then arrays in the order of the state, then the heap")
        last = at
        if (is_written(parts[j]) && call_asks[i]) bad("a call that asks writes nothing, and so not " name)
    }
}

# The arguments of a call: each name wants a line, one for all calls.
function note_arguments(arguments,    parts, n, j) {
    n = split(arguments, parts, " ")
    for (j = 1; j <= n; j++) argument_wanted[bare(parts[j])] = 1
}

function test_arguments(i,    parts, n, j) {
    n = split(call_arguments[i], parts, " ")
    for (j = 1; j <= n; j++)
        if (!(bare(parts[j]) in argument_what))
            bad("the argument " bare(parts[j]) " of " call_name[i] " has no line", call_line[i])
}

# The values of a call that has several: each wants a line.
function note_values(call, values,    parts, n, j) {
    n = split(values, parts, " ")
    if (n > 1) for (j = 1; j <= n; j++) value_wanted[call, bare(parts[j])] = 1
}

function test_values(i,    parts, n, j) {
    n = split(call_values[i], parts, " ")
    for (j = 1; j <= n && n > 1; j++)
        if (!((call_name[i], bare(parts[j])) in value_what))
            bad("the value " bare(parts[j]) " of " call_name[i] " has no line", call_line[i])
}

# ---- for the programs that write

function upper(name) { return toupper(name) }

# new_region: NewRegion
function camel(name,    parts, n, i, s) {
    n = split(name, parts, "_")
    s = ""
    for (i = 1; i <= n; i++) s = s toupper(substr(parts[i], 1, 1)) substr(parts[i], 2)
    return s
}

# 'marks..': marks; 'same?': same; 'slots!': slots
function bare(word) { gsub(/[.?!]/, "", word); return word }

function is_list(word) { return word ~ /[.][.]$/ }

function is_flag(word) { return word ~ /[?]$/ }

function is_written(word) { return word ~ /!$/ }

# an argument of a direct call, as the library names it: a list is called so, and no number as an array is
function parameter(word) { return is_list(word) ? "list" : (word in array_place) ? "count" : word }

# what the only value of a call is: what an argument of that name is, and nothing where there is none
function only_what(word) { return (bare(word) in argument_what) ? argument_what[bare(word)] : "" }

# all bytes of a state
function state_bytes(    i, n) {
    n = 4 * numbers
    for (i = 1; i <= arrays; i++) n += array_width[i] * array_length[i]
    return n
}
