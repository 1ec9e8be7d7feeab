# Writes the tables of the C host: the block named by -v block=NAME, from store.txt as table.awk reads it.

END {
    if (failed) exit 1
    if (block == "layout") layout()
    else if (block == "library") library()
    else if (block == "numbers") call_numbers()
    else if (block == "refusals") refusal_numbers()
    else if (block == "widths") layout_numbers()
    else if (block == "reasons") reasons()
    else if (block == "calls") named_calls()
    else if (block == "files") file_numbers()
    else if (block == "messages") messages()
    else if (block == "written") each_array("out")
    else if (block == "read") each_array("in")
    else if (block == "shapes") shapes()
    else if (block == "by_name") by_name()
    else {
        print "hosts/c/tables.awk: no block is called " block > "/dev/stderr"
        exit 1
    }
}

function type_of(width) { return "uint" 8 * width "_t" }

# ---- region_store.h

function layout(    i) {
    printf "#define RS_LAYOUT_VERSION %d\n#define RS_STATE_BYTES %d\n\n", version, state_bytes()
    print "// The places of the state's numbers."
    print "enum rs_number {"
    for (i = 1; i <= numbers; i++) 
        printf "    RS_%s = %d%s // %s\n", upper(number_name[i]), i - 1, i < numbers ? "," : "", number_what[i]
    print "};\n"
    print "struct rs_state {"
    printf "    uint32_t numbers[%d]; // see enum rs_number\n", numbers
    for (i = 1; i <= arrays; i++)
        printf "    %s %s[%d]; // %s\n", type_of(array_width[i]), array_name[i], array_length[i], array_what[i]
    print "};\n"
    print "// The arrays of a state, as the library takes them."
    printf "#define RS_LENT(state) \\\n    (state)->numbers"
    for (i = 1; i <= arrays; i++) printf ",%s(state)->%s", i % 6 == 0 ? " \\\n    " : " ", array_name[i]
    printf "\n"
}

# the parameters that every function of the library begins with
function lent(constant,    i, s) {
    s = constant "uint32_t *numbers"
    for (i = 1; i <= arrays; i++)
        s = s "," (i % 5 == 0 ? "\n    " : " ") constant type_of(array_width[i]) " *" array_name[i]
    return s
}

function library(    i) {
    printf "void region_store_make(\n    %s,\n    uint32_t *heap, size_t words, uint32_t *reply);\n", lent("")
    printf "void region_store_call(\n    %s,\n    uint32_t *heap, size_t words, uint32_t number, uint32_t a, uint32_t b, uint32_t c, uint32_t d,\n    const uint32_t *list, size_t count, uint32_t *reply);\n", lent("")
    printf "void region_store_view(\n    %s,\n    const uint32_t *heap, size_t words, uint32_t slot, uint32_t *out);\n", lent("const ")
    printf "void region_store_audit(\n    %s,\n    const uint32_t *heap, size_t words, uint32_t *reply);\n", lent("const ")
    print "size_t region_store_layout(uint32_t *out, size_t room);"
    for (i = 1; i <= calls; i++) if (call_name[i] in direct) print "uint32_t region_store_" call_name[i] "(" filled(direct_takes(i), "    ") ");"
}

# The words of a list, ' / ' between them, with commas, as many on a line as go there; each line begins with the margin.
function filled(list, margin,    parts, n, j, line, s) {
    n = split(list, parts, " / ")
    s = ""
    line = margin parts[1]
    for (j = 2; j <= n; j++) {
        if (length(line ", " parts[j]) > 118) { s = s "\n" line ","; line = margin parts[j] }
        else line = line ", " parts[j]
    }
    return s "\n" line
}

# what the direct function of call i takes, as C declares it
function direct_takes(i,    parts, n, j, name, constant, s) {
    n = split(direct[call_name[i]], parts, " ")
    s = ""
    for (j = 1; j <= n; j++) {
        name = bare(parts[j])
        constant = is_written(parts[j]) ? "" : "const "
        if (name in number_place) s = s " / uint32_t " (is_written(parts[j]) ? "*" : "") name
        else if (name == "heap") s = s " / " constant "uint32_t *heap / size_t words"
        else s = s " / " constant type_of(array_width[array_place[name]]) " *" name
    }
    n = split(call_arguments[i], parts, " ")
    for (j = 1; j <= n; j++) s = s (is_list(parts[j]) ? " / const uint32_t *list / size_t count" : " / uint32_t " parameter(parts[j]))
    n = split(call_values[i], parts, " ")
    if (n) s = s " / uint32_t *" (n == 1 ? "value" : "values")
    return substr(s, 4)
}

# what it is given
function direct_given(i,    parts, n, j, name, s) {
    n = split(direct[call_name[i]], parts, " ")
    s = ""
    for (j = 1; j <= n; j++) {
        name = bare(parts[j])
        if (name in number_place) s = s " / " (is_written(parts[j]) ? "&" : "") "t->numbers[RS_" upper(name) "]"
        else if (name == "heap") s = s " / s->heap / s->words"
        else s = s " / t->" name
    }
    n = split(call_arguments[i], parts, " ")
    for (j = 1; j <= n; j++) {
        name = bare(parts[j])
        s = s " / " (is_list(parts[j]) ? name " ? " name " : &none / " name " ? count : 0" : name)
    }
    n = split(call_values[i], parts, " ")
    if (n) s = s " / " (n == 1 ? "&value" : "reply.values")
    return substr(s, 4)
}

# the body of a call that is made directly; what it does not write of the values is 0
function direct_body(i,    parts, n) {
    n = split(call_values[i], parts, " ")
    print "    struct rs_state *t = &s->state;"
    if (n == 4) print "    struct rs_reply reply;"
    else print "    struct rs_reply reply = {0, {0, 0, 0, 0}};"
    if (n == 1) print "    uint32_t value;"
    if (call_arguments[i] ~ /[.][.]/) print "    const uint32_t none = 0;"
    print "    reply.refusal = region_store_" call_name[i] "(" filled(direct_given(i), "        ") ");"
    if (n == 1) print "    reply.values[0] = value;"
    print "    return reply;"
}

function call_numbers(    i) {
    print "enum rs_call_number {"
    for (i = 1; i <= calls; i++) printf "    RS_CALL_%s = %d%s\n", upper(call_name[i]), call_number[i], i < calls ? "," : ""
    print "};"
}

function refusal_numbers(    i) {
    print "enum rs_refusal {\n    RS_ACCEPTED = 0,"
    for (i = 1; i <= refusals; i++) printf "    RS_%s = %d%s\n", upper(refusal_name[i]), i, i < refusals ? "," : ""
    print "};"
}

function layout_numbers(    i) {
    printf "    static const uint32_t mine[] = {\n        RS_LAYOUT_VERSION, 4, %d", numbers
    for (i = 1; i <= arrays; i++) printf ",%s%d, %d", i % 6 == 0 ? "\n        " : " ", array_width[i], array_length[i]
    print "\n    };"
}

function quoted(text) { gsub(/["\\]/, "\\\\&", text); return "\"" text "\"" }

function reasons(    i) {
    for (i = 1; i <= refusals; i++) printf "    case RS_%s: return %s;\n", upper(refusal_name[i]), quoted(reason[i])
}

# ---- a function for each call

# the refusals of call i, by name
function refused_by(i,    parts, n, j, s) {
    n = split(call_refusals[i], parts, " ")
    if (n == 0) return "Never refused."
    s = "Refused by"
    for (j = 1; j <= n; j++) s = s (j > 1 ? ", " : " ") "RS_" upper(refusal_name[parts[j]])
    return s "."
}

# the arguments of call i, by name, a line for each
function takes(i,    parts, n, j, s) {
    n = split(call_arguments[i], parts, " ")
    s = ""
    for (j = 1; j <= n; j++)
        s = s "// " bare(parts[j]) (is_list(parts[j]) ? ", count of them: " : ": ") argument_what[bare(parts[j])] ".\n"
    return s
}

# a value of call i, one of n, and what it is
function value_text(i, word, n,    what) {
    what = n > 1 ? value_what[call_name[i], bare(word)] : only_what(word)
    return bare(word) (what == "" ? "" : ", " what) (is_flag(word) ? ", 1 or 0" : "")
}

# the values of call i, by name, a line for each
function gives(i,    parts, n, j, s) {
    n = split(call_values[i], parts, " ")
    if (n == 0) return "No values."
    s = ""
    for (j = 1; j <= n; j++) s = s (j > 1 ? "\n// " : "") "values[" j - 1 "]: " value_text(i, parts[j], n) "."
    return s
}

function parameters(i,    parts, n, j, s) {
    n = split(call_arguments[i], parts, " ")
    s = "struct rs_store *s"
    for (j = 1; j <= n; j++)
        s = s ", " (is_list(parts[j]) ? "const uint32_t *" bare(parts[j]) ", size_t count" : "uint32_t " parts[j])
    return s
}

# what rs_call is given: four numbers, and the list
function passed(i,    parts, n, j, given, list, s) {
    n = split(call_arguments[i], parts, " ")
    given = 0
    list = "NULL, 0"
    s = ""
    for (j = 1; j <= n; j++)
        if (is_list(parts[j])) list = bare(parts[j]) ", count"
        else { s = s parts[j] ", "; given++ }
    for (; given < 4; given++) s = s "0, "
    return s list
}

# audit has a function that only reads, for the memory whole
function audit_body() {
    print "    uint32_t reply[5] = {0, 0, 0, 0, 0};"
    print "    region_store_audit(RS_LENT(&s->state), s->heap, s->words, reply);"
    print "    return rs_reply_of(reply);"
}

# make and view are written by hand
function by_hand(i) { return call_name[i] == "make" || call_name[i] == "view" }

function named_calls(    i, begun) {
    begun = 0
    for (i = 1; i <= calls; i++) {
        if (by_hand(i)) continue
        if (begun++) printf "\n"
        printf "// %s\n%s// %s\n// %s\n", call_what[i], takes(i), gives(i), refused_by(i)
        printf "static inline struct rs_reply rs_%s(%s)\n{\n", call_name[i], parameters(i)
        if (call_name[i] in direct) direct_body(i)
        else if (call_name[i] == "audit") audit_body()
        else printf "    return rs_call(s, RS_CALL_%s, %s);\n", upper(call_name[i]), passed(i)
        print "}"
    }
}

# ---- region_store_file.h

function file_numbers(    i) {
    printf "#define RS_FILE_MAGIC %s\n\n", quoted(magic)
    print "enum rs_file {\n    RS_FILE_DONE = 0,"
    for (i = 1; i <= files; i++)
        printf "    RS_FILE_%s = %d%s // %s\n", upper(file_name[i]), i, i < files ? "," : "", file_message[i]
    print "};"
}

function messages(    i) {
    for (i = 1; i <= files; i++) printf "    case RS_FILE_%s: return %s;\n", upper(file_name[i]), quoted(file_message[i])
}

# a line for each array of the state, in order
function each_array(way,    i) {
    printf "    rs_%s_32(at, state->numbers, %d);\n", way, numbers
    for (i = 1; i <= arrays; i++) printf "    rs_%s_%d(at, state->%s, %d);\n", way, 8 * array_width[i], array_name[i], array_length[i]
}

# ---- by_name.h

function shapes(    i, parts, n, j, given, list, filler) {
    printf "#define BY_NAME_CALLS %d\n\n", calls
    print "static inline const struct by_name_shape *by_name_shape(uint32_t number)\n{"
    print "    static const struct by_name_shape shapes[BY_NAME_CALLS + 1] = {"
    print "        {\"\", \"\", 0, 0, 0, 0},"
    for (i = 1; i <= calls; i++) {
        n = split(call_arguments[i], parts, " ")
        given = list = filler = 0
        for (j = 1; j <= n; j++) {
            if (is_list(parts[j])) list = 1
            else given++
            if (parts[j] == "filler") filler = given
        }
        printf "        {\"%s\", \"%s\", %d, %d, %d, %d}%s\n", call_name[i], call_arguments[i], given, list, filler, call_asks[i], i < calls ? "," : ""
    }
    print "    };\n    return &shapes[number <= BY_NAME_CALLS ? number : 0];\n}"
}

function by_name(    i, parts, n, j, given, s) {
    for (i = 1; i <= calls; i++) {
        if (by_hand(i)) continue
        n = split(call_arguments[i], parts, " ")
        given = 0
        s = "s"
        for (j = 1; j <= n; j++) s = s ", " (is_list(parts[j]) ? "list, count" : "n[" given++ "]")
        printf "    case RS_CALL_%s: return rs_%s(%s);\n", upper(call_name[i]), call_name[i], s
    }
}
