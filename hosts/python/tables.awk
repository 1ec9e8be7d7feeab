# Writes the tables of region_store.py, after table.awk has read store.txt. Blocks:
#   tables    the layout, the calls, the refusals and the messages about files
#   tuples    a named tuple for each call that gives several values
#   methods   a method of Store for each call but make

# A Python string.
function quoted(text) { gsub(/["\\]/, "\\\\&", text); return "\"" text "\"" }

# 'from' is a word of Python's own: from_.
function argument(word) {
    word = bare(word)
    if (word ~ /^(and|as|assert|async|await|break|class|continue|def|del|elif|else|except|finally|for|from|global|if|import|in|is|lambda|nonlocal|not|or|pass|raise|return|self|try|while|with|yield)$/)
        return word "_"
    return word
}

# The words of a field, as a tuple of strings.
function strings(field,    parts, n, i, s) {
    n = split(field, parts, " ")
    s = ""
    for (i = 1; i <= n; i++) s = s quoted(parts[i]) (i < n ? ", " : n == 1 ? "," : "")
    return "(" s ")"
}

# The numbers of a field, as a tuple.
function integers(field,    parts, n, i, s) {
    n = split(field, parts, " ")
    s = ""
    for (i = 1; i <= n; i++) s = s parts[i] (i < n ? ", " : n == 1 ? "," : "")
    return "(" s ")"
}

# Prints a text in lines of at most 100 columns, the first one after 'start', the others after 'next_start'.
function fold(start, next_start, text,    parts, n, i, line) {
    n = split(text, parts, " ")
    line = start parts[1]
    for (i = 2; i <= n; i++) {
        if (length(line " " parts[i]) > 100) {
            print line
            line = next_start parts[i]
        } else line = line " " parts[i]
    }
    print line
}

# ---- tables

function write_names(prefix, names, n,    i) {
    for (i = 1; i <= n; i++) print prefix upper(names[i]) " = " i
}

function write_texts(table, texts, n,    i) {
    print table " = {"
    for (i = 1; i <= n; i++) print "    " i ": " quoted(texts[i]) ","
    print "}"
}

function write_layout(    i) {
    print "VERSION = " version
    print "MAGIC = b" quoted(magic)
    print ""
    print "# The arrays of the state, in their order: name, bytes of an element, elements."
    print "LAYOUT = ("
    print "    (\"numbers\", 4, " numbers "),"
    for (i = 1; i <= arrays; i++) print "    (" quoted(array_name[i]) ", " array_width[i] ", " array_length[i] "),"
    print ")"
    print "STATE_BYTES = " state_bytes()
}

function write_calls(    i) {
    print "CALLS = {"
    for (i = 1; i <= calls; i++) {
        print "    " call_number[i] ": Call(" call_number[i] ", " quoted(call_name[i]) ", " (call_asks[i] ? "True" : "False") ", " \
            strings(call_arguments[i]) ", " strings(call_values[i]) ", " integers(call_refusals[i]) "),"
    }
    print "}"
}

function write_tables() {
    write_layout()
    print ""
    print "# The calls by number. Of arguments and values 'name..' is a list or a part of the heap, 'name?' is 1 or 0."
    write_calls()
    print ""
    print "# The refusals: their numbers by name, then names and reasons by number."
    write_names("", refusal_name, refusals)
    write_texts("REFUSALS", refusal_name, refusals)
    write_texts("REASONS", reason, refusals)
    print ""
    print "# Why a file is not loaded or saved, likewise."
    write_names("FILE_", file_name, files)
    write_texts("FILES", file_name, files)
    write_texts("MESSAGES", file_message, files)
}

# ---- tuples

function write_tuples(    i, parts, n, j, name, between) {
    for (i = 2; i <= calls; i++) {
        n = split(call_values[i], parts, " ")
        if (n < 2) continue
        name = camel(call_name[i])
        printf "%s", between
        between = "\n"
        print name " = namedtuple(" quoted(name) ", " strings(call_values[i]) ")"
        print name ".__doc__ = \"\"\"What Store." call_name[i] " gives.\n"
        for (j = 1; j <= n; j++) fold(bare(parts[j]) ": ", "    ", value_what[call_name[i], bare(parts[j])])
        print "\"\"\""
    }
}

# ---- methods

# The arguments after self, with their types.
function signature(i,    parts, n, j, s) {
    n = split(call_arguments[i], parts, " ")
    s = "self"
    for (j = 1; j <= n; j++) {
        if (parts[j] == "filler") s = s ", *, filler: int = 0"
        else if (is_list(parts[j])) s = s ", " argument(parts[j]) ": Iterable[int]"
        else s = s ", " argument(parts[j]) ": int"
    }
    return s
}

# What the method gives, as a type.
function given_type(i,    parts, n) {
    n = split(call_values[i], parts, " ")
    if (n == 0) return "None"
    if (n > 1) return camel(call_name[i])
    if (is_list(parts[1])) return "memoryview"
    return is_flag(parts[1]) ? "bool" : "int"
}

# The call by the helper that makes it: numbers from the left, then the list.
function made(i,    parts, n, j, s, list) {
    n = split(call_arguments[i], parts, " ")
    s = call_number[i]
    list = ""
    for (j = 1; j <= n; j++) {
        if (is_list(parts[j])) list = argument(parts[j])
        else s = s ", " argument(parts[j])
    }
    if (is_list(call_values[i])) return "self._part(" s ")"
    return list == "" ? "self._five(" s ")" : "self._listed(" list ", " s ")"
}

function write_arguments(i,    parts, n, j, what) {
    n = split(call_arguments[i], parts, " ")
    if (n == 0) return
    print "        Arguments:"
    for (j = 1; j <= n; j++) {
        what = argument_what[bare(parts[j])] (is_list(parts[j]) ? "; any iterable of numbers" : "")
        fold("            " argument(parts[j]) ": ", "                ", what)
    }
}

function write_given(i,    parts, n, j, s, what) {
    n = split(call_values[i], parts, " ")
    if (n == 0) s = "nothing"
    else if (n > 1) {
        s = camel(call_name[i]) "("
        for (j = 1; j <= n; j++) s = s parts[j] (j < n ? ", " : ")")
    } else if (is_list(parts[1])) s = "a read-only memoryview of the heap itself, format 'I', no copy"
    else {
        what = only_what(parts[1])
        if (is_flag(parts[1])) what = what (what == "" ? "" : ", ") "True or False"
        else if (what == "") what = "a number"
        s = bare(parts[1]) ", " what
    }
    fold("        Gives: ", "            ", s ".")
}

# What becomes of a part of the heap.
function write_part() {
    print ""
    print "        It is the heap, not the object: a later put shows in it. Once the object's region is deleted"
    print "        it shows what is left there, and then what new objects of that page hold. It keeps the"
    print "        heap's memory as long as it is kept, also when the Store is gone. What should stay as it is"
    print "        now has to be copied: list(view) or bytes(view)."
}

# What else the call's name means.
function write_other(i) {
    if (call_name[i] != "load") return
    print ""
    fold("        ", "        ", "This is what a store is asked for. Asked of the class, Store.load(path) is another method: it loads a saved store.")
}

function write_refusals(i,    parts, n, j) {
    n = split(call_refusals[i], parts, " ")
    print ""
    if (n == 0) {
        print "        Never refused."
        return
    }
    print "        Refused by the first of these that holds:"
    for (j = 1; j <= n; j++)
        fold(sprintf("            %2d %s: ", parts[j], refusal_name[parts[j]]), "                ", reason[parts[j]])
}

function write_body(i,    parts, n) {
    n = split(call_values[i], parts, " ")
    if (is_list(call_values[i])) {
        print "        return " made(i)
        return
    }
    if (call_refusals[i] == "" && n == 0) {
        print "        " made(i)
        return
    }
    print "        five = " made(i)
    if (call_refusals[i] != "") {
        print "        if five[0]:"
        print "            raise Refused(" quoted(call_name[i]) ", five[0])"
    }
    if (n > 1) print "        return " camel(call_name[i]) "(*five[1:" n + 1 "])"
    else if (n == 1) print "        return five[1]" (is_flag(parts[1]) ? " == 1" : "")
}

function write_method(i) {
    if (call_name[i] ~ /^(call|pages|heap|image|save)$/ || argument(call_name[i]) != call_name[i]) {
        print "python/tables.awk: no method can be called " call_name[i] > "/dev/stderr"
        exit 1
    }
    print "    def " call_name[i] "(" signature(i) ") -> " given_type(i) ":"
    fold("        \"\"\"", "        ", call_what[i])
    print ""
    write_arguments(i)
    write_given(i)
    if (is_list(call_values[i])) write_part()
    write_refusals(i)
    write_other(i)
    print "        \"\"\""
    write_body(i)
}

END {
    if (failed) exit 1
    if (block == "tables") write_tables()
    else if (block == "tuples") write_tuples()
    else if (block == "methods") {
        for (i = 2; i <= calls; i++) {
            if (i > 2) print ""
            write_method(i)
        }
    } else {
        print "python/tables.awk: no block " block > "/dev/stderr"
        exit 1
    }
}
