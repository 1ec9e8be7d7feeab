# Reads the rows of sessions from their definitions, and plays each on the compiled store (.ci/rows says what is read, and why).
# Given: drive, the command that plays a script; script, a file to write it to. `part` says what a file that is named after it has: the calls, or rows.

function fail(text) {
    print "rows: " text > "/dev/stderr"
    failed = 1
    exit 1
}

# ---- definitions: their types and their words

FNR == 1 || /^$/ { name = "" }

/^ *--/ { next }

/ : (List )?Row *(--.*)?$/ && !/^(abbrev |unfoldable )?(pub )?[A-Za-z0-9_]+ : (List )?Row$/ { fail("this line cannot be read: " $0) }

/^(abbrev |unfoldable )?(pub )?[A-Za-z0-9_]+ : / {
    sub(/^(abbrev |unfoldable )?(pub )?/, "")
    name = $1
    if (part == "calls" && name != "numbered" && name != "calls") {
        name = ""
        next
    }
    if (name in type) fail(name " is defined twice")
    sub(/^[A-Za-z0-9_]+ : /, "")
    type[name] = $0
    body[name] = ""
    if (type[name] == "Row") rows[++rows_read] = name
    if (type[name] == "List Row") lists[++lists_read] = name
    next
}

name != "" {
    if ($1 == name) sub(/^[^=]*=/, "")
    body[name] = body[name] " " $0
}

function cut(name,    text, words, i) {
    text = body[name]
    gsub(/[][(){};=*]/, " & ", text)
    gsub(/\[ *\]/, "[]", text)
    gsub(/∷/, " ∷ ", text)
    gsub(/[+][+]/, " ++ ", text)
    count[name] = split(text, words, " ")
    for (i = 1; i <= count[name]; i++) word[name, i] = words[i]
}

# ---- the calls: their numbers and arguments by `numbered`, their names in scripts and whether they name a filler by the table `calls`

function read_calls(    text, items, n, words, i, k) {
    text = body["numbered"]
    gsub(/[()]/, " ", text)
    n = split(text, items, "∷") - 1
    for (i = 1; i <= n; i++) {
        k = split(items[i], words, " ")
        if (words[1] == "ask") {
            call[words[2]] = i + 1
            arguments[words[2]] = k - 2
        } else {
            call[words[1]] = i + 1
            arguments[words[1]] = k - 1
        }
    }
    text = body["calls"]
    for (k = 0; match(text, /\("[a-z_]+", [0-9]+, [0-9]+, [01],/); text = substr(text, RSTART + RLENGTH)) {
        split(substr(text, RSTART + 1, RLENGTH - 1), words, /, */)
        gsub(/"/, "", words[1])
        script_name[++k] = words[1]
        names_filler[k] = words[4]
    }
    if (n < 1 || k != n + 1) fail("the calls by number are " n ", and those of scripts, with pages, " k)
}

# ---- expressions. A value has a sort: a number, a list of values, a call (as a line of a script), a printed line, or a row.

function value(s, t) {
    sort[++values] = s
    text[values] = t
    size[values] = 0
    return values
}

function must(s, v) {
    if (sort[v] != s) fail("in " here " a " sort[v] " stands where a " s " should")
    return text[v]
}

function repeated(n, v,    l, i) {
    l = value("list")
    for (i = 1; i <= n; i++) item[l, ++size[l]] = v
    return l
}

function counted(first, n,    l, i) {
    l = value("list")
    for (i = 0; i < n; i++) item[l, ++size[l]] = value("number", first + i)
    return l
}

function chained(v, l,    r, i) {
    must("list", l)
    r = value("list")
    item[r, ++size[r]] = v
    for (i = 1; i <= size[l]; i++) item[r, ++size[r]] = item[l, i]
    return r
}

function joined(k, l,    r, i) {
    must("list", k)
    must("list", l)
    r = value("list")
    for (i = 1; i <= size[k]; i++) item[r, ++size[r]] = item[k, i]
    for (i = 1; i <= size[l]; i++) item[r, ++size[r]] = item[l, i]
    return r
}

# a call as a line of a script; where it names a filler, that is its last argument, and stands in front
function called(f, args, n,    i, j, last, line) {
    if (n != arguments[f]) fail("in " here " " f " has " n " arguments, and not " arguments[f])
    line = script_name[call[f]]
    last = names_filler[call[f]] ? n - 1 : n
    for (i = 1; i <= last; i++) {
        if (sort[args[i]] == "list")
            for (j = 1; j <= size[args[i]]; j++) line = line " " must("number", item[args[i], j])
        else line = line " " must("number", args[i])
    }
    return value("call", (last < n ? "as " must("number", args[n]) " " : "") line)
}

function applied(f, args, n,    i, line) {
    if (f in call) return called(f, args, n)
    if (f == "ask" && n == 1) {
        must("call", args[1])
        return args[1]
    }
    if (f == "replicate" && n == 2) return repeated(must("number", args[1]), args[2])
    if (f == "from" && n == 2) return counted(must("number", args[1]), must("number", args[2]))
    if (f == "line" && n == 6) {
        line = must("number", args[1])
        for (i = 2; i <= n; i++) line = line " " must("number", args[i])
        return value("line", line)
    }
    if (f in type && n == 0) return defined(f)
    fail("in " here " there is " f " with " n " arguments, which is no call and nothing that can be read")
}

function next_word() { return at <= count[here] ? word[here, at] : "" }

function take_word(w) {
    if (next_word() != w) fail("in " here " stands '" next_word() "' where '" w "' should")
    at++
}

function opens(w) { return w ~ /^[A-Za-z0-9_]+$/ || w == "(" || w == "[]" }

function atom(    w, v, none) {
    w = next_word()
    if (!opens(w)) fail("in " here " stands '" w "', which begins nothing that can be read")
    at++
    if (w == "(") {
        v = expression()
        take_word(")")
        return v
    }
    if (w == "[]") return value("list")
    if (w ~ /^[0-9]+$/) return value("number", w)
    return applied(w, none, 0)
}

function application(    w, args, n) {
    w = next_word()
    if (w !~ /^[A-Za-z]/) return atom()
    at++
    for (n = 0; opens(next_word());) args[++n] = atom()
    return applied(w, args, n)
}

function product(    v) {
    v = application()
    while (next_word() == "*") {
        at++
        v = value("number", must("number", v) * must("number", application()))
    }
    return v
}

function expression(    v) {
    v = product()
    if (next_word() == "∷") {
        at++
        return chained(v, expression())
    }
    if (next_word() == "++") {
        at++
        return joined(v, expression())
    }
    return v
}

function record(name,    v, field) {
    v = value("row", name)
    at++
    take_word("{")
    while (next_word() != "}") {
        field = next_word()
        at++
        take_word("=")
        row[name, field] = expression()
        if (next_word() != "}") take_word(";")
    }
    take_word("}")
    return v
}

# the value of a definition, reckoned once
function defined(name,    was_here, was_at) {
    if (name in known) return known[name]
    was_here = here
    was_at = at
    here = name
    at = 1
    cut(name)
    known[name] = type[name] == "Row" && next_word() == "record" ? record(name) : expression()
    if (at <= count[name]) fail("in " name " stands '" next_word() "' after its end")
    here = was_here
    at = was_at
    return known[name]
}

# ---- rows

function number_of(name, field) {
    here = name
    if (!((name, field) in row)) fail("the row " name " has no " field)
    return must("number", row[name, field])
}

function list_of(name, field) {
    here = name
    if (!((name, field) in row)) fail("the row " name " has no " field)
    must("list", row[name, field])
    return row[name, field]
}

function play(name,    words, cs, ps, skip, i, run, got, n) {
    words = number_of(name, "lent")
    skip = number_of(name, "skip")
    cs = list_of(name, "calls")
    ps = list_of(name, "prints")
    if (words % 64 || words > 257 * 64) fail("no script can lend the row " name " a heap of " words " words")
    if (!size[ps]) fail("the row " name " prints nothing")
    print "pages " words / 64 > script
    for (i = 1; i <= size[cs]; i++) print must("call", item[cs, i]) > script
    close(script)
    run = "(" drive ") < " script
    for (n = 0; (run | getline got) > 0;) {
        i = ++n - skip
        if (got !~ /^[0-9]/) fail("the row " name ": a line is answered '" got "'")
        if (i > size[ps]) fail("the row " name " has no line '" got "'")
        if (i > 0 && got != must("line", item[ps, i])) fail("the row " name " has '" text[item[ps, i]] "' and the store answers '" got "'")
    }
    if (close(run)) fail("the row " name ": the program that plays it ends with an error")
    if (n != skip + size[ps]) fail("the row " name " has " size[ps] " lines after the first " skip ", and the store answers " n)
    played[name]++
    plays++
    calls += size[cs] + 1
}

END {
    if (failed) exit 1
    read_calls()
    for (i = 1; i <= lists_read; i++) {
        l = defined(lists[i])
        for (j = 1; j <= size[l]; j++) {
            here = lists[i]
            play(must("row", item[l, j]))
        }
    }
    for (i = 1; i <= rows_read; i++) if (!(rows[i] in played)) fail("the row " rows[i] " stands in no list")
    if (!plays) fail("there is no row")
    print "rows: " plays " rows, " calls " calls, answered as their definitions have them"
}
