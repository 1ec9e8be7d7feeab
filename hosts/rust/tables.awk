# Writes what the Rust host has of store.txt; see hosts/tables. The text is laid out as rustfmt does it, where names are not very long.
#   block=tables     src/tables.rs: constants, the state, the library's functions, refusals, what is said of files
#   block=calls      src/calls.rs: a method for each call, and what those with several values give
#   block=by_name    tests/by_name/mod.rs: every call by its number through its method, for tests

function word_of(n) { return "u" (8 * n) }

# 'a, b' and 'c': 'a, b, c'
function joined(list, more) { return list == "" ? more : list ", " more }

# The words of a list of arguments, values or refusals.
function words(list, out) { return split(list, out, " ") }

# ---- tables

function constants(    i, n) {
    print "/// The version of the layout of a state and of saved stores."
    print "pub const VERSION: u32 = " version ";"
    print ""
    print "/// The first bytes of a saved store."
    print "pub(crate) const MAGIC: [u8; " length(magic) "] = *b\"" magic "\";"
    print ""
    print "/// The bytes of a state."
    print "pub(crate) const STATE_BYTES: usize = " state_bytes() ";"
    print ""
    print "/// What the library has to say of its layout: the version, then the width and the length of each array."
    print "pub(crate) const LAYOUT: [u32; " 3 + 2 * arrays "] = ["
    n = version ", 4, " numbers
    for (i = 1; i <= arrays; i++) n = n ", " array_width[i] ", " array_length[i]
    gsub(/, /, " / ", n)
    filled(n, "    ")
    print "];"
}

# What stands in a list, ' / ' between, as much on a line as goes there, after a margin.
function filled(list, margin,    parts, n, i, line) {
    n = split(list, parts, " / ")
    line = margin parts[1] ","
    for (i = 2; i <= n; i++) {
        if (length(line " " parts[i] ",") > 100) { print line; line = margin parts[i] "," }
        else line = line " " parts[i] ","
    }
    print line
}

function state(    i, s) {
    print "/// The state of a store, as the library is lent it: the numbers, then the arrays."
    print "#[derive(Clone)]"
    print "#[repr(C)]"
    print "pub(crate) struct State {"
    for (i = 1; i <= numbers; i++) print "    /// " i - 1 ": " number_what[i]
    print "    pub numbers: [u32; " numbers "],"
    for (i = 1; i <= arrays; i++) {
        print "    /// " array_what[i]
        print "    pub " array_name[i] ": [" word_of(array_width[i]) "; " array_length[i] "],"
    }
    print "}"
    print ""
    print "impl State {"
    print "    /// A state of zeros, in which no store was made."
    print "    pub const ZEROS: State = State {"
    print "        numbers: [0; " numbers "],"
    for (i = 1; i <= arrays; i++) print "        " array_name[i] ": [0; " array_length[i] "],"
    print "    };"
    print ""
    print "    /// The bytes of the state, added to others."
    print "    pub fn write(&self, out: &mut Vec<u8>) {"
    print "        write_numbers(out, &self.numbers);"
    for (i = 1; i <= arrays; i++) print "        write_numbers(out, &self." array_name[i] ");"
    print "    }"
    print ""
    print "    /// The state in front of bytes, which go on after it; there are enough of them."
    print "    pub fn read(bytes: &mut &[u8]) -> State {"
    print "        State {"
    print "            numbers: read_numbers(bytes),"
    for (i = 1; i <= arrays; i++) print "            " array_name[i] ": read_numbers(bytes),"
    print "        }"
    print "    }"
    print "}"
}

function lent_arrays(pointer,    i) {
    print "        numbers: *" pointer " [u32; " numbers "],"
    for (i = 1; i <= arrays; i++) print "        " array_name[i] ": *" pointer " [" word_of(array_width[i]) "; " array_length[i] "],"
    print "        heap: *" pointer " u32,"
    print "        words: usize,"
}

function library(    i) {
    print "extern \"C\" {"
    print "    pub(crate) fn region_store_make("
    lent_arrays("mut")
    print "        reply: *mut [u32; 5],"
    print "    );"
    print "    pub(crate) fn region_store_call("
    lent_arrays("mut")
    print "        number: u32,"
    print "        a: u32,"
    print "        b: u32,"
    print "        c: u32,"
    print "        d: u32,"
    print "        list: *const u32,"
    print "        count: usize,"
    print "        reply: *mut [u32; 5],"
    print "    );"
    print "    pub(crate) fn region_store_view("
    lent_arrays("const")
    print "        slot: u32,"
    print "        out: *mut [u32; 3],"
    print "    );"
    print "    pub(crate) fn region_store_audit("
    lent_arrays("const")
    print "        reply: *mut [u32; 5],"
    print "    );"
    print "    pub(crate) fn region_store_layout(out: *mut u32, room: usize) -> usize;"
    for (i = 1; i <= calls; i++) if (call_name[i] in direct) declared_direct(i)
    print "}"
    print ""
    print "/// Calls a function of the library with the arrays of a state, which it writes (`mut`) or only reads (`const`), then the rest of its arguments."
    print "macro_rules! lend {"
    print "    ($how:tt $function:ident, $state:expr, $($rest:expr),+ $(,)?) => {{"
    print "        let state: *$how $crate::tables::State = $state;"
    print "        $crate::tables::$function("
    print "            &raw $how (*state).numbers,"
    for (i = 1; i <= arrays; i++) print "            &raw $how (*state)." array_name[i] ","
    print "            $($rest),+"
    print "        )"
    print "    }};"
    print "}"
    print "pub(crate) use lend;"
}

# What a direct call is lent: the type of a number or array of the state.
function lent_type(word,    name, lent) {
    name = bare(word)
    lent = is_written(word) ? "&mut " : "&"
    if (name in number_place) return (is_written(word) ? lent : "") "u32"
    return lent "[" word_of(array_width[array_place[name]]) "; " array_length[array_place[name]] "]"
}

function declared_direct(i,    a, n, k) {
    print "    pub(crate) fn region_store_" call_name[i] "("
    n = words(direct[call_name[i]], a)
    for (k = 1; k <= n; k++) {
        if (bare(a[k]) != "heap") { print "        " bare(a[k]) ": " lent_type(a[k]) ","; continue }
        print "        heap: *" (is_written(a[k]) ? "mut" : "const") " u32,"
        print "        words: usize,"
    }
    n = words(call_arguments[i], a)
    for (k = 1; k <= n; k++) {
        if (!is_list(a[k])) { print "        " parameter(a[k]) ": u32,"; continue }
        print "        list: *const u32,"
        print "        count: usize,"
    }
    n = words(call_values[i], a)
    if (n) print "        " (n == 1 ? "value: &mut u32," : "values: &mut [u32; " n "],")
    print "    ) -> u32;"
}

function refused(    i) {
    print "/// Why a call was refused. A refused call has changed nothing."
    print "#[derive(Clone, Copy, Debug, PartialEq, Eq, Hash)]"
    print "#[non_exhaustive]"
    print "#[repr(u32)]"
    print "pub enum Refusal {"
    for (i = 1; i <= refusals; i++) {
        print "    /// " i ": " reason[i]
        print "    " camel(refusal_name[i]) " = " i ","
    }
    print "}"
    print ""
    print "impl Refusal {"
    print "    /// All refusals, in the order of their numbers, from 1 on."
    print "    pub const ALL: [Refusal; " refusals "] = ["
    for (i = 1; i <= refusals; i++) print "        Refusal::" camel(refusal_name[i]) ","
    print "    ];"
    print "}"
    print ""
    print "pub(crate) const REFUSAL_NAMES: [&str; " refusals "] = ["
    for (i = 1; i <= refusals; i++) print "    \"" refusal_name[i] "\","
    print "];"
    print ""
    print "pub(crate) const REASONS: [&str; " refusals "] = ["
    for (i = 1; i <= refusals; i++) print "    \"" reason[i] "\","
    print "];"
}

# Which of the enums a line on files belongs to: no_room is only for hosts that lend a heap to load into.
function of_enum(i) {
    if (file_name[i] == "unwritable") return "NotSaved"
    return file_name[i] == "no_room" ? "" : "NotLoaded"
}

# Those where the system refused carry its error.
function has_error(i) { return file_name[i] ~ /^un(readable|writable)$/ }

function file_enum(name, what,    i) {
    print "/// " what
    print "#[derive(Debug)]"
    print "#[non_exhaustive]"
    print "pub enum " name " {"
    for (i = 1; i <= files; i++) if (of_enum(i) == name) {
        print "    /// " i ": " file_message[i]
        print "    " camel(file_name[i]) (has_error(i) ? "(std::io::Error)" : "") ","
    }
    print "}"
    print ""
    print "impl " name " {"
    print "    /// The number of the reason, the same in every language."
    print "    #[must_use]"
    print "    pub fn number(&self) -> u32 {"
    print "        match self {"
    for (i = 1; i <= files; i++) if (of_enum(i) == name)
        print "            " name "::" camel(file_name[i]) (has_error(i) ? "(_)" : "") " => " i ","
    print "        }"
    print "    }"
    print "}"
}

function filed(    i) {
    file_enum("NotLoaded", "Why a store was not loaded. Nothing was changed.")
    print ""
    file_enum("NotSaved", "Why a store was not saved.")
    print ""
    print "pub(crate) const FILE_NAMES: [&str; " files "] = ["
    for (i = 1; i <= files; i++) print "    \"" file_name[i] "\","
    print "];"
    print ""
    print "pub(crate) const FILE_MESSAGES: [&str; " files "] = ["
    for (i = 1; i <= files; i++) print "    \"" file_message[i] "\","
    print "];"
}

# ---- calls

# Examples of calls that a user meets first. What is wrong does not compile, for the reason given.
function examples() {
    example["declare"] = \
        "let mut store = Store::new(1)?;\n" \
        "let clue = store.declare(&[1, 0])?; // a free pointer and a number\n" \
        "assert_eq!(clue, 1);\n" \
        "assert_eq!(store.declare(&[5]), Err(Refusal::WrongMarks));"
    example["new_region"] = \
        "let mut store = Store::new(1)?;\n" \
        "assert_eq!(store.new_region()?, 2);\n" \
        "assert_eq!(store.new_region()?, 3);"
    example["subregion"] = \
        "let mut store = Store::new(1)?;\n" \
        "let round = store.new_region()?;\n" \
        "let grid = store.subregion(round)?;\n" \
        "assert_eq!(store.report(round)?.subregions, 1);\n" \
        "assert_eq!(store.delete(round, 0), Err(Refusal::SubregionLives));\n" \
        "store.delete(grid, 0)?;\n" \
        "store.delete(round, 0)?;"
    example["push"] = \
        "let mut store = Store::new(1)?;\n" \
        "assert_eq!(store.push(3)?, 1);\n" \
        "assert_eq!(store.push(9), Err(Refusal::SlotCount));"
    example["allocate"] = \
        "let mut store = Store::new(1)?;\n" \
        "let kind = store.declare(&[0])?;\n" \
        "store.push(1)?;\n" \
        "store.allocate(0, 1, kind)?;\n" \
        "assert_eq!(store.get(0, 0)?, 0);"
    example["set_pointer"] = \
        "let mut store = Store::new(2)?;\n" \
        "let clue = store.declare(&[1, 0])?;\n" \
        "let round = store.new_region()?;\n" \
        "store.push(2)?;\n" \
        "store.allocate(0, 1, clue)?;\n" \
        "store.allocate(1, round, clue)?;\n" \
        "store.set_pointer(0, 0, 1, 0)?; // word 0 of the first leads to the second\n" \
        "assert_eq!(store.report(round)?.count, 1);"
    example["put"] = \
        "let mut store = Store::new(1)?;\n" \
        "let clue = store.declare(&[1, 0])?;\n" \
        "store.push(1)?;\n" \
        "store.allocate(0, 1, clue)?;\n" \
        "store.put(0, 1, 17)?;\n" \
        "assert_eq!(store.get(0, 1)?, 17);\n" \
        "assert_eq!(store.put(0, 0, 17), Err(Refusal::WrongWord)); // word 0 is a pointer"
    example["view"] = \
        "let mut store = Store::new(1)?;\n" \
        "let pair = store.declare(&[0, 0])?;\n" \
        "store.push(1)?;\n" \
        "store.allocate(0, 1, pair)?;\n" \
        "store.put(0, 1, 17)?;\n" \
        "let part = store.view(0)?;\n" \
        "assert_eq!(store.get(0, 1)?, 17); // asks, while the part is held\n" \
        "assert_eq!(part, [0, 17]);"
    why["view"] = "While the part is held, calls that act cannot be made"
    wrong["view"] = \
        "# let mut store = Store::new(1)?;\n" \
        "# let pair = store.declare(&[0, 0])?;\n" \
        "# store.push(1)?;\n" \
        "# store.allocate(0, 1, pair)?;\n" \
        "let part = store.view(0)?;\n" \
        "store.put(0, 1, 17)?;\n" \
        "assert_eq!(part, [0, 17]);"
    example["report"] = \
        "let mut store = Store::new(1)?;\n" \
        "let round = store.new_region()?;\n" \
        "let report = store.report(round)?;\n" \
        "assert_eq!((report.count, report.outside, report.pages, report.subregions), (0, 0, 0, 0));"
    example["totals"] = \
        "let store = Store::new(4)?;\n" \
        "assert_eq!(store.totals().free_pages, 4);\n" \
        "assert_eq!(store.totals().regions, 1);"
    example["audit"] = \
        "let store = Store::new(4)?;\n" \
        "assert!(store.audit());"
    example["delete"] = \
        "let mut store = Store::new(1)?;\n" \
        "let kind = store.declare(&[0])?;\n" \
        "let round = store.new_region()?;\n" \
        "store.push(1)?;\n" \
        "store.allocate(0, round, kind)?;\n" \
        "assert_eq!(store.delete(round, 0), Err(Refusal::OutsidePointer)); // slot 0 leads there\n" \
        "store.clear(0)?;\n" \
        "assert_eq!(store.delete(round, 0)?, 1); // one page is free again"
    example["delete_all"] = \
        "let mut store = Store::new(1)?;\n" \
        "let round = store.new_region()?;\n" \
        "let grid = store.subregion(round)?;\n" \
        "store.delete_all(&[round, grid], 0)?;\n" \
        "assert_eq!(store.totals().regions, 1);"
}

# What a call gives, without Result.
function given(i,    v, n) {
    n = words(call_values[i], v)
    if (n == 0) return "()"
    if (n > 1) return camel(call_name[i])
    if (is_list(v[1])) return "&[u32]"
    return is_flag(v[1]) ? "bool" : "u32"
}

# 'the stored count': 'The stored count.'
function sentence(text) { return toupper(substr(text, 1, 1)) substr(text, 2) "." }

function value_struct(i,    v, n, k) {
    n = words(call_values[i], v)
    print "/// What [`Store::" call_name[i] "`] gives: the values of call " call_number[i] ", in their order."
    print "///"
    print "/// " call_what[i]
    print "#[derive(Clone, Copy, Debug, PartialEq, Eq)]"
    print "pub struct " camel(call_name[i]) " {"
    for (k = 1; k <= n; k++) {
        print "    /// " sentence(value_what[call_name[i], bare(v[k])])
        print "    pub " bare(v[k]) ": u32,"
    }
    print "}"
    print ""
}

# The arguments of a call, and what they are.
function taken(i,    a, n, k) {
    n = words(call_arguments[i], a)
    if (!n) return
    print "    ///"
    print "    /// # Arguments"
    print "    ///"
    for (k = 1; k <= n; k++) print "    /// - `" bare(a[k]) "`, " argument_what[bare(a[k])]
}

# The only value of a call, and what it is, where its name has a line.
function only(word,    what) {
    what = only_what(word)
    return "`" bare(word) "`" (what == "" ? "" : ", " what)
}

function told(i,    r, n, k, t) {
    print "    /// " call_what[i]
    print "    ///"
    t = given(i)
    if (t == "()") t = "it has no value"
    else if (words(call_values[i], r) == 1) t = "its value is " only(call_values[i])
    else t = "its values are those of [`" t "`]"
    print "    /// Call " call_number[i] "; " t (call_refusals[i] == "" ? ", and it is never refused." : ".")
    taken(i)
    n = words(call_refusals[i], r)
    if (n) {
        print "    ///"
        print "    /// # Errors"
        print "    ///"
        print "    /// The first of these whose reason holds:"
        for (k = 1; k <= n; k++) print "    /// - " r[k] " [`Refusal::" camel(refusal_name[r[k]]) "`], " reason[r[k]]
    }
    if (call_name[i] in example) {
        print "    ///"
        print "    /// # Examples"
        print "    ///"
        shown("", example[call_name[i]])
    }
    if (call_name[i] in wrong) {
        print "    ///"
        print "    /// " why[call_name[i]] "; this does not compile:"
        print "    ///"
        shown("compile_fail,E0502", wrong[call_name[i]])
    }
}

# An example in a method's documentation.
function shown(how, text,    lines, n, k) {
    print "    /// ```" how
    print "    /// use region_store::{Refusal, Store};"
    print "    /// # fn main() -> Result<(), Refusal> {"
    n = split(text, lines, "\n")
    for (k = 1; k <= n; k++) print "    /// " lines[k]
    print "    /// # Ok(())"
    print "    /// # }"
    print "    /// ```"
}

# The head of a method, on one line where it fits.
function head(i, result,    a, n, k, line, self_is) {
    self_is = call_asks[i] ? "&self" : "&mut self"
    line = self_is
    n = words(call_arguments[i], a)
    for (k = 1; k <= n; k++) line = line ", " bare(a[k]) ": " (is_list(a[k]) ? "&[u32]" : "u32")
    line = "    pub fn " call_name[i] "(" line ") -> " result " {"
    if (length(line) <= 100) { print line; return }
    print "    pub fn " call_name[i] "("
    print "        " self_is ","
    for (k = 1; k <= n; k++) print "        " bare(a[k]) ": " (is_list(a[k]) ? "&[u32]" : "u32") ","
    print "    ) -> " result " {"
}

# The library's reply to a call with a method's arguments.
function reply(i,    a, n, k, numbers_in, list, count) {
    n = words(call_arguments[i], a)
    numbers_in = ""
    list = "&[]"
    count = 0
    for (k = 1; k <= n; k++) {
        if (is_list(a[k])) { list = bare(a[k]); continue }
        numbers_in = joined(numbers_in, a[k])
        count++
    }
    if (!count) numbers_in = "0; 4"
    else for (; count < 4; count++) numbers_in = joined(numbers_in, "0")
    if (call_asks[i]) bad("by its number a call is not known to leave the memory alone: " call_name[i] " wants a direct line", call_line[i])
    return "self.act(" call_number[i] ", [" numbers_in "], " list ")"
}

# The numbers of the state, by name, as a pattern: those that a direct call is lent.
function number_pattern(i,    a, n, k, lent, s) {
    n = words(direct[call_name[i]], a)
    for (k = 1; k <= n; k++) lent[bare(a[k])] = 1
    s = ""
    for (k = 1; k <= numbers; k++) s = joined(s, (number_name[k] in lent) ? number_name[k] : "_")
    return "[" s "]"
}

# What a direct call is given, with ' / ' between.
function direct_given(i,    a, n, k, name, s) {
    n = words(direct[call_name[i]], a)
    s = ""
    for (k = 1; k <= n; k++) {
        name = bare(a[k])
        if (name in number_place) s = s " / " (call_asks[i] || is_written(a[k]) ? "" : "*") name
        else if (name == "heap") s = s " / heap / words"
        else s = s " / &" (is_written(a[k]) ? "mut " : "") "s." name
    }
    n = words(call_arguments[i], a)
    for (k = 1; k <= n; k++) s = s " / " (is_list(a[k]) ? bare(a[k]) ".as_ptr() / " bare(a[k]) ".len()" : a[k])
    n = words(call_values[i], a)
    if (n) s = s " / &mut v"
    return substr(s, 4)
}

# A direct call, and the refusal that it gives.
function direct_call(i,    a, n) {
    print "        let (s, " (direct[call_name[i]] ~ /heap/ ? "heap, words" : "_, _") ") = self." (call_asks[i] ? "shown" : "lent") "();"
    print "        let " number_pattern(i) " = " (call_asks[i] ? "" : "&mut ") "s.numbers;"
    n = words(call_values[i], a)
    if (n) print "        let mut v = " (n == 1 ? "0" : "[0; " n "]") ";"
    print "        // SAFETY: see `Store::" (call_asks[i] ? "shown" : "lent") "`."
    given_to("region_store_" call_name[i], direct_given(i))
}

# The call of a function, as rustfmt lays it out: on one line if its arguments take at most 60 columns, and with the block around it if that fits; on filled lines if each argument takes at most 10; else on a line for each.
function given_to(name, list,    a, n, k, long, line) {
    n = split(list, a, " / ")
    for (k = 1; k <= n; k++) if (length(a[k]) > 10) long = 1
    line = list
    gsub(/ \/ /, ", ", line)
    line = length(line) <= 60 ? name "(" line ")" : ""
    if (line != "" && length(line) + 24 <= 100) {
        print "        let refusal ="
        print "            unsafe { " line " };"
        return
    }
    print "        let refusal = unsafe {"
    if (line != "") print "            " line
    else {
        print "            " name "("
        if (!long) filled(list, "                ")
        for (k = 1; k <= n && long; k++) print "                " a[k] ","
        print "            )"
    }
    print "        };"
}

# What a method gives: its values are those of v from the place `first` on, or v itself.
function result(i, first,    t, v, n, k, open, close_, only_one) {
    t = given(i)
    if (call_refusals[i] != "") { open = "Ok("; close_ = ")" }
    else open = close_ = ""
    only_one = first ? "v[" first "]" : "v"
    if (t == "()") print "        Ok(())"
    else if (t == "u32") print "        " open only_one close_
    else if (t == "bool") print "        " open only_one " == 1" close_
    else {
        n = words(call_values[i], v)
        print "        " open t " {"
        for (k = 1; k <= n; k++) print "            " bare(v[k]) ": v[" k - 1 + first "],"
        print "        }" close_
    }
}

function method(i,    t) {
    t = given(i)
    told(i)
    if (call_refusals[i] == "") print "    #[must_use]"
    if (call_name[i] in direct) print "    #[inline]"
    head(i, call_refusals[i] == "" ? t : "Result<" t ", Refusal>")
    if (call_name[i] == "view") print "        self.part(slot)"
    else if (call_name[i] == "audit") print "        self.audited()[1] == 1"
    else if (call_name[i] in direct) {
        direct_call(i)
        print "        passed(refusal)" (t == "()" ? "" : (call_refusals[i] == "" ? ".expect(\"it is never refused\");" : "?;"))
        if (t != "()") result(i, 0)
    } else {
        if (call_refusals[i] == "") print "        let v = " reply(i) ";"
        else print "        " (t == "()" ? "" : "let v = ") "accepted(" reply(i) ")?;"
        result(i, 1)
    }
    print "    }"
}

function methods(    i, v, begun) {
    examples()
    for (i = 1; i <= calls; i++) if (words(call_values[i], v) > 1) value_struct(i)
    print "/// The calls."
    print "impl Store {"
    for (i = 1; i <= calls; i++) if (call_name[i] != "make") {
        if (begun++) print ""
        method(i)
    }
    print "}"
}

# ---- by_name

# One value list as numbers, on one line where rustfmt has it so.
function values_of(i,    v, n, k, list) {
    n = words(call_values[i], v)
    list = ""
    for (k = 1; k <= 4; k++) list = joined(list, k <= n ? "self." bare(v[k]) : "0")
    print "impl Values for region_store::" camel(call_name[i]) " {"
    print "    fn values(self) -> [u32; 4] {"
    if (length(list) + 2 <= 60) print "        [" list "]"
    else {
        print "        ["
        for (k = 1; k <= 4; k++) print "            " (k <= n ? "self." bare(v[k]) : "0") ","
        print "        ]"
    }
    print "    }"
    print "}"
    print ""
}

function arm(i,    a, n, k, list, place) {
    n = words(call_arguments[i], a)
    list = ""
    place = 0
    for (k = 1; k <= n; k++) list = joined(list, is_list(a[k]) ? "list" : "n[" place++ "]")
    return "        " call_number[i] " => " (call_refusals[i] == "" ? "accepted" : "answer") "(store." call_name[i] "(" list ")),"
}

function by_names(    i, v) {
    print "/// The name and the arguments of each call, in the order of their numbers, from 1 on."
    print "pub const CALLS: [(&str, &str); " calls "] = ["
    for (i = 1; i <= calls; i++) print "    (\"" call_name[i] "\", \"" call_arguments[i] "\"),"
    print "];"
    print ""
    for (i = 1; i <= calls; i++) if (words(call_values[i], v) > 1) values_of(i)
    print "/// Makes call `number`, any but make, by its method: the numbers in front, then the list."
    print "pub fn by_name(store: &mut Store, number: u32, n: [u32; 4], list: &[u32]) -> [u32; 5] {"
    print "    match number {"
    for (i = 1; i <= calls; i++) if (call_name[i] != "make") print arm(i)
    print "        _ => panic!(\"no method has number {number}\"),"
    print "    }"
    print "}"
}

END {
    if (failed) exit 1
    if (block == "tables") {
        constants()
        print ""
        state()
        print ""
        library()
        print ""
        refused()
        print ""
        filed()
    } else if (block == "calls") methods()
    else if (block == "by_name") by_names()
    else {
        print "tables.awk: no block " block > "/dev/stderr"
        exit 1
    }
}
