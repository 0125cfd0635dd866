# Reads docs/CLAIMS.md and the sources (src/, specs/ and the files of proofs/ itself), and prints the table of all definitions that the contracts of
# exported functions and the theorems named there rest on.
#
# A theorem is named in backquotes, in a column "theorem" or before a "(crates/..)" in the text; what a column "function" names must be there, too. A
# contract or a law needs what its statement names, a method's contract its type besides, a definition what its body names besides, a declared type what its
# fields name and what a clause sees of it. What is needed is followed to its end.

# ---- texts and names

# The names of a text, each between two spaces: without comments, strings, brackets and what only the writing needs.
function names(text) {
    gsub(/"[^"]*"/, " ", text)
    gsub(/«|»/, "", text)
    gsub(/[][(){},;:&<>=|*!]/, " ", text)
    gsub(/\. /, " ", text)
    return text
}

# An operator is used without the places of its operands.
function as_written(name) {
    gsub(/^(_|◌)|(_|◌)$/, "", name)
    return name
}

# The crate of a module's name as `use` has it: Rattle.CRATE.specs.FILE or Rattle.CRATE.proofs.FILE.
function crate_of(module, parts) {
    split(module, parts, ".")
    return parts[2]
}

# The crate of a file.
function crate_at(path, parts) {
    split(path, parts, "/")
    return parts[2]
}

# What a `use` line's module is: a file of specs/ or proofs/, a declared type, or a module of the kit.
function target(module, parts, n) {
    n = split(module, parts, ".")
    if (parts[1] != "Rattle" || !(parts[2] in is_own)) return "kit " module
    if (parts[4] == "declared") return "type " parts[2] " " (parts[n] == "TheVariants" ? parts[n - 1] : parts[n])
    return "file crates/" parts[2] "/" parts[3] "/" parts[n] ".antt"
}

# Keeps a line `use MODULE.{NAME, NAME as OTHER}` or `use MODULE as NAME` of a file.
function import(file, line, module, list, parts, words, n, i) {
    sub(/;$/, "", line)
    if (line ~ /\.\{/) {
        module = list = line
        sub(/\.\{.*/, "", module)
        sub(/.*\.\{/, "", list)
        sub(/\}.*/, "", list)
        n = split(list, parts, ", *")
        for (i = 1; i <= n; i++) {
            split(parts[i], words, " ")
            imported[file, as_written(words[2] == "as" ? words[3] : words[1])] = target(module) " " as_written(words[1])
        }
    } else if (split(line, words, " ") == 3 && words[2] == "as") alias[file, words[3]] = target(words[1])
}

# Keeps the types that a line `use CRATE::TYPE;` or `use CRATE::{TYPE, ..};` of Rattle brings in.
function import_types(file, line, crate, from, parts, n, i) {
    from = name_after("^use ", line)
    sub(/^use .*::/, "", line)
    n = split(line, parts, /[{}, ;]+/)
    for (i = 1; i <= n; i++) if (parts[i] ~ /^[A-Z]/) imported[file, parts[i]] = "type " (from == "crate" ? crate : from) " " parts[i]
}

# The name that stands after a pattern.
function name_after(pattern, text) {
    sub(pattern, "", text)
    sub(/[^A-Za-z0-9_].*/, "", text)
    return text
}

# ---- reading

BEGIN { for (i = 1; i < ARGC; i++) if (split(ARGV[i], parts, "/") > 2) is_own[parts[2]] = 1 }

FNR == 1 {
    current = rust_use = ""
    comments = level = in_telescope = 0
    in_title = 1
}

# A declaration of specs/ or proofs/ begins. What stands in `module _ (..) where` around it belongs to its statement.
function begin(file, name, kind, i) {
    current = "file " file " " name
    is_plain[current] = (kind == "")
    in_statement = 1
    in_file[file, ++count[file]] = current
    name_of[current] = name
    by_name[name] = by_name[name] "\n" current
    for (i = 0; i < level; i++) statement[current] = statement[current] " " telescope[i]
    file_of[current] = file
    lines[current] = comments
}

# A line that is not indented within its module: it begins a declaration or an equation, or goes on with one. Gives what is to be kept of it.
function outer_line(text, kind, name) {
    while (match(text, /^(pub|abbrev|unfoldable|record|data) /)) {
        if (substr(text, 1, RLENGTH) != "pub ") kind = kind substr(text, 1, RLENGTH)
        text = substr(text, RLENGTH + 1)
    }
    name = text
    sub(/ .*/, "", name)
    name = as_written(name)
    if (name == "unfolding") return ""
    if (name == name_of[current]) in_statement = 0
    else if (text ~ (kind ~ /record|data/ ? " :( |$)" : "^[^ ]+ :( |$)")) begin(FILENAME, name, kind)
    return text
}

FILENAME ~ /\.antt$/ {
    total[FILENAME] = FNR
    text = $0
    if (in_title && text ~ /^-- /) { title[FILENAME] = title[FILENAME] substr(text, 3); next }
    in_title = 0
    if (text ~ /^ *--/) { comments++; next }
    if (text ~ /^ *$/) { comments = 0; next }
    sub(/ -- .*/, "", text)
    match(text, /^ */)
    indent = RLENGTH
    if (!in_telescope) while (indent < 2 * level) level--
    if (text ~ /^((unfoldable )?pub )?use /) { sub(/^.*use /, "", text); import(FILENAME, text); comments = 0; next }
    if (text ~ /^ *module /) { telescope[level++] = text; in_telescope = (text !~ / where$/); comments = 0; next }
    if (in_telescope) { telescope[level - 1] = telescope[level - 1] " " text; in_telescope = (text !~ /(^| )where$/); next }
    if (indent == 2 * level) { text = outer_line(substr(text, indent + 1)); comments = 0 }
    if (current == "") next
    if (in_statement) statement[current] = statement[current] " " text
    else body[current] = body[current] " " text
    lines[current]++
    next
}

# A source of Rattle: its types, and the contracts of its functions.
FILENAME ~ /\.rt$/ {
    text = $0
    crate = crate_at(FILENAME)
    if (text ~ /^ *ghost use /) { sub(/^ *ghost use /, "", text); import(FILENAME, text); next }
    if (text ~ /^use / || rust_use != "") {
        rust_use = rust_use text
        if (text ~ /;/) { import_types(FILENAME, rust_use, crate); rust_use = "" }
        next
    }
    if (text ~ /^ *\/\//) { comments++; next }
    if (text ~ /^ *#\[/) next
    if (text ~ /^ *$/) { comments = 0; next }
    if (text ~ /^mod /) is_private["crates/" crate "/src/" name_after("^mod ", text) ".rt"] = 1
    if (text ~ /^(pub )?(struct|enum) /) {
        name = name_after("^(pub )?(struct|enum) ", text)
        current = "type " crate " " name
        name_of[current] = name
        file_of[current] = FILENAME
        lines[current] = comments
        types[FILENAME, ++type_count[FILENAME]] = current
        is_hidden[current] = (text !~ /^pub /)
    } else if (text ~ /^impl(<[^>]*>)? Model for /) {
        # what a clause sees of a value of the type
        current = "type " crate " " name_after("^impl(<[^>]*>)? Model for ", text)
        lines[current] += comments
    } else if (text ~ /^impl(<[^>]*>)? From<.* for /) {
        conversion = text
    } else if (conversion != "") {
        # its clause is a ghost member, to the semicolon that ends it
        if (text ~ /^ *ghost /) { in_clause = 1; sub(/^ *ghost [a-z_]+ = /, "", text) }
        if (in_clause) convert(crate, conversion, text)
        if (text ~ /;$/) in_clause = 0
        if (text ~ /^}/) conversion = ""
        text = ""
    } else if (text ~ /^impl/) {
        self_type = "type " crate " " name_after("^impl(<[^>]*>)? ", text)
    } else if (text ~ /^ *pub ([A-Za-z"]+ )*fn /) {
        name = name_after("^.*fn ", text)
        current = "contract " FILENAME " " name
        if (text ~ /^ /) type_of[current] = self_type
        file_of[current] = FILENAME
        contracts[name] = contracts[name] "\n" current
        functions[++function_count] = current
    }
    comments = 0
    if (current == "") next
    # the name of a function, of a parameter or a field, and of a clause stand for nothing else
    sub(/ fn [A-Za-z0-9_]+/, " ", text)
    sub(/^ *(requires|ensures)( [a-z0-9_]+)? \{/, " {", text)
    gsub(/[a-z0-9_]+: /, " ", text)
    statement[current] = statement[current] " " text
    lines[current]++
    # a type ends with its bracket, a contract where the body begins
    if (text ~ /^}/ || (current ~ /^contract/ && text ~ /\{$/)) current = ""
    next
}

# A line of the clause of a conversion `impl From<A> for B`. A type that is not exported has no conversion that is.
function convert(crate, head, text, from, to, node) {
    from = name_after("^.* From<", head)
    to = name_after("^.* for ", head)
    if (is_hidden["type " crate " " from] || is_hidden["type " crate " " to]) return
    node = "contract " FILENAME " " from " " to
    if (!(node in file_of)) functions[++function_count] = node
    file_of[node] = FILENAME
    statement[node] = statement[node] " " text
}

# docs/CLAIMS.md, without the table itself. A name is looked for first in the crates that stand beside it.
/<!-- definitions/ { skipping = 1 }
/<!-- end of definitions/ { skipping = 0 }
skipping { next }
/^\|/ {
    split($0, column, "|")
    if (!in_table) where = column[2] == " function " ? 2 : column[3] == " theorem " ? 3 : 0
    in_table = 1
    if (where) claim(column[where], where == 2 ? "functions" : "names")
    next
}
{ in_table = 0; claim($0, "") }

# In a text only names with their crate count: `a`, `b` and `c` (crates/..).
function claim(text, column_of, parts, n, i, after) {
    n = split(text, parts, "`")
    for (i = 2; i <= n; i += 2) {
        after = i + 1
        while (parts[after] ~ /^(,| and|, and) $/) after += 2
        sub(/.*::/, "", parts[i])
        if (parts[i] !~ /^[A-Za-z][A-Za-z0-9_-]*$/ || !(column_of != "" || parts[after] ~ /^ \(crates\//)) continue
        claimed[++claims] = parts[i]
        beside[claims] = text
        is_function[claims] = (column_of == "functions")
    }
}

# ---- following

function need(what) {
    if (what in needed) return
    if (what ~ /^kit /) { split(what, kit_name, " "); if (!kit[kit_name[2]]++) kit_list[++kit_count] = kit_name[2]; return }
    if (!(what in file_of)) return
    needed[what] = 1
    todo[++ends] = what
}

# The node of a name of a file of specs/, which can have it from another file.
function found(file, name, as) {
    as = "file " file " " name
    if (as in file_of) return as
    return (file, name) in imported ? resolved(imported[file, name]) : ""
}

function resolved(node, parts) {
    split(node, parts, " ")
    if (parts[1] == "file") return found(parts[2], parts[3])
    if (parts[1] == "type") return "type " parts[2] " " parts[3]
    return node
}

# The node that a name means in a file. In `x.field` it is that of `x`, but where `x` is a module that has another name here.
function meant(file, name, from) {
    from = name
    sub(/\..*/, "", from)
    if (from != name && (file, from) in alias) return resolved(alias[file, from] " " substr(name, length(from) + 2))
    if (("file " file " " from) in file_of) return "file " file " " from
    if ((file, from) in imported) return resolved(imported[file, from])
    if (file ~ /\.rt$/) return "type " crate_at(file) " " from
    return ""
}

function follow(what, parts, n, i) {
    if (what in type_of) need(type_of[what])
    n = split(names(statement[what] (is_law[what] ? "" : body[what])), parts, " ")
    for (i = 1; i <= n; i++) need(meant(file_of[what], parts[i]))
}

# A function's name stands for its contract. A name that several files have is that of the crates named beside it, if one of them is.
function root(name, text, function_only, parts, n, i, is_beside) {
    n = split(substr(contracts[name] (function_only ? "" : by_name[name]), 2), parts, "\n")
    if (!n) { print "docs/CLAIMS.md names `" name "`, which no crate has" >"/dev/stderr"; failed = 1 }
    for (i = 1; i <= n; i++) if (is_named_in(parts[i], text)) is_beside = 1
    for (i = 1; i <= n; i++) {
        if (is_beside && !is_named_in(parts[i], text)) continue
        is_law[parts[i]] = is_plain[parts[i]]
        need(parts[i])
    }
}

function is_named_in(what, text) {
    return text ~ ("crates/" crate_at(file_of[what]) "[^a-z_0-9]")
}

# ---- printing

function first_sentence(text) {
    sub(/\. .*/, "", text)
    sub(/^ */, "", text)
    sub(/\.$/, "", text)
    return text
}

function print_file(file, i, what, read, names_read, part) {
    for (i = 1; i <= count[file]; i++) {
        what = in_file[file, i]
        if (!(what in needed) || is_law[what]) continue
        read += lines[what]
        names_read = names_read (names_read == "" ? "" : ", ") "`" name_of[what] "`"
        part++
    }
    if (!part) return
    files_read++
    if (part == count[file]) { lines_read += total[file]; printf "| %s | %s | %d |\n", first_sentence(title[file]), file, total[file] }
    else { lines_read += read; printf "| %s: only %s | %s | %d of %d |\n", first_sentence(title[file]), names_read, file, read, total[file] }
}

function print_types(file, i, what, read, names_read) {
    for (i = 1; i <= type_count[file]; i++) {
        what = types[file, i]
        if (!(what in needed)) continue
        read += lines[what]
        names_read = names_read (names_read == "" ? "" : ", ") "`" name_of[what] "`"
    }
    if (names_read == "") return
    files_read++
    lines_read += read
    printf "| declared: %s | %s | %d |\n", names_read, file, read
}

END {
    for (i = 1; i <= function_count; i++) if (!(file_of[functions[i]] in is_private)) need(functions[i])
    for (i = 1; i <= claims; i++) root(claimed[i], beside[i], is_function[i])
    if (failed) exit 1
    for (done = 1; done <= ends; done++) follow(todo[done])
    print "| what | file | lines |"
    print "|---|---|---|"
    for (i = 1; i < ARGC; i++) {
        if (ARGV[i] ~ /\.rt$/) print_types(ARGV[i])
        else if (ARGV[i] ~ /\.antt$/) print_file(ARGV[i])
    }
    print ""
    printf "%d files, %d lines. From the toolchain\047s library they use", files_read, lines_read
    sort_kit()
    for (i = 1; i <= kit_count; i++) printf "%s %s", (i > 1 ? "," : ""), kit_list[i]
    print "."
}

function sort_kit(i, j, name) {
    for (i = 2; i <= kit_count; i++) {
        name = kit_list[i]
        for (j = i; j > 1 && kit_list[j - 1] > name; j--) kit_list[j] = kit_list[j - 1]
        kit_list[j] = name
    }
}
