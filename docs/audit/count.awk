# Reads the names of the statements, then a list of specifications and of C calls. Splits each specification into its declarations, follows the names
# in each statement and each contract to their definitions, and counts declarations and lines. Comments and blank lines are not counted. A bound
# variable that has the name of a definition counts as that definition, so the figures are upper bounds.

FNR == NR { root[++roots] = $0; next }
{ if ($0 ~ /\.rt$/) calls[++call_files] = $0; else files[++file_count] = $0 }

END {
    for (k = 1; k <= file_count; k++) { split(files[k], parts, "/"); is_crate[parts[2]] = 1 }
    read_prelude("crates/laws/specs/Prelude.antt")
    for (k = 1; k <= file_count; k++) read_file(files[k])
    print_row("", "files", "texts", "lines")
    for (k = 1; k <= roots; k++) read_root(root[k])
    lines = print_definitions("these statements")
    print_row("statements", "", statement_count, statement_lines)
    if (call_files > 0) lines += count_calls()
    print_row("lines to believe", "", "", lines + statement_lines)
    for (name in library) names++
    print_row("names of the toolchain's library", "", names, "")
    printf "%s", listing
}

# ---- reading

# Returns the specification of a module of one of our crates, `Rattle.rules.specs.Groups.Marks`; "" for a module of the toolchain's library.
function file_of(module,    parts) {
    if (module !~ /^Rattle\./) return ""
    split(module, parts, ".")
    if (!(parts[2] in is_crate)) return ""
    sub(/^Rattle\./, "", module)
    gsub(/\./, "/", module)
    return "crates/" module ".antt"
}

# Records which module of the toolchain's library each name of the prelude comes from.
function read_prelude(file,    line, module, names, count, k) {
    while ((getline line < file) > 0) {
        if (line !~ /^pub use .*\{/) continue
        module = line
        sub(/^pub use /, "", module)
        sub(/\.\{.*/, "", module)
        sub(/^[^{]*\{/, "", line)
        sub(/\}.*/, "", line)
        count = split(line, names, /, */)
        for (k = 1; k <= count; k++) {
            sub(/.* as /, "", names[k])
            passed_on[names[k]] = module
        }
    }
    close(file)
}

# Records where the names of a `use` line come from.
function read_use(file, line,    module, source, names, count, k) {
    if (line !~ /\{/) return
    sub(/^(ghost )?use /, "", line)
    module = line
    sub(/\.\{.*/, "", module)
    sub(/^[^{]*\{/, "", line)
    sub(/\}.*/, "", line)
    count = split(line, names, /, */)
    for (k = 1; k <= count; k++) {
        source = module ~ /\.Prelude$/ && names[k] in passed_on ? passed_on[names[k]] : module
        from[file, names[k]] = file_of(source)
        module_of[file, names[k]] = source
    }
}

# Begins a declaration.
function declare(file, name, kind, number, is_inner) {
    current = file SUBSEP name
    if (current in kind_of) return
    kind_of[current] = kind
    place_of[current] = file ":" number
    inner[current] = is_inner
    part = "head"
}

# Adds a line to the head (the statement) or to the body of the current declaration.
function add(line) {
    if (current == "") return
    if (part == "head") { head[current] = head[current] "\n" line; head_lines[current]++ }
    else { body[current] = body[current] "\n" line; body_lines[current]++ }
}

# Records the constructors and the fields of a line under their type.
function own(file, line,    names, count, k) {
    sub(/^(pub )?/, "", line)
    sub(/ : .*/, "", line)
    count = split(line, names, " ")
    for (k = 1; k <= count; k++) owner[file, names[k]] = current
}

# Reads a specification. `depth` is the indentation of its declarations, which is more inside a `module _ (..) where`.
function read_file(file,    line, number, indent, rest, kind, words, in_module, depth) {
    current = ""; depth = 0
    while ((getline line < file) > 0) {
        number++
        if (line ~ /^ *--/ || line ~ /^ *$/) continue
        if (line ~ /^use /) { read_use(file, line); continue }
        match(line, /^ */); indent = RLENGTH
        rest = substr(line, indent + 1)
        if (!in_module && indent < depth) { depth = indent; current = "" }
        if (indent <= depth && rest ~ /^module _/) { in_module = 1; current = "" }
        if (in_module) {
            module_text[file] = module_text[file] "\n" line
            module_lines[file]++
            if (line ~ / where$/) { in_module = 0; depth += 2 }
            continue
        }
        if (indent == depth && rest ~ /^((pub|unfoldable|abbrev) )*((record|data) |[^ ]+ : )/) {
            kind = rest ~ /^(pub )?(record|data) / ? "type" : rest ~ /^(unfoldable|abbrev) / ? "definition" : "plain"
            sub(/^((pub|unfoldable|abbrev|record|data) )*/, "", rest)
            split(rest, words, " ")
            declare(file, words[1], kind, number, depth > 0)
        } else if (indent == depth) part = "body"
        else if (kind_of[current] == "type" && rest ~ /^(pub )?[^ ]+( [^ :]+)* : /) own(file, rest)
        add(line)
    }
    close(file)
}

# ---- following names

# Returns whether a plain declaration is a law: its type says that something holds.
function is_law(key) {
    return kind_of[key] == "plain" && head[key] ~ /≡|≤|≢|↔|⊥| < /
}

# Counts a declaration once, and follows the names in it. Of a statement and of a law only the head counts.
function reach(key, is_statement,    file, text, parts, lines, what) {
    if (key in reached) return
    reached[key] = 1
    split(key, parts, SUBSEP); file = parts[1]
    text = head[key]; lines = head_lines[key]
    what = is_statement ? "statement" : is_law(key) ? "law" : "definition"
    if (what == "definition") {
        text = text "\n" body[key]; lines += body_lines[key]
        definitions[file]++; definition_lines[file] += lines
    } else { statement_count++; statement_lines += lines }
    if (every != "") listing = listing sprintf("%-10s %3d %s %s\n", what, lines, place_of[key], parts[2])
    if (inner[key]) reach_module(file)
    follow(file, text)
}

# Counts and follows the parameters of a file's modules, once.
function reach_module(file) {
    if (file in reached_module) return
    reached_module[file] = 1
    definition_lines[file] += module_lines[file]
    definitions[file] += 0
    follow(file, module_text[file])
}

# Follows the names of a text in a file.
function follow(file, text,    words, count, k) {
    gsub(/λ|⌜|⌝|[(){}\[\];,:."]/, " ", text)
    count = split(text, words, /[ \n]+/)
    for (k = 1; k <= count; k++) follow_name(file, words[k])
}

# Follows one name: to its declaration in the file or in the file that it is taken from, or to the type that it belongs to. A type of the code has its
# declaration there.
function follow_name(file, name,    source) {
    if (!((file, name) in from) && (file, "◌" name "◌") in from) name = "◌" name "◌"
    source = (file, name) in from ? from[file, name] : file
    if (source == "") library[module_of[file, name] "." name] = 1
    else if (source ~ /\/declared\//) return
    else if ((source, name) in kind_of) reach(source SUBSEP name, 0)
    else if ((file, name) in from && (source, name) in owner) reach(owner[source, name], 0)
}

# ---- statements and contracts

# Counts a statement, given as `name crate/Folder/File`. A definition among them counts as one. A theorem may stand in the file of that name in proofs/.
function read_root(words_of_root,    words, file) {
    split(words_of_root, words, " ")
    file = words[2]; sub(/\//, "/specs/", file); file = "crates/" file ".antt"
    if (!((file, words[1]) in kind_of)) sub(/\/specs\//, "/proofs/", file)
    if ((file, words[1]) in kind_of) reach(file SUBSEP words[1], kind_of[file, words[1]] == "plain")
}

# Counts the contract of a C call: the lines from `extern "C"` to the line `{`.
function read_call(file,    line, on, text) {
    while ((getline line < file) > 0) {
        if (line ~ /^ghost use /) read_use(file, line)
        if (line ~ /extern "C"/) { on = 1; call_count++ }
        if (line == "{") on = 0
        if (on) { text = text "\n" line; call_lines++ }
    }
    close(file)
    follow(file, text)
}

# Counts the contracts of all C calls and the definitions that only they need, and returns their lines.
function count_calls(    k, lines) {
    for (k = 1; k <= call_files; k++) read_call(calls[k])
    lines = print_definitions("the C calls, more")
    print_row("contracts of the C calls", call_files, call_count, call_lines)
    return lines + call_lines
}

# ---- the table

# Prints a row.
function print_row(what, in_files, count, lines) {
    printf "%-34s %5s %6s %6s\n", what, in_files, count, lines
}

# Prints the definitions that were reached since the last time, by crate, and returns their lines.
function print_definitions(whose,    k, file, name, crates, order, seen, files_in, count_in, lines_in, all_files, all_count, all_lines) {
    for (k = 1; k <= file_count; k++) {
        file = files[k]
        if (!(file in definitions)) continue
        split(file, parts, "/"); name = parts[2]
        if (!(name in seen)) { seen[name] = 1; order[++crates] = name }
        files_in[name]++; count_in[name] += definitions[file]; lines_in[name] += definition_lines[file]
        all_files++; all_count += definitions[file]; all_lines += definition_lines[file]
        delete definitions[file]; delete definition_lines[file]
    }
    for (k = 1; k <= crates; k++) print_row("definitions in crates/" order[k], files_in[order[k]], count_in[order[k]], lines_in[order[k]])
    print_row("definitions for " whose, all_files, all_count, all_lines)
    return all_lines
}
