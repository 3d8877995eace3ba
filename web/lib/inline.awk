# Prints an ES module and all that it imports as one text. Each module becomes a function that is called once and returns what the module exports.
# entry: the file. kind: `module` (the text exports what the entry exports) or `script` (the entry is not wrapped, and exports nothing).
#
# Modules keep to a few forms: imports `import { a, b as c } from './x.mjs';` and exports `export function|async function|function*|class|const NAME ..` or
# `export { a } from './x.mjs';`, each at the start of a line. Anything else ends with status 1.

function fail(file, words) {
    print "inline.awk: " file ": " words > "/dev/stderr"
    failed = 1
    exit 1
}

# Returns a path without `.` and `..` in it.
function plain(path,    parts, count, k, kept, n, text) {
    count = split(path, parts, "/")
    n = 0
    for (k = 1; k <= count; k++) {
        if (parts[k] == "." || (parts[k] == "" && k > 1)) continue
        if (parts[k] == ".." && n > 0 && kept[n] != "..") { n--; continue }
        kept[++n] = parts[k]
    }
    text = kept[1]
    for (k = 2; k <= n; k++) text = text "/" kept[k]
    return text
}

# Returns the file that an import in `file` names.
function resolved(file, statement,    from) {
    if (!match(statement, /from '\.[^']*'/)) fail(file, "not understood: " statement)
    from = substr(statement, RSTART + 6, RLENGTH - 7)
    sub(/[^\/]*$/, "", file)
    return plain(file from)
}

# Returns what is between the braces of a statement, without a last comma.
function braced(file, statement,    inner) {
    if (!match(statement, /\{[^}]*\}/)) fail(file, "not understood: " statement)
    inner = substr(statement, RSTART + 1, RLENGTH - 2)
    gsub(/[ \t]+/, " ", inner)
    gsub(/^ | ?,? $/, "", inner)
    return inner
}

# Returns a line that binds the names of an import: `a as b` becomes `a: b`.
function binding(names, id) {
    gsub(/ as /, ": ", names)
    return "const { " names " } = " id ";"
}

# Adds a name to what a module exports, with the value that it has there.
function exporting(file, name, value,    comma) {
    comma = exports[file] == "" ? "" : ", "
    exports[file] = exports[file] comma name
    values[file] = values[file] comma (name == value ? name : name ": " value)
}

# Adds the names of an `export { a, b as c } from ..`.
function passing_on(file, names, id,    parts, count, k, words) {
    count = split(names, parts, / ?, ?/)
    for (k = 1; k <= count; k++) {
        if (split(parts[k], words, " ") == 3) exporting(file, words[3], id "." words[1])
        else exporting(file, parts[k], id "." parts[k])
    }
}

# Reads a module and all that it imports, the imported ones first, and prints each once.
function visit(file,    line, statement, body, from, names, id, is_entry) {
    if (state[file] == 2) return
    if (state[file] == 1) fail(file, "modules import each other in a cycle")
    state[file] = 1
    body = ""
    while ((status = (getline line < file)) > 0) {
        if (line ~ /^import[ {]/ || line ~ /^export \{/) {
            statement = line
            while (statement !~ /;[ \t]*$/ && (getline line < file) > 0) statement = statement " " line
            if (statement ~ /\* as |^import [^{]/) fail(file, "not understood: " statement)
            from = resolved(file, statement)
            visit(from)
            names = braced(file, statement)
            if (statement ~ /^export/) passing_on(file, names, ids[from])
            else body = body binding(names, ids[from]) "\n"
        } else if (line ~ /^export /) {
            sub(/^export /, "", line)
            if (!match(line, /^(async )?(function ?\*?|class|const) ?[A-Za-z_$][A-Za-z0-9_$]*/)) fail(file, "not understood: export " line)
            names = substr(line, 1, RLENGTH)
            sub(/.*[ *]/, "", names)
            exporting(file, names, names)
            body = body line "\n"
        } else {
            body = body line "\n"
        }
    }
    if (status < 0) fail(file, "cannot be read")
    close(file)
    state[file] = 2
    ids[file] = id = "module_" (++count)
    is_entry = file == plain(entry)
    if (is_entry && kind == "script") {
        printf "%s", body
        return
    }
    printf "const %s = (() => {\n%sreturn { %s };\n})();\n", id, body, values[file]
    if (is_entry) printf "export const { %s } = %s;\n", exports[file], id
}

BEGIN {
    visit(plain(entry))
    exit failed
}
