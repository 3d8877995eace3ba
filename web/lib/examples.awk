# Prints text files as one JSON object: file name to text. Every `<` is written as \u003c, so that the object may be inside a script element.

# Returns a text as JSON has it.
function quoted(text) {
    gsub(/\\/, "\\\\", text)
    gsub(/"/, "\\\"", text)
    gsub(/\t/, "\\t", text)
    gsub(/\r/, "\\r", text)
    gsub(/</, "\\u003c", text)
    return text
}

BEGIN { printf "{" }
FNR == 1 {
    name = FILENAME
    sub(/.*\//, "", name)
    printf "%s\"%s\":\"", (started++ ? "\",\n" : ""), quoted(name)
}
{ printf "%s\\n", quoted($0) }
END { print (started ? "\"}" : "}") }
