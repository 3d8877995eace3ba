# Prints a page with everything inside: its style sheets, its scripts and the library. The template has these elements, each on a line of its own:
#   <style data-inline="NAME.css"></style>                        that file beside the template
#   <script type="module" data-inline="main.mjs"></script>        the text in parts/main
#   <script type="text/plain" id="sitgurp-wasm"></script>         the text in parts/wasm
#   <script type="application/json" id="sitgurp-examples" data-inline="examples"></script>    the text in parts/examples
# A text that would end its element too early ends this with status 1.

function fail(words) {
    print "page.awk: " words > "/dev/stderr"
    failed = 1
    exit 1
}

# Prints a file between two tags.
function put(opening, file, closing,    line, status) {
    printf "%s", opening
    while ((status = (getline line < file)) > 0) {
        if (tolower(line) ~ /<\/(script|style)|<!--/) {
            fail(file " has a tag in it: " substr(line, 1, 120))
        }
        print line
    }
    if (status < 0) fail(file ": cannot be read")
    close(file)
    print closing
}

/<style data-inline="[^"]*"><\/style>/ {
    match($0, /data-inline="[^"]*"/)
    put("<style>\n", folder "/" substr($0, RSTART + 13, RLENGTH - 14), "</style>")
    next
}
/<script type="module" data-inline="main.mjs"><\/script>/ { put("<script type=\"module\">\n", parts "/main", "</script>"); found++; next }
/<script type="text\/plain" id="sitgurp-wasm"><\/script>/ { put("<script type=\"text/plain\" id=\"sitgurp-wasm\">", parts "/wasm", "</script>"); found++; next }
/<script type="application\/json" id="sitgurp-examples" data-inline="examples"><\/script>/ {
    put("<script type=\"application/json\" id=\"sitgurp-examples\">", parts "/examples", "</script>")
    next
}
{ print }
END {
    if (failed) exit 1
    if (found != 2) fail("the template lacks the element for the script or for the library")
}
