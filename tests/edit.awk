# Makes the replacements of a must-fail edit in the files of a folder, as 'rt must-fail' does: each 'old:' text stands once in its file,
# after the replacements before it. With LC_ALL=C:
#   awk -v folder=FOLDER [-v part=NAME | -v within=FUNCTION] [-v where=PATTERN] -f tests/edit.awk EDIT
# 'part' takes those alone that stand behind the line 'program: NAME: ..' or 'rule: NAME: ..', up to the next such line; 'within' those
# whose text stands in that function of src/. 'where' names the files that may be edited, and 'except' those of them that may not.
# Exit status 1, with nothing written, where a replacement cannot be made or there is none.

function fail(why) {
    printf "%s: %s\n", FILENAME, why >"/dev/stderr"
    failed = 1
    exit 1
}

function load(path,    file, line, text) {
    file = folder "/" path
    while ((got = (getline line <file)) > 0) text = text line "\n"
    if (got < 0) fail("there is no file " path)
    close(file)
    texts[path] = text
}

# the function in whose text a place stands
function around(text, at,    lines, n, i, name) {
    n = split(substr(text, 1, at), lines, "\n")
    for (i = 1; i <= n; i++) {
        if (lines[i] ~ /^ *(pub )?(unsafe )?(extern "C" )?fn [a-z0-9_]+/) {
            name = lines[i]
            sub(/^.*fn /, "", name)
            sub(/[^a-z0-9_].*/, "", name)
        }
    }
    return name
}

/^(program|rule): / { block = $2; sub(/:$/, "", block); next }
/^file: / { path = substr($0, 7); next }
/^old: / { old = substr($0, 6); next }
/^new:/ {
    new = substr($0, 5)
    sub(/^ /, "", new)
    if (part != "" && block != part) next
    if (path == "" || old == "") fail("a 'new:' line stands before any 'file:' or 'old:' line")
    if (where != "" && path !~ where || except != "" && path ~ except) fail(path " is not to be edited here")
    if (!(path in texts)) load(path)
    at = index(texts[path], old)
    rest = substr(texts[path], at + length(old))
    if (!at || index(rest, old)) fail("an 'old:' text is not in " path ", or more than once: " old)
    if (within == "" || path ~ /^src\// && around(texts[path], at + length(old) - 1) == within) {
        texts[path] = substr(texts[path], 1, at - 1) new rest
        made++
    }
    old = ""
}
END {
    if (failed || !made) exit 1
    for (path in texts) {
        printf "%s", texts[path] >(folder "/" path)
        close(folder "/" path)
    }
}
