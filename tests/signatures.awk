# Writes the exported functions of a source as C declarations, one to a line: of crates/collector (Rattle), where lent words are one
# parameter, and of the extern block of the Rust crate, where they are two. A part of a table is a struct in C and in the Rust crate, and in
# Rattle lent words again.

# the length that goes with lent words: of 'list' it is 'list_words', of 'records' 'record_words'
function length_name(name) {
    if (name == "table") return "words"
    sub(/s$/, "", name)
    return name "_words"
}

function array_words(type) {
    gsub(/^.*; |\]$/, "", type)
    return type
}

function c_parameter(name, type) {
    # how long words are lent is not said in C
    gsub(/'[a-z]+ /, "", type)
    if (type == "u64") return "uint64_t " name
    if (type == "usize") return "size_t " name
    if (type == "&mut u64" || type == "*mut u64") return "uint64_t *" name
    if (type == "*const u64") return "const uint64_t *" name
    if (type ~ /^[&*]mut \[u64; [0-9]+\]$/) return "uint64_t " name "[" array_words(type) "]"
    if (type == "&mut [u64]") return "uint64_t *" name ", size_t " length_name(name)
    if (type == "&[u64]") return "const uint64_t *" name ", size_t " length_name(name)
    # in Rattle the name 'part' is taken, by the function that answers with one
    if (type == "&mut &[u64]") return "struct ragansils_part *" (name == "out" ? "part" : name)
    if (type == "*mut TablePart") return "struct ragansils_part *" name
    return "a type that is not known, " type
}

function c_result(type) {
    if (type == "") return "void"
    return type == "u64" ? "uint64_t" : "a type that is not known, " type ","
}

function c_declaration(text,    name, result, parameters, count, i, parts, line) {
    name = text
    sub(/[<(].*/, "", name)
    result = text
    sub(/^[^)]*\)( -> )?/, "", result)
    sub(/^[^(]*\(/, "", text)
    sub(/,? *\).*/, "", text)
    count = split(text, parameters, /, */)
    for (i = 1; i <= count; i++) {
        split(parameters[i], parts, /: */)
        line = line (i > 1 ? ", " : "") c_parameter(parts[1], parts[2])
    }
    return c_result(result) " " name "(" line ");"
}

{ source = source $0 " " }

END {
    gsub(/[ \t]+/, " ", source)
    gsub(/\( /, "(", source)
    while (match(source, /fn ragansils_[a-z0-9_]+(<[^>]*>)?\([^)]*\)( -> [^ ;]+)?/)) {
        print c_declaration(substr(source, RSTART + 3, RLENGTH - 3))
        source = substr(source, RSTART + RLENGTH)
    }
}
