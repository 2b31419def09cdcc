# Writes every command of shell scripts that is named by a path or a variable, or that starts another, as 'FILE:LINE: COMMAND'; with
# '-v every=1' all commands. Reads as much of the shell's grammar as the scripts of this repository use: quotes, comments,
# substitutions, lists, pipes, redirections and patterns of 'case'. What it does not read it writes too: backticks, here-documents, and
# a quote or parenthesis that is still open at the end of a file.

BEGIN {
    count = split("bash env eval flock nice nohup perf setsid sh stdbuf strace sudo taskset timeout valgrind xargs", list, " ")
    for (i = 1; i <= count; i++) starts_another[list[i]] = 1
    # a command may come behind these
    count = split("if then else elif do while until ! { } time exec command quietly", list, " ")
    for (i = 1; i <= count; i++) before_command[list[i]] = 1
}

function tell(what) {
    printf "%s:%d: %s\n", FILENAME, FNR, what
}

function end_word() {
    if (word == "") return
    if (word == "-exec") tell(word)
    if (is_target) is_target = 0
    else if (in_pattern) in_pattern = word != "esac"
    else if (!expected) in_pattern = command == "case" && word == "in"
    else if (!(word in before_command) && word !~ /^[A-Za-z_][A-Za-z0-9_]*=/) {
        if (every || word ~ /^"?\$/ || word ~ /\// || word in starts_another) tell(word)
        command = word
        expected = 0
    }
    word = ""
}

function end_command() {
    end_word()
    expected = 1
    is_target = 0
}

# a substitution begins: what stands around it is kept until it ends
function enter() {
    depth++
    kept_word[depth] = word
    kept_command[depth] = command
    kept_expected[depth] = expected
    kept_quote[depth] = quote
    kept_parts[depth] = parts
    word = command = quote = ""
    expected = 1
    parts = 0
}

function leave() {
    end_command()
    word = kept_word[depth] "$()"
    command = kept_command[depth]
    expected = kept_expected[depth]
    quote = kept_quote[depth]
    parts = kept_parts[depth]
    depth--
}

function close_parenthesis() {
    if (in_pattern) { word = ""; in_pattern = 0; expected = 1 }
    else if (parts > 0) { end_command(); parts-- }
    else leave()
}

function redirection(next_character) {
    if (word ~ /^[0-9]$/) word = ""
    end_word()
    is_target = 1
    if (next_character == "<") tell("<<")
    return next_character ~ /[&<>]/ ? 2 : 1
}

# reads what stands at this place outside quotes, and says how many characters that is
function read_plain(line, at,    c, two) {
    c = substr(line, at, 1)
    two = substr(line, at, 2)
    if (c == "'") { quote = c; return 1 }
    if (c == "#" && word == "") return length(line)
    if (c == " " || c == "\t") { end_word(); return 1 }
    if (c == "<" || c == ">") return redirection(substr(two, 2))
    if (c == "(") { word = ""; parts++; expected = 1; return 1 }
    if (c == ")") { close_parenthesis(); return 1 }
    if (two == ";;") { end_command(); in_pattern = 1; return 2 }
    if (in_pattern && c == "|") { end_word(); return 1 }
    if (c == ";" || c == "|" || c == "&") { end_command(); return 1 }
    word = word c
    return 1
}

# the same wherever it stands
function read(line, at,    c, rest) {
    c = substr(line, at, 1)
    rest = substr(line, at)
    if (quote == "'") { if (c == "'") quote = ""; else word = word c; return 1 }
    if (c == "`") tell(c)
    if (c == "\\") { if (rest != c) word = word substr(rest, 1, 2); return 2 }
    if (rest ~ /^\$\(\(/) { word = word "$(())"; return index(rest, "))") + 1 }
    if (rest ~ /^\$\(/) { enter(); return 2 }
    if (rest ~ /^\$\{/) { word = word substr(rest, 1, index(rest, "}")); return index(rest, "}") }
    if (c == "\"") { word = word c; quote = quote == "" ? c : ""; return 1 }
    if (quote == "\"") { word = word c; return 1 }
    return read_plain(line, at)
}

function begin_file() {
    if (quote != "" || depth || parts || in_pattern) printf "%s: not read to its end\n", before
    before = FILENAME
    word = command = quote = ""
    depth = parts = is_target = in_pattern = 0
    expected = 1
}

FNR == 1 { begin_file() }
{
    for (at = 1; at <= length($0);) at += read($0, at)
    if (quote == "" && $0 !~ /\\$/) end_command()
}
END { begin_file() }
