# Blanks one item of a database, byte for byte, so that every line keeps its place: with KEY in the environment, the entry that has
# this key; with `line`, `column` and `fault`, the item that the program couldn't read, from its `@` up to where the next begins.
# Then it also writes to the file REPORT what is wrong, in bibtex's shape, for the database called NAME. The names come by the
# environment, since awk reads `\` in its variables as an escape.
BEGIN {
    if (!line) key = ENVIRON["KEY"]
    report = ENVIRON["REPORT"]
    file = ENVIRON["NAME"]
}
{ text[NR] = $0 }

END {
    walk()
    if (!key && inside) {
        tell()
        find_next()
        blank(start_line, start_column, stop_line, stop_column)
    }
    for (i = 1; i <= NR; i++) print text[i]
}

# Goes over the bytes that count for where items begin and end.
function walk(    i, at, rest, byte) {
    for (i = 1; i <= NR; i++) {
        rest = text[i]
        at = 0
        while (match(rest, /[@{}"()]/)) {
            at += RSTART
            if (!key && (i > line || (i == line && at >= column))) return
            byte = substr(rest, RSTART, 1)
            rest = substr(rest, RSTART + 1)
            if (!inside) begin(byte, i, at, rest)
            else if (!closing) open(byte, i, at, rest)
            else pass(byte, i, at)
        }
    }
}

# An `@` outside of items begins one, but for that of `@comment`.
function begin(byte, i, at, rest) {
    if (byte != "@" || tolower(rest) ~ /^[ \t\r]*comment([^!$&*+.\/0-9:;<>?A-Z\[\\\]^_`a-z|~-]|$)/) return
    inside = 1
    closing = ""
    start_line = i
    start_column = at
}

# The opening brace or parenthesis of an item, behind which an entry has its key.
function open(byte, i, at, rest) {
    if (byte == "@") begin(byte, i, at, rest)
    if (byte != "{" && byte != "(") return
    closing = byte == "{" ? "}" : ")"
    depth = quoted = 0
    sub(/^[ \t\r]+/, "", rest)
    if (rest == "") rest = text[i + 1]
    sub(/^[ \t\r]+/, "", rest)
    sub(/[ \t\r,}].*/, "", rest)
    found = tolower(rest) == tolower(key)
}

# Braces and quotes within an item, up to what closes it.
function pass(byte, i, at) {
    if (byte == "\"" && depth == 0) quoted = !quoted
    else if (byte == "{") depth++
    else if (byte == "}" && depth > 0) depth--
    else if (byte == closing && depth == 0 && !quoted) {
        inside = 0
        if (key && found) blank(start_line, start_column, i, at)
    }
}

# Where the next item begins behind the fault, at an `@` that begins a line or that a word and an opening follow: blanks go up to
# the byte before.
function find_next(    i, skipped, rest) {
    for (i = line; fault != "EndOfFile" && i <= NR; i++) {
        skipped = i == line ? column - 1 : 0
        rest = substr(text[i], skipped + 1)
        if (match(rest, /@[ \t]*[A-Za-z]+[ \t]*[{(]/) || (i > line && match(rest, /^[ \t]*@/))) {
            stop_line = i
            stop_column = skipped + RSTART - 1
            return
        }
    }
    stop_line = NR
    stop_column = length(text[NR])
}

function blank(from_line, from_column, to_line, to_column,    i, first, last, middle) {
    for (i = from_line; i <= to_line; i++) {
        first = i == from_line ? from_column : 1
        last = i == to_line ? to_column : length(text[i])
        middle = substr(text[i], first, last - first + 1)
        gsub(/[^ \t\r]/, " ", middle)
        text[i] = substr(text[i], 1, first - 1) middle substr(text[i], last + 1)
    }
}

# What stands of the item before the fault, its lines joined, without white space at the end.
function before_fault(    i, joined) {
    for (i = start_line; i < line; i++) joined = joined substr(text[i], i == start_line ? start_column : 1) " "
    joined = joined substr(text[line], start_line == line ? start_column : 1, column - (start_line == line ? start_column : 1))
    sub(/[ \t\r]+$/, "", joined)
    return joined
}

# What bibtex says of a byte that stands directly behind a name, and else what it wants.
function follows(what, else_wants,    byte) {
    byte = substr(text[line], column, 1)
    if (column == 1 || byte == "" || substr(text[line], column - 1, 1) ~ /[ \t\r]/) return else_wants
    return "\"" byte "\" immediately follows " what
}

# What bibtex says where another byte has to stand, told by what stands before.
function expected(before,    kind, field) {
    kind = tolower(before)
    sub(/^@[ \t\r]*/, "", kind)
    sub(/[ \t\r{(].*/, "", kind)
    if (kind == "") return "You're missing an entry type"
    if (before !~ /[{(]/) return follows("an entry type", "I was expecting a `{' or a `('")
    if (before ~ /[=#]$/ || (kind == "preamble" && before ~ /[{(]$/)) return "You're missing a field part"
    if (kind == "string" && before ~ /[{(]$/) return "You're missing a string name"
    if (kind == "string" && before !~ /=/) return follows("a string name", "I was expecting an \"=\"")
    if (kind ~ /^(string|preamble)$/) return "Missing \"" closing "\" in " kind " command"
    if (before ~ /^@[^{(]*[{(]$/) return "You're missing an entry key"
    if (before ~ /,$/) return "You're missing a field name"
    field = before
    sub(/.*,/, "", field)
    if (before ~ /,/ && field ~ /^[ \t\r]*[^ \t\r={}"#]+$/) return follows("a field name", "I was expecting an \"=\"")
    sub(/.*[=#][ \t\r]*/, "", field)
    if (field ~ /^[^ \t\r{}"0-9][^ \t\r{}"]*$/) return follows("a field part", "I was expecting a `,' or a `" closing "'")
    return "I was expecting a `,' or a `" closing "'"
}

function tell(    words, read, rest, indent) {
    if (fault == "EndOfFile") {
        print "Illegal end of database file---line " (line > NR ? NR : line) " of file " file > report
        print "The entry that begins on line " start_line " isn't closed" > report
        return
    }
    read = substr(text[line], 1, column - 1)
    rest = substr(text[line], column)
    if (fault == "RepeatedKey") {
        words = "Repeated entry"
        match(rest, /^[^ \t\r,}]+/)
        read = read substr(rest, 1, RLENGTH)
        rest = substr(rest, RLENGTH + 1)
    } else if (fault == "Unbalanced") words = "Unbalanced braces"
    else words = expected(before_fault())
    indent = read
    gsub(/[^\t]/, " ", indent)
    print words "---line " line " of file " file > report
    print " : " read > report
    print " : " indent rest > report
    if (read ~ /^[ \t]*$/) print "(Error may have been on previous line)" > report
    print "I'm skipping whatever remains of this entry" > report
}
