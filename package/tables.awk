# Makes a man page of its source. These lines of a source are replaced by parts of other files:
#
#     .\" TABLE PAGE [COLUMNS] | HEAD | HEAD ..
#
# A table of a page, named by its first line. Each row becomes a paragraph: the first column, and indented the second;
# of a further column a line begins with its head. COLUMNS, as 2,4, takes only these, in that order. A row without a
# first column continues the paragraph before it.
#
#     .\" BLOCK PAGE WORD
#
# The first block of a page that begins with three grave accents and the word.
#
#     .\" FILE PATH
#
# A whole file, as an example.
#
#     .\" CALLS HEADER
#
# How to include a header, and the prototypes of its functions, without those whose names end in an underscore.
#
#     .\" COMMENT HEADER WORD
#
# The comment of a header that begins with the word. Lines that are indented by four spaces are code.
#
#     .\" STRUCT HEADER NAME
#
# The type of this name in a header, up to the fields that are its own.
#
#     .\" COMMANDS FILE
#
# The commands of a program, with the summaries that its help has: the texts NAME_ABOUT of that source.
#
# If there is nothing of the kind, this ends with status 1.

function fail(what) {
    print FILENAME ": " what > "/dev/stderr"
    failed = 1
    exit 1
}

# Writes a cell as text of a man page: code and bold text in bold, and a link as its text.
function cell(text,    out, bold, link) {
    gsub(/\\/, "\\e", text)
    while (match(text, /\[[^]]*\]\([^)]*\)/)) {
        link = substr(text, RSTART + 1, index(substr(text, RSTART), "](") - 2)
        text = substr(text, 1, RSTART - 1) link substr(text, RSTART + RLENGTH)
    }
    while (match(text, /`[^`]*`|\*\*[^*]*\*\*/)) {
        bold = substr(text, RSTART, RLENGTH)
        out = out substr(text, 1, RSTART - 1)
        text = substr(text, RSTART + RLENGTH)
        gsub(/`|\*\*/, "", bold)
        gsub(/-/, "\\-", bold)
        out = out "\\fB" bold "\\fR"
    }
    return out text
}

# Writes a text at the beginning of a line.
function line(text) {
    print (text ~ /^[.']/ ? "\\&" : "") text
}

function row(text, heads, columns, chosen,    cells, k, i) {
    sub(/^\| */, "", text)
    sub(/ *\|$/, "", text)
    split(text, cells, / *\| */)
    for (k = 1; k <= columns; k++) {
        i = chosen[k]
        if (k == 1) {
            print cells[i] != "" ? ".TP" : ".br"
            if (cells[i] != "") line(cell(cells[i]))
        } else if (k == 2) line(cell(cells[i]))
        else if (cells[i] != "") {
            print ".br"
            line(cell(heads[i]) ": " cell(cells[i]))
        }
    }
}

function table(page, head, columns,    heads, chosen, count, text, is_in, rows, k) {
    text = head
    sub(/^\| */, "", text)
    sub(/ *\|$/, "", text)
    count = split(text, heads, / *\| */)
    if (columns != "") count = split(columns, chosen, ",")
    else for (k = 1; k <= count; k++) chosen[k] = k
    while ((getline text < page) > 0) {
        if (is_in && text !~ /^\|/) break
        if (is_in && text !~ /^\|[-|]*$/) {
            row(text, heads, count, chosen)
            rows++
        }
        if (text == head) is_in = 1
    }
    close(page)
    if (!rows) fail(page " has no table " head)
}

function block(page, word,    text, is_in, lines) {
    print ".nf"
    while ((getline text < page) > 0) {
        if (is_in && text == "```") break
        if (is_in) {
            code(text)
            lines++
        }
        if (text == "```" word) is_in = 1
    }
    close(page)
    print ".fi"
    if (!lines) fail(page " has no block " word)
}

function whole_file(path,    text, lines) {
    print ".nf"
    while ((getline text < path) > 0) {
        code(text)
        lines++
    }
    close(path)
    print ".fi"
    if (!lines) fail("there is no file " path)
}

# Writes a prototype in lines of at most 76 columns, broken after commas.
function prototype(text,    at, rest) {
    while (length(text) > 76) {
        at = 76
        while (at > 1 && substr(text, at, 2) != ", ") at--
        if (at == 1) break
        print ".B " substr(text, 1, at)
        text = "\\ \\ \\ \\ " substr(text, at + 2)
    }
    print ".B " text
}

function calls(header,    text, whole, number, name) {
    name = header
    sub(/.*\//, "", name)
    print ".nf\n.B #include <" name ">\n.PP"
    while ((getline text < header) > 0) {
        sub(/^[A-Z_]+\([0-9]+\) /, "", text)
        if (whole == "" && text !~ /^[a-z][^#]*evc_[a-z_]*[a-z]\(/) continue
        sub(/^ +/, "", text)
        whole = whole (whole == "" ? "" : " ") text
        if (whole !~ /\) *[{;]/) continue
        sub(/\) *[{;].*/, ");", whole)
        sub(/^static inline /, "", whole)
        if (whole !~ /^(typedef|return)/) {
            prototype(whole)
            number++
        }
        whole = ""
    }
    close(header)
    print ".fi"
    if (!number) fail(header " has no functions")
}

# Writes a line of code, which has to be between .nf and .fi.
function code(text) {
    gsub(/\\/, "\\e", text)
    gsub(/-/, "\\-", text)
    line(text)
}

# Writes a line of a comment: code if it is indented, an empty one as the end of a paragraph.
function said(text,    is_code) {
    is_code = text ~ /^    / || text == "" && in_code
    if (is_code != in_code) print is_code ? ".PP\n.nf" : ".fi"
    in_code = is_code
    if (is_code) code(substr(text, 5))
    else if (text == "") print ".PP"
    else {
        gsub(/\\/, "\\e", text)
        line(text)
    }
}

function comment(header, word,    text, is_in, is_last) {
    in_code = 0
    while (!is_last && (getline text < header) > 0) {
        if (!is_in && index(text, "/* " word) != 1) continue
        is_in = 1
        is_last = sub(/ *\*\/$/, "", text)
        sub(/^[ \/]\*+ ?/, "", text)
        if (!is_last || text != "") said(text)
    }
    if (in_code) print ".fi"
    close(header)
    if (!is_in) fail(header " has no comment " word)
}

function struct(header, name,    text, is_in, lines) {
    print ".nf"
    while ((getline text < header) > 0) {
        if (text == "typedef struct " name " {") is_in = 1
        if (is_in && text ~ /\/\* Its own\. \*\//) {
            print "};"
            break
        }
        if (is_in) {
            code(text)
            lines++
        }
    }
    close(header)
    print ".fi"
    if (!lines) fail(header " has no type " name)
}

function commands(file,    text, name, number) {
    while ((getline text < file) > 0) {
        if (text ~ /const [A-Z]+_ABOUT: &str =/ && text !~ /LONG_ABOUT/) {
            name = text
            sub(/.*const /, "", name)
            sub(/_ABOUT.*/, "", name)
        }
        if (name != "" && text ~ /";$/) {
            sub(/^[^"]*"/, "", text)
            sub(/";$/, "", text)
            print ".TP\n.B " tolower(name)
            line(cell(text))
            number++
            name = ""
        }
    }
    close(file)
    if (!number) fail(file " has no summaries of commands")
}

/^\.\\" TABLE / {
    head = substr($0, index($0, "|"))
    table($3, head, $4 == "|" ? "" : $4)
    next
}
/^\.\\" BLOCK / { block($3, $4); next }
/^\.\\" FILE / { whole_file($3); next }
/^\.\\" CALLS / { calls($3); next }
/^\.\\" COMMENT / { comment($3, $4); next }
/^\.\\" STRUCT / { struct($3, $4); next }
/^\.\\" COMMANDS / { commands($3); next }
{ print }
END { exit failed }
