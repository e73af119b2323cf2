# Makes the manual's pages of headers: awk -v to=FOLDER -v version=VERSION -f manual.awk HEADER..
# The page of a header, FOLDER/NAME.3, has the header's first comment, and all that has a comment above it: functions,
# types and codes. For each function a page includes that of its header; zaulinte.3 includes that of zaulinte_monitor.h.

# Returns the text of a comment with what is between backticks in bold.
function bold(text,    part, many, i) {
    many = split(text, part, "`")
    text = part[1]
    for (i = 2; i <= many; i++) text = text ((is_code = !is_code) ? "\\fB" : "\\fR") part[i]
    return text
}
# Returns a line of a comment as lines of a page. An empty line ends a paragraph, and a list's items begin with -.
function formatted(line) {
    sub(/^ +/, "", line)
    gsub(/\\/, "\\e", line)
    if (line == "") return ".PP\n"
    if (sub(/^- /, "", line)) return ".IP \\(bu 2\n" bold(line) "\n"
    return "\\&" bold(line) "\n"
}
function include(page, name) {
    print ".so man3/" page ".3" > (to "/" name ".3")
    close(to "/" name ".3")
}
# Adds a declaration, without the fields of a struct and the body of a function, and its comment to the page.
function add_item(    rest) {
    rest = declared ~ /^(typedef|enum)/ ? "" : declared
    for (; match(rest, /zaulinte_[a-z_]+\(/); rest = substr(rest, RSTART + RLENGTH)) {
        names = names ", " substr(rest, RSTART, RLENGTH - 1)
        include(page, substr(rest, RSTART, RLENGTH - 1))
    }
    if (declared !~ /^enum/) sub(/ \{.*/, ";\n", declared)
    gsub(/\n/, "\n.br\n", declared)
    body = body ".PP\n\\fB" declared "\\fR\n.RS 4\n" comment ".RE\n"
    comment = declared = ""
}
function finish(    at) {
    if (!page) return
    if (declared) add_item()
    at = to "/" page ".3"
    printf ".TH %s 3 \"\" \"Zaulinte %s\" Zaulinte\n.ad l\n.nh\n", toupper(page), version > at
    printf ".SH NAME\n%s \\- %s\n.SH SYNOPSIS\n\\fB#include <%s.h>\n.PP\n", names, purpose, page > at
    printf "cc file.c $(pkg-config --cflags --libs zaulinte)\\fR\n" > at
    printf ".SH DESCRIPTION\n%s.SH FUNCTIONS, TYPES AND CODES\n%s", intro, body > at
    close(at)
}
FNR == 1 {
    finish()
    purpose = $0
    sub(/^[^:]*: /, "", purpose)
    sub(/( \(|\. |\.$).*/, "", purpose)
    names = page = substr(FILENAME, match(FILENAME, /zaulinte_[a-z]*\.h$/), RLENGTH - 2)
    body = intro = declared = ""
}
/^\/\*/ {
    if (declared) add_item()
    comment = ""
    is_comment = sub(/^\/\* ?/, "")
}
is_comment {
    is_comment = !sub(/ *\*\/$/, "")
    sub(/^ \* ?/, "")
    comment = comment formatted($0)
    if (!is_comment && !intro) { intro = comment; comment = "" }
    next
}
/^typedef struct zaulinte_(bell|patience|place) / { comment = "" } # fields of a monitor
comment && sub(/^#define ZAULINTE_CHECK\(call\).*/, "ZAULINTE_CHECK(call);") { declared = $0 "\n"; add_item() }
/^$|^#/ { if (declared) add_item(); comment = "" }
comment { declared = declared $0 "\n" }
comment && (/^}/ || /^[^te].* \{$/) { add_item() }
END { finish(); include("zaulinte_monitor", "zaulinte") }
