# Applies an edit to a crate: awk -v crate=FOLDER -f apply.awk EDIT. Where it cannot be done, says why and exits 1.

function bad(why) {
    print "BAD EDIT: " why
    failed = 1
    exit 1
}

function text_of(path,    line, text) {
    while ((getline line < path) > 0) text = text line "\n"
    close(path)
    return text
}

function replace(path, old, new,    text, at, rest) {
    text = text_of(path)
    at = old == "" ? 0 : index(text, old)
    if (!at) bad("the text of an old: line is not in " file)
    rest = substr(text, at + length(old))
    if (index(rest, old)) bad("the text of an old: line is in " file " more than once")
    printf "%s%s%s", substr(text, 1, at - 1), new, rest >path
    close(path)
}

sub(/^file: /, "") { file = $0; next }
sub(/^old: /, "") { old = $0; next }
sub(/^new: ?/, "") { replace(crate "/" file, old, $0); pairs++ }

END { if (!failed && !pairs) bad("it has no old: and new: lines") }
