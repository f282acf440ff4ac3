# Judges an edit by what rt check said of its crate: awk -v crate=NAME -f judge.awk EDIT LOG. Prints where it is refused, or what is amiss and exits 1.

BEGIN {
    # Refusals that show nothing about the edit's fact: the proof names what is no longer there, or the prover gave up.
    wrong = "is not in scope([:;]|$)|has no (field|`)|is not a field of|binders, but its type|outgrew the memory limit|stopped at the step limit|ran out of"
}

function ends(text, tail) { return substr(text, length(text) - length(tail) + 1) == tail }

# Where the errors of WHO stand: those of a function fill its files of proofs, those of a theorem name it, or a part of it.
function look_for(who,    dot) {
    dot = index(who, ".")
    theorem = dot ? "`" substr(who, dot + 1) "(-part-[0-9]+)?`: " : ""
    place = dot ? substr(who, 1, dot - 1) : who
    gsub(/::/, "/", place)
}

# Whether the line is an error in a file of the crate; its path and its text then stand in PATH and SAID.
function is_error(    at) {
    at = match($0, /:[0-9]+:[0-9]+: error: /)
    if (!at) return 0
    path = substr($0, 1, at - 1)
    sub(/^\.\//, "", path)
    said = substr($0, at + RLENGTH)
    return 1
}

function is_own(    folder) {
    if (theorem != "") return path == "proofs/" place ".antt" && match(said, theorem) == 1
    folder = path
    return sub(/\/(Answers|Invariants|Proof)\.antt$/, "", folder) && ends("/" folder, "/" place)
}

# The edit.
FNR == NR {
    if (sub(/^refused: /, "")) look_for(who = $0)
    next
}

# The log: a message begins at the margin, and its further lines are indented.
/^[^ ]/ {
    own = 0
    if (is_error()) {
        # what a contract cites cannot be read
        if (path ~ /^(src|specs)\// && unread == "") unread = $0
        own = is_own()
        if (own && said !~ /, (was|were) not checked/) itself = 1
    }
}

own && match($0, wrong) { reason = substr($0, RSTART, RLENGTH) }

/^fn / && index($2, crate "::") == 1 && ends("::" $2, "::" who ":") {
    functions++
    if (/; `search` did not prove /) itself = 1
}

/^logic=/ { verdict = $0 }
/^rt: the library [^ ]* did not build/ { below = $4 }
{ last = $0 }

function judged() {
    if (who == "") return "BAD EDIT: it has no refused: line"
    if (below != "") return "BAD EDIT: " below " is not proved with it"
    if (verdict == "") return "BAD EDIT: it does not reach the prover: " last
    if (verdict ~ /^logic=proved/) return "NOT REFUSED: the crate is still proved"
    if (unread != "") return "BAD EDIT: the prover cannot read it: " unread
    if (theorem == "" && functions != 1) return "BAD EDIT: the crate has " (functions + 0) " functions of the name " who
    if (reason != "") return "WRONG REASON at " who ": " reason
    if (!itself) return "NOT REFUSED at " who ", or only with something that it rests on"
    return "refused at " who
}

END {
    said = judged()
    print said
    exit said !~ /^refused/
}
