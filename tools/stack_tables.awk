# For tools/stack: writes a page with its tables of the stack made anew. Files: the listing from before, the listing now, the page. A table is known by its
# head; what stood under it is replaced. A dash stands for what is not in a listing.
function put(key, bytes) { figure[file, key] = bytes; if (!(key in known)) { known[key] = 1; keys[++key_count] = key } }
function grouped(n) { return n >= 1000 ? int(n / 1000) "," sprintf("%03d", n % 1000) : n }
function at(which, key) { return (which, key) in figure ? grouped(figure[which, key]) : "—" }
function code(name) { return "`" name "`" }
# The name of a row, or the sum of a chain: what stands after the third word.
function rest(    text) { text = $0; sub(/^[^ ]+ +[^ ]+ +[^ ]+ +/, "", text); return text }

FNR == 1 { file++ }
file <= 2 && ($1 == "code" || $1 == "most" || $1 == "lazy" || $1 == "host") { put($1 " " $2, $3) }
file <= 2 && $1 == "seen" { put("seen " $2 " " rest(), $3) }
file <= 2 && $1 == "chain" { sum[file, $2] = rest() }
file <= 2 && $1 == "function" { put("function " $2, $3); figure[file, "deepest " $2] = $4 }
file <= 2 { next }

# The names of all keys of a kind, in the order of the listings.
function names(kind, list,    i, count) {
    for (i = 1; i <= key_count; i++) if (index(keys[i], kind " ") == 1) list[++count] = substr(keys[i], length(kind) + 2)
    return count
}
# A sum with its functions as code; the first is the call.
function shown(text,    part, n, i, word) {
    if (text == "") return "—"
    n = split(text, part, " \\+ ")
    split(part[1], word, " ")
    text = word[1] " itself"
    for (i = 2; i <= n; i++) { split(part[i], word, " "); text = text " + " word[1] " " code(word[2]) }
    return text
}
function make(kind,    list, n, i, name, call) {
    n = names(kind == "calls" || kind == "chain" ? "most" : kind, list)
    for (i = 1; i <= n; i++) {
        name = list[i]
        if (kind == "host") print "| " code(name) " | " at(2, "host " name) " |"
        if (kind == "calls")
            print "| " code(name) " | " at(1, "code " name) " | " at(2, "code " name) " | " at(1, "most " name) " | " at(2, "most " name) " |"
        if (kind == "lazy") print "| " code(name) " | " at(1, "lazy " name) " | " at(2, "lazy " name) " |"
        if (kind == "chain") print "| " code(name) " | " shown(sum[1, name]) " | " shown(sum[2, name]) " |"
        if (kind == "function")
            print "| " code(name) " | " at(1, kind " " name) " | " at(2, kind " " name) " | " at(1, "deepest " name) " | " at(2, "deepest " name) " |"
        if (kind == "seen") {
            call = name; sub(/ .*/, "", call)
            print "| " code(call) " | " substr(name, length(call) + 2) " | " at(1, "seen " name) " | " at(2, "seen " name) " |"
        }
    }
}

# Under a head and its rule the old rows are passed over.
/^\| Call \| Bytes \|/ { kind = "host" }
/^\| Call \| by the code, before / { kind = "calls" }
/^\| Call \| lazily, before / { kind = "lazy" }
/^\| Call \| path, before / { kind = "chain" }
/^\| Function \| own, before / { kind = "function" }
/^\| Call \| doing / { kind = "seen" }
!/^\|/ { kind = ""; made = 0 }
kind == "" { print; next }
made < 2 { print; if (++made == 2) make(kind) }
