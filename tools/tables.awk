# For tools/tables: holds docs/STATE.md, docs/NUMBERS.md and the header's comments to the listing, which is the first file. Variables: state, card.
#
#   docs/STATE.md      under a head `| Byte`: a row for each field, in order, with its bytes (`0, 1` or `2 to 5`) and a word of its name; no other row
#   docs/NUMBERS.md    under `| Number` and `| Cause`: a row for each, in order; no other row; and what a column `Status` or `Sense` states
#   all three          the sizes in the phrases at the end, where such a phrase stands
function differ(what) { print what; bad = 1 }
function here(what) { differ(FILENAME ":" FNR ": " what) }
function bytes(first, last) { return first == last ? "byte " first : "bytes " first " to " last }

# A number's or a cause's row. Number 3 has many, and shows as much sense as they have in common.
function note(kind, n, status, sense) {
    if (!((kind, n) in status_of)) sense_of[kind, n] = sense
    status_of[kind, n] = status
    while (sense_of[kind, n] != "" && index(sense " ", sense_of[kind, n] " ") != 1) sub(/ *[^ ]+$/, "", sense_of[kind, n])
}

FILENAME == ARGV[1] && ($1 == "size" || $1 == "part") { size[$2] = $3 }
# The sense bytes have a name each in C, and one row in the document.
FILENAME == ARGV[1] && $1 == "place" {
    name = $2
    sub(/_[0-9]+$/, "", name)
    if (!(name in first_of)) first_of[name] = $3
    name_at[first_of[name]] = name
    last_of[name] = $3 + $4 - 1
}
FILENAME == ARGV[1] && $1 == "row" {
    sense = $7
    for (i = 8; i <= NF; i++) sense = sense " " $i
    note("number", $4, $6, sense)
    if ($5 > 0) note("cause", $5, $6, sense)
    if (sense !~ /^(kept|none)$/) sets[$4] = 1
}
FILENAME == ARGV[1] { next }

{ text[FILENAME] = text[FILENAME] " " $0 }

# A table's head says what its rows are of.
!/^\|/ { in_table = 0; next }
!in_table {
    in_table = 1
    previous = -1
    kind = tolower($2)
    status_column = sense_column = 0
    for (i = 3; i < NF; i++) {
        if (tolower($i) ~ /^status/) status_column = i
        if (tolower($i) ~ /^sense/) sense_column = i
    }
    next
}
$2 !~ /^[0-9]/ { next }

FILENAME == state && kind ~ /^byte/ {
    first = last = $2
    sub(/[^0-9].*/, "", first)
    sub(/.*[^0-9]/, "", last)
    first += 0
    last += 0
    if (first <= previous) here(bytes(first, last) " out of order")
    previous = last
    if (!(first in name_at)) { here("no field begins at byte " first); next }
    name = name_at[first]
    seen[name] = 1
    if (last != last_of[name]) here(name " is " bytes(first, last_of[name]) " in the code, not " bytes(first, last))
    # The row has four letters of the name's first word, as `wait` of WAITING; not in parentheses, where the section stands.
    field = tolower($3)
    gsub(/\([^)]*\)/, "", field)
    word = tolower(substr(name, 1, 4))
    sub(/_.*/, "", word)
    if (!index(field, word)) here("byte " first " is " name " in the code, of which the row does not speak")
}

FILENAME == card && (kind == "number" || kind == "cause") {
    n = $2 + 0
    if (n <= previous) here(kind " " n " out of order")
    previous = n
    if (!((kind, n) in status_of)) { here(kind " " n " is not in the code"); next }
    seen[kind, n] = 1
    if (status_column && match($status_column, /^[0-9A-F][0-9A-F]/) && substr($status_column, 1, 2) != status_of[kind, n])
        here(kind " " n " has status " status_of[kind, n] " in the code, not " $status_column)
    if (sense_column && match($sense_column, /^(kept|none|[0-9A-F][0-9A-F]( [0-9A-F][0-9A-F])*)/) \
        && index(sense_of[kind, n] " ", substr($sense_column, 1, RLENGTH) " ") != 1)
        here(kind " " n " has sense " sense_of[kind, n] " in the code, not " $sense_column)
}

# Wherever the phrase stands, its N is this size.
function phrase(words, name,    part, file, rest, hit, n) {
    split(words, part, "N")
    for (file in text) {
        rest = text[file]
        while (match(rest, part[1] "[0-9][0-9,]*" part[2])) {
            n = hit = substr(rest, RSTART, RLENGTH)
            rest = substr(rest, RSTART + RLENGTH)
            gsub(/[^0-9]/, "", n)
            phrases++
            if (n + 0 != size[name]) differ(file ": \"" hit "\", but " name " is " size[name] " in the code")
        }
    }
}

# The card's list of the numbers that set the sense.
function list_of_sets(    hit, list, stated, count, i, n) {
    if (!match(text[card], /with [0-9][0-9, and]*the sense/)) return
    phrases++
    list = hit = substr(text[card], RSTART, RLENGTH)
    gsub(/[^0-9]+/, " ", list)
    count = split(list, stated, " ")
    for (i = 1; i <= count; i++) {
        if (!(stated[i] in sets)) differ(card ": \"" hit "\", but " stated[i] " keeps it in the code")
        delete sets[stated[i]]
    }
    for (n in sets) differ(card ": \"" hit "\", but " n " sets it too in the code")
}

END {
    for (name in first_of) if (!(name in seen)) differ(state ": no row for " name ", " bytes(first_of[name], last_of[name]))
    for (key in status_of) if (!(key in seen)) {
        split(key, row, SUBSEP)
        differ(card ": no row for " row[1] " " row[2])
    }
    phrase("travels as ..N bytes", "STATE_BYTES")
    phrase("these N bytes", "STATE_BYTES")
    phrase("longer than N characters", "LINE_CELLS")
    phrase("longer than N bytes", "LEGEND_BYTES")
    phrase("shorter than N bytes", "SLOT_BYTES")
    phrase("page store has ..N bytes", "PAGE_BYTES")
    phrase("lines of N bytes", "LINE_BYTES")
    phrase("begins at byte N", "LINE_BYTES")
    phrase("lines of N cells", "LINE_CELLS")
    phrase("N bytes for the sense", "SENSE_BYTES")
    phrase("past position N", "LINE_CELLS")
    phrase("positions past N", "LINE_CELLS")
    phrase("empty or over N bytes", "LINE_CELLS")
    phrase("load.s over N", "LEGEND_BYTES")
    phrase("table under N bytes", "SLOT_BYTES")
    list_of_sets()
    if (!bad) print "tables: the documents have the rows of the code, and its sizes in " phrases " phrases"
    exit bad
}
