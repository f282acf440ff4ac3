# For tools/stack: reads the archive's disassembly, and prints its lines `code`, `chain` and `function`. A function's bytes begin with its return address.
#
# Within a function the depth is followed from each instruction to those that come after it, by every jump: an instruction has one depth, and a return
# finds the return address alone. What is left are the arms of matches, which have the depth of the jump by a table of distances.
function refuse(what) { print "stack: " name ": " what >"/dev/stderr"; failed = 1; exit 1 }
function number(word) { return hex(substr(word, index(word, "0x") + 2)) }
function hex(digits,    i, n, d) {
    for (i = n = 0; i < length(digits) && (d = index("0123456789abcdef", substr(digits, i + 1, 1))) > 0; i++) n = 16 * n + d - 1
    return n
}

# ---- one function ----

function need(bytes) { if (bytes > own[name]) own[name] = bytes }
# The instruction is met at this depth.
function meet(i, depth) {
    if (i in depth_at) { if (depth_at[i] != depth) refuse("two depths at " place_of[i]); return }
    if (i < 1 || i > count) refuse("code that goes on past the function")
    depth_at[i] = depth
    todo[++waiting] = i
    need(depth)
}
# So much is on the stack when it calls; a jump to another function leaves the return address to that one.
function called(target, bytes) {
    if (!((name, target) in at)) calls[name] = calls[name] "\n" target
    if (bytes > at[name, target]) at[name, target] = bytes
}
function jump(i, depth) {
    if (goes_to[i] != "") called(goes_to[i], depth - RETURN)
    else if (goal_of[i] in index_of) meet(index_of[goal_of[i]], depth)
    else refuse("a jump that is not followed, " text_of[i])
}
function step(i,    depth, text, part) {
    depth = depth_at[i]; text = text_of[i]; split(text, part, " +")
    # Red zone: what a function that calls nothing keeps below its stack pointer.
    if (match(text, /-0x[0-9a-f]+\(%rsp/)) need(depth + number(substr(text, RSTART, RLENGTH)))
    if (text ~ /^jmp +\*/ && is_match[i]) {
        if (match_depth >= 0 && match_depth != depth) refuse("matches at two depths")
        match_depth = depth
    } else if (text ~ /^(call|jmp) +\*/) refuse("an indirect call, " text)
    else if (part[1] ~ /^ret/) { if (depth != RETURN) refuse("a return at depth " depth ", at " place_of[i]) }
    else if (part[1] ~ /^ud2/) return
    else if (part[1] ~ /^jmp/) jump(i, depth)
    else {
        if (part[1] ~ /^j/) jump(i, depth)
        else if (part[1] ~ /^call/) { if (goes_to[i] == "") refuse("a call that is not followed, " text); called(goes_to[i], depth) }
        else if (part[1] ~ /^push/) depth += 8
        else if (part[1] ~ /^pop/) depth -= 8
        else if (text ~ /^sub +\$0x[0-9a-f]+,%rsp$/) depth += number(part[2])
        else if (text ~ /^add +\$0x[0-9a-f]+,%rsp$/) depth -= number(part[2])
        else if (text ~ /,%rsp$/ || part[1] ~ /^(leave|enter)/) refuse("a stack pointer that is not followed, " text)
        meet(i + 1, depth)
    }
}
function follow(    i) {
    if (count == 0) return
    split("", depth_at); waiting = 0; match_depth = -1; own[name] = 0
    meet(1, RETURN)
    for (i = 1; i <= count + 1; i++) {
        while (waiting > 0) step(todo[waiting--])
        if (i > count || i in depth_at || text_of[i] ~ /^(nop|cs nop|data16|xchg +%ax,%ax|int3)/) continue
        if (match_depth < 0) refuse("code that nothing gets to, at " place_of[i])
        meet(i, match_depth)
    }
    count = 0
}

BEGIN { RETURN = 8 }

/^[0-9a-f]+ <.*>:$/ {
    follow()
    name = $0; sub(/^[^<]*</, "", name); sub(/>:$/, "", name)
    split("", index_of); split("", goes_to); split("", from_table); split("", is_match)
    next
}
/^ +[0-9a-f]+:\t/ {
    text = $0; sub(/^[^\t]*\t/, "", text); sub(/ +#.*$/, "", text); sub(/ +$/, "", text)
    split(text, part, " +")
    place_of[++count] = substr($1, 1, length($1) - 1)
    index_of[place_of[count]] = count
    text_of[count] = text; goal_of[count] = part[2]
    if (text ~ /^jmp +\*/) is_match[count] = substr(part[2], 2) in from_table
    if (text ~ /^movslq +(0x0)?\(/) { sub(/.*,/, "", text); from_table[text] }
    next
}
# The linker fills in where this goes: to another function.
/R_X86_64_(PLT|PC)32\t/ && text_of[count] ~ /^(call|j)/ {
    goal = $NF; sub(/-0x[0-9a-f]+$/, "", goal); sub(/^\.text\./, "", goal)
    goes_to[count] = goal
}

# ---- all of them ----

# Of a C library's function the return address counts, and nothing else.
function deepest(f,    list, n, i, d, best) {
    if (f in most) return most[f]
    if (f in open) { name = f; refuse("calls itself") }
    open[f]; best = own[f]; next_of[f] = ""
    n = split(substr(calls[f], 2), list, "\n")
    for (i = 1; i <= n; i++) {
        d = at[f, list[i]] + (list[i] in own ? deepest(list[i]) : RETURN)
        if (d > best) { best = d; next_of[f] = list[i] }
    }
    return most[f] = best
}
function path(f) { return next_of[f] == "" ? f : f " > " path(next_of[f]) }
function sum(f) {
    if (!(f in own)) return RETURN " " f
    return next_of[f] == "" ? own[f] " " f : at[f, next_of[f]] " " f " + " sum(next_of[f])
}
END {
    if (failed) exit 1
    follow()
    for (f in own) if (f ~ /^trestlepip_/) {
        printf "code     %-22s %6d  %s\n", f, deepest(f), path(f)
        printf "chain    %-22s %6d  %s\n", f, deepest(f), sum(f)
    }
    # Those that a call gets to, on its deepest path or off it.
    for (f in most) printf "function %-22s %6d %6d\n", f, own[f], most[f]
}
