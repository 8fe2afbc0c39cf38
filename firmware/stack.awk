# Of the compiler's text for RV32, each exported call with the deepest stack that it can take, in bytes: its own frame
# and the deepest of those it calls, over all paths. Fails where the text has what this cannot follow: recursion, a call
# through a register, a function that is not here.
function fail(why) {
    print "stack.awk: " why >"/dev/stderr"
    failed = 1
    exit 1
}
function deepest(f,    n, i, parts, d, most) {
    if (f in known) return known[f]
    if (!(f in frame)) fail("no text of " f)
    if (f in entered) fail(f " calls itself")
    entered[f] = 1
    most = 0
    n = split(called[f], parts, "\t")
    for (i = 1; i <= n; i++) {
        d = deepest(parts[i])
        if (d > most) most = d
    }
    delete entered[f]
    return known[f] = frame[f] + most
}
$1 == ".type" { sub(/,.*/, "", $2); isFunction[$2] = 1 }
$1 == ".globl" { if ($2 ~ /^usbhs_/) exported[$2] = 1 }
/^[^ \t.#].*:/ { name = $1; sub(/:$/, "", name); if (name in isFunction) { in_ = name; frame[in_] = 0 } }
$1 == "addi" && $2 == "sp," && $3 == "sp," && $4 < 0 { frame[in_] -= $4 }
$1 == "sub" && $2 == "sp," { fail(in_ " has a frame of no fixed size") }
$1 == "call" || $1 == "tail" { called[in_] = called[in_] (called[in_] == "" ? "" : "\t") $2 }
$1 == "jalr" { fail(in_ " calls through a register") }
END {
    if (failed) exit 1
    for (f in exported) print "bound", f, deepest(f)
}
