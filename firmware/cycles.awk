# SPDX-License-Identifier: MIT OR Apache-2.0
# cycles.awk: of the emulator's trace, an instruction a line (-singlestep -d in_asm,exec,nochain), what lies between two
# readings of the counter of instructions: "INSTRUCTIONS CYCLES", a line for each pair.
#
# The model is a core that issues one instruction a cycle, in order: one cycle more where an instruction uses what the
# one before it loads, two more where a jump or branch is taken. Nothing waits for flash or for the bus.
function number(hex,    i, n) {
    if (hex in known)
        return known[hex]
    for (i = 1; i <= length(hex); i++)
        n = n * 16 + index("0123456789abcdef", substr(hex, i, 1)) - 1
    return known[hex] = n
}

# What an instruction reads: all its operands of a store or a branch, else those behind the first.
function reads(name, operands) {
    if (name !~ /^(s[bhw]|b[a-z]+)$/ && !sub(/^[^,]*,/, "", operands))
        return ","
    gsub(/[()]/, ",", operands)
    return "," operands ","
}

# As it is translated: address, code, name, operands.
/^0x[0-9a-f]+: / {
    at = substr($1, 3, length($1) - 3)
    if (at in sources)
        next
    size[at] = length($2) / 2
    loads[at] = ""
    if ($3 ~ /^l(b|h|w|bu|hu)$/) {
        split($4, operand, ",")
        loads[at] = operand[1]
    }
    counter[at] = /minstret/
    sources[at] = reads($3, $4)
}

/^Trace / {
    split($0, part, "/")
    at = part[2]
    if (last != "") {
        if (number(at) != number(last) + size[last])
            cycles += 2
        if (loads[last] != "" && index(sources[at], "," loads[last] ","))
            cycles++
    }
    instructions++
    cycles++
    last = at
    if (counter[at]) {
        if (inside)
            print instructions, cycles
        inside = !inside
        instructions = cycles = 0
    }
}
