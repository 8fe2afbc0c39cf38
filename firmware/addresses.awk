# Of an LLVM module, the lines that would mean something else where addresses have another width: a number made of an
# address or the other way; bytes copied out of or into a cell that is an address. Fails where there are any.
/^define/ { delete cell }
/= alloca ptr/ { cell[$1] = 1 }
/[^a-z](ptrtoint|inttoptr)[^a-z]/ { print; found = 1 }
/call.*@llvm\.mem(move|cpy|set)/ {
    for (i = 1; i <= NF; i++) {
        word = $i
        gsub(/[(),]/, "", word)
        if (word in cell) { print; found = 1 }
    }
}
END { exit found }
