# From `objdump -d --no-show-raw-insn` of the section of the proved code, the starts of its basic blocks as a C array:
# where a function starts, where a jump goes, and what follows a jump or a return. Padding is no block.
BEGIN { FS = "\t" }

/^[0-9a-f]+ <.*>:$/ { follows = 1 }

/^ +[0-9a-f]+:\t/ {
    at = $1
    gsub(/[ :]/, "", at)
    order[++count] = at
    padding = $2 ~ /nop|^int3|^xchg +%ax,%ax|^data16/
    if (follows && !padding) {
        starts[at]
        follows = 0
    }
    if ($2 ~ /^(notrack |bnd )?(j|ret|ud2)/) {
        follows = 1
        split($2, parts, / +/)
        if (parts[2] ~ /^[0-9a-f]+$/) starts[parts[2]]
    }
}

END {
    print "static const uint32_t blocks[] = {"
    for (i = 1; i <= count; i++) if (order[i] in starts) print "    0x" order[i] ","
    print "};"
}
