# The basic blocks in a disassembly: the start of each function, the target of each jump, and what follows a jump.
/^[0-9a-f]+ <.*>:$/ { follows = 1; next }
/^ *[0-9a-f]+:\t/ {
    at = $1
    sub(":", "", at)
    if (follows && $2 !~ /^(nop|data16|cs|xchg|int3)/) starts[at] = 1
    follows = $2 ~ /^j/
    if (follows && $3 ~ /^[0-9a-f]+$/) starts[$3] = 1
}
END { for (at in starts) print at }
