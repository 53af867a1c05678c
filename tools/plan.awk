# usage: awk -f tools/plan.awk -v top=NAME -v lanes=N crates.txt tools/proof_seconds.txt
#
# Prints the lines of crates.txt for a crate and those that it stands on, before each the CPU seconds that its proof is
# said to take; and in the last line `=` and how many minutes all of them take, so many side by side.

FNR == 1 { file++ }
/^#/ || NF == 0 { next }
file == 1 {
    name = $1
    sub(/:.*/, "", name)
    below[name] = substr($0, index($0, ":") + 1)
    line[name] = $0
    order[++count] = name
}
file == 2 { seconds[$1] = $2 }

# Notes that the crate is needed. It gives the seconds of the longest chain of crates that ends with it.
function visit(name,    i, parts, names, chain, longest) {
    if (!(name in below)) return 0
    if (name in chain_of) return chain_of[name]
    parts = split(below[name], names, " ")
    for (i = 1; i <= parts; i++) {
        chain = visit(names[i])
        if (chain > longest) longest = chain
    }
    if (!(name in seconds)) seconds[name] = 60
    chain_of[name] = longest + seconds[name]
    whole += seconds[name]
    return chain_of[name]
}

END {
    longest = visit(top)
    for (i = 1; i <= count; i++) if (order[i] in chain_of) print seconds[order[i]], line[order[i]]
    if (whole / lanes > longest) longest = whole / lanes
    print "=", int(longest / 60) + 1
}
