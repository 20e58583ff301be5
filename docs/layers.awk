# The crates in layers, from crates.txt: a crate stands one layer above the highest crate that it needs. Libraries of the kit are left out.
/^#/ || NF == 0 { next }
{
    name = $1
    sub(":", "", name)
    names[++n] = name
    needs[name] = $0
    sub("^[^:]*:", "", needs[name])
}
# one above the highest that it needs
function layer_of(a,    i, k, list, l, top) {
    if (a in layer) return layer[a]
    k = split(needs[a], list, " ")
    top = 0
    for (i = 1; i <= k; i++) {
        l = layer_of(list[i])
        if (l > top) top = l
    }
    return layer[a] = top + 1
}
# the crates that are needed through another one already
function through(a, b,    i, k, list) {
    k = split(needs[a], list, " ")
    for (i = 1; i <= k; i++)
        if (list[i] != b && reaches(list[i], b)) return 1
    return 0
}
function reaches(a, b,    i, k, list) {
    k = split(needs[a], list, " ")
    for (i = 1; i <= k; i++)
        if (list[i] == b || reaches(list[i], b)) return 1
    return 0
}
END {
    for (i = 1; i <= n; i++) {
        k = split(needs[names[i]], list, " ")
        needs[names[i]] = ""
        for (j = 1; j <= k; j++)
            for (m = 1; m <= n; m++)
                if (names[m] == list[j]) needs[names[i]] = needs[names[i]] " " list[j]
    }
    top = 0
    for (i = 1; i <= n; i++)
        if (layer_of(names[i]) > top) top = layer[names[i]]
    print "# Layers\n\nMade by `make layers` from `crates.txt`: the uppermost layer first; behind each crate those that it needs directly, without those that it also needs through another.\n"
    for (l = top; l >= 1; l--) {
        printf "    %2d", l
        indent = " "
        for (i = 1; i <= n; i++)
            if (layer[names[i]] == l) {
                line = ""
                k = split(needs[names[i]], list, " ")
                for (j = 1; j <= k; j++)
                    if (!through(names[i], list[j])) line = line " " list[j]
                if (line == "") printf "%s%s\n", indent, names[i]
                else printf "%s%-15s<-%s\n", indent, names[i], line
                indent = "       "
            }
        if (l > 1) print "       ."
    }
}
