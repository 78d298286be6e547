# The sources of the program, for the launcher and for pack-program. $root is the top of the repository.

# The crates that the program needs, itself one of them, each with its row of crates.txt.
rows_needed() {
    awk -F: '
        !/^#/ && NF > 1 { split($1, head, " "); order[++rows] = head[1]; below[head[1]] = $2; row[head[1]] = $0 }
        END {
            need["torchplan"]
            for (grown = 1; grown;) {
                grown = 0
                for (one in need) {
                    many = split(below[one], names, " ")
                    for (i = 1; i <= many; i++)
                        if (names[i] in below && !(names[i] in need)) { need[names[i]]; grown = 1 }
                }
            }
            for (i = 1; i <= rows; i++) if (order[i] in need) print row[order[i]]
        }' "$root/crates.txt"
}

# The files that decide the program, by path: crates.txt, and what those crates have in src, specs and proofs.
source_files() {
    echo crates.txt
    rows_needed | while IFS=': ' read -r name _; do
        for part in src specs proofs; do
            [ ! -d "$root/crates/$name/$part" ] || (cd "$root" && find "crates/$name/$part" -type f)
        done
    done | LC_ALL=C sort
}

# One sum over the paths and contents of these files.
sum_of_sources() {
    source_files | (cd "$root" && xargs sha256sum) | sha256sum | cut -d ' ' -f 1
}
