# Prints a network of N nodes, each the And of eight inputs of its own, the last of them the one output, as in
#   awk -v n=5546 -f bench/eights.awk
# At width 8 each node has 247 Ands and 3,025 splits.
BEGIN {
    print ".model m"
    for (i = 1; i <= n; i++) {
        fanins[i] = ""
        for (k = 1; k <= 8; k++) fanins[i] = fanins[i] " i" i "_" k
        print ".inputs" fanins[i]
    }
    print ".outputs f" n
    for (i = 1; i <= n; i++) print ".names" fanins[i] " f" i "\n11111111 1"
    print ".end"
}
