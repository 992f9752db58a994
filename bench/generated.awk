# Prints a network of N nodes of two inputs each, drawn from all signals before them, as in
#   awk -v n=20000 -v seed=1 -f bench/generated.awk
function draw() {
    state = (state * 16807) % 2147483647
    return state
}
BEGIN {
    state = seed * 7919 + 1
    print ".model generated"
    line = ".inputs"
    for (i = 0; i < 16; i++) line = line " i" i
    print line
    line = ".outputs"
    for (k = n - 16; k < n; k++) line = line " g" k
    print line
    for (k = 0; k < n; k++) {
        p = draw() % (16 + k)
        q = draw() % (16 + k)
        if (q == p) q = (p + 1) % (16 + k)
        kind = draw() % 4
        print ".names " (p < 16 ? "i" p : "g" p - 16) " " (q < 16 ? "i" q : "g" q - 16) " g" k
        print kind == 0 ? "11 1" : kind == 1 ? "1- 1\n-1 1" : kind == 2 ? "10 1\n01 1" : "11 0"
    }
    print ".end"
}
