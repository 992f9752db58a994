# Read by equal.sh and hostile.sh: networks that compute one thing in two ways, for lwequal.
# shellcheck shell=sh

# An adder whose carry goes from bit to bit, and one whose first bits are written otherwise.
adder() { # BITS WAY
    awk -v n="$1" -v way="$2" 'BEGIN {
        printf ".model m\n.inputs"; for (i = 0; i < n; i++) printf " a%d b%d", i, i
        printf "\n.outputs"; for (i = 0; i < n; i++) printf " s%d", i
        print " c" n "\n.names c0"
        for (i = 0; i < n; i++) {
            print ".names a" i " b" i " p" i "\n10 1\n01 1"
            print ".names p" i " c" i " s" i "\n10 1\n01 1"
            if (way == "majority") print ".names a" i " b" i " c" i " c" i + 1 "\n11- 1\n1-1 1\n-11 1"
            else print ".names p" i " a" i " c" i " c" i + 1 "\n1-1 1\n01- 1"
        }
        print ".end"
    }'
}

# A multiplier whose rows are added in order, from one on.
multiplier() { # BITS FIRST STEP
    awk -v n="$1" -v first="$2" -v step="$3" 'BEGIN {
        line = ""
        for (i = 0; i < n; i++) line = line " a" i " b" i
        print ".model m\n.inputs" line
        line = ""
        for (k = 0; k < 2 * n; k++) line = line " m" k
        print ".outputs" line
        for (k = 0; k < 2 * n; k++) { sum[k] = "z"; }
        print ".names z"
        for (t = 0; t < n; t++) {
            i = first + step * t
            carry = "z"
            for (k = i; k < 2 * n; k++) {
                j = k - i
                term = "z"
                if (j < n) { term = "p" i "_" j; print ".names a" i " b" j " " term "\n11 1" }
                s = "s" t "_" k; c = "c" t "_" k
                print ".names " sum[k] " " term " " carry " " s "\n100 1\n010 1\n001 1\n111 1"
                print ".names " sum[k] " " term " " carry " " c "\n11- 1\n1-1 1\n-11 1"
                sum[k] = s; carry = c
            }
        }
        for (k = 0; k < 2 * n; k++) print ".names " sum[k] " m" k "\n1 1"
        print ".end"
    }'
}

# 64 signals, of which in each step the next one is exchanged: x for x^(y*z), where y and z are one and five places later. So each net
# is a function of its own, and one gate that is wrong shows at nearly each output. It is written as nodes by their rows for 1 or
# for 0 ('on', 'off'), or as a netlist of two cells or of six a step ('two', 'six'), with the first step first or last ('back').
mixing() { # STEPS WAY [back]
    awk -v n="$1" -v way="$2" -v back="${3:-}" '
    function gate(cell, one, other, out) { return ".gate " cell " a=" one " b=" other " O=" out "\n" }
    function step(i, j, x, y, z, s) {
        j = i % 64
        x = "s" j "_" int(i / 64); y = after((j + 1) % 64, i); z = after((j + 5) % 64, i); s = "s" j "_" int(i / 64) + 1
        if (way == "on") return ".names " x " " y " " z " " s "\n10- 1\n1-0 1\n011 1"
        if (way == "off") return ".names " x " " y " " z " " s "\n0-0 0\n00- 0\n111 0"
        if (way == "two") return gate("and2", y, z, "t" i) gate("xor", x, "t" i, s)
        return gate("nand2", y, z, "t" i) gate("nand2", x, "t" i, "m" i) gate("nand2", x, "m" i, "p" i) gate("nand2", "t" i, "m" i, "q" i) \
            gate("nand2", "p" i, "q" i, "r" i) ".gate inv1 a=r" i " O=" s
    }
    function after(k, i) { return "s" k "_" int((i - k + 63) / 64) }
    BEGIN {
        line = ".inputs"; for (k = 0; k < 64; k++) line = line " s" k "_0"
        print ".model m\n" line
        line = ".outputs"; for (k = 0; k < 64; k++) line = line " " after(k, n)
        print line
        if (back) for (i = n - 1; i >= 0; i--) print step(i)
        else for (i = 0; i < n; i++) print step(i)
        print ".end"
    }'
}
