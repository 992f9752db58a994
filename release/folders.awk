# Prints the folders of the crates named by 'of' and of all crates that they stand on, by crates.txt, in one line; 'kinds' names
# the folders of each crate: awk -v of=lwmap -v kinds='src specs' -f release/folders.awk crates.txt
{
    sub(/#.*/, "")
    at = index($0, ":")
    split(substr($0, 1, at), head, /[ :]/)
    if (at) below[head[1]] = substr($0, at + 1)
}
END {
    kind_count = split(kinds, each_kind, " ")
    first = split(of, names, " ")
    for (i = 1; i <= first; i++) reached[names[i]] = list[++count] = names[i]
    for (i = 1; i <= count; i++) if (list[i] in below) {
        for (j = 1; j <= kind_count; j++) printf "%scrates/%s/%s", (told++ ? " " : ""), list[i], each_kind[j]
        n = split(below[list[i]], names, " ")
        for (j = 1; j <= n; j++) if (!(names[j] in reached)) reached[names[j]] = list[++count] = names[j]
    }
    print ""
}
