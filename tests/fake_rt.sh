#!/bin/sh
# Stands for rt in the cases of the scripts: it builds a program that tells its folder, its words and its input.
# (the case sets the folder here)
[ "${1:-}" != version ] || { echo "a kit that stands for one" && exit; }
echo "the build speaks"
[ ! -e "${here:?}/fails" ] || exit 1
echo built >>"${here:?}/built"
mkdir -p out
name=${PWD##*/}
cat >"out/$name" <<'END'
#!/bin/sh
echo "in $(pwd)"
[ $# -eq 0 ] || printf '<%s>\n' "$@"
read -r line && echo "read $line"
echo "${0##*/}: the program speaks" >&2
exit 5
END
chmod +x "out/$name"
