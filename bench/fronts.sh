# Read by scripts that have the repository in 'root': the front ends and ABC's own mappers, as tools/lib/fronts.py lists them.
# shellcheck shell=sh disable=SC2034,SC2154
all_fronts=$(python3 "$root/tools/fronts.py" | sed -n 1p)
all_mappers=$(python3 "$root/tools/fronts.py" | sed -n 2p)

front_script() { # NAME
    python3 "$root/tools/fronts.py" "$1"
}

mapper_script() { # NAME
    python3 "$root/tools/fronts.py" -m "$1"
}
