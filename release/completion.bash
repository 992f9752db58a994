# shellcheck shell=bash
# Completion for bash: commands, options and files of lwmap, and options of the other programs.
_lwmap() {
    local word=${COMP_WORDS[COMP_CWORD]} before=${COMP_WORDS[COMP_CWORD - 1]}
    if [ "$COMP_CWORD" -eq 1 ]; then
        mapfile -t COMPREPLY < <(compgen -W "map check time sim graph big trade lut verilog unverilog" -- "$word")
        return
    fi
    case $before in
    -w) mapfile -t COMPREPLY < <(compgen -W "2 3 4 5 6 7 8" -- "$word") && return ;;
    lut) mapfile -t COMPREPLY < <(compgen -W "2 3 4 5 6" -- "$word") && return ;;
    trade) mapfile -t COMPREPLY < <(compgen -W "-w -i none" -- "$word") && return ;;
    esac
    case ${COMP_WORDS[1]},$word in
    map,-*) mapfile -t COMPREPLY < <(compgen -W "-w -i -c" -- "$word") ;;
    check,-* | graph,-* | trade,-* | lut,-*) mapfile -t COMPREPLY < <(compgen -W "-w -i" -- "$word") ;;
    sim,-*) mapfile -t COMPREPLY < <(compgen -W "-g" -- "$word") ;;
    *) mapfile -t COMPREPLY < <(compgen -f -- "$word") ;;
    esac
}
_lwflow() {
    local word=${COMP_WORDS[COMP_CWORD]} before=${COMP_WORDS[COMP_CWORD - 1]}
    local options="-l -t -o -D -I -P -q -h --library --top --output --effort --area --no-loads --vectors --limit --jobs --sure --json --quiet --help --version"
    case $before,$word in
    --effort,*) mapfile -t COMPREPLY < <(compgen -W "fast normal best" -- "$word") ;;
    --area,*) mapfile -t COMPREPLY < <(compgen -W "max each 105% 110%" -- "$word") ;;
    -I,* | -o,* | --output,*) mapfile -t COMPREPLY < <(compgen -d -- "$word") ;;
    -l,* | --library,*) mapfile -t COMPREPLY < <(compgen -f -X '!*.@(genlib|lib|liberty)' -- "$word"; compgen -d -S / -- "$word") ;;
    *,-*) mapfile -t COMPREPLY < <(compgen -W "$options" -- "$word") ;;
    *) mapfile -t COMPREPLY < <(compgen -f -- "$word") ;;
    esac
}
_lwequal() {
    local word=${COMP_WORDS[COMP_CWORD]}
    case $word in
    -*) mapfile -t COMPREPLY < <(compgen -W "-l -n -s -h -v" -- "$word") ;;
    *) mapfile -t COMPREPLY < <(compgen -f -- "$word") ;;
    esac
}
_lwarea() {
    local word=${COMP_WORDS[COMP_CWORD]} before=${COMP_WORDS[COMP_CWORD - 1]}
    case $before,$word in
    -w,*) mapfile -t COMPREPLY < <(compgen -W "2 3 4 5 6 7 8" -- "$word") ;;
    -e,*) mapfile -t COMPREPLY < <(compgen -W "0 1 2 3" -- "$word") ;;
    -t,*) mapfile -t COMPREPLY < <(compgen -W "max each 105% 110%" -- "$word") ;;
    *,-*) mapfile -t COMPREPLY < <(compgen -W "-w -i -n -c -s -e -t -k -h -v" -- "$word") ;;
    *) mapfile -t COMPREPLY < <(compgen -f -- "$word") ;;
    esac
}
# A program that has a line here gets this file where it is installed.
complete -o filenames -F _lwmap lwmap
complete -o filenames -F _lwarea lwarea
complete -o filenames -F _lwequal lwequal
complete -o filenames -F _lwflow lwflow
