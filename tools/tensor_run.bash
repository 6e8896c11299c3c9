# Completion of tensor_run's words in bash: `. tools/tensor_run.bash`. For `./run` too, which takes the same words.

_tensor_run() {
    local word=${COMP_WORDS[COMP_CWORD]} before=${COMP_WORDS[COMP_CWORD - 1]} at given=" "
    COMPREPLY=()
    if [ "$COMP_CWORD" = 2 ] && [ "$before" = check ]; then
        # the answers, under whatever name
        mapfile -t COMPREPLY < <(compgen -f -- "$word")
        return 0
    fi
    [ "${COMP_WORDS[1]}" = check ] && [ "$COMP_CWORD" -gt 2 ] && given=" -- "
    for ((at = 1; at < COMP_CWORD; at++)); do given+="${COMP_WORDS[at]%%=*} "; done
    if [[ $given != *" -- "* ]]; then
        case $before in
            --root)
                mapfile -t COMPREPLY < <(compgen -d -- "$word")
                return
                ;;
            --workers)
                mapfile -t COMPREPLY < <(compgen -W "1 2 4 8" -- "$word")
                return
                ;;
            --cache | --make) return ;;
        esac
        if [[ $word == -* ]]; then
            # --root comes first, each option once, and no option behind a file
            local options=() option
            [ "$COMP_CWORD" = 1 ] && options+=(--root)
            for option in --workers --cache --make --; do
                [[ $given == *" $option "* ]] || options+=("$option")
            done
            mapfile -t COMPREPLY < <(compgen -W "${options[*]}" -- "$word")
            return
        fi
    fi
    local first=
    [ "$COMP_CWORD" = 1 ] && first=check
    mapfile -t COMPREPLY < <(compgen -W "$first" -- "$word"; compgen -f -X '!*.jsonl' -- "$word"; compgen -d -S / -- "$word")
    [[ ${COMPREPLY[*]} == */ ]] && compopt -o nospace 2> /dev/null
    return 0
}
complete -o filenames -F _tensor_run tensor_run ./run bin/tensor_run
