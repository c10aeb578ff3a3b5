# Completions of autfilt for bash, made by bench/completions.
_autfilt() {
    local word=${COMP_WORDS[COMP_CWORD]} before=${COMP_WORDS[COMP_CWORD - 1]}
    if [[ $word == "=" ]]; then
        word=
    elif [[ $before == "=" ]]; then
        before=${COMP_WORDS[COMP_CWORD - 2]}
    fi
    COMPREPLY=()
    case $before in
        --included-in|--equivalent-to|--intersect|--product|--product-or|--sum|--refute|--file|-F) ;;
        --accept-word|--reject-word|--states|--edges|--acc-sets|--ap|--remove-ap|--stats|--max-count|--made|-n) return ;;
        *)
            if [[ $word == -* ]]; then
                mapfile -t COMPREPLY < <(compgen -W '--accept-word= --reject-word= --is-empty --included-in= --equivalent-to= --intersect= --is-deterministic --is-complete --is-unambiguous --states= --edges= --acc-sets= --ap= -v --invert-match --product= --product-or= --sum= --remove-ap= --remove-unreachable-states --complement -D --deterministic --parity --buchi --remove-fin --dnf-acceptance -M --monitor -C --complete -q --quiet -c --count --refute= --stats= -n --max-count= -F --file= --made=' -- "$word")
                [[ ${COMPREPLY[0]} == *= ]] && compopt -o nospace
                return
            fi
            ;;
    esac
    compopt -o filenames
    mapfile -t COMPREPLY < <(compgen -f -- "$word")
}
complete -F _autfilt autfilt
