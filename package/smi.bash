# Completion of smi for bash. The stations of a node's tree file are read from that file.

_smi_words()
{
    # the words after the command that are no option, nor the value of one
    local place word
    words=()
    for ((place = 2; place < COMP_CWORD; place++)); do
        word=${COMP_WORDS[place]}
        case $word in
            --console | --history | --history-days | --host | --http | --journal | --orders | --origin | --seed | --sources | --steps | --style | --token | --turns) ((place++)) ;;
            -*) ;;
            *) words+=("$word") ;;
        esac
    done
}

_smi()
{
    local word=${COMP_WORDS[COMP_CWORD]} before=${COMP_WORDS[COMP_CWORD - 1]} options='' words
    COMPREPLY=()
    if ((COMP_CWORD == 1)); then
        mapfile -t COMPREPLY < <(compgen -W 'answer audit check node rows screen sim' -- "$word")
        return
    fi
    case $before in
        --sources)
            mapfile -t COMPREPLY < <(compgen -W 'any exact host' -- "$word")
            return
            ;;
        --history-days | --host | --http | --origin | --seed | --steps | --turns) return ;;
        --console | --history | --journal | --orders | --style | --token)
            compopt -o filenames 2> /dev/null
            mapfile -t COMPREPLY < <(compgen -f -- "$word")
            return
            ;;
    esac
    case ${COMP_WORDS[1]} in
        sim) options='--seed --settle --steps' ;;
        audit) options='--trace' ;;
        check) options='--lint' ;;
        node) options='--accept-older --console --endless --journal --journal-sync --open --service --sources --turns' ;;
        screen) options='--accept-older --endless --history --history-days --host --http --open --orders --origin --service --sources --style --token --turns' ;;
    esac
    if [[ $word == -* ]]; then
        mapfile -t COMPREPLY < <(compgen -W "$options" -- "$word")
        return
    fi
    _smi_words
    case ${COMP_WORDS[1]}:${#words[@]} in
        node:1 | screen:1)
            mapfile -t COMPREPLY < <(compgen -W "$(awk '$1 == "station" {print $2}' "${words[0]}" 2> /dev/null)" -- "$word")
            ;;
        audit:* | check:0 | rows:0 | sim:0 | sim:1 | node:[02] | screen:[02])
            compopt -o filenames 2> /dev/null
            mapfile -t COMPREPLY < <(compgen -f -- "$word")
            ;;
    esac
}

complete -F _smi smi
