# Made by checks/commands.py from command/table.json and docs/FORMATS.md. Completion of stakeplay for bash.

_stakeplay() {
    local word="${COMP_WORDS[COMP_CWORD]}" before="${COMP_WORDS[COMP_CWORD - 1]}" command='' place=0 at flags
    case "$before" in
        --store) COMPREPLY=($(compgen -f -- "$word")); return ;;
        --every|--height) COMPREPLY=(); return ;;
    esac
    for ((at = 1; at < COMP_CWORD; at++)); do
        case "${COMP_WORDS[at]}" in
            --store|--every|--height) at=$((at + 1)) ;;
            -*) ;;
            *) if [ -z "$command" ]; then command="${COMP_WORDS[at]}"; else place=$((place + 1)); fi ;;
        esac
    done
    case "$command" in
        replay) flags='--store --keep --every --bech32 --help' ;;
        resume) flags='--store --keep --every --bech32 --help' ;;
        query) flags='--store --height --bech32 --help' ;;
        tally) flags='--store --bech32 --help' ;;
        statement) flags='--bech32 --help' ;;
        check) flags='--bech32 --help' ;;
        gen) flags='--bech32 --help' ;;
        trial) flags='--bech32 --help' ;;
        *) flags='--store --keep --every --height --bech32 --help --version' ;;
    esac
    if [[ "$word" == -* ]]; then
        COMPREPLY=($(compgen -W "$flags" -- "$word"))
    elif [ -z "$command" ]; then
        COMPREPLY=($(compgen -W 'replay resume query tally statement check gen trial help version' -- "$word"))
    elif [ "$command" = help ] && [ "$place" = 0 ]; then
        COMPREPLY=($(compgen -W 'replay resume query tally statement check gen trial' -- "$word"))
    elif [ "$command" = query ] && [ "$place" = 0 ]; then
        COMPREPLY=($(compgen -W 'supply pool validators account validator delegations rewards unbondings redelegations signing' -- "$word"))
    else
        COMPREPLY=($(compgen -W "$flags" -- "$word"))
    fi
}
complete -F _stakeplay stakeplay stakeplay.sh
