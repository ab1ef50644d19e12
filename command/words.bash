# Sourced by stakeplay.sh: the words that it is called with. In the natural order a command and its words stand with
# flags in any order; in plain words the store stands first, as the program takes them. What they may be is
# command/table.bash. A fault is kept in `why`, as a sentence; it is empty where there is none.

why=''

# Keeps a fault, where none is kept yet.
fault() { [ -n "$why" ] || why="$1"; }

# Whether a list of words, which blanks part, has a word.
has_word() { [[ " $1 " == *" $2 "* ]]; }

# Reads the natural order: what it says in plain words becomes the array `plain`.
read_natural() {
    local -A given=()
    local words=() name
    asked=''
    while [ $# -gt 0 ] && [ -z "$why" ]; do
        case "$1" in
        --) shift; words+=("$@"); break ;;
        --*) read_flag "$@"; shift "$taken"; continue ;;
        -?) name="${SHORT_OF[${1#-}]:-}"
            if [ -n "$name" ]; then given[$name]=1; else fault "$1 is no flag; the flags are $(flags_told "$FLAGS")"; fi ;;
        -?*) fault "$1 is no flag; the flags are $(flags_told "$FLAGS")" ;;
        *) words+=("$1") ;;
        esac
        shift
    done
    command="${words[0]:-}"
    words=("${words[@]:1}")
    if [ "$command" = help ]; then
        given[help]=1 command="${words[0]:-}"
    elif [ "$command" = version ]; then
        given[version]=1
    fi
    if [ -n "${given[help]:-}" ]; then asked=help why=''; return; fi
    if [ -n "${given[version]:-}" ]; then asked=version why=''; return; fi
    judge_natural "${words[@]}"
    [ -z "$why" ] || return
    plain=("${given[store]:--}")
    [ -z "${given[bech32]:-}" ] || plain+=(bech32)
    [ -z "${given[keep]:-}" ] || plain+=(keep)
    [ -z "${given[every]:-}" ] || plain+=(every "${given[every]}")
    [ -z "${given[height]:-}" ] || plain+=(past "${given[height]}")
    plain+=("$command" "${words[@]}")
}

# Reads the flag that stands first, with its value; `taken` is how many words it has.
read_flag() {
    local name="${1%%=*}" value
    name="${name#--}" taken=1
    if ! has_word "$FLAGS" "$name"; then
        fault "--$name is no flag; the flags are $(flags_told "$FLAGS")"
    elif [ -n "${given[$name]:-}" ]; then
        fault "--$name stands twice"
    elif [ -z "${VALUE_OF[$name]}" ]; then
        [[ "$1" != *=* ]] || fault "--$name takes no value"
        given[$name]=1
    else
        if [[ "$1" == *=* ]]; then value="${1#*=}"; else value="${2:-}" taken=2; fi
        if [ -z "$value" ] || [[ "$value" == --* ]]; then
            fault "--$name has no ${VALUE_OF[$name]} behind it"
            taken=1
        fi
        [ -z "${LEAST_OF[$name]:-}" ] || judge_number "--$name" "$value" "${LEAST_OF[$name]}" "${MOST_OF[$name]}"
        given[$name]="$value"
    fi
}

# What is wrong in the natural order: the command, its flags, and how many words it has.
judge_natural() {
    local name
    if [ -z "$command" ]; then
        fault "no command stands there; the commands are ${COMMANDS// /, }"
        return
    elif ! has_word "$COMMANDS" "$command"; then
        judge_name "$command"
        return
    fi
    judge_words "$command" "$@"
    for name in "${!given[@]}"; do
        has_word "${FLAGS_OF[$command]}" "$name" || fault "$command takes no --$name; its flags are $(flags_told "${FLAGS_OF[$command]}")"
    done
    if [ -n "${given[keep]:-}" ] && [ -n "${given[every]:-}" ]; then
        fault "--keep and --every exclude one another: a history is of each block"
    fi
    case "${given[store]:-}" in -?*) fault "--store: a path that begins with - is written ./${given[store]}" ;; esac
    if [ "${STORE_OF[$command]}" = must ] && [ -z "${given[store]:-}" ]; then
        fault "$command goes on from a store: --store FILE says which"
    fi
}

# The flags of a list, as a text.
flags_told() {
    local name told=''
    for name in $1; do told+="${told:+, }--$name${VALUE_OF[$name]:+ ${VALUE_OF[$name]}}"; done
    echo "$told"
}

# What is wrong with the name of a command.
judge_name() {
    if has_word "$COMMANDS" "${1,,}"; then
        fault "$1: commands are written in small letters, ${1,,}"
    else
        fault "$1 is no command; the commands are ${COMMANDS// /, }"
    fi
}

# What is wrong with the words of a command, as far as no address is concerned.
judge_words() {
    local name="$1" wanted="${WORDS_OF[$1]}"
    shift
    if [ "$name" = query ]; then
        judge_kind "$@"
        return
    fi
    set -- "$wanted" "$@"
    local -a due=($wanted)
    if [ $(($# - 1)) -lt ${#due[@]} ]; then
        fault "$name: ${due[$# - 1]} is missing; it takes $wanted"
    elif [ $(($# - 1)) -gt ${#due[@]} ]; then
        local more=$((${#due[@]} + 2))
        if [ "${#due[@]}" = 0 ] && [ -e "${!more}" ]; then
            fault "$name: ${!more} is one word too many; lines come from standard input: < ${!more}"
        else
            fault "$name: ${!more} is one word too many; it takes ${wanted:-no words}"
        fi
    elif [ "$wanted" = 'SEED COUNT' ]; then
        judge_seed "$2"
        judge_number COUNT "$3" 1 100000
    fi
}

# What is wrong with the words behind `query`.
judge_kind() {
    local kind="${1:-}"
    if [ -z "$kind" ]; then
        fault "query: what is asked is missing; it is one of $KINDS"
    elif [ -z "${PREFIX_OF[$kind]+known}" ]; then
        fault "query: $kind is none of $KINDS"
    elif [ -z "${PREFIX_OF[$kind]}" ] && [ $# -gt 1 ]; then
        fault "query $kind: $2 is one word too many; it takes none"
    elif [ -n "${PREFIX_OF[$kind]}" ] && [ $# -lt 2 ]; then
        fault "query $kind: ADDRESS is missing"
    elif [ $# -gt 2 ]; then
        fault "query $kind: $3 is one word too many; it takes ADDRESS alone"
    fi
}

# What is wrong with a number: digits without zeros in front, between two numbers.
judge_number() {
    if [[ ! "$2" =~ ^[0-9]+$ ]]; then
        fault "$1: $2 is no number; it is $3 to $4, in digits"
    elif [[ "$2" == 0?* ]]; then
        fault "$1: $2 has a zero in front"
    elif is_above "$2" "$4" || is_above "$3" "$2"; then
        fault "$1: $2 is not from $3 to $4"
    fi
}

# Whether a number is above another, both in digits without zeros in front.
is_above() {
    [ ${#1} -gt ${#2} ] || { [ ${#1} = ${#2} ] && [[ "$1" > "$2" ]]; }
}

# What is wrong with a seed.
judge_seed() {
    local bare="${1#"${1%%[!0]*}"}"
    if [[ ! "$1" =~ ^[0-9]{1,20}$ ]] || is_above "${bare:-0}" 18446744073709551615; then
        fault "SEED: $1 is not 1 to 20 digits, below 2^64"
    fi
}
