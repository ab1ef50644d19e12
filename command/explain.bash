# Sourced by stakeplay.sh where a run did not end well: what its line means, as a second one. The program's own line
# stands before it as it is. `plain` has the words that the program was called with, `order` whether they came in the
# natural order, `begun` at which byte of standard input the program began, where that is a file, `package` where the
# package is.
. "$parts/faults.bash"

# The second line for a status and a line of the program; nothing where there is no more to say.
explained() {
    local status="$1" line="${2#stakeplay: }" number="${2##* }"
    why=''
    case "$line" in
    usage) judge_plain "${plain[@]}" ;;
    'line '*': missing') why='standard input has no line; the first one is a genesis' ;;
    'line '*': not JSON') why="the line is no JSON text of one object: it may be empty, compressed, in several lines, or marked by bytes in front" ;;
    'line '*': bad shape '*) why="${SHAPE_OF[$number]:-}"; hint_of_form "$number" ;;
    'line '*': bad genesis '*) why="${GENESIS_OF[$number]:-}" ;;
    'line '*': bad block '*) why="${BLOCK_OF[$number]:-}" ;;
    'line '*': limit line') why='a line has at most 4194304 bytes' ;;
    'line '*': limit input') why='an input has at most 2^40 bytes; give the rest to resume' ;;
    'line '*': limit ratio') why='a sum or quotient at the beginning of this block is 10^38 units or more, or a period 10^18' ;;
    'line '*': limit bound') why='an amount of the bounds of this statement is 10^38 units or more' ;;
    'store fault') judge_store "${plain[0]}" ;;
    'bad store') why="${STATUS_OF[8]}"; [ "$order" = natural ] || why="${why//--keep nor --height/keep nor past} before the command" ;;
    'store is empty') judge_absent "${plain[0]}" ;;
    'store is not empty') why="${plain[0]} has rows: resume goes on from them, and replay begins with another file" ;;
    'not found') told_missing "${plain[@]}" ;;
    'no past') why="${plain[0]} tells nothing of this height: it is below where its history begins, or above its last height" ;;
    *) [ -z "$line" ] || why="${STATUS_OF[$status]:-}" ;;
    esac
    case "$line" in 'line '*': not JSON' | 'line '*': bad '*) add_place "$line" ;; esac
    [ -z "$why" ] || echo "stakeplay: $why"
}

# Adds where the fault of a line stands, where its file can be read again and Python is there (stakeplay.lines.place).
add_place() {
    local number="${1#line }" form=hex name place
    [ -n "$begun" ] && command -v python3 >/dev/null || return 0
    [ "${plain[1]:-}" != bech32 ] || form=bech32
    for name in "${plain[@]:1}"; do
        case "$name" in replay | resume | tally | check | statement) break ;; esac
    done
    place="$(PYTHONDONTWRITEBYTECODE=1 PYTHONPATH="$package" python3 -m stakeplay.lines.place \
        "$begun" "$form" "$name" "${number%%:*}" ${1#*: } 2>/dev/null)"
    case "$place $1" in
    ' '*) ;;
    *': not JSON') why="$place" ;;
    *) why="$place; $why" ;;
    esac
}

# How a word before the command is given: as a flag in the natural order.
told_word() { if [ "$order" = natural ]; then echo "--$1"; else echo "the word $1 before the command"; fi; }

# What is wrong with plain words, the store first: for words that the program did not take.
judge_plain() {
    local store="${1:-}" form='' front='' name
    . "$parts/table.bash"
    . "$parts/words.bash"
    case "$store" in
    '') [ $# -gt 0 ] && { fault 'the store has no name'; return; } ;;
    -) ;;
    -*) fault "a path that begins with - is written ./$store"; return ;;
    esac
    for name; do
        case "$name" in
        --*) fault "$name: flags stand with the command first, as in: query supply --store chain.db"; return ;;
        esac
    done
    if [ $# -lt 2 ]; then
        if [ -n "$store" ] && [ "$store" != - ] && [ ! -e "$store" ]; then
            judge_name "$store"
        else
            fault "no command stands behind ${store:-the store}; the commands are ${COMMANDS// /, }"
        fi
        return
    fi
    shift
    if [ "$1" = bech32 ]; then form=bech32; shift; fi
    case "${1:-}" in
    keep) front=keep; shift ;;
    every) front=every; judge_number every "${2:-}" 1 1000000; shift 2 2>/dev/null || shift ;;
    past) front=past; judge_number past "${2:-}" 0 9223372036854775807; shift 2 2>/dev/null || shift ;;
    esac
    name="${1:-}"
    if [ -z "$name" ]; then
        fault "no command stands there; the commands are ${COMMANDS// /, }"
    elif ! has_word "$COMMANDS" "$name"; then
        case "$name" in
        bech32) fault 'the word bech32 stands once, and before all others' ;;
        keep | every | past) fault "the word $name does not stand behind ${front:-the command}" ;;
        *) judge_name "$name" ;;
        esac
    else
        judge_front "$front" "$name"
        judge_words "$@"
        judge_addresses "$form" "$@"
    fi
}

# What is wrong with the word before a command.
judge_front() {
    case "$1 $2" in
    ' '* | 'keep replay' | 'keep resume' | 'every replay' | 'every resume' | 'past query') ;;
    past*) fault "past stands before query alone, and not before $2" ;;
    *) fault "$1 stands before replay and resume alone, and not before $2" ;;
    esac
}

# What is wrong with the addresses of a command, in a form.
judge_addresses() {
    local form="$1" name="$2"
    shift 2
    case "$name" in
    query) [ $# -lt 2 ] || judge_address "query $1" "$2" "${PREFIX_OF[$1]:-cosmos}" "$form" ;;
    statement)
        judge_address DELEGATOR "${1:-}" cosmos "$form"
        judge_address OPERATOR "${2:-}" cosmosvaloper "$form"
        ;;
    esac
}

# What is wrong with an address that is to have a prefix behind `bech32`. The program did not take these words: so where
# nothing else is wrong with a spelling, its last letters are.
judge_address() {
    local what="$1" text="$2" prefix="$3" letters
    if [ "$4" = bech32 ]; then
        letters="${text#"$prefix"1}"
        if [[ "$text" =~ ^[0-9a-f]{40}$ ]]; then
            fault "$what: $text is in hexadecimal digits: leave bech32 out, or give the spelling with the prefix $prefix"
        elif [[ "$text" =~ [A-Z] ]]; then
            fault "$what: $text has capital letters, and a spelling has none"
        elif [ "$letters" = "$text" ]; then
            fault "$what: $text does not begin with ${prefix}1"
        elif [ ${#letters} != 38 ]; then
            fault "$what: $text has ${#letters} letters behind ${prefix}1, and is to have 38"
        elif [[ "$letters" =~ [^02-9ac-hj-np-z] ]]; then
            fault "$what: $text has ${BASH_REMATCH[0]}, which no spelling has behind ${prefix}1"
        else
            fault "$what: the last six letters of $text do not check the others: a letter is mistyped"
        fi
    elif [[ ! "$text" =~ ^[0-9a-f]{40}$ ]]; then
        if [[ "$text" =~ ^[a-z]+1[02-9ac-hj-np-z]{6,}$ ]]; then
            fault "$what: $text is spelled as explorers do: give $(told_word bech32), or 40 digits 0-9a-f"
        elif [[ "$text" =~ ^0[xX] ]]; then
            fault "$what: $text has ${text:0:2} in front; 40 digits 0-9a-f are wanted"
        elif [[ ! "$text" =~ ^[0-9a-fA-F]+$ ]]; then
            fault "$what: $text is not 40 digits 0-9a-f"
        elif [ ${#text} != 40 ]; then
            fault "$what: $text has ${#text} digits, and is to have 40"
        else
            fault "$what: $text has capital letters, and 40 digits 0-9a-f are wanted"
        fi
    fi
}

# Where an address may be in the other form.
hint_of_form() {
    [[ "${SHAPE_OF[$1]:-}" == *bech32* ]] || return 0
    if [ "${plain[1]:-}" = bech32 ]; then why+=' (bech32 was given)'; else why+=' (bech32 was not given)'; fi
}

# Why a store cannot be opened, as far as a look at it tells.
judge_store() {
    local folder=.
    [[ "$1" != */* ]] || folder="${1%/*}"
    if [ "$1" = :memory: ]; then
        why=':memory: is no file'
    elif [ -d "$1" ]; then
        why="$1 is a folder"
    elif [ ! -e "$1" ] && [ ! -d "${folder:-/}" ]; then
        why="there is no folder ${folder:-/}"
    elif [ -e "$1" ] && { [ ! -r "$1" ] || [ ! -w "$1" ]; }; then
        why="$1 may not be read and written by this user"
    elif [ -f "$1" ] && [ -s "$1" ] && ! is_database "$1"; then
        why="$1 is no database"
    else
        why="$1: another program holds it, its disk is full, or it is no store"
    fi
}

# Whether a file begins as a database does.
is_database() {
    local head=''
    IFS= read -r -N 15 head 2>/dev/null <"$1"
    [ "$head" = 'SQLite format 3' ]
}

# Why a command finds no rows.
judge_absent() {
    if [ "$1" = - ]; then
        why="- is no store; $(if [ "$order" = natural ]; then echo '--store FILE'; else echo 'the first word'; fi) names one that replay made"
    elif [ ! -e "$1" ]; then
        why="there is no file $1; replay makes one"
    else
        why="$1 has no rows; replay makes them"
    fi
}

# What no line, or no payment, is of.
told_missing() {
    local last="${*: -1}" words=" $* "
    if [[ "$words" == *' statement '* ]]; then
        local -a all=("$@")
        why="${all[${#all[@]} - 2]} was paid no reward from the validator of $last"
    else
        words="${words#* query }"
        why="no line of ${words%% *} belongs to $last"
    fi
}
