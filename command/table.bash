# Made by checks/commands.py from command/table.json and docs/FORMATS.md. Sourced by stakeplay.sh.

COMMANDS='replay resume query tally statement check gen trial'
FLAGS='store keep every height bech32 help version'
KINDS='supply, pool, validators, account ADDRESS, validator ADDRESS, delegations ADDRESS, rewards ADDRESS, unbondings ADDRESS, redelegations ADDRESS, signing ADDRESS'
declare -gA VALUE_OF=(
    [store]='FILE'
    [keep]=''
    [every]='N'
    [height]='H'
    [bech32]=''
    [help]=''
    [version]=''
)
declare -gA LEAST_OF=(
    [every]='1'
    [height]='0'
)
declare -gA MOST_OF=(
    [every]='1000000'
    [height]='9223372036854775807'
)
declare -gA SHORT_OF=(
    [h]='help'
    [V]='version'
)
declare -gA PREFIX_OF=(
    [supply]=''
    [pool]=''
    [validators]=''
    [account]='cosmos'
    [validator]='cosmosvaloper'
    [delegations]='cosmos'
    [rewards]='cosmos'
    [unbondings]='cosmos'
    [redelegations]='cosmos'
    [signing]='cosmosvalcons'
)
declare -gA FLAGS_OF=(
    [replay]='store keep every bech32'
    [resume]='store keep every bech32'
    [query]='store height bech32'
    [tally]='store bech32'
    [statement]='bech32'
    [check]='bech32'
    [gen]='bech32'
    [trial]='bech32'
)
declare -gA WORDS_OF=(
    [replay]=''
    [resume]=''
    [query]='KIND [ADDRESS]'
    [tally]=''
    [statement]='DELEGATOR OPERATOR'
    [check]=''
    [gen]='SEED COUNT'
    [trial]='SEED COUNT'
)
declare -gA STORE_OF=(
    [replay]='may'
    [resume]='must'
    [query]='must'
    [tally]='must'
    [statement]='none'
    [check]='none'
    [gen]='none'
    [trial]='none'
)
declare -gA USAGE_OF=(
    [replay]='replay [--store FILE] [--keep | --every N] [--bech32]'
    [resume]='resume --store FILE [--keep | --every N] [--bech32]'
    [query]='query KIND [ADDRESS] --store FILE [--height H] [--bech32]'
    [tally]='tally --store FILE [--bech32]'
    [statement]='statement DELEGATOR OPERATOR [--bech32]'
    [check]='check [--bech32]'
    [gen]='gen SEED COUNT [--bech32]'
    [trial]='trial SEED COUNT [--bech32]'
)

# Prints the help of a command, and of all.
told_help() {
    case "$1" in
    replay)
        cat <<TEXT
usage: $called replay [--store FILE] [--keep | --every N] [--bech32]

Reads a genesis and blocks from standard input, a line each. Writes what each does, then a report of the state. With
--store the state is kept, block by block; the file has to be new, or without rows.

  --store FILE  the file that keeps the state: made by replay, gone on with and asked by the others; - is none
  --keep        what each block replaces is kept too, so that past heights can be asked; not with --every
  --every N     commits and writes once for N blocks, in place of each; 1 to 1000000; not with --keep
  --bech32      reads and writes addresses as explorers do (cosmos1..), in place of 40 hexadecimal digits

        $called replay < examples/history.jsonl
        $called replay --store kept.db --keep < examples/history.jsonl
        $called replay --store chain.db --every 100 < examples/history.jsonl

In plain words: $called STORE [bech32] [keep | every N] replay
TEXT
        ;;
    resume)
        cat <<TEXT
usage: $called resume --store FILE [--keep | --every N] [--bech32]

Reads blocks from standard input, a line each, from the one above the height of the store. Writes what each does, then
a report. A store that has a history is gone on with by --keep.

  --store FILE  the file that keeps the state: made by replay, gone on with and asked by the others; - is none
  --keep        what each block replaces is kept too, so that past heights can be asked; not with --every
  --every N     commits and writes once for N blocks, in place of each; 1 to 1000000; not with --keep
  --bech32      reads and writes addresses as explorers do (cosmos1..), in place of 40 hexadecimal digits

        tail -n +5 examples/history.jsonl | $called resume --store chain.db

In plain words: $called STORE [bech32] [keep | every N] resume
TEXT
        ;;
    query)
        cat <<TEXT
usage: $called query KIND [ADDRESS] --store FILE [--height H] [--bech32]

Writes the lines of the report that are of the kind and, where the kind has an address, belong to it. Reads and
changes nothing. A store that has a history is asked by --height.

  KIND          what is asked; one of the kinds below
  ADDRESS       40 digits 0-9a-f; with --bech32 a spelling with the prefix that stands at the kind

  supply                  the supply of each denomination
  pool                    the community pool
  validators              all validators
  account ADDRESS         the coins of an account (prefix cosmos)
  validator ADDRESS       the validator of an operator (prefix cosmosvaloper)
  delegations ADDRESS     the delegations of an account (prefix cosmos)
  rewards ADDRESS         the pending rewards of an account's delegations (prefix cosmos)
  unbondings ADDRESS      what of an account is unbonding (prefix cosmos)
  redelegations ADDRESS   what of an account is redelegated (prefix cosmos)
  signing ADDRESS         the missed votes of a consensus address (prefix cosmosvalcons)

  --store FILE  the file that keeps the state: made by replay, gone on with and asked by the others; - is none
  --height H    answers as it stood after this height; the store has to be kept by --keep
  --bech32      reads and writes addresses as explorers do (cosmos1..), in place of 40 hexadecimal digits

        $called query supply --store chain.db
        $called query rewards ADDRESS --store kept.db --height 3 --bech32

In plain words: $called STORE [bech32] [past H] query KIND [ADDRESS]
TEXT
        ;;
    tally)
        cat <<TEXT
usage: $called tally --store FILE [--bech32]

Reads ballots from standard input, a line each. Writes the totals of the options in one line. Changes nothing.

  --store FILE  the file that keeps the state: made by replay, gone on with and asked by the others; - is none
  --bech32      reads and writes addresses as explorers do (cosmos1..), in place of 40 hexadecimal digits

        $called tally --store chain.db < ballots.jsonl

In plain words: $called STORE [bech32] tally
TEXT
        ;;
    statement)
        cat <<TEXT
usage: $called statement DELEGATOR OPERATOR [--bech32]

Reads what replay reads. Writes a statement for each payment of the delegator's rewards from the operator's validator,
and no line of a replay. It looks at no store.

  DELEGATOR     an account: 40 digits 0-9a-f; with --bech32 a spelling with the prefix cosmos
  OPERATOR      a validator's operator: 40 digits 0-9a-f; with --bech32 a spelling with the prefix cosmosvaloper

  --bech32      reads and writes addresses as explorers do (cosmos1..), in place of 40 hexadecimal digits

        $called statement DELEGATOR OPERATOR < examples/history.jsonl | $called check

In plain words: $called - [bech32] statement DELEGATOR OPERATOR
TEXT
        ;;
    check)
        cat <<TEXT
usage: $called check [--bech32]

Reads reward statements from standard input, a line each. Writes for each whether its sums are right. It looks at no
store.

  --bech32      reads and writes addresses as explorers do (cosmos1..), in place of 40 hexadecimal digits

        $called check < examples/recipes/statements.jsonl

In plain words: $called - [bech32] check
TEXT
        ;;
    gen)
        cat <<TEXT
usage: $called gen SEED COUNT [--bech32]

Writes an input for replay with COUNT blocks, drawn from SEED. Reads nothing.

  SEED          1 to 20 digits, below 2^64
  COUNT         a number of blocks, 1 to 100000, without zeros in front

  --bech32      reads and writes addresses as explorers do (cosmos1..), in place of 40 hexadecimal digits

        $called gen 7 100 | $called replay
        $called gen 7 100 --bech32 | $called replay --bech32

In plain words: $called - [bech32] gen SEED COUNT
TEXT
        ;;
    trial)
        cat <<TEXT
usage: $called trial SEED COUNT [--bech32]

Replays the input that gen would write, and writes one line that sums it up. Reads nothing.

  SEED          1 to 20 digits, below 2^64
  COUNT         a number of blocks, 1 to 100000, without zeros in front

  --bech32      reads and writes addresses as explorers do (cosmos1..), in place of 40 hexadecimal digits

        $called trial 7 1000

In plain words: $called - [bech32] trial SEED COUNT
TEXT
        ;;
    *)
        cat <<TEXT
usage: $called COMMAND [WORDS] [FLAGS]   replays the proof-of-stake accounting of a Cosmos SDK v0.47 chain

  replay                         replays a genesis and blocks
  resume                         goes on from a store with further blocks
  query KIND [ADDRESS]           answers a question about a store
  tally                          counts ballots by the stake of a store
  statement DELEGATOR OPERATOR   says what each payment of a reward rests on
  check                          says whether such statements are right
  gen SEED COUNT                 writes a generated genesis and blocks
  trial SEED COUNT               replays such an input, and sums it up

  --store FILE  the file that keeps the state: made by replay, gone on with and asked by the others; - is none
  --keep        what each block replaces is kept too, so that past heights can be asked; not with --every
  --every N     commits and writes once for N blocks, in place of each; 1 to 1000000; not with --keep
  --height H    answers as it stood after this height; the store has to be kept by --keep
  --bech32      reads and writes addresses as explorers do (cosmos1..), in place of 40 hexadecimal digits
  --help        prints what the command takes, and examples
  --version     prints the version, its day, and the sum of the sources

For a try, in the folder of the repository:

        $called replay < examples/history.jsonl
        tail -n +5 examples/history.jsonl | $called resume --store chain.db

\`$called COMMAND --help\` tells more of each. Plain words are taken too: STORE [bech32] [keep | every N | past H]
COMMAND [WORDS], where the store - is none. docs/COMMANDS.md is the page of commands, docs/FORMATS.md that of
lines, and docs/OPERATING.md says how a run can end.
TEXT
        ;;
    esac
}
