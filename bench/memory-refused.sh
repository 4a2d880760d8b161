#!/bin/sh
# Refuses searches memory, at one growth after the other: bench/memory-refused.sh [STEP]
# A search by two workers stops at two entries. A second one goes on from a copy of its journal with so much memory as just starts the program, the
# next with a page more (STEP pages, if said), and so on, until thirty in a row have all that they want. Each allocation takes a page of its own, so
# it is the first that is refused at some time, if what is held then is more than ever before. What is told must be the answer, `NoMemory` or `NoThread`; the journal begins as the copy
# does and ends with a closed gate; and a search with enough memory then goes on from it to the answer. So it is of a new journal too.
# Needs glibc. Ends with status 1 where it is not so.
here=$(cd "$(dirname "$0")/.." && pwd)
hplan=${HPLAN:-$("$here/tools/program")}
step=$((4 * ${1:-1}))
domain=$here/examples/van/domain.pddl
problem=$here/examples/van/problem.pddl
wanted="; cost = 11"
header=39
folder=$(mktemp -d)
trap 'rm -rf "$folder"' EXIT
wrong=0

# A search with so many kB of memory: limited KB WORDS..
limited() {
    (
        # Small stacks, so that threads start with little memory too.
        ulimit -s 128 || exit 1
        ulimit -v "$1" || exit 1
        shift
        GLIBC_TUNABLES=glibc.malloc.mmap_threshold=1:glibc.malloc.mmap_max=10000000:glibc.malloc.arena_max=1
        export GLIBC_TUNABLES
        exec "$hplan" "$@"
    ) >"$folder/plan" 2>"$folder/told" </dev/null
}

# The least memory that starts the program, in kB.
least() {
    low=4
    high=1048576
    while [ $((high - low)) -gt 4 ]; do
        middle=$(((low + high) / 8 * 4))
        if limited "$middle" --version; then high=$middle; else low=$middle; fi
    done
    echo "$high"
}

# What the last search said.
said() {
    cat "$folder/plan" "$folder/told" | tail -n 1
}

# Tells what is not as it should be.
complain() {
    echo "$1: $2"
    wrong=1
}

# Whether the journal begins as the one before, but for its last gate, and is at rest.
compare() {
    before=$(stat -c %s "$folder/before")
    after=$(stat -c %s "$folder/journal")
    [ "$before" -le 1 ] || cmp -s -n $((before - 1)) "$folder/before" "$folder/journal" || complain "$1" "the journal begins otherwise"
    [ "$before" -le "$after" ] || complain "$1" "the journal is shorter"
    [ "$after" -le $header ] || [ "$(tail -c 1 "$folder/journal" | od -An -tu1 | tr -d ' ')" = 0 ] || complain "$1" "the last gate is open"
}

# Goes on with the memory that it wants.
finish() {
    verb=resume
    [ -s "$folder/journal" ] || verb=solve
    "$hplan" $verb "$domain" "$problem" --journal "$folder/journal" --workers 2 >"$folder/plan" 2>"$folder/told" </dev/null
    [ "$(said)" = "$wanted" ] || complain "$1" "afterwards '$(said)'"
}

# Searches from a journal with ever more memory: sweep VERB
sweep() {
    memory=$start
    refused=0
    threadless=0
    row=0
    while [ $row -lt 30 ]; do
        cp "$folder/before" "$folder/journal"
        limited "$memory" "$1" "$domain" "$problem" --journal "$folder/journal" --workers 2
        case "$(said)" in
        "$wanted") row=$((row + 1)) ;;
        "hplan: NoMemory")
            row=0
            refused=$((refused + 1))
            ;;
        "hplan: NoThread")
            row=0
            threadless=$((threadless + 1))
            ;;
        *)
            row=0
            complain "$1 with $memory kB" "'$(said)'"
            ;;
        esac
        compare "$1 with $memory kB"
        finish "$1 with $memory kB"
        memory=$((memory + step))
    done
    echo "$1: from $start to $memory kB, $refused searches told NoMemory, and $threadless NoThread"
}

start=$(least)
: >"$folder/before"
sweep solve
rm "$folder/before"
"$hplan" solve "$domain" "$problem" --journal "$folder/before" --workers 2 --limit 2 >"$folder/plan" 2>"$folder/told" </dev/null
[ "$(said)" = "stopped at the limit" ] || complain "the limit" "'$(said)'"
sweep resume
exit $wrong
