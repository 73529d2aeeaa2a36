#!/usr/bin/env bash
# Measures what it costs to read a bundle: instructions, also for each of its words, and peak memory. The bundles are the
# one of the system's ICU, one of 20,000 zones, and three of a million words that are made to cost much, and are refused.
# Each run has an empty input. Its instructions are printed whole, which is what the wanted number is held against, and
# without those of a run with a bundle of 52 words, which are mostly the program's start. A tool that is missing is skipped.
# Ends with 1 where a run ends with another status than it has to.
set -u
top=$(CDPATH='' cd -- "$(dirname -- "$0")/.." && pwd -P) || exit 1
work=$(mktemp -d) || exit 1
trap 'rm -rf "$work"' EXIT
trap 'exit 1' HUP INT TERM
program=$top/crates/saywhen/out/saywhen
# wanted at most for the bundle of ICU; 20,000 zones may take 20 times that
most=2600000
failed=0

"$top/saywhen" at en "$top/crates/saywhen/data/plus2.res" </dev/null || exit 1

# Highest memory of a run in KiB, told by GNU time. Without it the system is asked, which tells it only of a process that
# lives: so it is asked without a pause, by the shell alone; and before the program is begun it is the shell's own, which
# does not count.
timer=$(type -P time)
[ -n "$timer" ] && "$timer" -f %M true 2>&1 | grep -qx '[0-9][0-9]*' || timer=
one_peak() {
    local most=0 name now word value
    if [ -n "$timer" ]; then
        "$timer" -f %M "$program" at en "$1" 2>&1 </dev/null >/dev/null | tail -n 1
        return
    fi
    "$program" at en "$1" </dev/null &
    local pid=$!
    while
        name='' now=''
        while read -r word value _; do
            case $word in
            Name:) name=$value ;;
            VmHWM:) now=$value && break ;;
            esac
        done 2>/dev/null <"/proc/$pid/status"
        [ -n "$now" ]
    do
        [ "$name" = saywhen ] && most=$now
    done
    wait "$pid"
    echo "$most"
}

# the highest of five runs, as a busy machine may hide the end of one
peak() {
    local most=0 now
    for _ in 1 2 3 4 5; do
        now=$(one_peak "$1" 2>/dev/null)
        [ "$now" -gt "$most" ] && most=$now
    done
    [ "$most" -gt 0 ] && echo "$most KiB" || echo "not seen"
}

instructions() {
    valgrind --tool=callgrind --callgrind-out-file=/dev/null "$program" at en "$1" </dev/null 2>&1 >/dev/null |
        awk '/Collected/ { print $NF }'
}

# what the bundle is, its file, the status that its run has to end with, and the instructions that are wanted at most; a count
# above that is marked as MISSED
measure() {
    local name=$1 file=$2 wanted=$3 limit=${4:-} words status count
    words=$(($(wc -c <"$file") / 4))
    "$program" at en "$file" </dev/null >"$work/out" 2>&1
    status=$?
    echo "$name: $words words, status $status (wanted: $wanted), peak memory $(peak "$file")"
    [ "$status" -eq "$wanted" ] || failed=1
    command -v valgrind >/dev/null || return
    count=$(instructions "$file")
    awk -v name="$name" -v count="$count" -v start="$start" -v words="$words" -v limit="$limit" 'BEGIN {
        wanted = limit == "" ? "" : sprintf(" (wanted: at most %d%s)", limit, count > limit ? ", MISSED" : "")
        printf "%s: %d instructions%s, %d without the start, %.1f a word\n", name, count, wanted, count - start, count / words
    }'
}

# a large input that is made from a number, written as a bundle, read back and answered
measure_load() {
    local said count
    said=$("$program" load 20000)
    echo "load: $said"
    [ "$said" = 'zones 20000 lines 20000 moments 15000 refusals 5000 last 1521862200' ] || failed=1
    command -v valgrind >/dev/null || return
    count=$(valgrind --tool=callgrind --callgrind-out-file=/dev/null "$program" load 20000 2>&1 >/dev/null |
        awk '/Collected/ { print $NF }')
    [ "$count" -le 131000000 ] && echo "load: $count instructions (wanted: at most 131000000)" ||
        echo "load: $count instructions (wanted: at most 131000000, MISSED)"
}

if command -v valgrind >/dev/null; then
    start=$(instructions "$top/crates/saywhen/data/plus2.res")
    echo "start: $start instructions"
else
    echo "skipped: instructions, as valgrind is missing"
fi
if said=$("$top/tools/icu-bundle" "$work/zoneinfo64.res" 2>&1); then
    echo "${said#"$work/"}"
    measure "zones of ICU" "$work/zoneinfo64.res" 0 "$most"
else
    echo "skipped: zones of ICU: $said"
fi
if command -v python3 >/dev/null; then
    python3 "$top/bench/many_zones.py" 20000 >"$work/many.res" || exit 1
    measure "20,000 zones" "$work/many.res" 0 $((20 * most))
    for kind in shared equal-keys chains; do
        python3 "$top/bench/hostile.py" "$kind" >"$work/$kind.res" || exit 1
        measure "hostile, $kind" "$work/$kind.res" 3
    done
else
    echo "skipped: 20,000 zones and hostile bundles, as python3 is missing"
fi
measure_load
exit $failed
