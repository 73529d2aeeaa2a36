#!/usr/bin/env bash
# Measures the program on 16 MiB of lines: lines a second, instructions a line and peak memory, and GNU date on the same
# dates. With python3 also a bundle of 20,000 zones: its instructions a line are to stay below twice those of one zone.
# Then the instructions of one line again and again, for some lines: in zones that change, of a small bundle and of the one
# of the system's ICU, and of distances told; and those of a first and of a second line in each zone of ICU's bundle. Beside
# each stands what is wanted at most. `bench/lines.sh short` measures these alone. A tool that is missing is skipped.
# Ends with 1 where a line is not answered as it has to be; a count above what is wanted is marked as MISSED.
set -u
top=$(CDPATH='' cd -- "$(dirname -- "$0")/.." && pwd -P) || exit 1
work=$(mktemp -d) || exit 1
trap 'rm -rf "$work"' EXIT
bytes=${BYTES:-16777216}
program=$top/crates/saywhen/out/saywhen

"$top/saywhen" at en "$top/crates/saywhen/data/plus2.res" </dev/null || exit 1

# peak memory of a command in KiB, its input being a file
peak() {
    local input=$1 most=0 now
    shift
    "$@" <"$input" >/dev/null &
    local pid=$!
    while now=$(awk '/^VmHWM/ { print $2 }' "/proc/$pid/status" 2>/dev/null) && [ -n "$now" ]; do
        most=$now
        sleep 0.01
    done
    wait "$pid"
    echo "$most"
}

# seconds of a command, its input being a file
seconds() {
    local input=$1 from to
    shift
    from=$(date +%s.%N)
    "$@" <"$input" >/dev/null
    to=$(date +%s.%N)
    awk -v a="$from" -v b="$to" 'BEGIN { printf "%.3f", b - a }'
}

# instructions of a command, its input being a file
instructions() {
    local input=$1
    shift
    valgrind --tool=callgrind --callgrind-out-file=/dev/null "$@" <"$input" 2>&1 >/dev/null |
        awk '/Collected/ { print $NF }'
}

report() {
    local name=$1 zones=$2 lines=$3 few=$4 more=$5 time
    time=$(seconds "$lines" "$program" at en "$zones")
    awk -v name="$name" -v n="$count" -v t="$time" 'BEGIN { printf "%s: %d lines in %s s, %d lines a second\n", name, n, t, n / t }'
    echo "$name: peak memory $(peak "$lines" "$program" at en "$zones") KiB"
    if command -v valgrind >/dev/null; then
        per_line "$name" "$few" "$more" "$program" at en "$zones"
    fi
}

per_line() {
    local name=$1 few=$2 more=$3 first both
    shift 3
    first=$(instructions "$few" "$@")
    both=$(instructions "$more" "$@")
    awk -v name="$name" -v a="$first" -v b="$both" 'BEGIN { printf "%s: %d instructions a line\n", name, (b - a) / 10000 }'
}

make_lines() {
    # dates that differ, and the lines of them in one zone
    awk -v bytes="$bytes" 'BEGIN {
        for (n = 0; used <= bytes - 43; n++) {
            date = sprintf("%04d-%02d-%02d %02d:%02d", 1970 + n % 130, 1 + n % 12, 1 + n % 28, n % 24, n % 60)
            print date
            used += 43
        }
    }' >"$work/dates"
    awk '{ printf "Test/Plus2\t1521622800\tuk\t%s\n", $0 }' "$work/dates" >"$work/lines"
    count=$(wc -l <"$work/lines")
    # the instructions of 10,000 lines are those of 20,000 less those of the first 10,000
    head -n 10000 "$work/lines" >"$work/few"
    head -n 20000 "$work/lines" >"$work/more"
}

measure_bulk() {
    make_lines
    report "saywhen, 1 zone" "$top/crates/saywhen/data/plus2.res" "$work/lines" "$work/few" "$work/more"

    if command -v python3 >/dev/null; then
        python3 "$top/bench/many_zones.py" 20000 >"$work/many.res" || exit 1
        # each line in another zone
        for name in lines few more; do
            awk -F '\t' '{ printf "Test/%05d\t%s\t%s\t%s\n", NR * 7919 % 20000, $2, $3, $4 }' "$work/$name" >"$work/many-$name"
        done
        report "saywhen, 20,000 zones" "$work/many.res" "$work/many-lines" "$work/many-few" "$work/many-more"
    fi

    if date --version 2>/dev/null | grep -q GNU; then
        time=$(TZ=XXX-2 seconds "$work/dates" date -f - +%s)
        awk -v n="$count" -v t="$time" 'BEGIN { printf "GNU date -f: %d lines in %s s, %d lines a second\n", n, t, n / t }'
        echo "GNU date -f: peak memory $(TZ=XXX-2 peak "$work/dates" date -f - +%s) KiB"
        if command -v valgrind >/dev/null; then
            head -n 10000 "$work/dates" >"$work/few-dates"
            head -n 20000 "$work/dates" >"$work/more-dates"
            TZ=XXX-2 per_line "GNU date -f" "$work/few-dates" "$work/more-dates" date -f - +%s
        fi
    fi
}

# how a count stands to what is wanted
tell_bound() {
    local verdict=''
    [ "$2" -le "$3" ] || verdict=', MISSED'
    echo "$1: $2 instructions (wanted: at most $3$verdict)"
}

# the instructions of one line: what it is, the most that is wanted, how its answer has to begin, the line, and the words of
# the program. They are those of 3,000 such lines less those of 1,000.
one_line() {
    local name=$1 limit=$2 wanted=$3 line=$4 answer few more
    shift 4
    answer=$(echo "$line" | "$program" "$@")
    case $answer in
    "$wanted"*) ;;
    *)
        echo "$name: answered by '$answer'"
        failed=1
        return
        ;;
    esac
    yes "$line" | head -n 1000 >"$work/one-few"
    yes "$line" | head -n 3000 >"$work/one-more"
    few=$(instructions "$work/one-few" "$program" "$@")
    more=$(instructions "$work/one-more" "$program" "$@")
    tell_bound "$name" $(((more - few) / 2000)) "$limit"
}

tab=$(printf '\t')
base="${tab}1521622800${tab}uk${tab}"

# the lines of a changing zone in a bundle: what the bundle is, its file, and the most that is wanted of a relative line, and
# of another
los_angeles() {
    local zone=America/Los_Angeles
    one_line "$1, 2 days ago" "$3" "1521450000${tab}" "$zone${base}2 days ago" at en "$2"
    one_line "$1, 2018-03-23 20:00" "$3" "1521860400${tab}" "$zone${base}2018-03-23 20:00" at en "$2"
    one_line "$1, friday 8pm" "$4" "1521860400${tab}" "$zone${base}friday 8pm" at en "$2"
}

# the first line in each zone of a bundle, all of the run included, and what a second line in each adds
each_zone() {
    local names first both count
    names=$("$top/tools/bundle-names" "$1") || return
    count=$(echo "$names" | wc -l)
    echo "$names" | sed "s/\$/${base}2018-03-23 20:00/" >"$work/first"
    cat "$work/first" "$work/first" >"$work/both"
    if [ "$("$program" at en "$1" <"$work/both" | grep -c '^[-0-9]')" -ne $((2 * count)) ]; then
        echo "zones of ICU: not each zone is answered"
        failed=1
        return
    fi
    first=$(instructions "$work/first" "$program" at en "$1")
    both=$(instructions "$work/both" "$program" at en "$1")
    tell_bound "zones of ICU, the run of a first line in each of $count zones" "$first" 5000000
    tell_bound "zones of ICU, a second line in each zone, a line" $(((both - first) / count)) 2900
}

measure_short() {
    if ! command -v valgrind >/dev/null; then
        echo "skipped: instructions of one line, as valgrind is missing"
        return
    fi
    one_line "3 items in English" 800 "1 day 3 hours 46 minutes ago" 100000 ago en
    one_line "3 items in Japanese" 950 "" 100000 ago ja
    one_line "3 items in Russian" 800 "" 100000 ago ru
    if command -v python3 >/dev/null; then
        python3 "$top/bench/sample_zones.py" rule >"$work/rule.res" || exit 1
        python3 "$top/bench/sample_zones.py" table >"$work/table.res" || exit 1
        los_angeles "Los Angeles of 3 zones" "$work/rule.res" 1800 1900
        one_line "a table of 240 entries" 2500 "1521828000${tab}" "Test/Table${base}2018-03-23 20:00" at en "$work/table.res"
    else
        echo "skipped: lines in zones of a small bundle, as python3 is missing"
    fi
    if "$top/tools/icu-bundle" "$work/icu.res" >"$work/said" 2>&1; then
        sed "s|^$work/||" "$work/said"
        los_angeles "Los Angeles of ICU" "$work/icu.res" 2200 2300
        one_line "Lisbon of ICU, in its table" 2900 "637876800${tab}" "Europe/Lisbon${base}1990-03-19 20:00" at en "$work/icu.res"
        each_zone "$work/icu.res"
    else
        echo "skipped: zones of ICU: $(cat "$work/said")"
    fi
}

failed=0
[ "${1:-}" = short ] || measure_bulk
measure_short
exit $failed
