#!/usr/bin/env bash
# Prints the instructions that reading a phrase takes, for some phrases: of `DateParser::new(phrase).parse(Dialect::Uk)`,
# without the loop over the lines. It wants the kit and valgrind. The first run proves the crates that reading stands on.
set -eu
top=$(CDPATH='' cd -- "$(dirname -- "${BASH_SOURCE[0]}")/.." && pwd -P)
work=$(mktemp -d)
trap 'rm -rf "$work"' EXIT
command -v valgrind >/dev/null || { echo "valgrind is missing" >&2; exit 2; }

# a crate with those of the repository that it stands on, lowest first
needs() {
    local below
    for below in $(sed -n "s/^$1:\(.*\)/\1/p" "$top/crates.txt"); do
        [ ! -d "$top/crates/$below" ] || needs "$below"
    done
    echo "$1"
}

# a program of its own, in a copy, with what earlier checks left
mkdir -p "$work/crates/phrases/src"
cp "$top/HANDLES" "$work/"
for crate in $(needs interim | awk '!seen[$0]++'); do
    cp -a "$top/crates/$crate" "$work/crates/"
    sed -n "/^$crate:/p" "$top/crates.txt" >>"$work/crates.txt"
done
echo "phrases: interim" >>"$work/crates.txt"
cat >"$work/crates/phrases/src/main.rt" <<'RATTLE'
//! Goes over the lines of the input four times, and reads each as a phrase in as many of them as the first argument tells.
#![tactic(auto)]

use interim::{DateParser, Dialect};
use std::env;
use std::io;
use std::process::ExitCode;

fn is_read(phrase: &str) -> bool {
    DateParser::new(phrase).parse(Dialect::Uk).is_ok()
}

fn main(rt: HostRuntime) -> ExitCode {
    let Ok(text) = io::read_to_string(rt.alloc(), rt.stdin()) else {
        return ExitCode::from(2);
    };
    let Ok(mut words) = env::args(&rt) else {
        return ExitCode::from(2);
    };
    let rounds = match words.nth(1) {
        Some(word) => word.parse::<u32>().unwrap_or(0),
        None => 0,
    };
    let mut faults = 0u32;
    for round in 0..4u32 {
        for phrase in text.lines() {
            if round < rounds && !is_read(phrase) {
                faults = faults.wrapping_add(1);
            }
        }
    }
    ExitCode::from(u8::from(faults > 0))
}
RATTLE
(cd "$work/crates/phrases" && rt run </dev/null >"$work/log" 2>&1) || { cat "$work/log" >&2; exit 1; }

# instructions of the program in so many rounds; its own status says whether a phrase has a fault
instructions() {
    { valgrind --tool=callgrind --callgrind-out-file=/dev/null "$work/crates/phrases/out/phrases" "$1" <"$work/lines" 2>&1 || true; } |
        awk '/Collected/ { print $NF }'
}

while read -r phrase; do
    yes "$phrase" | head -n 1000 >"$work/lines" || true
    without=$(instructions 0)
    with=$(instructions 4)
    echo "$phrase: $(((with - without) / 4000)) instructions"
done <<'PHRASES'
2018-03-23 20:00
2017-06-30 08:20:30 +0400
4 July 2018 12pm
friday 8pm
2 days ago
yesterday
PHRASES
