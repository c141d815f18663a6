#!/bin/sh
# Builds the program plancheck, runs what README.md shows, and compares it with expected.txt and the pictures with right.svg and race.svg. The logs, the pictures and the COMTRADE pair of the race are
# left in target/examples. Some 6,000 schedules are played and judged, a process to each: up to a minute.
set -eu
cd "$(dirname "$0")/../.."
program=crates/plancheck/out/plancheck
[ -x "$program" ] || (cd crates/plancheck && rt run < stdin) >&2
relay=examples/relay
out=target/examples
mkdir -p "$out"
plancheck() {
    "$program" "$@"
}

# Every interleaving of a plan: how many, how many of them race, and in how many the judge names an access.
try_all() {
    plancheck interleavings "$1" 64 > "$out/all.txt"
    tail -n 1 "$out/all.txt"
    sed '$d' "$out/all.txt" | while read -r s; do plancheck play "$1" "$s"; done | grep -c ^race || true
    sed '$d' "$out/all.txt" | while read -r s; do plancheck log "$1" "$s" | plancheck judge - 1; done | grep -c conflict$ || true
}

# The lines, the log, the judge's word and the picture of a schedule of plain.plan.
show() {
    plancheck play "$relay/plain.plan" "$2"
    plancheck log "$relay/plain.plan" "$2" > "$out/$1.log"
    plancheck judge "$out/$1.log" 1
    plancheck diagram "$out/$1.log" 1 > "$out/$1.svg"
}

{
    for plan in plain volatile monitor; do
        echo "== $plan.plan"
        plancheck check "$relay/$plan.plan"
        plancheck bound "$relay/$plan.plan"
        try_all "$relay/$plan.plan"
    done
    echo "== a schedule of plain.plan that reads right"
    show right 000000011222220
    echo "== a schedule of plain.plan that races"
    show race 000000001122222
    plancheck comtrade "$out/race.log" "$out/race.dat" "$out/race.cfg"
    echo "== both threads at their accesses"
    plancheck witness "$relay/plain.plan" 000000001122222
} | tee "$out/relay.out"
cmp "$out/relay.out" "$relay/expected.txt"
for log in right race; do
    cmp "$out/$log.svg" "$relay/$log.svg"
done
