#!/usr/bin/env bash
# Counts what the proved program runs a dense node and a way with two tags and ten refs: instructions by callgrind, and allocations by
# memcheck, as the difference of two extracts of which one has so many more. `nodes` with a key that no node has, and `build` with a profile
# of one rule and of 1,024 rules, each of a key of its own that no element has. Outside the gate. Usage: bash bench/counts.sh [PROGRAM]
set -eu
top=$(cd "$(dirname "$0")/.." && pwd)
work=$(mktemp -d)
trap 'rm -rf "$work"' EXIT
. "$top/bench/prepare.sh"
if [ $# -gt 0 ]; then program=$1; else prepare counts "$top" "$work"; fi
install_if_missing valgrind valgrind || { echo "counts: skipped, valgrind can't be installed"; exit 0; }
few=16000
many=32000
python3 "$top/bench/write_extract.py" "$work/few.pbf" $few 0
python3 "$top/bench/write_extract.py" "$work/nodes.pbf" $many 0
python3 "$top/bench/write_extract.py" "$work/ways.pbf" $few $few
for rules in 1 1024; do
  python3 "$top/bench/write_rules.py" "$work/$rules.toml" $rules
done

# What callgrind and memcheck count of a run. Usage: counts COMMAND [ARGUMENT ..]
counts() {
  valgrind --tool=callgrind --callgrind-out-file=/dev/null "$program" "$@" 2>&1 >/dev/null | sed -n 's/.*Collected : //p'
  valgrind --tool=memcheck "$program" "$@" 2>&1 >/dev/null | sed -n 's/.*total heap usage: \([0-9,]*\) allocs.*/\1/p' | tr -d ,
}

# Prints the counts for one more. Usage: difference NAME EXTRACT COMMAND [ARGUMENT ..]
difference() {
  name=$1 extract=$2
  shift 2
  counts "$@" "$work/few.pbf" "$work/out.pmtiles" >"$work/before"
  counts "$@" "$work/$extract.pbf" "$work/out.pmtiles" >"$work/after"
  paste "$work/before" "$work/after" | awk -v name="$name" -v count=$few '
    NR == 1 { instructions = ($2 - $1) / count }
    NR == 2 { printf "%s: %.0f instructions, %.2f allocations\n", name, instructions, ($2 - $1) / count }'
}

difference "a dense node, nodes KEY" nodes nodes no_node_has_this
difference "a way, nodes KEY" ways nodes no_node_has_this
for rules in 1 1024; do
  difference "a dense node, a profile of $rules rules" nodes build "$work/$rules.toml"
  difference "a way, a profile of $rules rules" ways build "$work/$rules.toml"
done
