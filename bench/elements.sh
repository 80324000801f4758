#!/usr/bin/env bash
# Counts what one more element of a raw block costs the proved program: instructions by callgrind and allocations by memcheck, of walk_block
# with a taker that counts and of read_block. Then the peak memory of both on blocks of 4,000,000 bytes that hold as much as bytes can, for each byte.
# It is proved and built in a copy, outside the gate. Usage: bash bench/elements.sh
set -eu
top=$(cd "$(dirname "$0")/.." && pwd)
. "$top/bench/prepare.sh"
for tool in rt python3; do
  [ -n "$(type -P "$tool")" ] || { echo "elements: skipped, there is no $tool"; exit 0; }
done
install_if_missing valgrind valgrind && install_if_missing time time || { echo "elements: skipped, valgrind or GNU time can't be installed"; exit 0; }
copy=$(mktemp -d)
trap 'rm -rf "$copy"' EXIT
cd "$copy"
git init -q
cp "$top/HANDLES" .
mkdir crates
for crate in tb_types tb_outside tb_wire osm_elements; do
  mkdir "crates/$crate"
  (cd "$top/crates/$crate" && cp -r src specs proofs "$copy/crates/$crate/" 2>/dev/null || cp -r src specs "$copy/crates/$crate/")
  grep "^$crate:" "$top/crates.txt" >> crates.txt
done
echo 'elements: tb_types tb_outside osm_elements' >> crates.txt
mkdir -p crates/elements/src
cp "$top/bench/elements.txt" crates/elements/src/main.rt
program="$copy/crates/elements/out/elements"
if ! (cd crates/elements && rt run -- walk /dev/null >run.log 2>&1) && ! [ -x "$program" ]; then
  echo "elements: not proved"
  tail -n 5 crates/elements/run.log
  exit 1
fi
few=2000
many=4000

# What callgrind and memcheck count of a run. Usage: counts CALL BLOCK
counts() {
  valgrind --tool=callgrind --callgrind-out-file=/dev/null "$program" "$@" 2>&1 >/dev/null | sed -n 's/.*Collected : //p'
  valgrind --tool=memcheck "$program" "$@" 2>&1 >/dev/null | sed -n 's/.*total heap usage: \([0-9,]*\) allocs.*/\1/p' | tr -d ,
}

for kind in ways dense; do
  python3 "$top/bench/write_block.py" "$kind.few" $kind $few
  python3 "$top/bench/write_block.py" "$kind.many" $kind $many
  for call in walk read; do
    counts $call "$kind.few" >before
    counts $call "$kind.many" >after
    paste before after | awk -v name="$kind, $call" -v count=$((many - few)) '
      NR == 1 { instructions = ($2 - $1) / count }
      NR == 2 { printf "%s: %.0f instructions, %.2f allocations\n", name, instructions, ($2 - $1) / count }'
  done
done
for kind in empty_groups empty_strings empty_tables empty_dense small_ways small_nodes three_byte_dense four_byte_dense tags_of_a_node refs_of_a_way members_of_a_relation; do
  python3 "$top/bench/write_block.py" "$kind" $kind 4000000
  for call in walk read; do
    kib=$( { /usr/bin/time -f %M "$program" $call "$kind" >/dev/null; } 2>&1 | tail -n 1)
    awk -v name="$kind, $call" -v kib="$kib" -v bytes="$(stat -c %s "$kind")" 'BEGIN { printf "%s: peak of %.1f bytes a byte\n", name, kib * 1024 / bytes }'
  done
done
