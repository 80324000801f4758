#!/usr/bin/env bash
# Times sorted runs and their merge as a proved program: a million items of 60 bytes in 1, 64 and 5,000 runs of a file, merged, beside GNU
# sort on the same items as lines of hex. It compares their order too. It is proved and built in a copy, outside the gate.
# Usage: bash bench/merge.sh [RUNS ..]
set -eu
top=$(cd "$(dirname "$0")/.." && pwd)
for tool in rt python3 sort; do
  command -v "$tool" >/dev/null 2>&1 || { echo "merge: skipped, there is no $tool"; exit 0; }
done
copy=$(mktemp -d)
trap 'rm -rf "$copy"' EXIT
cd "$copy"
git init -q
cp "$top/HANDLES" .
mkdir crates
for crate in tb_types tb_outside tb_wire sorted_lists mvt_geom mvt_codec feature_runs run_merge; do
  mkdir "crates/$crate"
  (cd "$top/crates/$crate" && cp -r src specs proofs "$copy/crates/$crate/" 2>/dev/null || cp -r src specs "$copy/crates/$crate/")
  grep "^$crate:" "$top/crates.txt" >> crates.txt
done
echo 'merge_runs: tb_types tb_outside feature_runs run_merge' >> crates.txt
mkdir -p crates/merge_runs/src
cp "$top/bench/merge.txt" crates/merge_runs/src/main.rt
(cd "$top/bench/merge_proofs" && find . -name '*.txt') | while read -r proof; do
  mkdir -p "crates/merge_runs/proofs/$(dirname "$proof")"
  cp "$top/bench/merge_proofs/$proof" "crates/merge_runs/proofs/${proof%.txt}.antt"
done
if ! (cd crates/merge_runs && rt run -- items >run.log 2>&1) && ! [ -x crates/merge_runs/out/merge_runs ]; then
  echo "merge: not proved"
  tail -n 5 crates/merge_runs/run.log
  exit 1
fi
[ $# -gt 0 ] || set -- 1 64 5000
program=crates/merge_runs/out/merge_runs
python3 "$top/bench/measure.py" "items alone" "$program" items
for runs in "$@"; do
  python3 "$top/bench/measure.py" "$runs runs" "$program" "$runs"
done
"$program" lines >/dev/null
export LC_ALL=C
python3 "$top/bench/measure.py" "sort" sort -s -k1,1 --parallel=1 -o sorted.lines merge.lines
for runs in "$@"; do
  "$program" "$runs" order >/dev/null
  if cmp -s sorted.lines merge.order; then echo "$runs runs: in the order of sort"; else echo "$runs runs: in another order than sort"; fi
done
