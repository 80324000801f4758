#!/usr/bin/env bash
# Times the parts that stand by themselves, as proved programs: tile ids and the projection.
# Each program of this folder is proved and built in a copy, outside the gate, and then timed. Usage: bash bench/parts.sh
set -eu
top=$(cd "$(dirname "$0")/.." && pwd)
command -v rt >/dev/null 2>&1 || { echo "parts: skipped, there is no rt"; exit 0; }
copy=$(mktemp -d)
trap 'rm -rf "$copy"' EXIT
cd "$copy"
git init -q
cp "$top/HANDLES" .
mkdir crates
for crate in tb_types int_mercator hilbert_ids; do
  mkdir "crates/$crate"
  (cd "$top/crates/$crate" && cp -r src specs proofs "$copy/crates/$crate/")
done
for name in ids places; do
  mkdir -p "crates/bench_$name/src"
  cp "$top/bench/$name.txt" "crates/bench_$name/src/main.rt"
done
cat > crates.txt <<'LIST'
tb_types:
int_mercator: tb_types
hilbert_ids: tb_types
bench_ids: tb_types hilbert_ids
bench_places: tb_types int_mercator
LIST
for name in ids places; do
  if (cd "crates/bench_$name" && rt run >run.log 2>&1); then
    echo "$name:"
    (time "crates/bench_$name/out/bench_$name") 2>&1 | grep -v '^$'
  else
    echo "$name: not proved"
    tail -n 5 "crates/bench_$name/run.log"
  fi
done
