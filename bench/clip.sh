#!/usr/bin/env bash
# Times the pieces of shapes at zoom 14 as a proved program: a ring of more and more points, an area over more and more tiles, a wide path, an
# area with a gap, and small squares beside the loop over `cut`. It is proved and built in a copy, outside the gate. Usage: bash bench/clip.sh
set -eu
top=$(cd "$(dirname "$0")/.." && pwd)
command -v rt >/dev/null 2>&1 || { echo "clip: skipped, there is no rt"; exit 0; }
copy=$(mktemp -d)
trap 'rm -rf "$copy"' EXIT
cd "$copy"
git init -q
cp "$top/HANDLES" .
mkdir crates
for crate in tb_types strip_clip tile_clip; do
  mkdir "crates/$crate"
  (cd "$top/crates/$crate" && cp -r src specs proofs "$copy/crates/$crate/")
done
mkdir -p crates/clip_cases/src
cp "$top/bench/clip_cases.txt" crates/clip_cases/src/main.rt
cat > crates.txt <<'LIST'
tb_types:
strip_clip: tb_types
tile_clip: tb_types strip_clip
clip_cases: tb_types strip_clip tile_clip
LIST
if ! (cd crates/clip_cases && rt run --jobs 1 >run.log 2>&1); then
  echo "clip_cases: not proved"
  tail -n 5 crates/clip_cases/run.log
  exit 1
fi
TIMEFORMAT='%U s of CPU'
while read -r name size; do
  echo "$name $size:"
  time crates/clip_cases/out/clip_cases "$name" "$size"
done <<'CASES'
ring 10000
ring 100000
ring 1000000
tiles 100
tiles 1000
tiles 2000
path 200
path 2000
bow 1000
bow 10000
boxes 100000
boxes_by_cut 100000
boxes 1000000
boxes_by_cut 1000000
CASES
