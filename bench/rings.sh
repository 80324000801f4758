#!/usr/bin/env bash
# Times rings and polygons of member ways as a proved program, case by case. It is proved and built in a copy, outside the gate.
# Usage: bash bench/rings.sh [CASE ..]
set -eu
top=$(cd "$(dirname "$0")/.." && pwd)
command -v rt >/dev/null 2>&1 || { echo "rings: skipped, there is no rt"; exit 0; }
copy=$(mktemp -d)
trap 'rm -rf "$copy"' EXIT
cd "$copy"
git init -q
cp "$top/HANDLES" .
mkdir -p crates/rings/src
for crate in tb_types ring_assembly; do
  mkdir "crates/$crate"
  (cd "$top/crates/$crate" && cp -r src specs proofs "$copy/crates/$crate/")
done
cp "$top/bench/rings.txt" crates/rings/src/main.rt
cat > crates.txt <<'LIST'
tb_types:
ring_assembly: tb_types
rings: tb_types ring_assembly
LIST
[ $# -gt 0 ] || set -- border shuffled star petals holes lake small equal
if (cd crates/rings && rt run -- holes >run.log 2>&1) || [ -x crates/rings/out/rings ]; then
  for name in "$@"; do
    echo "$name: $(crates/rings/out/rings "$name")"
    python3 "$top/bench/measure.py" "$name" crates/rings/out/rings "$name"
  done
else
  echo "rings: not proved"
  tail -n 5 crates/rings/run.log
fi
