#!/usr/bin/env bash
# Times the proved program, `nodes` with a key that no node has, beside osmium's reading of the same file.
# Usage: bash bench/nodes.sh [EXTRACT]. Without an extract it makes one: a million dense nodes and a hundred thousand ways.
# An extract in PBF form may have any blobs: osmium writes raw ones. Outside the gate.
set -eu
top=$(cd "$(dirname "$0")/.." && pwd)
work=$(mktemp -d)
trap 'rm -rf "$work"' EXIT
. "$top/bench/prepare.sh"
prepare nodes "$top" "$work"
if [ $# -gt 0 ]; then
  osmium cat --no-progress -f pbf,pbf_compression=none -o "$work/raw.pbf" "$1"
else
  python3 "$top/bench/write_extract.py" "$work/raw.pbf"
fi
echo "extract: $(stat -c %s "$work/raw.pbf") bytes"
for turn in 1 2 3; do
  python3 "$top/bench/measure.py" tilebuild "$program" nodes no_node_has_this "$work/raw.pbf" "$work/out.pmtiles" | tee "$work/ours"
  python3 "$top/bench/measure.py" osmium osmium fileinfo --no-progress --extended "$work/raw.pbf" | tee "$work/theirs"
  python3 - "$work/ours" "$work/theirs" <<'PY'
import sys
ours, theirs = (float(open(name).read().split(": ")[1].split()[0]) for name in sys.argv[1:])
print(f"ratio: {ours / theirs:.2f}")
PY
done
