#!/usr/bin/env bash
# Builds maps of a real extract with the proved program, by a key and by a profile, and has GDAL read their tiles. Outside the gate.
# Usage: bash bench/real.sh [EXTRACT]. Without an extract it fetches one (bench/get_real.sh).
set -eu
top=$(cd "$(dirname "$0")/.." && pwd)
work=$(mktemp -d)
trap 'rm -rf "$work"' EXIT
. "$top/bench/prepare.sh"
prepare real "$top" "$work"
if [ $# -gt 0 ]; then
  osmium cat --no-progress -f pbf,pbf_compression=none -o "$work/raw.pbf" "$1"
else
  bash "$top/bench/get_real.sh" "$work/raw.pbf" || { echo "real: skipped"; exit 0; }
fi
echo "extract: $(stat -c %s "$work/raw.pbf") bytes"
python3 "$top/bench/measure.py" tilebuild "$program" nodes amenity "$work/raw.pbf" "$work/nodes.pmtiles"
python3 "$top/bench/measure.py" tilebuild "$program" build "$top/bench/points.toml" "$work/raw.pbf" "$work/points.pmtiles"
python3 "$top/bench/measure.py" osmium osmium fileinfo --no-progress --extended "$work/raw.pbf"
if ! command -v ogrinfo >/dev/null 2>&1; then
  (apt-get update && apt-get install -y gdal-bin) >/dev/null 2>&1 || { echo "real: GDAL can't be installed, so the tiles aren't read"; exit 0; }
fi
for map in nodes points; do
  python3 "$top/bench/one_tile.py" "$work/$map.pmtiles" "$work/$map.pbf"
  for layer in $([ "$map" = nodes ] && echo nodes || echo amenities places); do
    echo "layer $layer: $(ogrinfo -ro -so "MVT:$work/$map.pbf" "$layer" | grep -E 'Geometry|Feature Count' | tr '\n' ' ')"
  done
done
