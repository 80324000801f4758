#!/usr/bin/env bash
# Builds points at zooms 0 to 14 of a real extract, once and sixteen times over, beside the same build with a key that no node
# has, and has GDAL count the features of the tiles of zooms 10 to 14. Outside the gate. Usage: bash bench/zooms.sh
set -eu
top=$(cd "$(dirname "$0")/.." && pwd)
work=$(mktemp -d)
trap 'rm -rf "$work"' EXIT
. "$top/bench/prepare.sh"
prepare zooms "$top" "$work"
bash "$top/bench/get_real.sh" "$work/1.pbf" || { echo "zooms: skipped"; exit 0; }
python3 "$top/bench/copies.py" "$work/1.pbf" 16 "$work/16.pbf"
for copies in 1 16; do
  for profile in zooms zooms_none; do
    echo "$profile, $copies times over:"
    python3 "$top/bench/measure.py" tilebuild "$program" build "$top/bench/$profile.toml" "$work/$copies.pbf" "$work/$profile$copies.pmtiles"
  done
done
install_if_missing ogrinfo gdal-bin || { echo "zooms: GDAL can't be installed, so the tiles aren't read"; exit 0; }
python3 "$top/bench/all_tiles.py" "$work/zooms1.pmtiles" 10 "$work/tiles"
for zoom in 10 11 12 13 14; do
  features=0
  for tile in "$work/tiles/$zoom"/*.pbf; do
    features=$((features + $(ogrinfo -ro -so "MVT:$tile" amenities | sed -n 's/^Feature Count: //p')))
  done
  echo "zoom $zoom: $features features in $(ls "$work/tiles/$zoom" | wc -l) tiles"
done
