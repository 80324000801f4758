#!/usr/bin/env bash
# Builds amenities, roads, buildings and land use of a real region, multipolygons too, at zooms 10 to 14, has `check` count the features of all
# tiles, and GDAL those of each tile by itself: both have to be the same. Outside the gate. Usage: bash bench/counted.sh
set -eu
top=$(cd "$(dirname "$0")/.." && pwd)
work=$(mktemp -d)
trap 'rm -rf "$work"' EXIT
. "$top/bench/prepare.sh"
prepare counted "$top" "$work"
install_if_missing ogrinfo gdal-bin || { echo "counted: skipped, GDAL can't be installed"; exit 0; }
bash "$top/bench/get_real.sh" "$work/raw.pbf" || { echo "counted: skipped"; exit 0; }
sed "s/MINZOOM/10/" "$top/bench/peer.toml" >"$work/peer.toml"
"$program" build "$work/peer.toml" "$work/raw.pbf" "$work/map.pmtiles"
"$program" check "$work/map.pmtiles"
python3 "$top/bench/all_tiles.py" "$work/map.pmtiles" 10 "$work/tiles"
features=0
for tile in "$work"/tiles/*/*.pbf; do
  counts=$(ogrinfo -ro -so -al "MVT:$tile" | sed -n 's/^Feature Count: //p')
  for count in $counts; do features=$((features + count)); done
done
echo "GDAL: $features features in $(ls "$work"/tiles/*/*.pbf | wc -l) tiles"
