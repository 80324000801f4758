#!/usr/bin/env bash
# Has GDAL and tilemaker write tiles of a real extract, packs them into archives, checks those with the proved program, and shows each
# tile beside GDAL's counts of its features; checks an archive of 100,000 tiles too. It also sees that neither `check` nor `show` touches
# files that stand where spill files of an empty name would. Outside the gate. Usage: bash bench/check.sh
set -eu
top=$(cd "$(dirname "$0")/.." && pwd)
work=$(mktemp -d)
trap 'rm -rf "$work"' EXIT
. "$top/bench/prepare.sh"
prepare check "$top" "$work"
bash "$top/bench/get_real.sh" "$work/raw.pbf" || { echo "check: skipped"; exit 0; }
install_if_missing ogr2ogr gdal-bin || { echo "check: skipped, GDAL can't be installed"; exit 0; }
cd "$work"
ogr2ogr -q -f MVT gdal raw.pbf points lines multipolygons -dsco MINZOOM=0 -dsco MAXZOOM=14 -dsco COMPRESS=NO 2>/dev/null
makers=gdal
if install_if_missing tilemaker tilemaker; then
  # It takes compressed blobs alone, and its settings compress tiles.
  osmium cat --no-progress -o extract.osm.pbf raw.pbf
  examples=/usr/share/doc/tilemaker/examples
  sed 's/"compress": "gzip"/"compress": "none"/' $examples/config-example.json >settings.json
  mkdir tilemaker
  tilemaker --input extract.osm.pbf --output tilemaker/ --config settings.json --process $examples/process-example.lua >tilemaker.log 2>&1
  makers="gdal tilemaker"
else
  echo "check: tilemaker can't be installed, so GDAL's tiles alone are checked"
fi
for maker in $makers; do
  echo "tiles by $maker:"
  python3 "$top/bench/pack_tiles.py" $maker $maker.pmtiles
  python3 "$top/bench/measure.py" tilebuild "$program" check $maker.pmtiles
  python3 "$top/bench/shown_features.py" "$program" $maker.pmtiles $maker
done
echo "100,000 tiles:"
python3 "$top/bench/pack_tiles.py" gdal many.pmtiles 100000
for turn in 1 2 3; do
  python3 "$top/bench/measure.py" tilebuild "$program" check many.pmtiles
done
python3 "$top/bench/measure.py" tilebuild "$program" show many.pmtiles 0 0 0
echo "files of others:"
mkdir others
cd others
echo stranger >.spill0
cp .spill0 .spool
"$program" check ../gdal.pmtiles
"$program" show ../gdal.pmtiles 26 0 0
"$program" check ../raw.pbf || true
cmp .spill0 .spool && [ "$(cat .spool)" = stranger ] && [ "$(ls -A | wc -l)" = 2 ] && echo "untouched"
