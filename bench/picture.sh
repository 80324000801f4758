#!/usr/bin/env bash
# Draws a zoom of an archive with GDAL: each layer in a colour of its own, areas filled, into a PNG file. Outside the gate.
# Usage: bash bench/picture.sh ARCHIVE ZOOM PNG. Layers: landuse, water, roads, buildings, places, as those of
# crates/tilebuild/data/village.toml; a layer that the archive doesn't have is left out.
set -eu
top=$(cd "$(dirname "$0")/.." && pwd)
work=$(mktemp -d)
trap 'rm -rf "$work"' EXIT
. "$top/bench/prepare.sh"
install_if_missing ogr2ogr gdal-bin || { echo "picture: skipped, GDAL can't be installed"; exit 0; }
python3 "$top/bench/tiles_by_place.py" "$1" "$2" "$work/tiles"
rm -f "$work/map.gpkg"
ogr2ogr -q -f GPKG "$work/map.gpkg" "MVT:$work/tiles/$2" 2>/dev/null
layers=$(ogrinfo -ro -q "$work/map.gpkg" | sed 's/^[0-9]*: \([a-z]*\).*/\1/')
echo "layers: $(echo $layers)"
# the box of all layers, in metres of Web Mercator
box=$(for layer in $layers; do ogrinfo -ro -so "$work/map.gpkg" "$layer" | sed -n 's/^Extent: (\(.*\), \(.*\)) - (\(.*\), \(.*\))/\1 \2 \3 \4/p'; done \
  | awk 'NR == 1 {a=$1; b=$2; c=$3; d=$4} {if ($1<a) a=$1; if ($2<b) b=$2; if ($3>c) c=$3; if ($4>d) d=$4} END {print a, b, c, d}')
height=$(echo $box | awk '{printf "%d", 1200 * ($4 - $2) / ($3 - $1)}')
first=yes
draw() { # LAYER RED GREEN BLUE
  case " $(echo $layers) " in *" $1 "*) ;; *) return 0 ;; esac
  if [ "$first" = yes ]; then
    gdal_rasterize -q -l "$1" -burn "$2" -burn "$3" -burn "$4" -init 250 -ot Byte -te $box -ts 1200 "$height" -at "$work/map.gpkg" "$work/map.tif"
    first=no
  else
    gdal_rasterize -q -l "$1" -b 1 -b 2 -b 3 -burn "$2" -burn "$3" -burn "$4" -at "$work/map.gpkg" "$work/map.tif"
  fi
}
draw landuse 205 225 185
draw water 120 170 220
draw roads 225 120 60
draw buildings 110 100 95
draw places 180 0 60
gdal_translate -q -of PNG "$work/map.tif" "$3"
echo "picture: $3"
