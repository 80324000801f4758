#!/usr/bin/env bash
# Builds the odd multipolygons of osm2pgsql's tests by the proved program, holds their areas against those that osmium assembles, and draws them.
# Usage: bash bench/multipolygons.sh [PNG]. Outside the gate.
set -eu
top=$(cd "$(dirname "$0")/.." && pwd)
work=$(mktemp -d)
trap 'rm -rf "$work"' EXIT
. "$top/bench/prepare.sh"
prepare multipolygons "$top" "$work"
bash "$top/bench/get_real.sh" "$work/odd.pbf" test_multipolygon.osm || { echo "multipolygons: skipped"; exit 0; }
"$program" build "$top/bench/multipolygons.toml" "$work/odd.pbf" "$work/odd.pmtiles"
osmium export --no-progress -n -f geojson --geometry-types=polygon -u type_id -o "$work/odd.json" "$work/odd.pbf"
python3 "$top/bench/areas.py" "$program" "$work/odd.pmtiles" 14 "$work/odd.json"
[ $# -eq 0 ] || bash "$top/bench/picture.sh" "$work/odd.pmtiles" 14 "$1"
