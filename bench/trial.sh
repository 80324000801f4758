#!/usr/bin/env bash
# Tries a generated town with the proved program, builds the same from its extract by an equal profile, and has tilemaker build it too; prints CPU
# seconds, seconds by the clock and peak memory as a table. Outside the gate. Usage: bash bench/trial.sh [SEED [COUNT]]
set -eu
top=$(cd "$(dirname "$0")/.." && pwd)
seed=${1:-1} count=${2:-1000000}
work=$(mktemp -d)
trap 'rm -rf "$work"' EXIT
. "$top/bench/prepare.sh"
prepare trial "$top" "$work"
install_if_missing tilemaker tilemaker || { echo "trial: skipped, tilemaker can't be installed"; exit 0; }
"$program" gen "$seed" "$count" "$work/town.pbf"
osmium cat --no-progress -f pbf -o "$work/zlib.pbf" "$work/town.pbf"
python3 "$top/bench/peer_config.py" 10 "$work/config.json" 12
run() { # NAME COMMAND ..: prints a row
  name=$1; shift
  /usr/bin/time -q -f "%U %S %e %M" -o "$work/time" "$@" >"$work/log" 2>&1 || { echo "trial: $name failed"; tail -n 3 "$work/log"; exit 1; }
  awk -v name="$name" '{printf "| %s | %.2f | %.2f | %.1f |\n", name, $1 + $2, $3, $4 / 1024}' "$work/time"
}
echo "| what | CPU seconds | by the clock | MiB |"
echo "|---|---|---|---|"
run "trial" "$program" trial "$seed" "$count" "$work/trial.pmtiles"
line=$(cat "$work/log")
run "build" "$program" build "$top/bench/trial.toml" "$work/town.pbf" "$work/build.pmtiles"
run "tilemaker, 1 thread" tilemaker --input "$work/zlib.pbf" --output "$work/theirs.mbtiles" --config "$work/config.json" --process "$top/bench/peer.lua" --threads 1
echo "$line"
cmp "$work/trial.pmtiles" "$work/build.pmtiles" && echo "both archives are equal"
