#!/usr/bin/env bash
# Runs the proved program and tilemaker on the same elements with equal profiles, on a real region and on sixteen of it side by side, and prints
# CPU seconds, seconds by the clock, peak memory and ratios as one table. tilemaker 2.2 reads no raw blobs, so it gets compressed ones.
# Sixteen regions are without relations: tilemaker's memory for their ways grows with the largest id. Outside the gate. Usage: bash bench/peer.sh
set -eu
top=$(cd "$(dirname "$0")/.." && pwd)
work=$(mktemp -d)
trap 'rm -rf "$work"' EXIT
. "$top/bench/prepare.sh"
prepare peer "$top" "$work"
install_if_missing tilemaker tilemaker || { echo "peer: skipped, tilemaker can't be installed"; exit 0; }
bash "$top/bench/get_real.sh" "$work/1.pbf" || { echo "peer: skipped"; exit 0; }
python3 "$top/bench/side_by_side.py" "$work/1.pbf" 16 "$work/16.pbf"
for regions in 1 16; do
  osmium cat --no-progress --overwrite -f pbf -o "$work/$regions.zlib.pbf" "$work/$regions.pbf"
done
run() { # CALLED COMMAND ..: sets cpu, clock and peak
  name=$1; shift
  /usr/bin/time -q -f "%U %S %e %M" -o "$work/time" "$@" >"$work/$name.log" 2>&1 || { echo "peer: $name failed"; tail -n 3 "$work/$name.log"; exit 1; }
  read -r cpu clock peak < <(awk '{printf "%.2f %.2f %.1f\n", $1 + $2, $3, $4 / 1024}' "$work/time")
}
echo "| regions | zooms | tilebuild: CPU s, clock s, MiB | tilemaker, 1 thread | CPU ratio | memory ratio |"
echo "|---|---|---|---|---|---|"
for regions in 1 16; do
  for first in 10 0; do
    sed "s/MINZOOM/$first/" "$top/bench/peer.toml" >"$work/peer.toml"
    python3 "$top/bench/peer_config.py" "$first" "$work/config.json"
    run tilebuild "$program" build "$work/peer.toml" "$work/$regions.pbf" "$work/ours.pmtiles"
    ours="$cpu, $clock, $peak" ours_cpu=$cpu ours_peak=$peak
    rm -f "$work/theirs.mbtiles"
    run tilemaker tilemaker --input "$work/$regions.zlib.pbf" --output "$work/theirs.mbtiles" --config "$work/config.json" --process "$top/bench/peer.lua" --threads 1
    ratio=$(awk -v a="$ours_cpu" -v b="$cpu" -v c="$ours_peak" -v d="$peak" 'BEGIN {printf "%.2f | %.2f", a / b, c / d}')
    echo "| $regions | $first to 14 | $ours | $cpu, $clock, $peak | $ratio |"
  done
done
