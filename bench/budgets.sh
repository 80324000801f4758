#!/usr/bin/env bash
# Builds sixteen of a real region side by side at zooms 10 to 14, with budgets from the least of the command line and the least that suffices to the
# default, and prints status, CPU seconds and peak memory as one table. Outside the gate. Usage: bash bench/budgets.sh
set -eu
top=$(cd "$(dirname "$0")/.." && pwd)
work=$(mktemp -d)
trap 'rm -rf "$work"' EXIT
. "$top/bench/prepare.sh"
prepare budgets "$top" "$work"
bash "$top/bench/get_real.sh" "$work/1.pbf" || { echo "budgets: skipped"; exit 0; }
python3 "$top/bench/side_by_side.py" "$work/1.pbf" 16 "$work/16.pbf"
sed "s/MINZOOM/10/" "$top/bench/peer.toml" >"$work/peer.toml"
echo "| budget | status, console | CPU s | MiB |"
echo "|---|---|---|---|"
for budget in 1048576 10870166 16777216 67108864 268435456 1073741824; do
  status=0
  /usr/bin/time -q -f "%U %S %M" -o "$work/time" "$program" build --budget "$budget" "$work/peer.toml" "$work/16.pbf" "$work/$budget.pmtiles" >"$work/line" 2>&1 || status=$?
  read -r cpu peak < <(tail -n 1 "$work/time" | awk '{printf "%.2f %.1f\n", $1 + $2, $3 / 1024}')
  echo "| $budget | $status, $(head -n 1 "$work/line") | $cpu | $peak |"
done
cmp "$work/10870166.pmtiles" "$work/1073741824.pmtiles" && echo "budgets: the archives are equal"
