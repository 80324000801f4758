#!/usr/bin/env bash
# Times shards of node locations as a proved program: put by one seat and by four threads, closed, and looked up, a million and ten
# million. It is proved and built in a copy, outside the gate. A plain program with a HashMap stands beside it, where there is rustc.
# Usage: bash bench/locations.sh
set -eu
top=$(cd "$(dirname "$0")/.." && pwd)
command -v rt >/dev/null 2>&1 || { echo "locations: skipped, there is no rt"; exit 0; }
copy=$(mktemp -d)
trap 'rm -rf "$copy"' EXIT
cd "$copy"
git init -q
cp "$top/HANDLES" .
mkdir -p crates/locations/src crates/locations/proofs/put_blocks
for crate in tb_types ring_assembly shard_store node_store; do
  mkdir "crates/$crate"
  (cd "$top/crates/$crate" && cp -r src specs proofs "$copy/crates/$crate/")
done
cp "$top/bench/locations.txt" crates/locations/src/main.rt
cp "$top/bench/locations_proofs/put_blocks/Invariants.txt" crates/locations/proofs/put_blocks/Invariants.antt
cat > crates.txt <<'LIST'
tb_types:
ring_assembly: tb_types
shard_store: tb_types atomic_table
node_store: tb_types shard_store ring_assembly atomic_table
locations: tb_types shard_store node_store atomic_table
LIST
if (cd crates/locations && rt run -- one >run.log 2>&1) || [ -x crates/locations/out/locations ]; then
  for name in one four look one_large four_large look_large; do
    python3 "$top/bench/measure.py" "$name" crates/locations/out/locations "$name"
  done
else
  echo "locations: not proved"
  tail -n 5 crates/locations/run.log
fi
command -v rustc >/dev/null 2>&1 || { echo "plain: skipped, there is no rustc"; exit 0; }
rustc -O -o plain "$top/bench/plain_locations.rs" 2>plain.log
for name in one look one_large look_large; do
  python3 "$top/bench/measure.py" "plain $name" ./plain "$name"
done
