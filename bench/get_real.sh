#!/usr/bin/env bash
# Fetches a real extract, the one in the tests of Debian's source package of osm2pgsql, or another file of these, and writes it with raw blobs.
# Usage: bash bench/get_real.sh FILE [NAME]. Answers 1 where it can't be had. Outside the gate.
set -eu
out=$1
name=${2:-liechtenstein*.osm.pbf}
for tool in apt-get tar; do
  command -v "$tool" >/dev/null 2>&1 || { echo "get_real: there is no $tool"; exit 1; }
done
if ! command -v osmium >/dev/null 2>&1; then
  (apt-get update && apt-get install -y osmium-tool) >/dev/null 2>&1 || { echo "get_real: osmium-tool can't be installed"; exit 1; }
fi
work=$(mktemp -d)
trap 'rm -rf "$work"' EXIT
mkdir -p "$work/sources" "$work/lists" "$work/cache"
sed 's/^Types: deb$/Types: deb-src/' /etc/apt/sources.list.d/debian.sources >"$work/sources/source.sources" 2>/dev/null || { echo "get_real: no list of Debian's packages"; exit 1; }
apt() {
  apt-get -o Dir::Etc::sourcelist=/dev/null -o Dir::Etc::sourceparts="$work/sources" -o Dir::State::lists="$work/lists" -o Dir::Cache="$work/cache" "$@"
}
(apt update && cd "$work" && apt source --download-only osm2pgsql) >/dev/null 2>&1 || { echo "get_real: the source package can't be fetched"; exit 1; }
tar xf "$work"/osm2pgsql_*.orig.tar.xz -C "$work" --wildcards "*/tests/data/$name"
osmium cat --no-progress --overwrite -f pbf,pbf_compression=none -o "$out" "$work"/osm2pgsql-*/tests/data/$name
