#!/usr/bin/env bash
# Times the archive's crates as proved programs, beside a plain writer and reader: 100,000 tiles of 50,000 contents are written, and the
# archive is opened ten times, with 100,000 look-ups. They are proved and built in a copy, outside the gate. Usage: bash bench/archive.sh
set -eu
top=$(cd "$(dirname "$0")/.." && pwd)
for tool in rt python3; do
  command -v "$tool" >/dev/null 2>&1 || { echo "archive: skipped, there is no $tool"; exit 0; }
done
copy=$(mktemp -d)
trap 'rm -rf "$copy"' EXIT
cd "$copy"
git init -q
cp "$top/HANDLES" .
mkdir crates
for crate in tb_types tb_outside tb_wire pmtiles_dirs pmtiles_file pmtiles_read; do
  mkdir "crates/$crate"
  (cd "$top/crates/$crate" && cp -r src specs proofs "$copy/crates/$crate/" 2>/dev/null || cp -r src specs "$copy/crates/$crate/")
  grep "^$crate:" "$top/crates.txt" >> crates.txt
done
for name in archive_writing archive_reading; do
  mkdir -p "crates/$name/src"
  cp "$top/bench/$name.txt" "crates/$name/src/main.rt"
done
mkdir -p crates/archive_writing/proofs/written
cp "$top/bench/archive_writing_proofs/written/Invariants.txt" crates/archive_writing/proofs/written/Invariants.antt
cat >> crates.txt <<'LIST'
archive_writing: tb_types tb_outside pmtiles_file
archive_reading: tb_types tb_outside pmtiles_read
LIST
for name in archive_writing archive_reading; do
  if (cd "crates/$name" && rt run >run.log 2>&1) || [ -x "crates/$name/out/$name" ]; then
    echo "$name:"
    (time "crates/$name/out/$name") 2>&1 | grep -v '^$'
  else
    echo "$name: not proved"
    tail -n 5 "crates/$name/run.log"
  fi
done
python3 "$top/bench/plain_archive.py" bench "$copy"
