# What bench/nodes.sh and bench/real.sh share; they read it in.

# Installs a package of Debian's where its command is missing.
install_if_missing() {
  [ -n "$(type -P "$1")" ] || (apt-get update && apt-get install -y "$2") >/dev/null 2>&1
}

# Sees that the tools are there, or ends the script NAME with a line. Sets `program` to the proved program, and builds that where it
# isn't there yet. Usage: prepare NAME TOP WORK
prepare() {
  for tool in rt python3; do
    [ -n "$(type -P "$tool")" ] || { echo "$1: skipped, there is no $tool"; exit 0; }
  done
  if ! install_if_missing osmium osmium-tool || ! install_if_missing time time; then
    echo "$1: skipped, osmium-tool or GNU time can't be installed"
    exit 0
  fi
  program="$2/crates/tilebuild/out/tilebuild"
  if [ ! -x "$program" ]; then
    (cd "$2/crates/tilebuild" && rt run -- nodes amenity data/cafe.pbf "$3/cafe.pmtiles" >"$3/build.log" 2>&1) || { echo "$1: the program isn't proved"; tail -n 5 "$3/build.log"; exit 1; }
  fi
}
