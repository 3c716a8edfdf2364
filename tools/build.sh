#!/usr/bin/env bash
# Builds what is run beside the gate, each crate proved first: programs to target/bin/NAME, and the static library, which 'library' names, to
# target/staticlib/libstation.a. What is newer than every crate's files is left as it is.
#
#   tools/build.sh library|PROGRAM..
set -euo pipefail
cd "$(dirname "$0")/.."

# has FILE: whether it is there, and nothing of the crates was changed since.
has() {
  [ -f "$1" ] && [ -z "$(find crates.txt crates/*/src crates/*/specs crates/*/proofs -newer "$1" -print -quit 2>/dev/null)" ]
}

# put FILE TO: copies at once, for those who read it beside this.
put() {
  mkdir -p "$(dirname "$2")"
  cp "$1" "$2.new"
  mv "$2.new" "$2"
}

for name in "$@"; do
  if [ "$name" = library ]; then
    has target/staticlib/libstation.a && continue
    (cd crates/station_c && rt lib)
    put crates/station_c/out/libstation_c.a target/staticlib/libstation.a
  else
    has "target/bin/$name" && continue
    # rt runs what it builds: here on the program's stored input
    (cd "crates/$name" && rt run <stdin >/dev/null)
    put "crates/$name/out/$name" "target/bin/$name"
  fi
done
