#!/usr/bin/env bash
# Builds the oracle and its programs into target/oracle:
#
#   [EMBEDDED_GRAPHICS=FOLDER] oracle/build.sh
#
# FOLDER has the listed files of embedded-graphics 0.8.2 (default: ../shared/docs/src). They are
# compiled unchanged, over stand-ins for what they import; sums that overflow stop the program.
# If target/staticlib/libstation.a exists ('tools/build.sh library'), the comparison is linked to it.
set -euo pipefail
cd "$(dirname "$0")/.."
. oracle/crates.sh

out=target/oracle
flags=(-O -C overflow-checks=on -C debug-assertions=on)

check_and_copy "$out"
build_library "$out" "${flags[@]}"
for program in driver compare list; do
  build_program "$out" "$program" "oracle/src/$program.rs" "${flags[@]}"
done
