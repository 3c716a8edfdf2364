#!/usr/bin/env bash
# Builds and runs the measurements:
#
#   [EMBEDDED_GRAPHICS=FOLDER] bench/run.sh [quick | separate]
#
# With 'quick' everything runs once: the pages are compared, and the times say nothing. With 'separate' the crate is optimised
# by itself, as a release build has it unless it is told otherwise; else together with its caller, which is its fastest.
# FOLDER has the listed files of embedded-graphics 0.8.2 (default: ../shared/docs/src). The exported
# calls are those of target/staticlib/libstation.a ('tools/build.sh library'); without it the oracle's
# plain formulas stand in for them, and the calls' declarations are compiled only.
set -euo pipefail
cd "$(dirname "$0")/.."
. oracle/crates.sh

words=()
flags=(-C opt-level=3 -C codegen-units=1)
link=(-C lto=fat)
case "$#${1:-}" in
  0) ;;
  1quick) words=(quick) ;;
  1separate) flags=(-C opt-level=3) link=() ;;
  *)
    echo "bench: usage: bench/run.sh [quick | separate]; EMBEDDED_GRAPHICS names the folder of the crate's files" >&2
    exit 2
    ;;
esac
out=target/bench

check_and_copy "$out"
build_library "$out" "${flags[@]}"
if [ ! -f target/staticlib/libstation.a ]; then
  rustc --edition 2021 --check-cfg 'cfg(library)' --cfg library --crate-name bench_declared \
    --emit metadata --out-dir "$out" -L "$out" --extern oracle --extern embedded_graphics \
    bench/src/main.rs
fi
build_program "$out" bench bench/src/main.rs "${flags[@]}" "${link[@]}"
exec "$out/bench" "${words[@]}"
