#!/usr/bin/env bash
# Tries the mistakes under tests/edits, which the gate leaves out for its time; the prover must refuse each:
#
#   tests/edits.sh [CRATE..]
#
# tests/edits/CRATE/*.edit have the form of the must-fail edits. They are tried in a copy of the repository, which begins with what
# 'rt check' kept of each crate in this one.
set -euo pipefail
cd "$(dirname "$0")/.."
names=("$@")
[ ${#names[@]} -gt 0 ] || names=($(ls tests/edits))
copy=$(mktemp -d)
trap 'rm -rf "$copy"' EXIT
tar -c --exclude='crates/*/out' --exclude='crates/*/must-fail' crates crates.txt | tar -x -C "$copy"
for name in "${names[@]}"; do
  cp -R "tests/edits/$name" "$copy/crates/$name/must-fail"
done
cd "$copy"
rt must-fail "${names[@]}"
