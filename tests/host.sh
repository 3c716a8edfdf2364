#!/usr/bin/env bash
# Tests what a host in C and the people at a desk use: include/station.h, examples/logger, samples/ and tools/sheet, on libstation.a; and that
# every must-fail edit can be applied.
#
#   tests/host.sh
#
# Each test prints 'ok NAME' or 'FAILED NAME'; the last line is 'N passed, M failed', and the exit status is 1 if one failed. A compiler that
# is missing is installed if that is possible. The archive, station_page, read_bdf and station_edits are made if they are missing or older
# than the crates.
set -uo pipefail
cd "$(dirname "$0")/.."

out=target/host
archive=target/staticlib/libstation.a
warnings=(-Wall -Wextra -Wpedantic -Wconversion -Werror -Iinclude)
passed=0
failed=0

# Counts a test by its line.
count() {
  case $1 in
    ok\ *) passed=$((passed + 1)) ;;
    *) failed=$((failed + 1)) ;;
  esac
  printf '%s\n' "$1"
}

# try NAME COMMAND..: the test is the command's exit status; what it wrote is printed if it failed.
try() {
  local name=$1
  shift
  if "$@" >"$out/log" 2>&1; then
    count "ok $name"
  else
    count "FAILED $name"
    sed 's/^/    /' "$out/log"
  fi
}

# Whether a compiler is there, after an attempt to install it.
has_compiler() {
  local name=$1 package=${1/clang++/clang} root=()
  command -v "$name" && return
  [ "$(id -u)" = 0 ] || root=(sudo -n)
  "${root[@]}" env DEBIAN_FRONTEND=noninteractive apt-get install -y -qq "$package" ||
    { "${root[@]}" apt-get update -qq && "${root[@]}" env DEBIAN_FRONTEND=noninteractive apt-get install -y -qq "$package"; }
  command -v "$name"
}

make_archive() {
  tools/build.sh library
}

make_program() {
  tools/build.sh "$1"
}

# header COMPILER STANDARD LANGUAGE: the header alone, and twice, without a warning.
header() {
  printf '#include "station.h"\n#include "station.h"\n' | "$1" "-std=$2" "${warnings[@]}" -fsyntax-only -x "$3" -
}

# declarations COMPILER: sizes, offsets and signatures as the crates have them.
declarations() {
  python3 tests/host/declarations.py >"$out/declarations.c" && "$1" -std=gnu11 -Wall -Wextra -Werror -Iinclude -c "$out/declarations.c" -o "$out/declarations.o"
}

# replies COMPILER STANDARD LANGUAGE OPTIMISATION: each field of each reply stands where the header has it.
replies() {
  "$1" "-std=$2" "$4" "${warnings[@]}" -x "$3" tests/host/layout.c -x none "$archive" -o "$out/layout" && "$out/layout"
}

# logger COMPILER OPTIMISATION: what it prints and the page that it writes are the stored ones; another sheet is turned down.
logger() {
  "$1" -std=c99 "$2" "${warnings[@]}" examples/logger/main.c "$archive" -o "$out/logger" &&
    rm -f "$out/page.pgm" && "$out/logger" samples/hydrograph.sheet "$out/page.pgm" >"$out/stdout" &&
    diff examples/logger/stdout "$out/stdout" && cmp examples/logger/page.pgm "$out/page.pgm" &&
    ! "$out/logger" samples/greek.sheet "$out/page.pgm" && cmp examples/logger/page.pgm "$out/page.pgm"
}

# stack COMPILER: how deep each call of the header goes, over the sheets of the tests.
stack() {
  "$1" -std=gnu99 -O2 "${warnings[@]}" tests/host/stack.c "$archive" -Wl,-z,now -o "$out/stack" &&
    python3 tests/explained.py | "$out/stack" | tee "$out/depths" &&
    diff <(sed -n 's/^\(station_[a-z_]*\) .*/\1/p' "$out/depths" | sort) <(sed -n 's/^[a-z0-9_]* \(station_[a-z_]*\)(.*/\1/p' include/station.h | sort)
}

# no_variables: the archive has no section that is written, and needs nothing of a host but memset.
no_variables() {
  nm "$archive" && ! nm "$archive" | grep -E ' [BbCDdGgSs] ' && [ "$(nm -u "$archive" | awk '$1 == "U" { print $2 }')" = memset ]
}

# threads COMPILER: many threads on one sheet.
threads() {
  "$1" -std=c99 -O2 "${warnings[@]}" -pthread tests/host/threads.c "$archive" -o "$out/threads" && "$out/threads" samples/hydrograph.sheet
}

# joined COMPILER: the samples' lines in two runs, and whitespace in two widths.
joined() {
  local sheet
  "$1" -std=c99 -O2 "${warnings[@]}" tests/host/joined.c "$archive" -o "$out/joined" || return
  for sheet in hydrograph greek georgian table; do
    "$out/joined" "samples/$sheet.sheet" || return
  done
}

# ink COMPILER: rectangles that end at the first and the last row that counts as ink.
ink() {
  "$1" -std=c99 -O2 "${warnings[@]}" tests/host/ink.c "$archive" -o "$out/ink" && "$out/ink"
}

# lists COMPILER: lists of edits, good and bad, beside the same edits one by one.
lists() {
  "$1" -std=c99 -O2 "${warnings[@]}" tests/host/lists.c "$archive" -o "$out/lists" && "$out/lists"
}

# radio COMPILER: a day of edits on two sheets, of which a page ashore gets the rectangles; what they come to is stored.
radio() {
  "$1" -std=c99 -O2 "${warnings[@]}" tests/host/radio.c "$archive" -o "$out/radio" &&
    for name in hydrograph georgian; do "$out/radio" "samples/$name.sheet" "samples/$name.day"; done | diff tests/host/radio.stdout -
}

# worst COMPILER: the program that times the worst cases; it runs for several seconds, and only its building is tested.
worst() {
  "$1" -std=c99 -O2 "${warnings[@]}" bench/worst.c "$archive" -o "$out/worst"
}

mkdir -p "$out"
try "libstation.a" make_archive
for name in station_page read_bdf station_edits; do
  try "$name" make_program "$name"
done
for name in gcc g++ clang clang++; do
  try "compiler $name" has_compiler "$name"
done

# The tests of the tools run beside those of the header and the library.
for program in check items; do
  rm -f "$out/$program"
  for name in gcc clang; do
    [ -x "$out/$program" ] || "$name" -std=c99 -O2 "${warnings[@]}" "tests/host/$program.c" "$archive" -o "$out/$program" 2>"$out/log" || true
  done
done
python3 tests/tools.py "$out/check" "$out/items" >"$out/tools" 2>"$out/tools.log" &
tools=$!

for name in gcc clang; do
  try "header as C99, $name" header "$name" c99 c
  try "declarations as exported, $name" declarations "$name"
done
for name in g++ clang++; do
  try "header as C++17, $name" header "$name" c++17 c++
  try "replies in C++17, $name -O2" replies "$name" c++17 c++ -O2
done
for name in gcc clang; do
  for optimisation in -O0 -O2; do
    try "replies in C99, $name $optimisation" replies "$name" c99 c "$optimisation"
    try "logger, $name $optimisation" logger "$name" "$optimisation"
  done
done

for name in gcc clang; do
  try "stack of each call under 4 KiB, measured, $name" stack "$name"
done
try "stack of each call under 4 KiB, added up" python3 tests/host/stack.py "$archive"
try "no variables, and memset alone" no_variables
try "threads on one sheet, gcc" threads gcc
try "lines in two runs, gcc" joined gcc
try "ink that no style paints, gcc" ink gcc
try "lists of edits, gcc" lists gcc
try "a day of edits by radio, gcc" radio gcc
for name in gcc clang; do
  try "worst cases are built, $name" worst "$name"
done

wait "$tools"
status=$?
while IFS= read -r line; do
  count "$line"
done <"$out/tools"
if [ "$status" -gt 1 ] || [ -s "$out/tools.log" ] || ! [ -s "$out/tools" ]; then
  count "FAILED tools: the tests of tests/tools.py did not run to their end"
  sed 's/^/    /' "$out/tools.log"
fi

echo "$passed passed, $failed failed"
[ "$failed" = 0 ]
