#!/usr/bin/env bash
# Tests read_bdf on stored, made and real BDF fonts, against the model of tests/bdf_model.py and FreeType's own reader, and builds bench/bdf.c:
#
#   tests/bdf.sh [FOLDER]
#
# FOLDER has the real fonts (.bdf); without it ../shared/tools/real-bdf fetches some from Debian's packages, once, to target/bdf/fonts. read_bdf
# and the archive are made if they are missing or older than the crates, which proves what they need; FreeType and a C compiler are installed if they
# are missing and that is possible. Where the fonts or FreeType cannot be had, a line that begins with 'skipped:' says so, and the other tests are made. Each test
# prints 'ok NAME' or 'FAILED NAME'; the last line is 'N passed, M failed', and the exit status is 1 if one failed.
set -uo pipefail
folder=${1:+$(cd "$1" && pwd)} || exit 2
cd "$(dirname "$0")/.."

out=target/bdf
archive=target/staticlib/libstation.a
fetch=../shared/tools/real-bdf
flags=(-std=c99 -O2 -Wall -Wextra -Werror)

# with_freetype FILE.. -o PROGRAM: compiles and links with FreeType.
with_freetype() {
  local found
  read -ra found <<<"$(pkg-config --cflags --libs freetype2 2>/dev/null || echo -I/usr/include/freetype2 -lfreetype)"
  cc "${flags[@]}" "$@" "${found[@]}"
}

# The program that writes FreeType's glyphs, after an attempt to install what it needs.
make_freetype() {
  local root=()
  with_freetype tests/freetype.c -o "$out/freetype" && return
  [ "$(id -u)" = 0 ] || root=(sudo -n)
  "${root[@]}" env DEBIAN_FRONTEND=noninteractive apt-get install -y -qq gcc libc6-dev libfreetype-dev ||
    { "${root[@]}" apt-get update -qq && "${root[@]}" env DEBIAN_FRONTEND=noninteractive apt-get install -y -qq gcc libc6-dev libfreetype-dev; }
  with_freetype tests/freetype.c -o "$out/freetype"
}

# The measurement beside FreeType reads the sample's font once.
run_bench() {
  tools/build.sh library || return
  with_freetype -Iinclude bench/bdf.c "$archive" -o "$out/bench" &&
    "$out/bench" samples/fonts/georgian-9x18.bdf 1 | tee "$out/times" && grep -q '^ratio ' "$out/times"
}

# Fetches the real fonts; a run that was stopped leaves none.
fetch_fonts() {
  rm -rf "$out/fetched" && timeout 300 "$fetch" "$out/fetched" && mv "$out/fetched" "$out/fonts"
}

mkdir -p "$out"
if ! tools/build.sh read_bdf >"$out/log" 2>&1 || ! [ -x target/bin/read_bdf ]; then
  echo "FAILED read_bdf: 'tools/build.sh read_bdf' does not make it"
  echo '0 passed, 1 failed'
  exit 1
fi

freetype=$out/freetype
if ! make_freetype >"$out/log" 2>&1; then
  freetype=-
  echo "skipped: the comparison of BDF fonts with FreeType, since FreeType's header or a C compiler is not there and cannot be installed;" \
    "to run it: install libfreetype-dev and gcc, then tests/bdf.sh"
fi

if [ -z "$folder" ]; then
  folder=$out/fonts
  if ! [ -d "$folder" ]; then
    reason=
    if ! [ -x "$fetch" ]; then
      reason="$fetch is not there"
    elif ! fetch_fonts >"$out/log" 2>&1; then
      reason="$fetch could not fetch them"
    fi
    [ -z "$reason" ] || echo "skipped: the real BDF fonts, since $reason; to run them: tests/bdf.sh FOLDER, with BDF files in FOLDER"
  fi
fi

# The program for files of any length.
make_read_font() {
  tools/build.sh library || return
  cc "${flags[@]}" -Iinclude tests/host/read_font.c "$archive" -o "$out/read_font"
}

read_font=$out/read_font
if ! make_read_font >"$out/log" 2>&1; then
  read_font=-
  echo "skipped: BDF files of ten million bytes, since there is no C compiler; to run them: install gcc, then tests/bdf.sh"
fi

shopt -s nullglob
fonts=("$folder"/*.bdf)
python3 tests/bdf_compare.py target/bin/read_bdf "$read_font" "$freetype" "$out" "${fonts[@]}" 2>"$out/log" | tee "$out/tests"
status=${PIPESTATUS[0]}
if [ "$status" -gt 1 ] || [ -s "$out/log" ] || ! [ -s "$out/tests" ]; then
  echo 'FAILED tests/bdf_compare.py did not run to its end' | tee -a "$out/tests"
  tail -n 20 "$out/log" | sed 's/^/    /'
fi
if [ "$freetype" != - ]; then
  if run_bench >"$out/log" 2>&1; then
    echo 'ok bench/bdf.c is built and runs' | tee -a "$out/tests"
  else
    echo 'FAILED bench/bdf.c is built and runs' | tee -a "$out/tests"
    tail -n 20 "$out/log" | sed 's/^/    /'
  fi
fi

passed=$(grep -c '^ok ' "$out/tests")
failed=$(grep -c '^FAILED ' "$out/tests")

echo "$passed passed, $failed failed"
[ "$failed" = 0 ]
