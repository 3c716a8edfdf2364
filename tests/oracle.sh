#!/usr/bin/env bash
# Tests of the oracle, of the stored list and of the bench, for a machine with rustc and the crate's files:
#
#   [EMBEDDED_GRAPHICS=FOLDER] tests/oracle.sh
#
# Builds what is missing, compares the exported calls with the oracle on some cases, tries the known
# mistakes, makes the stored list again, shows that its replay notices a changed byte, and compares
# the bench's pages. The last line is 'N passed, M failed', or one line that begins with 'skipped:' where
# rustc or the files are not there. A folder that is named and has not the files is a failure.
set -uo pipefail
cd "$(dirname "$0")/.."
. oracle/crates.sh

list=crates/oracle_list/stdin
missing=$(missing_file)
if [ -n "$missing" ] && [ -n "${EMBEDDED_GRAPHICS:-}" ]; then
  echo "FAILED: EMBEDDED_GRAPHICS names $folder, which has no $missing"
  echo '0 passed, 1 failed'
  exit 1
fi
reason=
[ -z "$missing" ] || reason="the crate's files are not in $folder"
command -v rustc > /dev/null || reason='there is no rustc'
if [ -n "$reason" ]; then
  echo "skipped: the comparison with embedded-graphics and the bench, since $reason;" \
    "to run them: EMBEDDED_GRAPHICS=FOLDER tests/oracle.sh (README.md, \"The comparison with the crate\", says what to fetch)"
  exit 0
fi

log=target/log/oracle
mkdir -p "$log"
rm -f "$log"/*
passed=0
failed=0

# run_test NAME COMMAND..: runs a test, whose output goes to a file of its name.
run_test() {
  local name=$1 start=$SECONDS
  shift
  if "$@" > "$log/$name" 2>&1; then
    echo "ok $name ($((SECONDS - start)) s)"
    passed=$((passed + 1))
  else
    echo "FAILED $name ($((SECONDS - start)) s), the end of $log/$name:"
    tail -n 20 "$log/$name"
    failed=$((failed + 1))
  fi
}

make_library() {
  tools/build.sh library
}

make_program() {
  tools/build.sh oracle_list
}

make_list_again() {
  target/oracle/list > "$log/made_list" && cmp "$log/made_list" "$list"
}

# refuse_words: that compare takes no word that it does not know, and no value that it cannot read.
refuse_words() {
  local words
  for words in 'case 5' 'seed' 'seed x' 'cases 5 seeds 2' 'sweeps maybe' 'with nobody' 'faults with plain' 'seed 1 seed 2' 'cases -1'; do
    # shellcheck disable=SC2086
    target/oracle/compare $words > "$log/words" 2>&1
    if [ $? -ne 2 ] || [ "$(wc -l < "$log/words")" -ne 1 ]; then
      echo "compare $words:"
      head -n 5 "$log/words"
      return 1
    fi
  done
}

# The number that two bytes of the list store.
u16_at() {
  od -An -tu2 --endian=little -j "$1" -N 2 "$list" | tr -d ' '
}

# reply_of CALL: where the reply of a call of the list's first case stands.
reply_of() {
  local frame=$((14 + $(u16_at 12))) at call part
  at=$((frame + 2 + $(u16_at "$frame") + 4))
  for ((call = 1; call < $1; call++)); do
    at=$((at + 39 + $(u16_at $((at + 13)))))
    for part in sheet frame output; do
      at=$((at + 4 + $(u16_at $((at + 2)))))
    done
  done
  echo $((at + 15 + $(u16_at $((at + 13)))))
}

# notice_changed CALL KIND OFFSET WORD: that a changed byte of the first case gives one difference, in this part of this call.
notice_changed() {
  local changed=$log/changed_list at byte
  at=$(($(reply_of "$1") + $3))
  cp "$list" "$changed" || return
  byte=$(od -An -tu1 -j "$at" -N 1 "$list") || return
  printf '%b' "\\x$(printf %02x $((byte ^ 1)))" |
    dd of="$changed" bs=1 seek="$at" conv=notrunc status=none || return
  target/bin/oracle_list < "$changed" | tee "$log/replay"
  grep -qx "difference: case 1, call $1, kind $2: $4" "$log/replay" &&
    grep -qx 'differences 1' "$log/replay"
}

# The first call draws an item, which changes no byte of the sheet and some of the frame; the ninth asks for an index. Changed are a code, how
# many characters are replaced, a grey, and whether a character is listed.
notice_changed_bytes() {
  target/bin/oracle_list < "$list" | cmp - crates/oracle_list/stdout || return
  notice_changed 1 4 0 reply && notice_changed 1 4 16 reply && notice_changed 1 4 32 frame && notice_changed 9 1 12 reply
}

notice_cut() {
  head -c 100000 "$list" | target/bin/oracle_list | grep -qx 'no list'
}

run_test library make_library
run_test build oracle/build.sh
bench/run.sh quick > "$log/bench_output" 2>&1 &
bench=$!
run_test marked target/oracle/driver marked
run_test list make_list_again
run_test compare target/oracle/compare cases 2000
run_test faults target/oracle/compare faults cases 1000
run_test program make_program
run_test unknown_words refuse_words
run_test changed_bytes notice_changed_bytes
run_test cut_list notice_cut
run_test bench wait "$bench"

echo "$passed passed, $failed failed"
[ "$failed" -eq 0 ]
