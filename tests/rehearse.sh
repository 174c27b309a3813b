#!/usr/bin/env bash
# The program `rehearse` on the stored rehearsals, on its limits, and on input that cannot be read.
set -u
cd "$(dirname "$0")/.." || exit 1
program=target/bin/rehearse
work=$(mktemp -d) || exit 1
trap 'rm -rf "$work"' EXIT
names="line call outcome value"
failed=0

# compare NAME INPUT EXPECTED: what the program prints of a file is another file, and it ends with status 0
compare() {
  "$program" <"$2" >"$work/printed"
  local status=$?
  if [ "$status" -ne 0 ] || ! cmp -s "$work/printed" "$3"; then
    printf '%s: status %s, expected and printed:\n' "$1" "$status"
    diff "$3" "$work/printed" | head -n 10
    failed=1
  fi
}

# begin NUMBERS: the opening lines
begin() {
  printf 'houses bad rule\n%s\ncall at house number text\n' "$1"
}

# opening NUMBERS REFUSAL: with these numbers no event is run
opening() {
  { begin "$1"; echo "announce 0 0 0 a"; } >"$work/in"
  printf '%s\n1 open %s 0\n' "$names" "$2" >"$work/out"
  compare "opening $1" "$work/in" "$work/out"
}

for input in tests/rehearsals/*.in; do
  compare "$input" "$input" "${input%.in}.out"
done

for numbers in "4 1 0" "4 1 01" "4 1" "4 1 1 1" "4  1 1" " 4 1 1" "4 1 1 " "4 65536 1" "x 1 1" "4 1 " ""; do
  opening "$numbers" 24
done
for numbers in "0 1 1" "17 1 1" "255 0 2" "256 0 1" "260 1 1" "65535 65535 2"; do
  opening "$numbers" 1
done
for numbers in "1 1 1" "3 1 2" "4 2 1" "15 5 2" "16 85 1" "16 65535 1"; do
  opening "$numbers" 2
done

# Event lines up to the limit, and one more, with and without its end.
{ begin "4 1 1"; yes "announce 4 0 0 a" | head -n 1000; } >"$work/in"
{ echo "$names"; seq -f '%g announce 4 0' 1000; } >"$work/out"
compare "1,000 event lines" "$work/in" "$work/out"
printf '%s\n1 open 24 0\n' "$names" >"$work/refused"
{ cat "$work/in"; echo "announce 4 0 0 a"; } >"$work/more"
compare "1,001 event lines" "$work/more" "$work/refused"
{ cat "$work/in"; printf 'a'; } >"$work/more"
compare "1,001 event lines, the last not ended" "$work/more" "$work/refused"
{ head -n 1002 "$work/in"; printf 'a'; } >"$work/more"
{ head -n 1000 "$work/out"; echo "1000 line 24 0"; } >"$work/last"
compare "1,000 event lines, the last not ended" "$work/more" "$work/last"

# Bytes up to the limit, and one more. The opening lines have 48.
{ begin "4 1 1"; head -c 65487 /dev/zero | tr '\0' x; echo; } >"$work/in"
[ "$(wc -c <"$work/in")" -eq 65536 ] || { echo "the input at the limit has not 65,536 bytes"; failed=1; }
printf '%s\n1 line 24 0\n' "$names" >"$work/out"
compare "65,536 bytes" "$work/in" "$work/out"
{ begin "4 1 1"; head -c 65488 /dev/zero | tr '\0' x; echo; } >"$work/in"
compare "65,537 bytes" "$work/in" "$work/refused"

# Each house has 64 seals. Here one house notes and files 64 numbers.
{ begin "1 0 1"; for k in $(seq 64); do echo "note 0 0 $k x"; echo "file 0 0 $k x"; done; echo "note 0 0 65 x"; echo "file 0 0 65 x"; echo "announce 0 0 0 x"; } >"$work/in"
{ echo "$names"; for k in $(seq 64); do echo "$((2 * k - 1)) note 0 $((k - 1))"; echo "$((2 * k)) file 0 1"; done; printf '129 note 14 0\n130 file 19 0\n131 announce 0 1\n'; } >"$work/out"
compare "64 seals of one house" "$work/in" "$work/out"

# Here house 0 of 16 fills its four slots of every house. With t = 0 the rule All needs 9 of 16.
{
  begin "16 0 1"
  for j in $(seq 0 15); do for k in 1 2 3 4; do echo "note 0 $j $k x"; done; done
  for i in $(seq 8); do echo "note $i 0 1 x"; done
  printf '%s\n' "file 0 0 1 x" "note 0 0 5 x" "note 0 0 4 x" "note 0 0 4 y" "note 1 0 5 x" "note 1 0 2 x" "note 0 16 1 x"
} >"$work/in"
{
  echo "$names"
  for i in $(seq 72); do echo "$i note 0 $((i - 1))"; done
  printf '%s\n' "73 file 0 511" "74 note 14 0" "75 note 12 0" "76 note 13 0" "77 note 10 0" "78 note 0 72" "79 note 8 0"
} >"$work/out"
compare "64 seals of one of 16 houses" "$work/in" "$work/out"

# Input without an end is read no further than the limit.
timeout 20 "$program" </dev/zero >"$work/printed"
cmp -s "$work/printed" "$work/refused" || { echo "input without an end: $(cat "$work/printed")"; failed=1; }

out=$("$program" </ 2>&1 >/dev/null); status=$?
[ -n "$out" ] && [ "$status" -eq 1 ] || { echo "a read error: status $status, reported: $out"; failed=1; }

[ "$failed" -eq 0 ] && echo "tests/rehearse.sh: passed"
exit "$failed"
