#!/usr/bin/env bash
# The programs that read pages, `digest` and `certify`: at the bound, past it, on input without an end, and on input that cannot be read.
set -u
cd "$(dirname "$0")/.." || exit 1
failed=0

# expect NAME STATUS FIRST_LINE: what was printed is in $out, how it ended in $status
expect() {
  if [ "$status" -ne "$2" ] || [ "$(head -n 1 <<<"$out")" != "$3" ]; then
    printf '%s: status %s, printed: %s\n' "$1" "$status" "$out"
    failed=1
  fi
}

zeros=$(head -c 16777216 /dev/zero | sha256sum | cut -d' ' -f1)
none=$(sha256sum </dev/null | cut -d' ' -f1)

out=$(target/bin/digest </dev/null); status=$?
expect "digest of no pages" 0 "bytes 0"
out=$(head -c 16777216 /dev/zero | target/bin/digest); status=$?
expect "digest at the bound" 0 "bytes 16777216"
[ "$(tail -n 1 <<<"$out")" = "digest $zeros" ] || { echo "digest at the bound: $out"; failed=1; }
out=$(target/bin/certify </dev/null); status=$?
expect "certify of no pages" 0 "announce 0 1 $none"
out=$(head -c 16777216 /dev/zero | target/bin/certify); status=$?
expect "certify at the bound" 0 "announce 0 1 $zeros"

for program in digest certify; do
  out=$(head -c 16777217 /dev/zero | "target/bin/$program" 2>/dev/null); status=$?
  expect "$program, one byte more" 1 "refused 7"
  out=$(timeout 20 "target/bin/$program" </dev/zero 2>/dev/null); status=$?
  expect "$program, input without an end" 1 "refused 7"
  out=$("target/bin/$program" </ 2>&1 >/dev/null); status=$?
  [ -n "$out" ] || { echo "$program: a read error is not reported"; failed=1; }
  expect "$program, a read error" 1 "$out"
done
[ "$failed" -eq 0 ] && echo "tests/pages.sh: passed"
exit "$failed"
