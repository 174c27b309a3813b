#!/usr/bin/env bash
# The library for C: its header as C and as C++, both functions under the sanitizers, and the example.
set -u
cd "$(dirname "$0")/.." || exit 1
built=$(mktemp -d) || exit 1
trap 'rm -rf "$built"' EXIT
library=target/staticlib/libbodunkwa.a
strict=(-std=c11 -pedantic -Wall -Wextra -Werror -Iinclude)
failed=0

# step WHAT COMMAND..: without a word unless it fails, and then nothing after it can be done
step() {
  "${@:2}" >"$built/log" 2>&1 || { printf 'tests/c.sh: %s:\n' "$1"; cat "$built/log"; exit 1; }
}

# expect NAME STATUS STDOUT: what was printed is in $out, how it ended in $status
expect() {
  if [ "$status" -ne "$2" ] || [ "$out" != "$3" ]; then
    printf '%s: status %s, printed: %s\n' "$1" "$status" "$out"
    failed=1
  fi
}

step "the library" tools/build bodunkwa
step "the header as C" gcc "${strict[@]}" -fsyntax-only -x c include/bodunkwa.h
step "the header as C++" g++ -Wall -Wextra -Werror -fsyntax-only -x c++ include/bodunkwa.h
step "compiling the test" gcc "${strict[@]}" -g -fsanitize=address,undefined -fno-sanitize-recover=all -o "$built/test" tests/c/test.c "$library"
step "the test" "$built/test"
step "compiling the example" gcc "${strict[@]}" -g -fsanitize=address,undefined -fno-sanitize-recover=all -o "$built/layout" examples/layout.c "$library"

layout=$built/layout
sample=samples/spring.txt
digest=$(sha256sum "$sample" | cut -d' ' -f1)
key=1f1e1d1c1b1a191817161514131211100f0e0d0c0b0a09080706050403020100
statement=02000001622a494d3ea8c7ba2fed4f37909f14d9b50ab412322de39be62c8d6c2418bfca
stamp=d213c702e246c46be0b76f04da5e18ff5ed0d1141037d3a60305f0d296baf7a0
out=$("$layout" "$sample"); status=$?
expect "a digest" 0 "$digest"
out=$("$layout" "$sample" $key $statement $stamp); status=$?
expect "a right stamp" 0 "$digest"$'\nstamp checks: yes'
out=$("$layout" "$sample" $key $statement ${stamp%0}1); status=$?
expect "a wrong stamp" 0 "$digest"$'\nstamp checks: no'
out=$("$layout" "$sample" ${key%00} $statement $stamp); status=$?
expect "a short key" 0 "$digest"$'\nstamp checks: no'
out=$("$layout" "$sample" $key $statement ${stamp%a0}xy 2>/dev/null); status=$?
expect "a stamp that is not hexadecimal" 1 ""
out=$("$layout" 2>/dev/null); status=$?
expect "no file given" 1 ""
out=$("$layout" "$built/none" 2>/dev/null); status=$?
expect "a file that is not there" 1 ""
head -c 16777217 /dev/zero >"$built/long"
out=$("$layout" "$built/long" 2>/dev/null); status=$?
expect "a file that is too long" 1 ""
[ "$failed" -eq 0 ] && echo "tests/c.sh: passed"
exit "$failed"
