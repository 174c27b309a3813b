#!/usr/bin/env bash
# Programs that the checker must reject before they can run. Each text in rejected/ is an edit of the program `certify`, and the
# error that it must give. Beside it stands an edit much like it that must be accepted, so that no broken setup passes for a rejection.
set -u
cd "$(dirname "$0")/.." || exit 1
folder=$(mktemp -d) || exit 1
trap 'rm -rf "$folder"' EXIT
failed=0

tar -c --exclude=out crates.txt crates | tar -x -C "$folder" || exit 1

complain() {
  printf 'tests/rejected.sh: %s: %s\n' "$1" "$2"
  failed=1
}

# field TEXT NAME: the rest of the line that begins with NAME
field() {
  sed -n "s/^$2: //p" "$1"
}

# edit TEXT: edits the copy, if the old words stand in the file exactly once
edit() {
  local name old new whole before after
  name=$folder/crates/certify/$(field "$1" file)
  old=$(field "$1" old)
  new=$(field "$1" new)
  whole=$(cat "$name") && [ -n "$old" ] && [ -n "$new" ] || { complain "$1" "not a file, old and new words"; return 1; }
  before=${whole%%"$old"*}
  after=${whole#*"$old"}
  if [ "$before$old$after" != "$whole" ] || [ "${after#*"$old"}" != "$after" ]; then
    complain "$1" "the old words do not stand exactly once in the file"
    return 1
  fi
  printf '%s\n' "$before$new$after" >"$name"
}

# check: what the checker says of the copy goes to $said, and its status to $status; then the copy is as it was
check() {
  said=$(cd "$folder/crates/certify" && rt check 2>&1)
  status=$?
  cp -r crates/certify/src "$folder/crates/certify"
}

# rejected TEXT: that error comes, in the edited file, and no other
rejected() {
  local error place
  error=$(field "$1" error)
  place=$(field "$1" file)
  edit "$1" || return
  check
  if [ "$status" -eq 0 ] || ! grep -q "^$place:[0-9:]* error\[$error\]" <<<"$said" || [ "$(grep -c 'error\[' <<<"$said")" -ne 1 ]; then
    complain "$1" "not rejected with $error alone; the checker said:"
    tail -n 20 <<<"$said"
  fi
}

tried=0
for text in rejected/*.txt; do
  [[ $text != *.accepted.txt ]] || continue
  tried=$((tried + 1))
  [ -f "${text%.txt}.accepted.txt" ] || complain "$text" "it has no twin that is accepted"
  rejected "$text"
done
[ "$tried" -gt 0 ] || complain rejected/ "there is no text"

# The twins go together into one program, since each proof takes a while.
for text in rejected/*.accepted.txt; do
  edit "$text"
done
check
if [ "$status" -ne 0 ] || ! grep -q '^logic=proved' <<<"$said"; then
  complain 'rejected/*.accepted.txt' "not accepted; the checker said:"
  tail -n 20 <<<"$said"
fi
[ "$failed" -eq 0 ] && echo "tests/rejected.sh: passed"
exit "$failed"
