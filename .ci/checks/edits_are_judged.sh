#!/usr/bin/env bash
# tools/wrong-bodies tells what it has to, of a crate that is proved at once: an edit that the prover
# refuses, one that changes nothing, one that only takes away what a proof names, one that can't be read,
# and whose wrong bodies the record has.
set -eu
top=$(cd "$(dirname "${BASH_SOURCE[0]}")/../.." && pwd)
room=$(mktemp -d)
trap 'rm -rf "$room"' EXIT
mkdir -p "$room/crates" "$room/tools" "$room/wrong-bodies"
cp "$top/HANDLES" "$room/"
cp "$top"/tools/{wrong-bodies,check-crate,*.py} "$room/tools/"
echo "matrix:" >"$room/crates.txt"
cp -r "$top/crates/matrix" "$room/crates/"
rm -rf "$room/crates/matrix/out"
printf 'out/\n' >"$room/.gitignore"
cd "$room"
git init -q
# what was tried is recorded only of a commit
commit() {
  git add -A
  git -c user.name=none -c user.email=none -c commit.gpgsign=false -c core.hooksPath=/dev/null commit -qm "$1"
}
(cd crates/matrix && rt check >/dev/null)
rows=$'file: src/dense.rt\nold: &self.values[r * self.width..(r + 1) * self.width]\nnew: '
first=$rows'&self.values[0..self.width]' same=$rows'&self.values[r * self.width..(1 + r) * self.width]'
edits=wrong-bodies/matrix.edits
printf '## first_row\n%s\n' "$first" >$edits

fail() {
  echo "edits_are_judged: $1" >&2
  exit 1
}

said=$(mktemp)
trap 'rm -rf "$room" "$said"' EXIT
tools/wrong-bodies matrix >"$said" || fail "a refused edit: $(cat "$said")"
grep -q '^matrix/first_row: refused: dense::RowMajorMatrix::row_slice, `returns-clause-row`' "$said" || fail "$(cat "$said")"
grep -q '^matrix: not recorded' "$said" || fail "no commit, and recorded: $(cat "$said")"
commit "one edit"
tools/wrong-bodies matrix >"$said" || fail "a refused edit again: $(cat "$said")"
grep -q "^matrix [0-9a-f]* $(git rev-parse --short=12 HEAD)$" wrong-bodies/TRIED || fail "$(cat wrong-bodies/TRIED)"
tools/wrong-bodies --tried >"$said" || fail "all edits can be made: $(cat "$said")"
grep -q '^wrong bodies: those of 1 of 1 crates were tried on just these sources$' "$said" || fail "$(cat "$said")"

# what was refused is kept, by the text of the edit
grep -q 'dense::RowMajorMatrix::row_slice, `returns-clause-row`' crates/matrix/out/refused-edits || fail "nothing is kept"
printf '## first_row\n%s\n' "$same" >$edits
if tools/wrong-bodies matrix >"$said"; then fail "another text of the same name is taken as refused"; fi
grep -q '^matrix/first_row: NOT REFUSED: ' "$said" || fail "$(cat "$said")"
# the proof of `values` names its call of `as_slice`; the name of what is called instead is too long for a line of
# the prover's message
long=values_$(printf 'row_after_row_%.0s' {1..12})
takes_a_name="file: src/dense.rt
old: pub fn values(
new: fn $long(&self) -> &[T] { &self.values[..] } pub fn values(
old: self.values.as_slice()
new: self.$long()"
misplaced=$'file: src/dense.rt\nold: no such text\nnew: none'
printf '## %s\n%s\n\n' first_row "$first" misplaced "$misplaced" same "$same" takes_a_name "$takes_a_name" \
  unreadable "$rows&self.values[r * self.width.." >$edits
commit "five edits"
if tools/wrong-bodies --tried >"$said"; then fail "an edit that can't be made"; fi
grep -q '^wrong bodies: those of 0 of 1 crates were tried on just these sources$' "$said" || fail "$(cat "$said")"
grep -q '^not tried on these sources: matrix$' "$said" || fail "$(cat "$said")"
grep -q '^wrong-bodies/matrix.edits: misplaced: ' "$said" || fail "$(cat "$said")"
before=$(cat wrong-bodies/TRIED)
if tools/wrong-bodies matrix >"$said"; then fail "a wrong body that proves passes"; fi
grep -q '^matrix/same: NOT REFUSED: ' "$said" || fail "$(cat "$said")"
grep -q '^matrix/takes_a_name: NOT REFUSED: only a proof that names what the edit took away$' "$said" || fail "$(cat "$said")"
grep -q '^matrix/unreadable: UNREADABLE: ' "$said" || fail "$(cat "$said")"
grep -q '^matrix/misplaced: UNREADABLE: ' "$said" || fail "$(cat "$said")"
grep -q '^1 refused, 2 not refused, 2 unreadable' "$said" || fail "$(cat "$said")"
[ "$(cat wrong-bodies/TRIED)" = "$before" ] || fail "a run with a failure is recorded"

# a file of edits has each name once, in order, and nothing above the first; wrong-bodies/ has no other files
printf '## %s\n%s\n' same "$same" first_row "$first" >$edits
if tools/wrong-bodies --tried >"$said" 2>&1; then fail "names that are not in order"; fi
grep -q '^wrong-bodies/matrix.edits: first_row stands below same: ' "$said" || fail "$(cat "$said")"
printf '%s\n## same\n%s\n' "$first" "$same" >$edits
if tools/wrong-bodies --tried >"$said" 2>&1; then fail "an edit without a name"; fi
grep -q '^wrong-bodies/matrix.edits: no part of an edit: file: ' "$said" || fail "$(cat "$said")"
printf '## same\n%s\n' "$same" >$edits
mkdir wrong-bodies/matrix
if tools/wrong-bodies --tried >"$said"; then fail "another file in wrong-bodies/"; fi
grep -q "^wrong-bodies/matrix: no crate's file of edits$" "$said" || fail "$(cat "$said")"
echo "edits_are_judged: tells refused, proved, refused by a name alone, unreadable and not tried"
