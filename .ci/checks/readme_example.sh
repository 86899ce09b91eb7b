#!/usr/bin/env bash
# Each block of the README's example is, apart from layout, in the test that runs it, and the one from Rust in the program
# of docs/guide/RUST_AND_C.md, which .ci/checks/bindings.sh runs. The first run is the program's stored one, and the lines
# of a report are those of a stored run. The code of docs/guide/RATTLE.md is that of the test and what it calls, and of the
# list of fields. Each run of the programs that docs/guide/CHECK.md shows is a stored one.
set -eu
cd "$(dirname "${BASH_SOURCE[0]}")/../.."
test=crates/batch_tests/src/tests/example.rt
program=docs/guide/RUST_AND_C.md
rattle=docs/guide/RATTLE.md
room=$(mktemp -d)
trap 'rm -r "$room"' EXIT
# Writes each block of code in Rust of the file $1 to a file of its own in the folder $2.
blocks_of() {
  mkdir "$2"
  awk -v folder="$2" '/^```rust$/ { n++; on = 1; next } /^```$/ { on = 0 } on { print > (folder "/" n) }' "$1"
}
blocks_of README.md "$room/readme"
# Whether a block, which is not empty, is in a file.
stands_in() {
  local part whole
  part=$(tr -d ' \n' <"$1")
  whole=$(tr -d ' \n' <"$2")
  [ -n "$part" ] && [ "${whole#*"$part"}" != "$whole" ]
}
tested=0
from_rust=0
for block in "$room/readme"/*; do
  if stands_in "$block" "$test"; then
    tested=$((tested + 1))
  elif stands_in "$block" "$program"; then
    from_rust=$((from_rust + 1))
  else
    echo "a block of the README's example is in neither $test nor $program" >&2
    exit 1
  fi
done
if [ "$tested" -ne 1 ] || [ "$from_rust" -ne 1 ]; then
  echo "the README has $tested blocks of $test and $from_rust of $program, and not 1 and 1" >&2
  exit 1
fi
echo "the README's example is what $test and the program of $program run"
blocks_of "$rattle" "$room/rattle"
grep -v '^use super::' "$test" >"$room/example.rt"
helpers=crates/batch_tests/src/tests.rt
fields=crates/field_list/src
for block in "$room/rattle"/*; do
  for file in "$room/example.rt" "$helpers" "$fields/koala_bear.rt" "$fields/list.rt"; do
    if stands_in "$block" "$file"; then continue 2; fi
  done
  echo "a block of $rattle is in none of $test, $helpers and $fields: $(head -n 1 "$block")" >&2
  exit 1
done
code=$(cat "$room/rattle"/* | tr -d ' \n')
for part in 'ghostevaluates=' 'ghostkeeps_layout=' 'ghostnum_public_values=' '#[test]' 'assert!(rt;'; do
  case $code in
    *"$part"*) ;;
    *) echo "$rattle has no $part" >&2 && exit 1 ;;
  esac
done
echo "the code of $rattle is what $test runs, and that of a field"
run=crates/lookup_run
rows=$(awk '{ printf "%s\\n", $0 }' "$run/stdin")
words=$(tr '\n' ' ' <"$run/args")
first="    printf '$rows' | ./lookup-run ${words% }"
grep -qxF -- "$first" README.md || { echo "the README does not show the first run: $first" >&2; exit 1; }
shown=$(grep -A 5 -xF -- "    air 0" README.md | head -n "$(wc -l <"$run/stdout")" | sed 's/^    //')
[ "$shown" = "$(cat "$run/stdout")" ] || { echo "the README shows another output of the first run" >&2; exit 1; }
# the lines of a report, below the sentence that names the batch
report=cases/check/cpu-broken.txt
awk '/examples\/cpu-broken/ { on = 1 } /^    / && on { print substr($0, 5); met = 1; next } met { exit }' README.md >"$room/report"
sed -n 's/^> //p' "$report" >"$room/stored"
stands_in "$room/report" "$room/stored" || { echo "the README shows a report that is not in $report" >&2; exit 1; }
# Each run of lookup-check that the guide shows is a stored one, with all that it writes to standard output.
shown=0
while IFS= read -r words; do
  awk -v words="\$ ./lookup-check $words" '$0 == words { on = 1; next } /^```$/ && on { exit } on' docs/guide/CHECK.md >"$room/shown"
  awk -v words="\$ $words" '$0 == words { on = 1; next } /^=/ && on { exit } on' cases/check/*.txt | sed -n 's/^> \{0,1\}//p' >"$room/wanted"
  [ -s "$room/wanted" ] && diff "$room/wanted" "$room/shown" >&2 ||
    { echo "docs/guide/CHECK.md shows another run than cases/check has: $words" >&2; exit 1; }
  shown=$((shown + 1))
done < <(sed -n 's/^\$ \.\/lookup-check //p' docs/guide/CHECK.md)
[ "$shown" -gt 0 ] || { echo "docs/guide/CHECK.md shows no run" >&2; exit 1; }
echo "the $shown runs in docs/guide/CHECK.md are those of cases/check"
