#!/bin/sh
# The documents against the tree: every name that docs/RULES.md cites under a rule is a definition, a law, a function or a crate; the lengths
# of spec files that README.md gives are theirs; no line of prose is over 120 characters.
set -eu
export LC_ALL=C
cd "$(dirname "$0")/.."
room=$(mktemp -d)
trap 'rm -rf "$room"' EXIT

{
  sed -n -E 's/^ *(abbrev |unfoldable )?pub (record |data |abbrev )?([^ :]+).*/\3/p' crates/*/specs/*.antt crates/*/proofs/*.antt
  sed -n -E 's/^ *(pub )?(extern "C" )?fn ([a-z_0-9]+).*/\3/p' crates/*/src/*.rt
  ls crates
} | sort -u > "$room/there"
# a citation stands under its rule, indented, and may run over several lines
awk '/^  - / { on = 1 } /^(- |#|$)/ { on = 0 } on' docs/RULES.md | grep -o '`[^`]*`' | tr -d '`' | sed 's/.*:://' | sort -u > "$room/cited"

status=0
comm -13 "$room/there" "$room/cited" > "$room/unknown"
if [ -s "$room/unknown" ]; then
  echo "docs/RULES.md cites what is not there:"
  cat "$room/unknown"
  status=1
fi
sed -n -E 's/^ *\| `([a-z_]+\/specs\/[A-Za-z]+\.antt)` \| ([0-9]+) \|.*/\1 \2/p' README.md > "$room/lengths"
while read -r file lines; do
  is=$(wc -l < "crates/$file")
  if [ "$is" -ne "$lines" ]; then
    echo "README.md: $file has $is lines, not $lines"
    status=1
  fi
done < "$room/lengths"
for file in README.md docs/*.md tools/oracle/README.md; do
  # tables and code apart; of a character of several bytes the first counts
  awk -v file="$file" '
    /^ *\|/ { next }
    /^    / && !/^ *([-*]|[0-9]+\.) / { next }
    { line = $0; gsub(/[\200-\277]/, "", line) }
    length(line) > 120 { print file ":" FNR ": " length(line) " characters"; bad = 1 }
    END { exit bad }' "$file" || status=1
done
exit $status
