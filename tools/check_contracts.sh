#!/bin/sh
# docs/CONTRACTS.md against the tree: a row for each public function and for no other; each must-fail edit named once
# or more, none that isn't there; in a row, of the edits of the function's own crate, those that name it in their
# heads ('# refuses: ...'). `crate::function`, `crate::Type::method`, `crate/edit` are read from their code marks.
# What the prover said of an edit is not asked here, but by tools/check_refused.sh.
set -eu
cd "$(dirname "$0")/.."
room=$(mktemp -d)
trap 'rm -rf "$room"' EXIT

for file in crates/*/src/*.rt; do
  crate=${file#crates/}
  crate=${crate%%/*}
  awk -v crate="$crate" '
    /^impl(<.*>)? .* for / { # named as the prover names it: `impl From<A> for b` is BFromA
      trait = $0; sub(/^impl(<[^ ]*>)? /, "", trait); sub(/ for .*/, "", trait); gsub(/[<>]/, "", trait)
      type = $0; sub(/.* for /, "", type); sub(/[ <].*/, "", type)
      type = toupper(substr(type, 1, 1)) substr(type, 2) trait "::"; promises = 0; next
    }
    /^    ghost [a-z_]* = / { promises = 1 }
    /^impl[ <]/ { type = $0; sub(/^impl(<[^ ]*>)? /, "", type); sub(/[ <].*/, "", type); type = type "::" }
    /^}/ { type = ""; promises = 0 }
    promises && /^    fn / { name = $0; sub(/.*fn /, "", name); sub(/[(<].*/, "", name); print crate "::" type name }
    /^ *pub (extern "C" )?(const )?fn / { name = $0; sub(/.*fn /, "", name); sub(/[(<].*/, "", name); print crate "::" type name }
  ' "$file"
done | sort -u > "$room/functions"
sed -n 's/^| `\([a-z_0-9]*::[A-Za-z_0-9:]*\)` .*/\1/p' docs/CONTRACTS.md | sort > "$room/rows"

for file in crates/*/must-fail/*.edit; do
  crate=${file#crates/}
  crate=${crate%%/*}
  echo "$crate/$(basename "$file" .edit)"
done | sort > "$room/edits"
grep -o '`[a-z_0-9]*/[a-z_0-9]*`' docs/CONTRACTS.md | tr -d '`' | sort -u > "$room/named"

while IFS= read -r edit; do
  sed -n '/^file:/q; s/^# refuses: *//p' "crates/${edit%%/*}/must-fail/${edit#*/}.edit" | tr ',' '\n' |
    sed "s/^ *//; s/ by .*//; s/ *\$//; /^law /d; /^\$/d; s|.*|${edit%%/*}::& $edit|"
done < "$room/edits" | awk 'NR == FNR { public[$1]; next } $1 in public' "$room/functions" - | sort > "$room/lies"
awk -F '`' '/^\| `[a-z_0-9]*::/ {
  crate = $2
  sub(/::.*/, "", crate)
  for (i = 4; i <= NF; i += 2) if (index($i, crate "/") == 1) print $2, $i
}' docs/CONTRACTS.md | sort > "$room/shown"

differ() {
  if ! cmp -s "$1" "$2"; then
    echo "docs/CONTRACTS.md: $3 (< the tree, > the document):"
    diff "$1" "$2" | grep '^[<>]' || true
    return 1
  fi
}
status=0
differ "$room/functions" "$room/rows" 'public functions' || status=1
differ "$room/edits" "$room/named" 'must-fail edits' || status=1
differ "$room/lies" "$room/shown" 'functions and the edits that name them' || status=1
exit $status
