#!/bin/sh
# The must-fail edits against the logs that tools/try_edits.py left of them in target/must-fail. An edit names in its
# head what it lies about, '# refuses: a, b' on one line or more, and each must be refused at a goal of its own. Then
# every public function of docs/CONTRACTS.md must be refused so by an edit of its own crate, the exceptions there apart.
#
#   sh tools/check_refused.sh [CRATE...]     (no crate: all of them)
#
#   Type::method, function   an error in its own Answers.antt or Invariants.antt, or '`search` did not prove' a goal of it
#   function by law          where the goal stands in a law of the crate that the function's answers cite, themselves or
#                            through other laws: an error in that law
#   law name                 an error in the definition of that name in the crate's proofs/*.antt
#
# An error doesn't count that says no more than that something else is refused ('was not admitted', 'was rejected', 'it
# calls'). Nor do answers count with an error that says that they no longer fit the code: a goal, a field or a name that
# isn't there, a fact of another kind (an equation where an inequality was).
set -eu
cd "$(dirname "$0")/.."
LC_ALL=C
export LC_ALL
room=$(mktemp -d)
trap 'rm -rf "$room"' EXIT
status=0
complain() {
  echo "check_refused: $*"
  status=1
}

# What a log says, a line each: 'fn F' or 'law L' has an error of its own; with 'misfit' before it, one that says that
# it no longer fits; 'waits A B': A, 'fn:F' or 'law:L', is not taken since B is not. An error names its definition.
cat > "$room/read.awk" <<'EOF'
# The kind of a fact: its relation, and whether it is denied. What stands in brackets is not its own.
function kind(type) {
  while (gsub(/\([^()]*\)|\{[^{}]*\}/, "", type)) {}
  return (index(type, "≡") || type ~ /^Path / ? "=" : "") (index(type, "_<_") || index(type, " < ") ? "<" : "") \
    (index(type, "≤") ? "<=" : "") (index(type, "→ Prim.⊥") || index(type, "→ ⊥") ? " not" : "")
}
# The text in the code marks after a phrase.
function marked(text, phrase,    at) {
  at = index(text, phrase "`")
  if (!at) return ""
  text = substr(text, at + length(phrase) + 1)
  return substr(text, 1, index(text "`", "`") - 1)
}
function judged(    what, name, want, have, on, who, those, n, i) {
  if (error == "") return
  what = "law"; name = marked(error, "")
  if (sub(/\/(Answers|Invariants)\.antt$/, "", file)) {
    what = "fn"; name = file
    gsub(/\+/, "", name); gsub(/\//, "::", name)
  }
  gsub(/is not in scope here, so what is shown/, "", error) # a remark on a type as it is printed
  want = kind(marked(error, "expected type ")); have = kind(marked(error, "but this has type "))
  if (match(error, /[0-9]+ declarations? that depends? on `[^`]*`, which was (not admitted|rejected), (was|were) not checked: /)) {
    on = marked(error, " on "); who = substr(error, RSTART + RLENGTH)
    sub(/\n.*/, "", who); gsub(/ \(via [^()]*\)/, "", who); gsub(/ and /, ", ", who)
    if (what == "fn") print "waits", "fn:" name, on
    else { n = split(who, those, /, */); for (i = 1; i <= n; i++) print "waits", "law:" those[i], on }
  }
  else if (error ~ /has no field|not in scope|has no `|can be named from here|cannot find/ || want != "" && have != "" && want != have) print "misfit", what, name
  else print what, name
  error = ""
}
/^  / { if (error != "") error = error "\n" $0; next }
{ judged() }
/^\.\/proofs\/[^ ]*\.antt:[0-9]+:[0-9]+: error: / {
  file = substr($0, length("./proofs/") + 1)
  error = file
  sub(/:.*/, "", file); sub(/^[^ ]* error: /, "", error)
}
/^fn [^ ]*: (no proof|not proved).*`search` did not prove/ {
  name = $2
  sub(/^[^:]*::/, "", name); sub(/:$/, "", name)
  print "fn", name
}
END { judged() }
EOF

# Whether a function's proof waits for a law, itself or through other laws.
waits_for() { # FUNCTION LAW
  awk -v name="fn:$1" -v law="$2" '
    $1 == "waits" { on[$2] = on[$2] " " $3 }
    END {
      last = split(on[name], queue, " ")
      for (i = 1; i <= last; i++) {
        if (queue[i] == law) exit 0
        if (seen[queue[i]]++) continue
        more = split(on["law:" queue[i]], next_ones, " ")
        for (j = 1; j <= more; j++) queue[++last] = next_ones[j]
      }
      exit 1
    }' "$room/said"
}

said() { grep -q -F -x "$1" "$room/said"; }

# Whether 'fn F' or 'law L' is refused at a need of its own.
refused() {
  if said "misfit $1"; then
    complain "$one: the proof of ${1#* } no longer fits the code"
  elif said "$1"; then
    return 0
  else
    complain "$one: ${1#* } has no error at a need of its own"
  fi
  return 1
}

: > "$room/refused"
edits=0
for edit in crates/*/must-fail/*.edit; do
  crate=${edit#crates/}
  crate=${crate%%/*}
  if [ $# -gt 0 ]; then case " $* " in *" $crate "*) ;; *) continue ;; esac; fi
  one=$crate/$(basename "$edit" .edit)
  edits=$((edits + 1))
  sed -n '/^file:/q; s/^# refuses: *//p' "$edit" | tr ',' '\n' | sed 's/^ *//; s/ *$//; /^$/d' > "$room/named"
  [ -s "$room/named" ] || complain "$one: its head has no line '# refuses: ...'"
  if [ ! -f "target/must-fail/$one/.log" ]; then
    complain "$one: no log in target/must-fail: python3 tools/try_edits.py"
    continue
  fi
  awk -f "$room/read.awk" "target/must-fail/$one/.log" | sort -u > "$room/said"
  while IFS= read -r name; do
    case $name in
    'law '*)
      refused "$name" || true
      ;;
    *' by '*)
      law=${name#* by } name=${name%% by *}
      if ! waits_for "$name" "$law"; then
        complain "$one: the proof of $name does not wait for $law"
      elif refused "law $law"; then
        echo "$crate::$name" >> "$room/refused"
      fi
      ;;
    *)
      if refused "fn $name"; then echo "$crate::$name" >> "$room/refused"; fi
      ;;
    esac
  done < "$room/named"
done

sort -u "$room/refused" > "$room/shown"
sed -n '/^## Exceptions/,$p' docs/CONTRACTS.md | grep -o '`[a-z_0-9]*::[A-Za-z_0-9:]*`' | tr -d '`' | sort -u > "$room/excepted"
sed -n 's/^| `\([a-z_0-9]*::[A-Za-z_0-9:]*\)` .*/\1/p' docs/CONTRACTS.md | sort -u |
  comm -23 - "$room/excepted" | comm -23 - "$room/shown" > "$room/left"
while IFS= read -r name; do
  if [ $# -gt 0 ]; then case " $* " in *" ${name%%::*} "*) ;; *) continue ;; esac; fi
  complain "no edit of ${name%%::*} refuses ${name#*::}"
done < "$room/left"
[ "$status" -ne 0 ] || echo "check_refused: $edits edits; $(wc -l < "$room/shown" | tr -d ' ') functions are refused where they are lied about"
exit $status
