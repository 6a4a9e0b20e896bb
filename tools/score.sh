#!/bin/sh
# A score from its text: sh tools/score.sh scores/NAME.txt > scores/NAME
#
#   CLOCK write ADDRESS VALUE       CLOCK levels
#   CLOCK read ADDRESS              CLOCK watch
#                                   CLOCK end
#   CLOCK note VOICE NAME CONTROL   three writes, one to a clock: the low byte of a note's frequency, as A4 or C#3, on
#                                   CLOCK, the high byte on the next, and the voice's control with its gate on the third
#
# A field a line, CLOCK decimal, ADDRESS, VALUE and CONTROL in hex; `#` after a space or at a line's start begins a
# comment. A clock has one write or read: after a note the next one stands on CLOCK + 3 or later, and levels, a watch or
# an end on CLOCK + 2 or later. The program `write` makes the bytes; what it refuses is told on standard error. Needs
# the Rattle toolchain, sh, awk.
set -eu
export LC_ALL=C
[ $# -eq 1 ] || { echo "usage: sh tools/score.sh TEXT > SCORE" >&2; exit 2; }
text=$1
root=$(dirname "$0")/..
[ -x "$root/target/bin/write" ] || sh "$root/tools/programs.sh" write >&2

# what `write` takes: a field a line, all decimal
fields=$(awk '
  function fail(why) { print FILENAME ":" FNR ": " why > "/dev/stderr"; failed = 1; exit 1 }
  function field(kind, stamp, operands) {
    if (stamp > 4294967295) fail("beyond a clock of four bytes: " $1)
    printf "%s %.0f%s\n", kind, stamp, operands
  }
  function hex(text,    i, d, n) {
    if (text == "" || length(text) > 2) fail("not two hex digits: " text)
    for (i = 1; i <= length(text); i++) {
      d = index("0123456789abcdef", tolower(substr(text, i, 1)))
      if (d == 0) fail("not two hex digits: " text)
      n = n * 16 + d - 1
    }
    return n
  }
  function write(stamp, address, value) { field("write", stamp, " " address " " value) }
  # the sixth octave, A4 at 440 Hz, in units of 985248 / 2^24 Hz; each octave below is half of it
  function frequency(name,    letters, octave) {
    letters = substr(name, 1, length(name) - 1)
    octave = substr(name, length(name), 1)
    if (!(letters in sixth) || octave !~ /^[0-6]$/) fail("not a note: " name)
    return int(sixth[letters] / 2 ^ (6 - octave))
  }
  function words(n) { if (NF != n) fail("expected " n " words") }
  BEGIN {
    split("C C# D D# E F F# G G# A A# B", names, " ")
    split("17820 18880 20003 21192 22452 23787 25202 26700 28288 29970 31752 33640", units, " ")
    for (i = 1; i <= 12; i++) sixth[names[i]] = units[i]
  }
  { sub(/(^|[ \t])#.*/, "") }
  NF == 0 { next }
  $1 !~ /^[0-9]+$/ { fail("not a clock: " $1) }
  $2 == "write" { words(4); write($1, hex($3), hex($4)); next }
  $2 == "read" { words(3); field("read", $1, " " hex($3)); next }
  $2 == "levels" || $2 == "watch" || $2 == "end" { words(2); field($2, $1, ""); next }
  $2 == "note" {
    words(5)
    if ($3 !~ /^[0-2]$/) fail("not a voice: " $3)
    f = frequency($4)
    write($1, 7 * $3, f % 256)
    write($1 + 1, 7 * $3 + 1, int(f / 256))
    write($1 + 2, 7 * $3 + 4, hex($5))
    next
  }
  { fail("not a field: " $2) }
  END { exit failed }
' "$text")
[ -n "$fields" ] || exit 0
made=$(mktemp)
trap 'rm -f "$made"' EXIT
printf '%s\n' "$fields" | sh "$root/tools/run.sh" "$root/target/bin/write" > "$made"
# a score begins with a tag, which is no letter
case $(dd if="$made" bs=1 count=1 2> /dev/null) in
r | l)
  echo "$text: $(cat "$made")" >&2
  exit 1
  ;;
esac
cat "$made"
