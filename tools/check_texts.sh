#!/bin/sh
# The programs `fields`, `write` and `forecast` in target/bin: a bundled score is what its text makes, and the same again
# from the text of its fields; what is refused, and a line that is no field, is told alone, for what comes first in the
# text; a forecast comes nearer with each clock, and gives way to a hold.
set -eu
cd "$(dirname "$0")/.."
status=0
run() {
  program=$1
  shift
  sh tools/run.sh "target/bin/$program" "$@"
}
# a name, what was said, what is due
said() {
  [ "$2" = "$3" ] || { echo "check_texts: $1: '$2', not '$3'"; status=1; }
}

for score in scores/first_light scores/fading; do
  sh tools/score.sh $score.txt | cmp - $score || status=1
  run fields < $score | run write | cmp - $score || status=1
done
said 'a score cut' "$(dd if=crates/replay/stdin bs=38 count=1 2> /dev/null | run fields)" 'refused 12 at 38'
said 'no score' "$(run fields < /dev/null)" 'refused 11 at 0'
said 'after the end' "$(printf 'end 0\nend 0' | run write)" 'refused 10 at 7'
said 'a stamp used' "$(printf 'levels 0\nwrite 0 0 1\nread 0 0\nend\n' | run write)" 'refused 14 at 16'
said 'a watch between' "$(printf 'write 0 0 1\nwatch 0\nread 0 0\nend 0\n' | run write)" 'refused 14 at 16'
said 'a byte short' "$(printf 'read 5 27\nend 5\n' | run write 14)" 'refused 13 at 8'
said 'a leading zero' "$(printf 'levels 0\nend 00\nend 0\nend 0\n' | run write)" 'line 2 is no field'
said 'no number' "$(printf 'end 0\n' | run write all 2>&1)" 'usage: write [SIZE] < TEXT'
# a fresh voice is held from clock 6043 on; on 6042 its last step is under way
after() {
  printf 'end %s\n' "$1" | run write | run forecast | tail -n 1
}
said 'a fresh chip' "$(after 0)" '2 6043'
said 'six clocks before' "$(after 6037)" '2 6'
said 'a clock before' "$(after 6042)" '2 unsettled'
said 'on the clock' "$(after 6043)" '2 held'
said 'no forecast' "$(run forecast < /dev/null)" 'refused 11 at 0'
exit $status
