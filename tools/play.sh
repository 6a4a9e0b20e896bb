#!/bin/sh
# The listing of a score: sh tools/play.sh SCORE. `replay` is proved and built first, where that has not been done since its last change;
# standard error tells how far that is.
set -eu
score=$1
[ -r "$score" ] || { echo "no score can be read at $score" >&2; exit 2; }
case $score in /*) ;; *) score=$(pwd)/$score ;; esac
cd "$(dirname "$0")/.."
log=target/play.log
mkdir -p target

# nothing is told where `replay` was built after the last change
if [ ! -x target/bin/replay ] || [ -n "$(find crates crates.txt -name out -prune -o -type f -newer target/bin/replay -print | head -n 1)" ]; then
  rm -f target/play.failed
  { sh tools/programs.sh replay 2>&1 || : > target/play.failed; } | tee "$log" | sed -n 's/^crate \([^ :]*\).*/proved: \1/p' >&2
  [ ! -e target/play.failed ] || { cat "$log" >&2; exit 1; }
  touch target/bin/replay
fi
exec sh tools/run.sh target/bin/replay < "$score"
