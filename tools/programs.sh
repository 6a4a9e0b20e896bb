#!/bin/sh
# Puts programs into target/bin: sh tools/programs.sh [NAME...], all that are built if none is named. One that is named
# is proved and built first, where that has not been done since its last change.
set -eu
cd "$(dirname "$0")/.."
mkdir -p target/bin
for name in "$@"; do
  # built by a run on no input; what it says of an empty input is of no use here
  (cd "crates/$name" && rt run < /dev/null > /dev/null)
done
for main in crates/*/src/main.rt; do
  name=${main#crates/}
  name=${name%%/*}
  [ ! -x "crates/$name/out/$name" ] || cp -p "crates/$name/out/$name" target/bin/
done
