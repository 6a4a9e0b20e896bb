#!/bin/sh
# Runs a program of target/bin: sh tools/run.sh target/bin/NAME [ARGUMENT...]. The toolchain links for x86-64 and the system's C library; elsewhere
# QEMU runs it, where that is installed.
set -eu
emulator=
[ "$(uname -m)" = x86_64 ] || emulator=qemu-x86_64
exec ${emulator:+"$emulator"} "$@"
