#!/usr/bin/env bash
# Proves the program and writes target/bin/tsevents, unless the one that is there was written by this toolchain from
# these crates. With --proved it takes the one that `rt ci` has just proved and built.
set -euo pipefail
cd "$(dirname "$0")/.."
program=target/bin/tsevents
kit=target/bin/kit
newer() { # FILE: a crate's file or crates.txt is newer than it
    [ -n "$(find crates.txt crates/*/{src,specs,proofs} -newer "$1" -print -quit 2> /dev/null)" ]
}
built=crates/tsevents/out/tsevents
if [ "${1-}" != --proved ] || [ ! -x "$built" ] || newer "$built"; then
    if [ -x "$program" ] && [ "$(cat "$kit" 2> /dev/null)" = "$(rt version)" ] &&
        ! newer "$program"; then
        exit 0
    fi
    # rt builds a program only to run it: here on an empty log
    rm -f "$program" "$kit"
    (cd crates/tsevents && rt run < /dev/null > /dev/null)
fi
install -D -m 755 "$built" "$program"
rt version > "$kit"
