#!/usr/bin/env bash
# Proves the library and writes target/staticlib/libsongpigeon.a, unless the one that is there was written by this
# toolchain from these crates.
set -euo pipefail
cd "$(dirname "$0")/.."
library=target/staticlib/libsongpigeon.a
kit=target/staticlib/kit
if [ -f "$library" ] && [ "$(cat "$kit" 2> /dev/null)" = "$(rt version)" ] &&
    [ -z "$(find crates.txt crates/*/{src,specs,proofs} -newer "$library" -print -quit 2> /dev/null)" ]; then
    exit 0
fi
rm -f "$library" "$kit"
(cd crates/songpigeon_c && rt lib)
install -D -m 644 crates/songpigeon_c/out/libsongpigeon_c.a "$library"
rt version > "$kit"
