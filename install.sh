#!/usr/bin/env bash
# Installs the program, the library with its header, and the manual page: bash install.sh [PREFIX]
# (/usr/local unless it is given). What is installed is proved first, as far as it is not yet.
#
#   PREFIX/bin/tsevents                  the program, with an exit status
#   PREFIX/libexec/songpigeon/tsevents   the proved program that it runs
#   PREFIX/lib/libsongpigeon.a           the library, found by `pkg-config songpigeon`
#   PREFIX/include/songpigeon.h
#   PREFIX/share/man/man1/tsevents.1
#   PREFIX/share/doc/songpigeon/EVENTS.md
#
# With DESTDIR set, the files are written below it, as packagers want it; what they say of each other stays
# PREFIX.
set -euo pipefail
prefix=${1-/usr/local}
if [ $# -gt 1 ] || [[ $prefix = "" || $prefix = -* ]]; then
    echo "usage: bash install.sh [PREFIX]" >&2
    exit 2
fi
prefix=$(realpath -ms -- "$prefix")
if [[ ! $prefix =~ ^[A-Za-z0-9/._+@~-]+$ ]]; then
    echo "install.sh: pkg-config and its users cannot take a prefix with such characters: $prefix" >&2
    exit 2
fi
to=$prefix
[ -z "${DESTDIR:-}" ] || to=$(realpath -ms -- "$DESTDIR")$prefix
cd "$(dirname "$0")"

bash host/tools.sh gcc
bash host/program.sh
bash host/library.sh

made=$(mktemp -d)
trap 'rm -rf "$made"' EXIT
gcc -std=c99 -Wall -Wextra -O2 "-DSONGPIGEON_PROGRAM=\"$prefix/libexec/songpigeon/tsevents\"" -o "$made/tsevents" host/tsevents.c
version=$(sed -n 's/^#define SONGPIGEON_VERSION_[MP][A-Z]* \([0-9]*\)$/\1/p' host/songpigeon.h | paste -sd.)
cat > "$made/songpigeon.pc" << END
prefix=$prefix
libdir=\${prefix}/lib
includedir=\${prefix}/include

Name: songpigeon
Description: The engine under a probe card for cable head-ends
Version: $version
Libs: -L\${libdir} -lsongpigeon
Cflags: -I\${includedir}
END

install -D -m 755 "$made/tsevents" "$to/bin/tsevents"
install -D -m 755 target/bin/tsevents "$to/libexec/songpigeon/tsevents"
install -D -m 644 target/staticlib/libsongpigeon.a "$to/lib/libsongpigeon.a"
install -D -m 644 "$made/songpigeon.pc" "$to/lib/pkgconfig/songpigeon.pc"
install -D -m 644 host/songpigeon.h "$to/include/songpigeon.h"
install -D -m 644 docs/tsevents.1 "$to/share/man/man1/tsevents.1"
install -D -m 644 docs/EVENTS.md "$to/share/doc/songpigeon/EVENTS.md"
echo "installed under $to"
