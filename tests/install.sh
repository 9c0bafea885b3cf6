#!/usr/bin/env bash
# What install.sh installs, in a prefix of its own: hosts in C are built through pkg-config, the program runs
# from there, the manual page is without warnings, and the README's recipe for a recording works.
set -uo pipefail
cd "$(dirname "$0")/.." || exit 1
passed=0
failed=0
note() { # STATUS WHAT
    if [ "$1" -eq 0 ]; then
        passed=$((passed + 1))
    else
        echo "failed: $2"
        failed=$((failed + 1))
    fi
}

bash host/tools.sh gcc g++ pkg-config man
work=$(mktemp -d)
trap 'rm -rf "$work"' EXIT
prefix=$work/prefix

bash install.sh "$prefix" > "$work/log" 2>&1
note $? "install.sh: $(tail -n 3 "$work/log")"
for file in bin/tsevents libexec/songpigeon/tsevents lib/libsongpigeon.a lib/pkgconfig/songpigeon.pc include/songpigeon.h \
    share/man/man1/tsevents.1 share/doc/songpigeon/EVENTS.md; do
    [ -f "$prefix/$file" ]
    note $? "$file is not there"
done
for wrong in "one two" "--help" "''" "'$work/a b'" "'$work/a\"b'"; do
    bash -c "bash install.sh $wrong" > "$work/out" 2> "$work/err"
    [ $? -eq 2 ] && [ ! -s "$work/out" ] && grep -q '^usage: \|^install.sh: ' "$work/err"
    note $? "install.sh $wrong"
done

# below DESTDIR, and the files name the prefix
(here=$PWD && cd "$work" && DESTDIR=staged bash "$here/install.sh" /opt/songpigeon > "$work/log" 2>&1)
note $? "install.sh with DESTDIR"
grep -qx 'prefix=/opt/songpigeon' "$work/staged/opt/songpigeon/lib/pkgconfig/songpigeon.pc"
note $? "songpigeon.pc with DESTDIR"
grep -q '/opt/songpigeon/libexec/songpigeon/tsevents' "$work/staged/opt/songpigeon/bin/tsevents"
note $? "bin/tsevents with DESTDIR"

# hosts in C, built through pkg-config; the header in C++
export PKG_CONFIG_PATH=$prefix/lib/pkgconfig
[ "$(pkg-config --modversion songpigeon)" = "$(sed -n 's/^version = "\(.*\)"/\1/p' host/songpigeon/Cargo.toml)" ]
note $? "the version of songpigeon.pc"
read -ra flags <<< "$(pkg-config --cflags --libs songpigeon)"
strict=(-std=c99 -Wall -Wextra -Wpedantic -Werror -O2)
cp host/example.c host/boundary.c "$work"
gcc "${strict[@]}" -o "$work/example" "$work/example.c" "${flags[@]}"
note $? "example.c through pkg-config"
gcc "${strict[@]}" -o "$work/boundary" "$work/boundary.c" "${flags[@]}" -lpthread
note $? "boundary.c through pkg-config"
g++ -x c++ -std=c++11 -Wall -Wextra -Wpedantic -Werror -fsyntax-only "$prefix/include/songpigeon.h"
note $? "songpigeon.h in C++"
for place in tests/host/*/; do
    want=0
    ! grep -q '^refused' "$place/stdout" || want=1
    "$work/example" "$(cat "$place/rate")" < "$place/stream" > "$work/out"
    [ $? -eq "$want" ] && cmp -s "$work/out" "$place/stdout"
    note $? "example.c on $place"
done
for rate in 0 -18446744073709551615 x "" 99999999999999999999; do
    "$work/example" "$rate" < /dev/null > "$work/out" 2> "$work/err"
    [ $? -eq 2 ] && [ ! -s "$work/out" ] && grep -q '^usage: ' "$work/err"
    note $? "example.c with a rate of $rate"
done
"$work/example" < tests/host/slow/stream > /dev/full 2> "$work/err"
[ $? -eq 2 ] && grep -q '^writing failed' "$work/err"
note $? "example.c on a full disk"
"$work/example" < / > "$work/out" 2> "$work/err"
[ $? -eq 2 ] && grep -q '^reading failed' "$work/err"
note $? "example.c on a directory"
"$work/boundary" > "$work/log"
if [[ $(tail -n 1 "$work/log") =~ ^([0-9]+)\ passed,\ ([0-9]+)\ failed$ ]]; then
    passed=$((passed + BASH_REMATCH[1]))
    failed=$((failed + BASH_REMATCH[2]))
    cat "$work/log"
else
    note 1 "boundary.c did not come to its end"
fi

# the library has no memory of its own: nothing that can be written stands in it
nm --defined-only "$prefix/lib/libsongpigeon.a" > "$work/symbols"
grep -q ' T songpigeon_packet$' "$work/symbols" && ! awk 'NF == 3 { print $2 }' "$work/symbols" | grep -q '[bBdDcCsSgG]'
note $? "the library holds memory that can be written"

# the program from there
PATH=$prefix/bin:$PATH tsevents < tests/tsevents/readme/stdin > "$work/out" 2> "$work/err"
[ $? -eq 0 ] && cmp -s "$work/out" tests/tsevents/readme/stdout && [ ! -s "$work/err" ]
note $? "the installed tsevents on the README's log"
PATH=$prefix/bin:$PATH tsevents --help > "$work/out" 2> "$work/err"
[ $? -eq 2 ] && [ ! -s "$work/out" ] && grep -q '^usage: tsevents' "$work/err"
note $? "the installed tsevents --help"

# the README's recipe for a recording, as it stands there, and at another rate
recipe=$(sed -n "s/^    \({ printf .* | tsevents\)$/\1/p" README.md)
[ "$(wc -l <<< "$recipe")" -eq 1 ] && [ -n "$recipe" ]
note $? "README has one recipe for a .ts file"
for place in damaged slow healthy empty; do
    at=$(cat "tests/host/$place/rate")
    cp "tests/host/$place/stream" "$work/in.ts"
    line=$recipe
    [ "$at" = 38000000 ] || line=${recipe/38e6/$at}
    (cd "$work" && PATH=$prefix/bin:$PATH bash -c "$line") | cmp -s - "tests/host/$place/stdout"
    note $? "README's recipe on tests/host/$place"
done
for wrong in no-such-file /; do
    rm -f "$work/in.ts"
    [ "$wrong" != / ] || ln -s / "$work/in.ts"
    (cd "$work" && PATH=$prefix/bin:$PATH bash -c "$recipe") > "$work/out" 2> /dev/null
    [ $? -eq 1 ] && [ "$(tail -n 1 "$work/out")" = "$(printf 'line\t2\trefused\t8')" ]
    note $? "README's recipe on a recording that cannot be read"
done

# the manual page: no warning, and the same recipe
LC_ALL=C.UTF-8 MANWIDTH=200 man --warnings -E UTF-8 -l docs/tsevents.1 > "$work/page" 2> "$work/err"
[ $? -eq 0 ] && [ ! -s "$work/err" ]
note $? "man -l docs/tsevents.1: $(cat "$work/err")"
grep -qF "Songpigeon $(pkg-config --modversion songpigeon)" docs/tsevents.1
note $? "the version in the manual page"
tr -d ' \n' < "$work/page" | grep -qF -- "$(tr -d ' \n' <<< "$recipe")"
note $? "the manual page has README's recipe"

echo "$passed passed, $failed failed"
[ "$failed" -eq 0 ]
