#!/usr/bin/env bash
# Every file of code, definitions and proofs is in the formatter's layout, and the folders of crates/ are those that crates.txt lists.
set -uo pipefail
cd "$(dirname "$0")/.." || exit 1
passed=0
failed=0
check() { # STATUS WHAT
    if [ "$1" -eq 0 ]; then
        passed=$((passed + 1))
    else
        echo "$2"
        failed=$((failed + 1))
    fi
}
work=$(mktemp -d)
trap 'rm -rf "$work"' EXIT

listed=$(sed -n 's/^\([a-z0-9_]*\)[ :].*/\1/p' crates.txt | sort)
there=$(find crates -mindepth 1 -maxdepth 1 -printf '%f\n' | sort)
differ=$(diff <(echo "$listed") <(echo "$there"))
check $? "crates.txt and the folders of crates/ differ: $differ"

tar -cf - --exclude='crates/*/out' crates crates.txt | tar -xf - -C "$work"
for crate in $there; do
    differ=$(cd "$work/crates/$crate" && rt fmt && cd "$OLDPWD" && diff -r -q -x out "crates/$crate" "$work/crates/$crate")
    check $? "not in the formatter's layout: $differ"
done
echo "$passed passed, $failed failed"
[ "$failed" -eq 0 ]
