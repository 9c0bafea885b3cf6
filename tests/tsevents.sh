#!/usr/bin/env bash
# The kept logs. Each folder of tests/tsevents has a log (stdin), what the paper gives for it (stdout) and one
# line why; a folder with `cuts` has one log that is cut behind each of its bytes. Each is run by the program
# and by the reference (host/reference). A program that is not there fails every case. What is said on standard
# error is tried elsewhere: tests/failures.sh, and against the reference by the differential tests.
set -uo pipefail
cd "$(dirname "$0")/.." || exit 1
passed=0
failed=0

check() { # PROGRAM CASE EXPECTED BYTES: the log's first BYTES bytes print the file EXPECTED
    if [ -x "$1" ] && head -c "$4" "$2/stdin" | timeout 20 "$1" 2> /dev/null | cmp -s - "$2/$3"; then
        passed=$((passed + 1))
    else
        echo "$(basename "$1"): $(basename "$2"), first $4 bytes: not as in $3 ($(cat "$2/why"))"
        failed=$((failed + 1))
    fi
}

run() { # PROGRAM
    local place first last expected bytes
    [ -x "$1" ] || echo "$1 is not there"
    for place in tests/tsevents/*/; do
        place=${place%/}
        if [ -f "$place/cuts" ]; then
            while read -r first last expected; do
                for ((bytes = first; bytes <= last; bytes++)); do
                    check "$1" "$place" "$expected" "$bytes"
                done
            done < "$place/cuts"
        else
            check "$1" "$place" stdout "$(stat -c %s "$place/stdin")"
        fi
    done
}

bash host/program.sh
run target/bin/tsevents

bash host/tools.sh cargo rustc
(cd host && cargo build --quiet --offline --release -p songpigeon-reference --target-dir ../target/host)
run target/host/release/tsevents_reference

echo "$passed passed, $failed failed"
[ "$failed" -eq 0 ]
