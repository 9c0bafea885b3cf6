#!/usr/bin/env bash
# The host side: the static library linked into Rust. What the boundary asks and gives; the example host on kept
# streams; and the product held against the reference, call by call and byte by byte, for about
# a minute (SECONDS_OF_LOGS makes it longer).
set -uo pipefail
cd "$(dirname "$0")/.." || exit 1
passed=0
failed=0
log=$(mktemp)
trap 'rm -f "$log"' EXIT

note() { # STATUS WHAT
    if [ "$1" -eq 0 ]; then
        passed=$((passed + 1))
    else
        echo "failed: $2"
        failed=$((failed + 1))
    fi
}

bash host/tools.sh
bash host/library.sh
note $? "host/library.sh"
needed=$(nm -u target/staticlib/libsongpigeon.a | awk '$1 == "U" { print $2 }' | sort -u | paste -sd' ')
[ "$needed" = "memcpy memset" ]
note $? "the library needs '$needed' from outside, and README says memcpy and memset"
bash host/program.sh
note $? "host/program.sh"

host() { # SUBCOMMAND ARGUMENTS: cargo in host/, without a network
    (cd host && cargo "$1" --quiet --offline --release --target-dir ../target/host "${@:2}")
}

host test --workspace --lib --bins --tests > "$log" 2>&1
note $? "cargo test"
tests=$(sed -n 's/^test result: .* \([0-9]*\) passed; .*/\1/p' "$log" | paste -sd+)
grep -E '^(test .* FAILED|error)' "$log"
passed=$((passed + ${tests:-0}))

host build --workspace --examples --bins
note $? "cargo build"

# the example host in Rust; the one in C is tried by tests/install.sh, as a user builds it
example=target/host/release/examples/host
for place in tests/host/*/; do
    want=0
    ! grep -q '^refused' "$place/stdout" || want=1
    "$example" "$(cat "$place/rate")" < "$place/stream" > "$log" 2> /dev/null
    [ $? -eq "$want" ] && cmp -s "$log" "$place/stdout"
    note $? "$example on $place"
done
for rate in 0 -1 x $'\xff' "1 2"; do
    "$example" "$rate" < /dev/null > "$log" 2>&1
    [ $? -eq 2 ] && grep -q '^host: usage: ' "$log"
    note $? "$example with a rate of $rate"
done
"$example" <&- > "$log" 2>&1
[ $? -eq 2 ] && ! grep -q time "$log"
note $? "$example with a closed input"
"$example" < tests/host/slow/stream >&- 2> "$log"
[ $? -eq 2 ] && [ -s "$log" ]
note $? "$example with a closed output"
"$example" < /dev/null > /dev/null 2> "$log"
[ $? -eq 0 ] && [ ! -s "$log" ]
note $? "$example from and to /dev/null"
"$example" < tests/host/slow/stream > /dev/full 2> "$log"
[ $? -eq 2 ] && [ -s "$log" ]
note $? "$example on a full disk"

target/host/release/songpigeon-differential --seconds "${SECONDS_OF_LOGS:-45}" --tsevents target/bin/tsevents | tee "$log"
if [[ $(tail -n 1 "$log") =~ ^([0-9]+)\ passed,\ ([0-9]+)\ failed$ ]]; then
    passed=$((passed + BASH_REMATCH[1]))
    failed=$((failed + BASH_REMATCH[2]))
else
    note 1 "the differential tests did not come to their end"
fi

echo "$passed passed, $failed failed"
[ "$failed" -eq 0 ]
