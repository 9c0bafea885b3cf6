#!/usr/bin/env bash
# The kept lines of refusal_vectors and packet_vectors, which the gate holds the product to, are those that the
# reference works out.
set -uo pipefail
cd "$(dirname "$0")/.." || exit 1
passed=0
failed=0

bash host/tools.sh cargo rustc
(cd host && cargo build --quiet --offline --release --target-dir ../target/host -p songpigeon-vectors)

for program in refusal_vectors packet_vectors; do
    if target/host/release/songpigeon-vectors "$program" | cmp - "crates/$program/stdout"; then
        passed=$((passed + 1))
    else
        echo "failed: $program"
        failed=$((failed + 1))
    fi
done

echo "$passed passed, $failed failed"
[ "$failed" -eq 0 ]
