#!/usr/bin/env bash
# Installs what the host side is built with, from Debian, where it is missing: cargo, rustc and gcc, or only
# those named (a package has the name of its command, but that of man is man-db, and that of tsreport tstools).
# Does nothing where all are there.
set -uo pipefail
[ $# -gt 0 ] || set -- cargo rustc gcc
missing=()
for tool; do
    command -v "$tool" > /dev/null && continue
    case $tool in
        man) missing+=(man-db) ;;
        tsreport) missing+=(tstools) ;;
        *) missing+=("$tool") ;;
    esac
done
[ ${#missing[@]} -eq 0 ] && exit 0
echo "installing ${missing[*]}"
as_root=()
[ "$(id -u)" -eq 0 ] || as_root=(sudo)
"${as_root[@]}" apt-get update -qq
"${as_root[@]}" env DEBIAN_FRONTEND=noninteractive apt-get install -y -qq --no-install-recommends "${missing[@]}" libc6-dev
