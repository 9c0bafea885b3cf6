#!/usr/bin/env bash
# The documents keep up with the code: each public function has its row in docs/PROMISES.md, each crate its row in
# docs/ARCHITECTURE.md; each row of the table of rules names its file and what is defined there; every name in docs/DECISIONS.md and
# docs/PROMISES.md is that of something; docs/TRAINING.md has the lines that it quotes where it says; and each file of definitions has
# a glossary with every public name and no other, none of two meanings. What C links promises word for word what crate songpigeon does.
set -uo pipefail
cd "$(dirname "$0")/.." || exit 1
passed=0
failed=0
check() { # STATUS WHAT
    if [ "$1" -eq 0 ]; then
        passed=$((passed + 1))
    else
        echo "$2"
        failed=$((failed + 1))
    fi
}
want() { # FILE TEXT
    grep -qF -- "\`$2\`" "$1"
    check $? "$1 does not name \`$2\`"
}
for crate in $(sed -n 's/^\([a-z0-9_]*\)[ :].*/\1/p' crates.txt); do
    want docs/ARCHITECTURE.md "$crate"
    [ -f crates/"$crate"/src/lib.rt ] || continue # a program has no callers
    for name in $(sed -n 's/^ *pub \(extern "C" \)\{0,1\}fn \([a-z0-9_]*\).*/\2/p' crates/"$crate"/src/*.rt); do
        want docs/PROMISES.md "$crate::$name"
    done
done

# every path under crates/, tests/, host/, docs/ or planted/ that a document names; crates/ may be left out before a crate's folder
for path in $({
    grep -ohE '`(crates|tests|host|docs|planted)/[a-z][A-Za-z0-9_./{},-]*`' README.md docs/*.md
    grep -ohE '`[a-z_]+/(specs|src|proofs|must-fail)/[A-Za-z0-9_./]*`' README.md docs/*.md | sed 's|`|`crates/|'
} | tr -d '\140' | sort -u); do
    for one in $(eval "echo $path"); do # braces: several files of a folder
        [ -e "$one" ]
        check $? "a document names $one, which is not there"
    done
done

# the table of rules: a file under crates/, and what is defined there
rows=0
while IFS='|' read -r _ _ rule where _; do
    rows=$((rows + 1))
    file=''
    for name in $(grep -oE '`[^`]+`' <<< "$where" | tr -d '\140' | tr ' ' '\t'); do
        case $name in
            */*)
                file=crates/$name
                [ -e "$file" ]
                check $? "docs/ARCHITECTURE.md,$rule: no file $file"
                ;;
            *)
                grep -rqE "^ *((abbrev|unfoldable) )?(pub )?((record|data) )?$name( |\$)" "${file:-/dev/null}"
                check $? "docs/ARCHITECTURE.md,$rule: $name is not defined in ${file:-no file}"
                ;;
        esac
    done
    [ -n "$file" ]
    check $? "docs/ARCHITECTURE.md,$rule: no file is named"
done < <(sed -n '/^| Paper | Rule | Definition |/,/^$/p' docs/ARCHITECTURE.md | grep '^|' | tail -n +3)
[ "$rows" -gt 40 ]
check $? "docs/ARCHITECTURE.md: its table of rules was not read"

# every name in the two lists of promises and decisions: a definition, a function, a theorem, a fact, an edit, a kept log, a line of
# vectors, a test
words=$(mktemp)
trap 'rm -f "$words"' EXIT
{
    find crates tests host planted -name out -prune -o \( -type f -o -type d \) -printf '%f\n' | sed 's/\.[a-z]*$//'
    find crates host tests -name out -prune -o \( -name '*.antt' -o -name '*.rt' -o -name '*.rs' -o -name '*.[ch]' -o -name '*.sh' -o -name stdout \) -print |
        xargs grep -ohE "[A-Za-z0-9_.'-]+"
} | sort -u > "$words"
named=$({
    cat docs/DECISIONS.md docs/PROMISES.md | grep -oE '`[^`/ ]+`'
    grep -oE '`([a-z]+::)?[a-z][A-Za-z0-9_-]{3,}`' docs/TRAINING.md
} | tr -d '\140' | sed 's/.*:://; s/\.antt$//' | sort -u)
for name in $named; do
    grep -qxF -- "$name" "$words"
    check $? "docs/DECISIONS.md, docs/PROMISES.md or docs/TRAINING.md names $name, which is not there"
done
[ "$(wc -w <<< "$named")" -gt 300 ]
check $? "docs/DECISIONS.md and docs/PROMISES.md: what they name was not read"

# an export for C has the parameters and the clauses of the function of crate songpigeon that has its name
heads() { # FILE..: each public function up to its body, on one line
    sed 's/^pub extern "C" fn /pub fn /' "$@" | awk '
        /^pub fn songpigeon_/ { head = "" ; inside = 1 }
        inside && /^{$/ { print head; inside = 0 }
        inside { gsub(/^ +/, ""); head = head " " $0 }' | sed 's/( /(/g; s/, )/)/g' | sort
}
exports=$(heads crates/songpigeon_c/src/lib.rt)
differ=$(diff <(heads crates/songpigeon/src/*.rt) <(echo "$exports"))
check $? "crates songpigeon and songpigeon_c promise different things: $differ"
[ "$(wc -l <<< "$exports")" -eq "$(grep -c '^#\[unsafe(no_mangle)\]$' crates/songpigeon_c/src/lib.rt)" ]
check $? "crates/songpigeon_c/src/lib.rt: its exports were not read"

# what a reader must believe cites nothing that passes between functions only
for file in crates/*/specs/*.antt; do
    ! grep -q 'specs\.inner\.' "$file"
    check $? "$file cites specs/inner"
done

# step 4 sentence by sentence, with its worked table; the quotation is the paper's, by its checksum
[ "$(sed -n 's/^> //p' docs/TRAINING.md | paste -sd ' ' | tr -d '\n' | cksum)" = '264896380 835' ]
check $? "docs/TRAINING.md: its quotation is not step 4 of document 01"
for point in $(grep -oE '\bK[0-9]+' docs/TRAINING.md | sort -u); do
    grep -q "^\*\*$point[. ]" docs/DECISIONS.md
    check $? "docs/TRAINING.md names $point, which docs/DECISIONS.md has not"
done
training=$(awk -f tests/training.awk docs/TRAINING.md)
read -r asked faults <<< "$(tail -n 1 <<< "$training")"
head -n -1 <<< "$training"
passed=$((passed + asked - faults))
failed=$((failed + faults))
[ "$asked" -gt 300 ]
check $? "docs/TRAINING.md: its tables were not read"

# glossaries
glossary=$(find crates -path '*/specs/*.antt' ! -path '*/out/*' ! -name Lib.antt ! -name inner.antt | sort | xargs awk -f tests/glossary.awk)
read -r names faults <<< "$(tail -n 1 <<< "$glossary")"
head -n -1 <<< "$glossary"
passed=$((passed + names - faults))
failed=$((failed + faults))
echo "$passed passed, $failed failed"
[ "$failed" -eq 0 ]
