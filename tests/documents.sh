#!/bin/sh
# The documents stay short: the README's lines, the words of all of them and of how to prove, a README for each crate; and
# each file, law and script that they name is there.
set -eu
cd "$(dirname "$0")/.."
most() { # WHAT NUMBER LIMIT
    [ "$2" -le "$3" ] || { echo "documents: $1: $2, and at most $3"; exit 1; }
}
most "lines of README.md" "$(wc -l <README.md)" 130
# The bars of tables are no words.
most "words of README.md, docs/ and the crates' pages" "$(cat README.md docs/*.md crates/*/README.md | tr -d "|" | wc -w)" 16000
most "words of docs/PROVING.md" "$(wc -w <docs/PROVING.md)" 4000
for crate in crates/*/; do
    most "lines of ${crate}README.md" "$(wc -l <"${crate}README.md")" 20
done

missing() { # WHAT
    echo "documents: $1 is named, and isn't there"
    exit 1
}
for path in $(cat README.md docs/*.md crates/*/README.md | grep -oE '`(docs|tests|examples|include|bench|c|crates|python|rust|release)/[A-Za-z_./]+`' | tr -d '`' | sort -u); do
    [ -e "$path" ] || missing "$path"
done
for law in $(cat README.md docs/*.md crates/*/README.md | grep -oE '`laws::[a-z_]+`' | tr -d '`' | sed 's/laws:://' | sort -u); do
    grep -rqE "fn $law\b" crates/*/src/laws.rt crates/*/src/*laws*.rt || missing "the law $law"
done
for spec in $(cat docs/*.md | grep -oE '[A-Za-z]+\.antt' | sort -u | grep -v '^Goals\|^NAME'); do
    ls crates/*/specs/"$spec" crates/*/proofs/"$spec" >/dev/null 2>&1 || find crates -name "$spec" -not -path '*/out/*' | grep -q . || missing "$spec"
done
for source in $(cat docs/*.md | grep -oE '[a-z_]+\.rt' | sort -u); do
    find crates -name "$source" -not -path '*/out/*' | grep -q . || missing "$source"
done
echo "documents: ok"
