#!/bin/sh
# What ./install puts into a folder: the program, its man pages and its completion, which name what the program, docs/FORMAT.md
# and the headers do, and the library, by which the example is built with pkg-config's words alone, over the shared library and
# over the static one. By DESTDIR and LIBDIR it puts the same elsewhere.
set -eu
cd "$(dirname "$0")/.."
room=$(mktemp -d)
trap 'rm -rf "$room"' EXIT
home=$room/home
if ./install >"$room/out" 2>&1; then
    echo "install: no folder is asked for"
    exit 1
fi
./install "$home" >"$room/out" 2>&1 || { cat "$room/out"; exit 1; }

[ "$("$home/bin/recfile" --version)" = "recfile $(sed -n 's/^Version: //p' "$home/lib/pkgconfig/recfile.pc")" ]
printf 'begin\nput 1 a =x\n' | "$home/bin/recfile" >"$room/replies"
printf 'ok 1\nok none\n' | cmp - "$room/replies"
named_in() { # FILE WORD..: each word stands in it, as a whole word
    file=$1
    shift
    for word in "$@"; do
        grep -qE -e "(^|[^[:alnum:]_-])$word([^[:alnum:]_-]|\$)" "$file" || { echo "install: no $word in $file"; exit 1; }
    done
}
# The names in the first column of a table of FORMAT.md, from a headline to the next.
names_below() {
    sed -n "/^##* $1\$/,/^##* /s/^| \(\`[^|]*\) |.*/\1/p" docs/FORMAT.md | grep -o '`[A-Z][A-Za-z0-9]*' | tr -d '`' | sort -u
}
manual=$home/share/man
for word in create run shell check copy explain show rescue dump load memory --records --log --begins --strict --durable --tsv --csv --json --svg; do
    grep -q -e "^.B $word" "$manual/man1/recfile.1" || { echo "install: no $word in the man page"; exit 1; }
done
for part in "Lines that can't be read" Refusals "Faults and statuses"; do
    [ -n "$(names_below "$part")" ]
    named_in "$manual/man1/recfile.1" $(names_below "$part")
done
named_in "$manual/man1/recfile.1" begin put del get claim save release back resume abort commit list from upto committed keys log
named_in "$manual/man3/recfile.3" $(grep -ohE '\brecfile_[a-z_]+\(' include/*.h | tr -d '(' | sort -u) \
    $(grep -ohE '^ *RECFILE_[A-Z_]+ = |\{ RECFILE_BAD_JOURNAL' include/*.h | grep -oE 'RECFILE_[A-Z_]+' |
        grep -vE '_(SET_PAGES|WRITE|SYNC)$')
cmp docs/FORMAT.md "$home/share/doc/recfile/FORMAT.md"

completion=$home/share/bash-completion/completions/recfile
named_in "$completion" $("$home/bin/recfile" --help | sed -n '/^Commands:/,/^$/s/^  \([a-z]*\) .*/\1/p')
if command -v bash >"$room/out"; then
    for words in "cr=create" "run --l=--log" "create --order 1=1 10 11 12 13 14 15 16" "run he=head.rec" "shell --d=--durable" "help d=dump"; do
        touch "$room/head.rec"
        (cd "$room" && bash -c '. "$0"; COMP_WORDS=(recfile $1); COMP_CWORD=$((${#COMP_WORDS[@]} - 1))
            _recfile; echo "${COMPREPLY[*]}"' "$completion" "${words%%=*}") >"$room/out"
        [ "$(cat "$room/out")" = "${words#*=}" ] || { echo "install: $words: $(cat "$room/out")"; exit 1; }
    done
fi
if command -v man >"$room/out"; then
    for page in "$manual"/man?/*; do
        man -l --warnings -E ascii "$page" 2>&1 >"$room/out" | tee "$room/warnings"
        [ ! -s "$room/warnings" ]
    done
fi

if ! command -v cc >/dev/null || ! command -v pkg-config >/dev/null; then
    echo "install: the library left out, since there is no cc or no pkg-config"
    exit 0
fi
PKG_CONFIG_PATH=$home/lib/pkgconfig
export PKG_CONFIG_PATH
cc -o "$room/shared" examples/c/session.c $(pkg-config --cflags --libs recfile)
LD_LIBRARY_PATH=$home/lib "$room/shared" "$room/shared.rec" >"$room/shared.out"
cc -o "$room/static" examples/c/session.c $(pkg-config --cflags recfile) "$home/lib/librecfile.a"
"$room/static" "$room/static.rec" >"$room/static.out"
for way in shared static; do
    cmp "$room/$way.out" examples/c/session.out
done
cmp "$room/shared.rec" "$room/static.rec"
"$home/bin/recfile" check "$room/shared.rec" >"$room/out"

nm -D --defined-only "$home/lib/librecfile.so" | awk '$2 == "T" { print $3 }' | sort >"$room/seen"
grep -ohE '\brecfile_[a-z_]+\(' "$home"/include/*.h | sed 's/($/@@RECFILE_1/' | sort -u >"$room/named"
cmp "$room/seen" "$room/named"

# The same elsewhere: no path that is written down has DESTDIR.
DESTDIR=$room/stage LIBDIR=/usr/lib/anywhere ./install /usr >"$room/out" 2>&1 || { cat "$room/out"; exit 1; }
stage=$room/stage/usr
(cd "$stage" && find . -type f | sort) >"$room/staged"
(cd "$home" && find . -type f | sed 's,^./lib/,./lib/anywhere/,' | sort) | cmp - "$room/staged"
cmp "$home/lib/librecfile.so.1" "$stage/lib/anywhere/librecfile.so.1"
if grep -rlF "$room" "$stage"; then
    echo "install: a file has the path of DESTDIR"
    exit 1
fi
[ "$(PKG_CONFIG_PATH=$stage/lib/anywhere/pkgconfig pkg-config --variable=libdir recfile)" = /usr/lib/anywhere ]
echo "install: ok"
