#!/bin/sh
# The numbers of include/recfile.h beside those of the definitions that the library's contracts cite: each status, the
# kinds of steps, the version, and the widths of a key, a record and a page.
set -eu
cd "$(dirname "$0")/.."
room=$(mktemp -d)
trap 'rm -rf "$room"' EXIT
header=include/recfile.h
specs=crates/recfile_c/specs

# Each status by its name in small letters, and its number.
sed -n '/^enum recfile_status_code/,/^};/s/^ *RECFILE_\([A-Z_]*\) = \([0-9]*\).*/\1 \2/p' "$header" | tr 'A-Z' 'a-z' |
    sort >"$room/header"
sed -n '/^-- the statuses/,/^-- /s/^\([a-z_]*\) = \([0-9]*\)$/\1 \2/p' "$specs/Outcomes.antt" | sort >"$room/specs"
[ -s "$room/specs" ]
diff "$room/header" "$room/specs"

number() { # NAME: the number behind a #define, or an enumerator, of the header
    sed -n "s/^#define RECFILE_$1 \([0-9]*\)\$/\1/p; s/^ *RECFILE_$1 = \([0-9]*\)[, ].*/\1/p" "$header"
}
says() { # FILE TEXT NUMBER: the file has this text with this number in the place of @
    text=$(printf '%s' "$2" | sed "s/@/$3/")
    grep -qF -- "$text" "$1" || { echo "header: $1 doesn't say '$text'"; exit 1; }
}
says "$specs/Version.antt" 'major = @' "$(number VERSION_MAJOR)"
says "$specs/Version.antt" 'minor = @' "$(number VERSION_MINOR)"
says "$specs/Shown.antt" 'if s.kind == @ then SetPages' "$(number SET_PAGES)"
says "$specs/Shown.antt" 'if s.kind == @ then Write' "$(number WRITE)"
widths=crates/rec_types/specs/Widths.antt
says "$widths" 'key_width = @' "$(sed -n '/^\/\* A key/,/recfile_key_bytes/s/.*bytes\[\([0-9]*\)\].*/\1/p' "$header")"
says "$widths" 'widest_record = @' "$(sed -n '/^\/\* A record, where/,/recfile_record;/s/.*bytes\[\([0-9]*\)\].*/\1/p' "$header")"
echo "header: its numbers are those of the specs"
