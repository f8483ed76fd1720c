#!/bin/sh
# The version stands in the header with two numbers, and in CHANGELOG.md and the packages with a third, that of a mend: every
# place says the same. And the crate has the header's numbers of statuses.
#   tests/versions.sh [VERSION]   and it is this one
set -eu
cd "$(dirname "$0")/.."

number() { # NAME: a number of the header's version
    sed -n "s/^#define RECFILE_VERSION_$1 //p" include/recfile.h
}
major=$(number MAJOR)
minor=$(number MINOR)
version=$(sed -n 's/^## \([0-9.]*\).*/\1/p' CHANGELOG.md | head -n 1)

says() { # FILE TEXT: the file has this text
    grep -qF -- "$2" "$1" || { echo "versions: $1 doesn't say '$2'" >&2; exit 1; }
}
case $version in
"$major.$minor".[0-9]*) ;;
*) echo "versions: CHANGELOG.md begins with '$version', and the header says $major.$minor" >&2; exit 1 ;;
esac
if [ "${1:-$version}" != "$version" ]; then
    echo "versions: $1 is asked for, and CHANGELOG.md begins with $version" >&2
    exit 1
fi
says crates/recfile_c/src/version.rt "const MAJOR: u32 = $major;"
says crates/recfile_c/src/version.rt "const MINOR: u32 = $minor;"
says crates/recfile/src/words.rt "const VERSION: &str = \"$major.$minor\";"
says tests/program.py "recfile $major.$minor\\n"
says examples/c/recfile.map "RECFILE_$major {"
says python/src/recfile/__init__.py "__version__ = \"$version\""
says rust/recfile/Cargo.toml "version = \"$version\""
says rust/recfile/Cargo.lock "version = \"$version\""
says rust/recfile/build.rs "const MAJOR: &str = \"$major\";"
says rust/recfile/src/sys.rs "pub const VERSION_MAJOR: u32 = $major;"
says rust/recfile/README.md "recfile-$version"

statuses=$(sed -n 's/^pub const \([A-Z_]*\): i32 = \([0-9]*\);/\1 = \2/p' rust/recfile/src/sys.rs)
[ -n "$statuses" ]
echo "$statuses" | while read -r status; do
    grep -qE "RECFILE_$status\b" include/recfile.h include/recfile_file.h || {
        echo "versions: rust/recfile/src/sys.rs has $status, and no header" >&2
        exit 1
    }
done
echo "versions: $version everywhere"
