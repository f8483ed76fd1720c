#!/bin/sh
# A release of what stands here: made twice it is the same bytes, and who has it alone, in a cleared environment without the
# proof tool, runs one program of stock and orders from the shell, C, Python and Rust by the lines of its README.txt.
#   tests/release.sh [PREFIX]
# PREFIX is a folder that ./install was given; without it the library is installed anew.
set -eu
cd "$(dirname "$0")/.."
top=$PWD
room=$(mktemp -d)
trap 'rm -rf "$room"' EXIT
version=$(sed -n 's/^## \([0-9.]*\).*/\1/p' CHANGELOG.md | head -n 1)

fail() {
    echo "release: FAILED: $*"
    exit 1
}
for tool in git cc python3 objdump; do
    command -v "$tool" >"$room/out" || { echo "release: left out, since there is no $tool"; exit 0; }
done
git rev-parse HEAD >"$room/out" 2>&1 || { echo "release: left out, since this is no git repository"; exit 0; }
if [ $# != 0 ]; then
    prefix=$(cd "$1" && pwd)
else
    prefix=$room/prefix
    ./install "$prefix" >"$room/out" 2>&1 || { cat "$room/out"; exit 1; }
fi

# What stands here as a commit of its own, so that changes which no commit has are tried too.
export GIT_AUTHOR_DATE=2000-01-01T00:00:00Z GIT_COMMITTER_DATE=2000-01-01T00:00:00Z
commit() { # FOLDER
    git -C "$1" add -A
    git -C "$1" -c user.name=nobody -c user.email=nobody@example.org commit -qm "what stands here"
}
mkdir "$room/sources"
git ls-files -co --exclude-standard -z | tar --null -T - --ignore-failed-read -cf - 2>"$room/err" | tar -C "$room/sources" -xf -
git -C "$room/sources" init -q
commit "$room/sources"
git clone -q "$room/sources" "$room/clone"

make_release() { # SOURCES FOLDER
    "$1/release/make" "$version" "$2" "$prefix" >"$room/out" 2>&1 || { cat "$room/out"; fail "release/make in $1"; }
}
make_release "$room/sources" "$room/release"
make_release "$room/clone" "$room/again"
cmp "$room/release/SHA256SUMS" "$room/again/SHA256SUMS"
(cd "$room/again" && sha256sum -c --quiet SHA256SUMS)
[ -z "$(git -C "$room/clone" status --porcelain)" ] || fail "release/make leaves something in the sources"

refused() { # SOURCES VERSION FOLDER TEXT: nothing is made
    "$1/release/make" "$2" "$3" "$prefix" >"$room/out" 2>&1 && fail "release/make makes $2"
    grep -qF "$4" "$room/out" || { cat "$room/out"; fail "release/make doesn't say '$4'"; }
}
refused "$room/clone" 9.9.9 "$room/none" "9.9.9 is asked for"
refused "$room/clone" "$version" "$room/release" "is there already"
echo changed >>"$room/clone/README.md"
refused "$room/clone" "$version" "$room/none" "no commit has"
[ ! -e "$room/none" ] || fail "a release that was refused left a folder"

# Where the owner has chosen a licence, it is in each archive.
git -C "$room/clone" checkout -q README.md
echo "The owner's licence." >"$room/clone/LICENSE"
commit "$room/clone"
make_release "$room/clone" "$room/licensed"
grep -q "No licence has been chosen" "$room/release/README.txt" || fail "README.txt says nothing of the licence"
if grep -q "No licence has been chosen" "$room/licensed/README.txt"; then
    fail "README.txt says that there is no licence"
fi
for archive in "$room"/licensed/*.tar.gz "$room"/licensed/*.crate; do
    tar tzf "$archive" >"$room/out"
    grep -q '/LICENSE$' "$room/out" || fail "no licence in $archive"
done
python3 -m zipfile -l "$room"/licensed/*.whl >"$room/out"
grep -q '/licenses/LICENSE' "$room/out" || fail "no licence in the wheel"
echo "release: made, twice the same, refused where it has to be"

# The sources are those of the commit.
tar -C "$room" -xzf "$room/release/recfile-$version.tar.gz"
diff -r --exclude=.git "$room/sources" "$room/recfile-$version"

# The lines of README.txt, each part in a folder of its own with nothing else in the environment.
path=/usr/bin:/bin
if command -v rustc >"$room/out" && ! env -i PATH=$path sh -c 'command -v cargo' >"$room/out"; then
    path=$path:$(rustc --print sysroot)/bin
fi
part() { # HEADLINE: its indented lines
    awk -v headline="$1" '/^[^ ]/ { is_it = index($0, headline) == 1 } is_it && /^    / { print substr($0, 5) }' \
        "$room/release/README.txt"
}
run_part() { # HEADLINE TOOL..: the program's lines, as far as these tools are there
    headline=$1
    shift
    for tool in "$@"; do
        env -i PATH="$path" sh -c "command -v $tool" >"$room/out" || {
            echo "release: $headline left out, since there is no $tool"
            return
        }
    done
    mkdir "$room/home"
    cp -r "$room/release" "$room/home/release"
    { echo "if command -v rt; then exit 1; fi"; part "The program and the library"; part "$headline"; } >"$room/home/lines"
    (cd "$room/home/release" && env -i HOME="$room/home" PATH="$path" sh -eu ../lines) >"$room/out" 2>"$room/err" || {
        cat "$room/home/lines" "$room/out" "$room/err"
        fail "the lines of README.txt: $headline"
    }
    diff "$top/examples/stock.out" "$room/out"
    rm -rf "$room/home"
    echo "release: $headline ok"
}
run_part "From the shell" mkfifo
run_part "From C" cc pkg-config
run_part "From Python" python3
run_part "From Rust" cargo cc

# The Debian packages, unpacked over one another.
if command -v dpkg-deb >"$room/out"; then
    root=$room/root
    for package in "$room"/release/*.deb; do
        dpkg-deb -x "$package" "$root"
    done
    library=$root/usr/lib/$(cc -print-multiarch)
    "$root/usr/bin/recfile" --version >"$room/out"
    cc -o "$room/stock" examples/c/stock.c -I"$root/usr/include" -L"$library" -lrecfile
    LD_LIBRARY_PATH=$library "$room/stock" "$room/stock.rec" | diff examples/stock.out -
    [ "$(PKG_CONFIG_PATH=$library/pkgconfig pkg-config --variable=prefix recfile)" = /usr ]
    echo "release: Debian packages ok"
fi
echo "release: ok"
