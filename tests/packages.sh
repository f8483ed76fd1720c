#!/bin/sh
# The packages, as a user gets them: the wheel of python/ in a clean environment of each Python that is there, the crate of
# rust/recfile by cargo, and the library by pkg-config. Their tests, a fuzz run, and two programs in each language, of stock and
# orders and of pages of a list, which print the same in all. Everything is made in a folder of its own, and without a network.
#   tests/packages.sh [PREFIX]
# PREFIX is a folder that ./install was given; without it the library is installed anew. PYTHONS names other Pythons.
set -eu
cd "$(dirname "$0")/.."
top=$PWD
room=$(mktemp -d)
trap 'rm -rf "$room"' EXIT
if [ $# != 0 ]; then
    prefix=$(cd "$1" && pwd)
else
    prefix=$room/prefix
    ./install "$prefix" >"$room/out" 2>&1 || { cat "$room/out"; exit 1; }
fi
unset PYTHONPATH PYTHONHOME
export RECFILE_PREFIX="$prefix" PYTHONDONTWRITEBYTECODE=1 PKG_CONFIG_PATH="$prefix/lib/pkgconfig"
cd "$room"

quietly() { # WORD..: the command, whose text is shown where it fails
    "$@" >"$room/out" 2>&1 || { echo "packages: FAILED: $*"; cat "$room/out"; exit 1; }
}
same() { # EXAMPLE NAME WORD..: the program prints what the others do
    wanted=$top/examples/$1.out
    name=$1_$2
    shift 2
    rm -f "$name.rec"
    "$@" "$name.rec" >"$name.out" || { echo "packages: FAILED: $*"; exit 1; }
    diff "$wanted" "$name.out"
    "$prefix/bin/recfile" check "$name.rec" >out
}
left_out() { echo "packages: $1 left out, since there is no $2"; }

# The library, in C.
if command -v cc >out && command -v pkg-config >out; then
    for example in stock pages; do
        source=$top/examples/c/$example.c
        quietly cc -std=c11 -Wall -Wextra -Werror -o shared "$source" $(pkg-config --cflags --libs recfile)
        same $example shared env LD_LIBRARY_PATH="$prefix/lib" ./shared
        quietly cc -std=c11 -o static "$source" $(pkg-config --cflags recfile) "$prefix/lib/librecfile.a"
        same $example static ./static
    done
    echo "packages: C ok"
else
    left_out C "cc or no pkg-config"
fi

# The Pythons that can run, each once, and the first with which a module can be compiled.
pythons=
builder=
homes=
for python in ${PYTHONS:-python3 python3.9 python3.10 python3.11 python3.12 python3.13 python3.14 /usr/bin/python3}; do
    home=$("$python" -c 'import sys; sys.version_info >= (3, 9) or sys.exit(1); print(sys.base_prefix)' 2>err) || continue
    case " $homes " in *" $home "*) continue ;; esac
    homes="$homes $home"
    pythons="$pythons $python"
    headers=$("$python" -c 'import sysconfig; print(sysconfig.get_path("include"))')
    [ -n "$builder" ] || [ ! -e "$headers/Python.h" ] || builder=$python
done

make_wheel() { # PYTHON FOLDER
    mkdir "$2"
    if "$1" -m pip --version >out 2>&1; then
        quietly "$1" -m pip wheel -q --no-index --no-deps --no-build-isolation --wheel-dir "$2" "$top/python"
    else
        quietly env PYTHONPATH="$top/python/backend" "$1" -c \
            'import sys, recfile_build; recfile_build.build_wheel(sys.argv[1])' "$2"
    fi
}
install_wheel() { # PYTHON FOLDER: into an environment of its own
    if "$1" -m venv "$2" >out 2>&1; then
        quietly "$2/bin/python" -m pip install -q --no-index --no-deps --disable-pip-version-check wheels/*.whl
    else
        quietly "$1" -m venv --clear --without-pip "$2"
        quietly "$2/bin/python" -m zipfile -e wheels/*.whl "$(echo "$2"/lib/python3*/site-packages)"
    fi
}

test_python() { # PYTHON: over the wheel as it is installed
    rm -rf environment
    install_wheel "$1" environment
    quietly environment/bin/python -W error -m unittest discover -s "$top/python/tests"
    echo "packages: $("$1" --version): $(sed -n 's/^Ran \(.*\) in.*/\1/p' out) ok"
    same stock python environment/bin/python "$top/python/examples/stock.py"
    same pages python environment/bin/python "$top/python/examples/pages.py"
}

# Random calls beside a model, the same under valgrind, which may say nothing of the package, stops and failing calls, and
# the types.
test_further() { # PYTHON
    environment/bin/python "$top/python/tests/fuzz.py" 10
    quietly environment/bin/python "$top/python/bench/calls.py" 1
    quietly cc -O2 -shared -fPIC -o crash.so "$top/tests/crash.c"
    environment/bin/python "$top/tests/package_stops.py" crash.so
    if command -v valgrind >out; then
        PYTHONMALLOC=malloc valgrind --log-file=found environment/bin/python "$top/python/tests/fuzz.py" 5 >out
        grep -q 'ERROR SUMMARY' found
        if grep -q '_recfile' found; then
            cat found
            exit 1
        fi
        echo "packages: valgrind ok"
    else
        left_out "a run under valgrind" valgrind
    fi
    if "$1" -c 'import mypy' 2>err; then
        (cd "$top/python/src" && quietly "$1" -m mypy --strict --cache-dir "$room/types" -p recfile)
        echo "packages: mypy --strict ok"
    else
        left_out "mypy --strict" mypy
    fi
}

if ! command -v cc >out || [ -z "$builder" ]; then
    left_out Python "cc, or no python3 with its headers"
else
    make_wheel "$builder" wheels
    make_wheel "$builder" again
    cmp wheels/*.whl again/*.whl
    for python in $pythons; do
        test_python "$python"
    done
    test_further "$python"
fi

# The crate, over the archive, and over the shared library with memory refused to it.
if command -v cargo >out && command -v cc >out; then
    cp -r "$top/rust/recfile" crate
    rm -rf crate/target
    export CARGO_TARGET_DIR="$room/target" CARGO_NET_OFFLINE=true
    cd crate
    quietly cargo test --offline -j1
    grep -c '\.\.\. ok$' "$room/out" >"$room/count"
    quietly cargo build --offline -j1 --examples
    quietly cc -shared -fPIC -O1 -o "$room/refuse.so" "$top/python/tests/refuse.c" -ldl
    quietly cargo test --offline -j1 --features dynamic --test stopped --no-run
    stopped=$(ls "$room"/target/debug/deps/stopped-* -t | grep -v '\.d$' | head -n 1)
    quietly env LD_LIBRARY_PATH="$prefix/lib" LD_PRELOAD="$room/refuse.so" REFUSE_TO=/librecfile. "$stopped" --nocapture
    if grep -q 'left out' "$room/out"; then
        cat "$room/out"
        exit 1
    fi
    cd ..
    same stock rust target/debug/examples/stock
    same pages rust target/debug/examples/pages
    echo "packages: $(cargo --version): $(cat count) tests ok"
else
    left_out Rust "cargo or no cc"
fi
echo "packages: ok"
