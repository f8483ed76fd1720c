#!/bin/sh
# Each command of README.md and docs/FORMAT.md, in order, in a folder that sees the repository's: a block `sh` is run as
# it stands, all but the gate itself, and has on standard output what a block `text` behind it has; in a block `console`
# each `$ ` line is a command, with what it writes behind it, and its status where that isn't 0.
#   tests/readme.sh [DOCUMENT..]
set -eu
cd "$(dirname "$0")/.."
top=$PWD
[ $# != 0 ] || set -- README.md docs/FORMAT.md
room=$(mktemp -d)
trap 'rm -rf "$room"' EXIT
export PYTHONDONTWRITEBYTECODE=1
mkdir -p "$room/home/.local/bin" "$room/bin"
ln -s "$top/crates/recfile_program/out/recfile_program" "$room/bin/recfile"
PATH=$room/home/.local/bin:$room/bin:$PATH

# Cuts a document into commands: NUMBER.sh or NUMBER.console, with what it writes in NUMBER.out. The home is the room's.
cut_up() { # DOCUMENT FOLDER
    awk -v folder="$2" -v home="$room/home" '
        function begin(suffix) {
            close(command)
            close(answer)
            command = sprintf("%s/%03d.%s", folder, ++n, suffix)
            answer = sprintf("%s/%03d.out", folder, n)
            printf "" > command
            if (suffix == "console") printf "" > answer
        }
        { gsub(/\$HOME/, home) }
        /^```/ && !kind { kind = substr($0, 4); if (kind == "sh") begin("sh"); next }
        /^```/ { last = kind; kind = ""; apart = 0; next }
        !kind { apart++ }
        kind == "sh" && $0 != ".ci/run" { print > command }
        kind == "text" && last == "sh" && apart == 1 { print > answer }
        kind == "console" && /^\$ / { begin("console"); print substr($0, 3) > command; next }
        kind == "console" { print > answer }
    ' "$1"
}

fail() { # DOCUMENT COMMAND
    echo "readme: $1: status $status:"
    cat "$2"
    [ ! -e "$wanted" ] || diff "$wanted" "$room/got"
    cat "$room/err"
    exit 1
}

runs=0
for document in "$@"; do
    parts=$room/$(basename "$document" .md)
    mkdir "$parts" "$parts.at"
    cut_up "$document" "$parts"
    cd "$parts.at"
    for entry in "$top"/*; do ln -s "$entry" .; done
    for command in "$parts"/*.sh "$parts"/*.console; do echo "$command"; done | sort >"$room/commands"
    while read -r command; do
        [ -e "$command" ] || continue
        for tool in cc pkg-config python3 cargo; do
            if grep -q -w -e "$tool" "$command" && ! command -v "$tool" >"$room/got"; then
                echo "readme: left out, since there is no $tool:"
                cat "$command"
                continue 2
            fi
        done
        runs=$((runs + 1))
        wanted=${command%.*}.out
        # In this shell, so that what a block exports is there in the next.
        set +e
        . "$command" </dev/null >"$room/got" 2>"$room/err"
        status=$?
        set -e
        case $command in
        *.console)
            cat "$room/err" >>"$room/got"
            [ $status = 0 ] || echo "[$status]" >>"$room/got"
            ;;
        *) [ $status = 0 ] || fail "$document" "$command" ;;
        esac
        [ ! -e "$wanted" ] || cmp -s "$room/got" "$wanted" || fail "$document" "$command"
    done <"$room/commands"
    cd "$top"
done
echo "readme: $runs commands did what stands there"
