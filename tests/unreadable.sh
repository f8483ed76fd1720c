#!/bin/sh
# A page file that its user may not read: each word that opens it answers Device and status 1, reads no script and
# leaves the file as it is. Root may read every file, so root tries as a user who has no rights.
set -eu
cd "$(dirname "$0")/.."
program=$(realpath "${1:-crates/recfile_program/out/recfile_program}")
room=$(mktemp -d)
trap 'rm -rf "$room"' EXIT
chmod 755 "$room"
cp "$program" "$room/recfile"

if [ "$(id -u)" = 0 ]; then
    if ! command -v setpriv > /dev/null; then
        echo "unreadable: left out, since root has no setpriv"
        exit 0
    fi
    as="setpriv --reuid 65534 --regid 65534 --clear-groups"
else
    as=
fi

cd "$room"
./recfile create --order 2 some.rec
cp some.rec before
chmod 000 some.rec
for word in run check; do
    status=0
    printf 'begin\n' | $as ./recfile "$word" "$room/some.rec" > "$room/out" 2> "$room/err" || status=$?
    if [ $status != 1 ] || [ -s out ] || [ "$(head -n 1 err)" != "recfile: Device" ]; then
        echo "unreadable: $word: status $status: $(cat out err)"
        exit 1
    fi
done
chmod 600 some.rec
cmp before some.rec
echo "unreadable: ok"
