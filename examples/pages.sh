# The orders in pages of ten, by the prefix of their keys. See that a page is asked for with one record more, whose key begins the
# next one, and that the last page has the order of a transaction that is open, which may yet go back.
mkfifo questions answers
recfile create pages.rec
recfile shell pages.rec <questions >answers &
exec 3>questions 4<answers

ask() { # WORD..: the lines of the reply before its ok
    echo "$*" >&3
    lines=
    while read -r reply <&4 && [ "${reply#- }" != "$reply" ]; do
        lines="$lines${reply#- }
"
    done
}

ask begin
for number in $(seq -f %03g 25); do ask put 1 "order/$number" =open; done
ask put 1 line/001/lamp =2
ask put 1 stock/lamp =3
ask commit 1
ask begin
ask put 2 order/026 =open

page=1
key=order/
while [ -n "$key" ]; do
    ask from "$key" 11
    mine=$(printf %s "$lines" | grep '^order/')
    shown=$(echo "$mine" | head -n 10)
    last=$(echo "$shown" | tail -n 1)
    open=$(echo "$shown" | grep -c ' @')
    key=$(echo "$mine" | sed -n '11s/ .*//p')
    [ "$open" = 0 ] || open=", of which $open may yet go back"
    echo "page $page: ${shown%% *} to ${last%% *}${open#0}"
    page=$((page + 1))
done
exec 3>&- 4<&-
wait
