# Stock and orders over one shell that is asked line by line, so that a reply decides what is asked next. See that the second
# order is told of the lamp that the first has taken, that a line which can't be had goes back to the savepoint before it, and
# that the third order gets the lamp that is left.
mkfifo questions answers
recfile create --order 8 stock.rec
recfile shell stock.rec <questions >answers &
exec 3>questions 4<answers

ask() { # WORD..: the reply, without its ok
    echo "$*" >&3
    read -r reply <&4
    case $reply in
    ok*) reply=${reply#ok}; reply=${reply# } ;;
    *) return 1 ;;
    esac
}

take() { # TRANSACTION ORDER ITEM WANTED: what keeps it from that, or nothing
    ask save "$1"
    savepoint=$reply
    ask put "$1" "line/$2/$3" "=$4"
    if ! ask get "$1" "stock/$3"; then
        echo "order $2: $3 is held by ${reply#no Held }"
    elif [ "${reply#=}" -lt "$4" ]; then
        echo "order $2: $3 is short"
    else
        ask put "$1" "stock/$3" "=$((${reply#=} - $4))"
        return
    fi
    ask back "$1" "$savepoint"
}

ask begin && stock=$reply
ask put "$stock" stock/lamp =3
ask put "$stock" stock/chair =1
ask put "$stock" stock/bed =0
ask commit "$stock"

ask begin && first=$reply
ask begin && second=$reply
ask put "$first" order/1 =open
take "$first" 1 lamp 2
take "$first" 1 chair 1
ask put "$second" order/2 =open
take "$second" 2 lamp 1
take "$second" 2 bed 1
ask abort "$second"
echo "order 2 is called off: $reply change"
ask commit "$first"
ask begin && third=$reply
ask put "$third" order/3 =open
take "$third" 3 lamp 1
ask commit "$third"
exec 3>&- 4<&-
wait
recfile dump stock.rec | sed -n 's/^put 1 \([^ ]*\) =/\1 /p'
