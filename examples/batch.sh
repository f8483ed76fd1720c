# A batch of prices is refused where the session's log of ten records is full (no LogFull). It goes back to its savepoint
# and commits what came before. See that a second session, whose log is empty, takes the batch up where the first ended.
recfile create --order 2 prices.rec
recfile run --log 10 prices.rec <<'END'
begin
put 1 ash =12
put 1 beech =14
put 1 elm =11
save 1
put 1 fir =7
put 1 larch =9
put 1 maple =15
log
back 1 1
commit 1
END
recfile run --log 10 prices.rec <<'END'
begin
list
put 1 fir =7
put 1 larch =9
put 1 maple =15
commit 1
list
END
