# An order takes bolts and then nuts from stock. The nuts were a mistake: it goes back to its savepoint, and commits.
# See that the second order is refused the nuts (no Held 2) until then, and that what it changed stays.
recfile memory <<'END'
begin
put 1 stock/bolt =40
put 1 stock/nut =25
commit 1
begin
begin
put 2 stock/bolt =30
put 2 order7/bolt =10
save 2
put 2 stock/nut =5
put 2 order7/nut =20
put 3 order8/washer =6
put 3 stock/nut =24
back 2 1
put 3 stock/nut =24
put 3 order8/nut =1
commit 3
commit 2
list
END
