# Two lamps are left, one in the store and one in the window, and the last one has to stay. Each of two orders sees that
# one of them is there (get), and takes the other. A look holds nothing: no lamp is left.
recfile memory <<'END'
begin
put 1 lamp/store =1
put 1 lamp/window =1
commit 1
begin
begin
get 2 lamp/window
get 3 lamp/store
del 2 lamp/store
del 3 lamp/window
commit 2
commit 3
list
END
# The same with claim in the place of get. See that neither order takes the lamp that the other goes by (no Held 3, no
# Held 2), and that the one that gives up begins again and finds no other lamp (ok none). The last one stays.
recfile memory <<'END'
begin
put 1 lamp/store =1
put 1 lamp/window =1
commit 1
begin
begin
claim 2 lamp/window
claim 3 lamp/store
del 2 lamp/store
del 3 lamp/window
abort 3
del 2 lamp/store
commit 2
begin
claim 4 lamp/store
abort 4
list
END
