# A page file is made, filled and checked. Then one byte of its first page of records is overwritten.
# See that both words name the damaged page and end with status 1, and that no command of the script is run.
recfile create --order 2 plants.rec
printf 'begin\nput 1 oak =tree\nput 1 ivy =climber\nput 1 reed =grass\ncommit 1\n' | recfile run plants.rec
recfile check plants.rec
printf X | dd of=plants.rec bs=1 seek=4096 conv=notrunc status=none
recfile check plants.rec || echo "status $?"
printf 'begin\nput 1 oak =log\n' | recfile run plants.rec || echo "status $?"
