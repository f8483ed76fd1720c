# Writes the script of a workload, and the replies that it must have to the file `want`.
#   awk -v kind=load -v count=1000 -v seed=1 -v first=0 -v want=FILE -f script.awk
# `count` is about how many lines its replies have, `first` the number of the first key.

function random(below) {
    state = (state * 16807) % 2147483647
    return int(state / 2147483647 * below)
}

function key(i) { return sprintf("k%07d", first + i) }

function value(i) { return "v" (i % 1000) }

function say(line, reply) {
    print line
    print reply > want
}

function old(k) { return (k in record) ? "ok =" record[k] : "ok none" }

function note(t, k) {
    changes[t]++
    changed[t, changes[t]] = k
    if (k in record) before[t, changes[t]] = record[k]
}

function begin() { say("begin", "ok " ++begun) }

function put(t, i, v,    k, answer) {
    k = key(i)
    answer = old(k)
    note(t, k)
    record[k] = v
    say("put " t " " k " =" v, answer)
}

function get(t, i) { say("get " t " " key(i), old(key(i))) }

function del(t, i,    k, answer) {
    k = key(i)
    answer = (k in record) ? old(k) : "no Absent"
    if (k in record) {
        note(t, k)
        delete record[k]
    }
    say("del " t " " k, answer)
}

function save(t) {
    place[t, ++depth[t]] = changes[t]
    say("save " t, "ok " depth[t])
}

function back(t, n,    to, undone, k) {
    to = n ? place[t, n] : 0
    for (undone = 0; changes[t] > to; undone++) {
        k = changed[t, changes[t]]
        if ((t, changes[t]) in before) record[k] = before[t, changes[t]]
        else delete record[k]
        delete before[t, changes[t]]
        changes[t]--
    }
    depth[t] = n
    say("back " t " " n, "ok " undone)
}

function commit(t) { say("commit " t, "ok") }

# The records in key order, which all are transaction 1's.
function list(keys,    i, found) {
    print "list"
    for (i = 0; i < keys; i++) {
        if (!(key(i) in record)) continue
        print "- " key(i) " =" record[key(i)] " @1" > want
        found++
    }
    print "ok " found + 0 > want
}

BEGIN {
    state = seed
    begin()
    if (kind == "load") for (i = 0; i < count; i++) put(1, (i * 7919 + seed) % count, value(i))
    if (kind == "ascending") for (i = 0; i < count; i++) put(1, i, value(i))
    if (kind == "reads") {
        for (i = 0; i < count / 4; i++) put(1, i, value(i))
        for (; i < count; i++) get(1, random(count / 3))
    }
    if (kind == "updates") {
        for (i = 0; i < count / 4; i++) put(1, i, value(i))
        for (; i < count; i++) put(1, random(count / 4), value(i))
    }
    if (kind == "window") for (i = 0; i < count / 2; i++) {
        put(1, i, value(i))
        if (i >= 1000) del(1, i - 1000)
    }
    if (kind == "savepoints") for (i = 0; i < count; i += 12) {
        save(1)
        for (j = 0; j < 5; j++) put(1, random(1000), value(i + j))
        save(1)
        for (j = 0; j < 4; j++) put(1, random(1000), value(i + j))
        back(1, depth[1] - (random(2) ? 1 : 0))
        if (depth[1] > 28) back(1, 1)
    }
    if (kind == "interleaved") {
        while (begun < 64) begin()
        for (i = 0; i < count; i++) put(1 + i % 64, i % 64 + 64 * random(count / 64), value(i))
        for (i = 2; i <= 64; i += 2) back(i, 0)
    }
    if (kind == "rollback") {
        for (i = 0; i < count; i++) put(1, random(count / 2), value(i))
        back(1, 0)
    }
    if (kind == "list") {
        for (i = 0; i < 500; i++) put(1, i, value(i))
        for (i = 0; i < count / 500; i++) list(500)
    }
    if (kind != "rollback" && kind != "interleaved") commit(1)
}
