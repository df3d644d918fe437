# A trace of `uses` uses of `n` keys: each key once, the others drawn so that a key is the rarer, the later it
# is.
# awk -v n=10000 -v uses=2000000 -f trace.awk
BEGIN {
    if (n + 0 < 1 || uses + 0 < n + 0) {
        print "usage: awk -v n=KEYS -v uses=USES -f trace.awk, of one key at least, and a use of each" >"/dev/stderr"
        exit 2
    }
    srand(7)
    step = int(uses / n)
    for (i = 0; i < uses; i++) {
        turn = i / step
        key = i % step == 0 && turn < n ? turn * 7919 % n : int(n ^ rand()) - 1
        printf "key%08d\n", key
    }
}
