# Writes the script of 4,096 lines whose cost is followed.
BEGIN {
    split("send 48656c6c6f|tick 20|receive 4|arrive 41|tick 8|lsr|text 4f4b|read-ready", lines, "|")
    print "chip 16550a 4 65536"
    print "init 14 9600 nocts 00 8"
    for (i = 0; i < 4094; i++) print lines[i % 8 + 1]
}
