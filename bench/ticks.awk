# Writes a script of 4,000 lines of 65,535 ticks, which its one call lets pass.
BEGIN {
    print "chip 16550a 4 64"
    for (i = 0; i < 4000; i++) print "tick 65535"
    print "lsr"
}
