/*
 * Does the chip at hand do what docs/HARDWARE.md says of a 16550A? A fixed list of accesses that asks it, in loopback, so that nothing
 * leaves on the line and no cable is needed.
 */
#ifndef CENSUS_H
#define CENSUS_H

#include <stdint.h>

#ifndef CENSUS_ENTRIES
#define CENSUS_ENTRIES 12000
#endif

/*
 * Accesses in their order. Of equal reads of one wait the first and the last have an entry each, and those between them are counted with the
 * first. So all times by which the census decides are here, and who has the recording can make the rows anew.
 */
struct census_recording {
    /* of each: the time in 1024 ns, how many followed that were equal, offset (and 8 for a write), and value */
    struct census_access {
        uint32_t time;
        uint16_t more;
        uint8_t what, value;
    } accesses[CENSUS_ENTRIES];
    unsigned count;
    /* Accesses for which there was no room: the recording ends before them. */
    unsigned lost;
};

/* The chip at hand. */
struct census_chip {
    uint8_t (*read)(void *at, uint8_t offset);
    void (*write)(void *at, uint8_t offset, uint8_t value);
    /* The time in nanoseconds, which passes by itself: each wait ends by it. One that stands ends the census. */
    uint64_t (*now)(void *at);
    void *at;
    /* Gets the accesses, if it is not 0. */
    struct census_recording *recording;
    /* FCR cannot be read: this is written at the end. 0 writes 81 if ISR showed FIFOs, as Linux leaves a 16550A, and else 00. */
    uint8_t fcr;
};

enum census_rule {
#define RULE(constant, name, text, unit, listed) CENSUS_##constant,
#include "rules.h"
#undef RULE
    CENSUS_RULES
};

enum census_seen { CENSUS_NOT_SEEN, CENSUS_HOLDS, CENSUS_DIFFERS };

/* What was seen of a rule, and a value: of a rule that differs the one of the first time that it did. */
struct census_row {
    uint8_t seen; /* an enum census_seen */
    uint32_t value;
};

/* Is added to a number of characters that are not those that were sent. */
enum { CENSUS_OTHERS = 1000 };

enum census_end {
    CENSUS_DONE,
    /* MCR reads FF, which no chip shows. Nothing was written. */
    CENSUS_NOBODY,
    /* DLAB is set, or the transmitter is not empty within a second: somebody uses the port. Nothing but IER was written, as it was. */
    CENSUS_IN_USE,
    /* MCR does not keep bit 4, or the first character did not come back, and may be on the line. The chip was restored. */
    CENSUS_NO_LOOPBACK,
    /* In loopback the transmitter did not become empty. The chip was restored. */
    CENSUS_STALLED,
    /* `now` shows the same time for ever. The chip was restored. */
    CENSUS_NO_CLOCK,
    /* MSR and ISR read FF at the end, as they do where nobody is: the chip went away meanwhile. */
    CENSUS_GONE
};

/* Asks the chip, and restores it. What waited in its receiver is lost, and a reset of its FIFOs is made. */
enum census_end census_take(const struct census_chip *chip, struct census_row rows[CENSUS_RULES]);

#endif
