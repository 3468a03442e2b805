/* See text.h. */
#include "text.h"

enum unit { HEX, COUNT, HERTZ, PERCENT, TENTHS };

struct words {
    const char *name, *text;
    enum unit unit;
    const char *listed;
};

static const struct words words[CENSUS_RULES] = {
#define RULE(constant, name, text, unit, listed) {name, text, unit, #listed},
#include "rules.h"
#undef RULE
};

static unsigned put_text(const struct census_printer *to, const char *text)
{
    unsigned count = 0;

    for (; text[count] != 0; count++)
        to->print(to->at, text[count]);
    return count;
}

static unsigned put_number(const struct census_printer *to, uint64_t value, unsigned base, unsigned least)
{
    char digits[20];
    unsigned count = 0, i;
    uint64_t rest;

    do {
        rest = value / base;
        digits[count++] = "0123456789abcdef"[value - rest * base];
        value = rest;
    } while (value != 0 || count < least);
    for (i = count; i > 0; i--)
        to->print(to->at, digits[i - 1]);
    return count;
}

static unsigned put_value(const struct census_printer *to, enum census_rule rule, const struct census_row *row)
{
    switch (words[rule].unit) {
    case HEX:
        return put_number(to, row->value, 16, row->value > 0xff ? 4 : 2);
    case HERTZ:
        return row->value == 0 ? put_text(to, "none") : put_number(to, row->value, 10, 1) + put_text(to, " Hz");
    case PERCENT:
        return put_number(to, row->value, 10, 1) + put_text(to, "%");
    default:
        return put_number(to, row->value, 10, 1);
    }
}

static void pad(const struct census_printer *to, unsigned count, unsigned width)
{
    do
        to->print(to->at, ' ');
    while (++count < width);
}

static const char *const ends[] = {
    "done", "nobody is there", "the port is in use", "no loopback", "stalled: the transmitter did not become empty", "the clock stands",
    "gone: nobody answers any more"};
static const char *const seen_as[] = {"not seen", "holds", "DIFFERS"};

static void put_sum(const struct census_printer *to, enum census_end end, const unsigned of[3])
{
    put_text(to, ends[end]);
    put_text(to, ": ");
    put_number(to, of[CENSUS_HOLDS], 10, 1);
    put_text(to, " hold, ");
    put_number(to, of[CENSUS_DIFFERS], 10, 1);
    put_text(to, " differ, ");
    put_number(to, of[CENSUS_NOT_SEEN], 10, 1);
    put_text(to, " not seen\n");
}

void census_print_table(const struct census_printer *to, enum census_end end, const struct census_row rows[CENSUS_RULES])
{
    unsigned i, of[3] = {0, 0, 0};

    for (i = 0; i < CENSUS_RULES; i++) {
        of[rows[i].seen]++;
        pad(to, put_text(to, words[i].name), 20);
        pad(to, put_text(to, seen_as[rows[i].seen]), 10);
        pad(to, rows[i].seen == CENSUS_NOT_SEEN ? 0 : put_value(to, i, &rows[i]), 12);
        put_text(to, words[i].text);
        put_text(to, "\n");
    }
    put_sum(to, end, of);
}

void census_print_short(const struct census_printer *to, enum census_end end, const struct census_row rows[CENSUS_RULES])
{
    unsigned i, width, of[3] = {0, 0, 0};

    for (i = 0; i < CENSUS_RULES; i++) {
        of[rows[i].seen]++;
        pad(to, put_text(to, words[i].name), 18);
        width = put_text(to, rows[i].seen == CENSUS_HOLDS ? "ok" : rows[i].seen == CENSUS_NOT_SEEN ? "-" : "");
        if (rows[i].seen == CENSUS_DIFFERS)
            width = put_value(to, i, &rows[i]) + put_text(to, "!");
        if (i % 3 < 2 && i + 1 < CENSUS_RULES)
            pad(to, width, 8);
        else
            put_text(to, "\n");
    }
    put_sum(to, end, of);
}

void census_print_rows(const struct census_printer *to, enum census_end end, const struct census_row rows[CENSUS_RULES])
{
    static const char *const plain[] = {"not-seen", "holds", "differs"};
    unsigned i;

    for (i = 0; i < CENSUS_RULES; i++) {
        put_text(to, "# ");
        put_text(to, words[i].name);
        put_text(to, " ");
        put_text(to, plain[rows[i].seen]);
        if (rows[i].seen != CENSUS_NOT_SEEN) {
            put_text(to, " ");
            put_value(to, i, &rows[i]);
            if (rows[i].seen == CENSUS_DIFFERS) {
                put_text(to, " ");
                put_text(to, words[i].listed);
            }
        }
        put_text(to, "\n");
    }
    put_text(to, "# end ");
    put_text(to, ends[end]);
    put_text(to, "\n");
}

void census_print_recording(const struct census_printer *to, const struct census_recording *recording)
{
    unsigned i;

    for (i = 0; i < recording->count; i++) {
        const struct census_access *access = &recording->accesses[i];

        put_text(to, access->what & 8 ? "w " : "r ");
        put_number(to, access->what & 7, 16, 1);
        put_text(to, " ");
        put_number(to, access->value, 16, 2);
        put_text(to, " 2 @");
        put_number(to, (uint64_t)access->time << 10, 10, 1);
        put_text(to, "\n");
        if (access->more > 0) {
            put_text(to, "x ");
            put_number(to, access->more, 10, 1);
            put_text(to, "\n");
        }
    }
    if (recording->lost > 0) {
        put_text(to, "# the recording ends here: no room for ");
        put_number(to, recording->lost, 10, 1);
        put_text(to, " more accesses\n");
    }
}
