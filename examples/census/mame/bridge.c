/*
 * The census and the rings of the driver in C over a serial chip of MAME, as a module of bridge.lua, which makes the accesses. Time is that
 * of MAME's machine. JOB of the environment is
 *
 *   census   asks the chip, and prints rows and recording
 *   rings    sends BYTES bytes by interrupts, all of which come back by a plug, and prints how many were wrong, how many missing, and how
 *            often bytes stayed in the transmit ring although nothing would have called the handler
 */
#include <lua.h>
#include <stdio.h>
#include <stdlib.h>
#include <string.h>
#include <ucontext.h>

#include "text.h"
#include "u16550.h"

/* ---- accesses, each of which is made by the script while the job waits on a stack of its own */

static ucontext_t script, job;
static char stack[1 << 20];
static const char *what = "wait";
static uint8_t offset, written, value, isr;
static uint64_t now_ns, passing_ns;

static void ask(const char *for_what, uint8_t at, uint8_t to_write)
{
    what = for_what;
    offset = at;
    written = to_write;
    swapcontext(&job, &script);
}

static void pass(uint64_t ns)
{
    now_ns += ns;
    passing_ns += ns;
}

static uint8_t chip_read(uint8_t at)
{
    ask("read", at, 0);
    return value;
}

static void chip_write(uint8_t at, uint8_t to_write) { ask("write", at, to_write); }

static int has_interrupt(void)
{
    ask("wait", 0, 0);
    return !(isr & 1);
}

/* ---- the census: an access takes 1000 ns, and a look at the clock 200 */

static uint8_t census_read(void *at, uint8_t at_offset)
{
    uint8_t read = chip_read(at_offset);

    (void)at;
    pass(1000);
    return read;
}

static void census_write(void *at, uint8_t at_offset, uint8_t to_write)
{
    (void)at;
    chip_write(at_offset, to_write);
    pass(1000);
}

static uint64_t census_now(void *at)
{
    (void)at;
    pass(200);
    return now_ns;
}

static void print_character(void *at, char character) { fputc(character, at); }

static void take_census(void)
{
    static struct census_recording recording;
    static struct census_row rows[CENSUS_RULES];
    struct census_chip chip = {census_read, census_write, census_now, 0, &recording, 0};
    struct census_printer to = {print_character, stdout};
    enum census_end end = census_take(&chip, rows);

    census_print_rows(&to, end, rows);
    census_print_recording(&to, &recording);
}

/* ---- the rings */

/* For so long nothing moves before rings are taken to be asleep, and so often they are told to go on. */
enum { QUIET_NS = 200000000, MOST_ASLEEP = 10 };

static uint64_t below(uint64_t bound)
{
    static uint64_t seed = 0x9e3779b97f4a7c15;

    seed ^= seed << 13;
    seed ^= seed >> 7;
    seed ^= seed << 17;
    return (seed >> 11) % bound;
}

/* The byte at a place of the stream. No byte is that of one place before or behind it. */
static uint8_t sent_byte(uint64_t at) { return (uint8_t)(at * 3 + (at >> 8)); }

static uint8_t driver_read(void *at, uintptr_t at_offset)
{
    uint8_t read = chip_read((uint8_t)at_offset);

    (void)at;
    pass(200 + below(1000));
    return read;
}

static void driver_write(void *at, uintptr_t at_offset, uint8_t to_write)
{
    (void)at;
    chip_write((uint8_t)at_offset, to_write);
    pass(200 + below(1000));
}

static void drive_rings(void)
{
    static struct u16550 uart;
    static uint8_t memory[8192];
    struct u16550_io io = {0, driver_read, driver_write};
    struct u16550_config config;
    struct u16550_handled handled;
    const char *bytes_word = getenv("BYTES");
    uint64_t wanted = bytes_word ? strtoull(bytes_word, 0, 10) : 0, sent = 0, came = 0, wrong = 0, asleep = 0, moved = 0, moved_ns = 0;
    uint8_t bytes[300];
    size_t len, at;

    u16550_default_config(&config);
    config.baud_rate = 115200;
    config.interrupts = U16550_IER_DATA_READY | U16550_IER_RECEIVER_LINE_STATUS | U16550_IER_MODEM_STATUS;
    if (u16550_new(&uart, &io) || u16550_ring_new(&uart, memory, sizeof memory, 512, 4096) || u16550_init(&uart, &config)) {
        puts("the chip cannot be set up");
        return;
    }
    while ((sent < wanted || came < sent) && asleep < MOST_ASLEEP) {
        if (has_interrupt()) {
            /* The handler comes up to 100 us late. */
            pass(below(100000));
            u16550_ring_try_handle(&uart, 32, 100, &handled);
        }
        len = sent < wanted && below(4) == 0 ? 1 + below(sizeof bytes) : 0;
        for (at = 0; at < len; at++)
            bytes[at] = sent_byte(sent + at);
        u16550_ring_queue(&uart, bytes, len, &len);
        sent += len;
        u16550_ring_take(&uart, bytes, below(sizeof bytes), &len);
        for (at = 0; at < len; at++)
            wrong += bytes[at] != sent_byte(came++);
        pass(1000 + below(below(50) ? 30000 : 400000));
        if (sent + came != moved) {
            moved = sent + came;
            moved_ns = now_ns;
        } else if (now_ns - moved_ns > QUIET_NS) {
            u16550_ring_transmit_len(&uart, &len);
            /* What left the ring and has not come back by now is lost. */
            if (len == 0)
                break;
            asleep++;
            u16550_ring_resume_transmit(&uart);
            moved_ns = now_ns;
        }
    }
    printf("sent %llu, came %llu, wrong %llu, missing %llu, asleep %llu times\n", (unsigned long long)sent, (unsigned long long)came,
           (unsigned long long)wrong, (unsigned long long)(sent - came), (unsigned long long)asleep);
}

/* ---- for the script */

static void run_job(void)
{
    /* The machine comes out of its reset first. */
    pass(1000000);
    if (strcmp(getenv("JOB"), "census") == 0)
        take_census();
    else
        drive_rings();
    /* MAME may crash at its end. */
    fflush(stdout);
    ask("end", 0, 0);
}

/* Gets what was read and ISR. Returns what is to be done, the offset, what is to be written, and how many seconds pass before. */
static int next_access(lua_State *lua)
{
    static int is_begun;

    value = (uint8_t)lua_tointeger(lua, 1);
    isr = (uint8_t)lua_tointeger(lua, 2);
    if (!is_begun) {
        is_begun = 1;
        getcontext(&job);
        job.uc_stack.ss_sp = stack;
        job.uc_stack.ss_size = sizeof stack;
        makecontext(&job, run_job, 0);
    }
    swapcontext(&script, &job);
    lua_pushstring(lua, what);
    lua_pushinteger(lua, offset);
    lua_pushinteger(lua, written);
    lua_pushnumber(lua, (double)passing_ns * 1e-9);
    passing_ns = 0;
    return 4;
}

int luaopen_accesses(lua_State *lua)
{
    lua_pushcfunction(lua, next_access);
    return 1;
}
