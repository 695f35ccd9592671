/* How much stack each exported call takes: it is run on a painted stack of its own, and the deepest byte that lost its paint is found.
 * What the switch to that stack takes by itself is taken off. size.sh builds and runs it. */
#define _GNU_SOURCE
#include "../firmware/tolvendrum.h"

#include <stdio.h>
#include <string.h>
#include <ucontext.h>

enum { STACK = 1 << 18, PAINT = 0xA5 };

static unsigned char stack[STACK] __attribute__((aligned(64)));
static ucontext_t here, there;

static uint16_t index_table[TOLVENDRUM_INDEX_LENGTH], port_words[TOLVENDRUM_PORTS_LENGTH], page0[TOLVENDRUM_PAGE_LENGTH], page1[TOLVENDRUM_PAGE_LENGTH];
#define TABLES index_table, TOLVENDRUM_INDEX_LENGTH, port_words, TOLVENDRUM_PORTS_LENGTH
#define AREAS TABLES, page0, TOLVENDRUM_PAGE_LENGTH, page1, TOLVENDRUM_PAGE_LENGTH

/* What the calls take and answer stands outside the painted stack, as far as C lets it. */
static tolvendrum_controller c, waiting;
static tolvendrum_hearing to_sink, to_source, slave, bad;
static tolvendrum_answered answered;
static tolvendrum_told told;
static tolvendrum_reading reading;
static tolvendrum_number number;
static tolvendrum_fetched fetched;
static tolvendrum_check_bytes checks;
static uint16_t words[16], refusal;

static void nothing(void) {}
static void reset(void) { c = tolvendrum_reset(); }
static void open_sink(void) { refusal = tolvendrum_open(AREAS, 1, 1, 4, 1, 1, 1); }
static void open_source(void) { refusal = tolvendrum_open(AREAS, 2, 2, 4, 0, 1, 0); }
static void write_source(void) { refusal = tolvendrum_write(AREAS, 2, words, 16); }
static void ask(void) { number = tolvendrum_ask(TABLES, 2); }
static void fetch(void) { fetched = tolvendrum_fetch(AREAS, 2); }
static void hear_master(void) { answered = tolvendrum_hear(AREAS, c, to_sink, to_sink); }
static void hear_for_reply(void) { answered = tolvendrum_hear(AREAS, c, to_source, to_source); }
static void hear_slave(void) { answered = tolvendrum_hear(AREAS, waiting, slave, slave); }
static void hear_unsound(void) { answered = tolvendrum_hear(AREAS, waiting, bad, bad); }
static void quiet(void) { answered = tolvendrum_quiet(AREAS, waiting, 65535); }
static void set_address(void) { told = tolvendrum_set_address(c, 7); }
static void set_status(void) { told = tolvendrum_set_status(c, 7); }
static void set_reply_time(void) { told = tolvendrum_set_reply_time(c, 96); }
static void set_slm(void) { told = tolvendrum_set_slm(c, 1); }
static void set_ls(void) { told = tolvendrum_set_ls(c, 1); }
static void clear_ec(void) { told = tolvendrum_clear_ec(c); }
static void fc(void) { number = tolvendrum_fc(c); }
static void ec(void) { number = tolvendrum_ec(c); }
static void read_status(void) { reading = tolvendrum_read_status(c, 0); }
static void read_vector(void) { reading = tolvendrum_read_vector(c, 1); }
static void write_status(void) { reading = tolvendrum_write_status(c, 0, 7); }
static void write_vector(void) { reading = tolvendrum_write_vector(c, 1); }
static void write_pending(void) { reading = tolvendrum_write_pending(c, 0, 7); }
static void write_mask(void) { reading = tolvendrum_write_mask(c, 1, 7); }
static void line(void) { number = tolvendrum_line(c, 0); }
static void check_bytes(void) { checks = tolvendrum_checks(words, 16); }
static void close_port(void) { refusal = tolvendrum_close(AREAS, 1); }

static size_t depth(void (*call)(void))
{
    memset(stack, PAINT, STACK);
    getcontext(&there);
    there.uc_stack.ss_sp = stack;
    there.uc_stack.ss_size = STACK;
    there.uc_link = &here;
    makecontext(&there, call, 0);
    swapcontext(&here, &there);
    size_t untouched = 0;
    while (untouched < STACK && stack[untouched] == PAINT)
        untouched++;
    return STACK - untouched;
}

static tolvendrum_hearing frame(uint16_t kind, const uint16_t *w, uint16_t size)
{
    tolvendrum_hearing h = {.kind = kind, .size = size};
    tolvendrum_check_bytes b = tolvendrum_checks(w, size);
    memcpy(h.words, w, 2u * size);
    memcpy(h.checks, b.bytes, 4);
    h.ends = b.count;
    return h;
}

int main(void)
{
    static const struct {
        const char *name;
        void (*call)(void);
    } calls[] = {
        {"tolvendrum_reset", reset}, {"tolvendrum_set_address", set_address}, {"tolvendrum_set_status", set_status},
        {"tolvendrum_set_reply_time", set_reply_time}, {"tolvendrum_set_slm", set_slm}, {"tolvendrum_set_ls", set_ls},
        {"tolvendrum_clear_ec", clear_ec}, {"tolvendrum_fc", fc}, {"tolvendrum_ec", ec}, {"tolvendrum_read_status", read_status},
        {"tolvendrum_read_vector", read_vector}, {"tolvendrum_write_status", write_status}, {"tolvendrum_write_vector", write_vector},
        {"tolvendrum_write_pending", write_pending}, {"tolvendrum_write_mask", write_mask}, {"tolvendrum_line", line},
        {"tolvendrum_open, a sink", open_sink}, {"tolvendrum_open, a source", open_source}, {"tolvendrum_write", write_source},
        {"tolvendrum_ask", ask}, {"tolvendrum_fetch", fetch}, {"tolvendrum_hear, master frame", hear_master},
        {"tolvendrum_hear, master frame and reply", hear_for_reply}, {"tolvendrum_hear, slave frame taken", hear_slave},
        {"tolvendrum_hear, unsound slave frame", hear_unsound}, {"tolvendrum_quiet, 65,535 bit times", quiet},
        {"tolvendrum_checks", check_bytes}, {"tolvendrum_close", close_port},
    };
    uint16_t sink = 4 << 12 | 1, source = 4 << 12 | 2;
    to_sink = frame(TOLVENDRUM_MASTER, &sink, 1);
    to_source = frame(TOLVENDRUM_MASTER, &source, 1);
    slave = frame(TOLVENDRUM_SLAVE, words, 16);
    bad = slave;
    bad.checks[3] ^= 1;
    size_t own = depth(nothing), deepest = 0;
    c = tolvendrum_reset();
    for (size_t i = 0; i < sizeof calls / sizeof calls[0]; i++) {
        size_t used = depth(calls[i].call) - own;
        if (calls[i].call == hear_master)
            waiting = answered.controller;
        printf("%-42s %6zu bytes\n", calls[i].name, used);
        deepest = used > deepest ? used : deepest;
    }
    printf("%-42s %6zu bytes\n", "deepest", deepest);
    printf("%-42s %6zu bytes\n", "the controller", sizeof(tolvendrum_controller));
    printf("%-42s %6zu bytes\n", "the four areas", sizeof index_table + sizeof port_words + sizeof page0 + sizeof page1);
    return 0;
}
