/* Every field of the structs by its name: each is brought to a number that no field beside it has, through the calls, and read. A header
 * whose fields lie in another order does not pass; nor does one whose marks of blocks or bits of a status reply do. run.sh builds and runs
 * it. */
#include "tolvendrum.h"

#include <stdio.h>

static uint16_t index_table[TOLVENDRUM_INDEX_LENGTH];
static uint16_t port_words[TOLVENDRUM_PORTS_LENGTH];
static uint16_t page0[TOLVENDRUM_PAGE_LENGTH];
static uint16_t page1[TOLVENDRUM_PAGE_LENGTH];

/* The index table and the port words, which asking is lent, and all four. */
#define TABLES index_table, TOLVENDRUM_INDEX_LENGTH, port_words, TOLVENDRUM_PORTS_LENGTH
#define AREAS TABLES, page0, TOLVENDRUM_PAGE_LENGTH, page1, TOLVENDRUM_PAGE_LENGTH

enum { SINK_ADDRESS = 1, SOURCE_ADDRESS = 2, LONG_ADDRESS = 3, SINK_PORT = 7, SOURCE_PORT = 8, LONG_PORT = 9 };
enum { ONE_WORD = 0, TWO_WORDS = 1, SIXTEEN_WORDS = 4, TRANSFER = 3, MILLISECONDS = 2 };

/* The words of a port: its flags are the second, its limit and its age the fifth and the sixth. */
enum {
    FLAGS = TOLVENDRUM_PORT_WORDS * SINK_PORT + 1,
    LIMIT = TOLVENDRUM_PORT_WORDS * SINK_PORT + 4,
    AGE = TOLVENDRUM_PORT_WORDS * SINK_PORT + 5,
    LONG_FLAGS = TOLVENDRUM_PORT_WORDS * LONG_PORT + 1,
    SIDES = TOLVENDRUM_PORT_VP | TOLVENDRUM_PORT_EVER | TOLVENDRUM_PORT_SRC | TOLVENDRUM_PORT_SINK,
    TERR = TOLVENDRUM_PORT_TERR,
    CRC = TOLVENDRUM_PORT_CRC
};

static int failures;

#define IS(what, value)                                                                                                                \
    do {                                                                                                                               \
        unsigned is = (unsigned)(what), expected = (unsigned)(value);                                                                  \
        if (is != expected) {                                                                                                          \
            printf("line %d: %s is %u, not %u\n", __LINE__, #what, is, expected);                                                      \
            failures++;                                                                                                                \
        }                                                                                                                              \
    } while (0)

static tolvendrum_hearing frame(uint16_t kind, const uint16_t *words, uint16_t size)
{
    tolvendrum_check_bytes bytes = tolvendrum_checks(words, size);
    tolvendrum_hearing h = {.kind = kind, .size = size, .ends = bytes.count};
    for (int i = 0; i < size; i++)
        h.words[i] = words[i];
    for (int i = 0; i < bytes.count; i++)
        h.checks[i] = bytes.bytes[i];
    return h;
}

static tolvendrum_hearing master(uint16_t word)
{
    return frame(TOLVENDRUM_MASTER, &word, 1);
}

static tolvendrum_answered hear(tolvendrum_controller c, tolvendrum_hearing h)
{
    tolvendrum_answered r = tolvendrum_hear(AREAS, c, h, h);
    IS(r.refusal, 0);
    return r;
}

static tolvendrum_controller quiet(tolvendrum_controller c, uint32_t bit_times)
{
    tolvendrum_answered r = tolvendrum_quiet(AREAS, c, bit_times);
    IS(r.refusal, 0);
    return r.controller;
}

static void exchange_and_times(void)
{
    tolvendrum_controller c = tolvendrum_reset();
    IS(c.exchange.stage, TOLVENDRUM_IDLE);
    c = tolvendrum_set_reply_time(c, TOLVENDRUM_REPLY_TIME_96).controller;
    IS(c.times.chosen, 96);
    IS(c.times.adopted, 64);
    c = quiet(c, 2131);
    IS(c.times.since, 1950);
    IS(c.times.line, 1);
    c = hear(c, master(SINK_ADDRESS)).controller;
    IS(c.exchange.stage, TOLVENDRUM_WAITING);
    IS(c.exchange.word, SINK_ADDRESS);
    IS(c.times.adopted, 96);
}

static void lines_and_device(void)
{
    tolvendrum_controller c = tolvendrum_reset();
    IS(c.lines.laa, 1);
    IS(c.lines.rld + c.lines.ls + c.lines.slm, 0);
    IS(tolvendrum_set_ls(c, 1).controller.lines.ls, 1);
    IS(tolvendrum_set_slm(c, 1).controller.lines.slm, 1);
    c = quiet(c, 2130);
    IS(c.lines.laa, 0);
    IS(c.lines.rld, 1);
    c = tolvendrum_set_address(c, 4000).controller;
    IS(c.device.address, 4000);
    IS(c.device.set, 0);
    c = tolvendrum_set_status(c, 5000).controller;
    IS(c.device.set, 1);
    IS(c.device.status, 5000);
    tolvendrum_told refused = tolvendrum_set_address(c, 4096);
    IS(refused.refusal, TOLVENDRUM_RANGE);
    IS(refused.controller.device.address, 4000);
}

/* After a line timeout line B is trusted and RLD set; the first poll clears RLD, the second switches to line A. */
static void status_replies(void)
{
    static const uint16_t replies[] = {TOLVENDRUM_STATUS_RLD, 0, TOLVENDRUM_STATUS_LAA};
    tolvendrum_controller c = quiet(tolvendrum_set_status(tolvendrum_reset(), 5).controller, 2130);
    for (int k = 0; k < 3; k++) {
        tolvendrum_answered r = hear(c, master(15 * 4096));
        IS(r.reply.size, 1);
        IS(r.reply.words[0], replies[k] | 5);
        c = r.controller;
        IS(c.device.status, 5);
    }
}

static void counts_and_groups(void)
{
    tolvendrum_controller c = tolvendrum_reset();
    tolvendrum_hearing bad = master(SINK_ADDRESS);
    bad.checks[0] ^= 1;
    c = hear(c, master(5 * 4096)).controller;
    c = tolvendrum_write_mask(c, 0, TOLVENDRUM_EMF | TOLVENDRUM_BTI).controller;
    c = tolvendrum_write_mask(c, 1, TOLVENDRUM_FEV).controller;
    c = hear(c, bad).controller;
    IS(c.counts.fc, 2);
    IS(c.counts.ec, 1);
    IS(tolvendrum_fc(c).value, 2);
    IS(tolvendrum_ec(c).value, 1);
    IS(c.group0.mask, TOLVENDRUM_EMF | TOLVENDRUM_BTI);
    IS(c.group1.mask, TOLVENDRUM_FEV);
    IS(c.group0.status, TOLVENDRUM_EMF);
    IS(c.group0.frozen, 0);
    IS(tolvendrum_line(c, 0).value, 1);
    tolvendrum_reading r = tolvendrum_read_vector(c, 0);
    IS(r.value, TOLVENDRUM_VECTOR_EMF);
    c = r.controller;
    IS(c.group0.status, 0);
    IS(c.group0.frozen, 1);
    IS(c.group1.frozen, 0);
    c = quiet(c, 1950);
    IS(c.group0.pending, TOLVENDRUM_BTI);
    IS(tolvendrum_write_vector(c, 0).controller.group0.status, TOLVENDRUM_BTI);
    IS(tolvendrum_read_status(c, 2).refusal, TOLVENDRUM_RANGE);
}

/* A slave frame with one quality mark: it is unsound, and the mark stands in the port's status bits. */
static uint16_t status_after(tolvendrum_hearing h)
{
    tolvendrum_controller c = hear(tolvendrum_reset(), master(SINK_ADDRESS)).controller;
    hear(c, h);
    return port_words[FLAGS] & ~SIDES;
}

static void hearings_and_ports(void)
{
    static const uint16_t word = 2, words[] = {300, 400};
    IS(tolvendrum_open(AREAS, SINK_ADDRESS, SINK_PORT, ONE_WORD, TOLVENDRUM_SINK, TRANSFER, MILLISECONDS), 0);
    IS(tolvendrum_open(AREAS, SOURCE_ADDRESS, SOURCE_PORT, TWO_WORDS, TOLVENDRUM_SOURCE, 0, 0), 0);
    tolvendrum_hearing slave = frame(TOLVENDRUM_SLAVE, &word, 1), marked = slave;
    marked.sqe = 1;
    IS(status_after(marked), TERR | TOLVENDRUM_PORT_SQE);
    marked = slave;
    marked.violation = 1;
    IS(status_after(marked), TERR);
    marked = slave;
    marked.alo = 1;
    IS(status_after(marked), TERR | TOLVENDRUM_PORT_ALO);
    IS(tolvendrum_ask(TABLES, SINK_ADDRESS).value, TOLVENDRUM_NEVER);
    IS(status_after(slave), 0);
    IS(tolvendrum_ask(TABLES, SINK_ADDRESS).value, TOLVENDRUM_GOOD);
    tolvendrum_fetched f = tolvendrum_fetch(AREAS, SINK_ADDRESS);
    IS(f.size, 1);
    IS(f.words[0], 2);
    f = tolvendrum_fetch(TABLES, page0, TOLVENDRUM_PAGE_LENGTH, page1, TOLVENDRUM_PAGE_LENGTH - 1, SINK_ADDRESS);
    IS(f.refusal, TOLVENDRUM_AREA);
    IS(f.size, 0);
    IS(tolvendrum_ask(TABLES, 9).refusal, TOLVENDRUM_NOPORT);
    IS(tolvendrum_ask(index_table, TOLVENDRUM_INDEX_LENGTH - 1, port_words, TOLVENDRUM_PORTS_LENGTH, SINK_ADDRESS).refusal, TOLVENDRUM_AREA);
    tolvendrum_controller later = quiet(tolvendrum_reset(), 2999);
    IS(later.phase, 1499);
    IS(port_words[AGE], 1);
    IS(tolvendrum_ask(TABLES, SINK_ADDRESS).value, TOLVENDRUM_GOOD);
    later = quiet(later, 1);
    IS(later.phase, 0);
    IS(port_words[AGE], port_words[LIMIT]);
    IS(tolvendrum_ask(TABLES, SINK_ADDRESS).value, TOLVENDRUM_STALE);
    later.phase = TOLVENDRUM_MILLISECOND;
    IS(tolvendrum_quiet(AREAS, later, 0).refusal, TOLVENDRUM_RANGE);

    IS(tolvendrum_write(AREAS, SOURCE_ADDRESS, words, 2), 0);
    tolvendrum_answered r = hear(tolvendrum_reset(), master(TWO_WORDS * 4096 + SOURCE_ADDRESS));
    tolvendrum_check_bytes bytes = tolvendrum_checks(words, 2);
    IS(r.controller.exchange.stage, TOLVENDRUM_DONE);
    IS(r.reply.kind, TOLVENDRUM_SLAVE);
    IS(r.reply.size, 2);
    IS(r.reply.words[0], 300);
    IS(r.reply.words[1], 400);
    IS(r.reply.ends, bytes.count);
    IS(r.reply.checks[0], bytes.bytes[0]);
    IS(r.reply.sqe + r.reply.violation + r.reply.alo, 0);
    IS(tolvendrum_close(AREAS, SOURCE_ADDRESS), 0);
}

static void blocks(void)
{
    static const uint16_t marks[4] = {
        TOLVENDRUM_PORT_FIRST_BLOCK, TOLVENDRUM_PORT_SECOND_BLOCK, TOLVENDRUM_PORT_THIRD_BLOCK, TOLVENDRUM_PORT_FOURTH_BLOCK};
    uint16_t words[16] = {9};
    tolvendrum_hearing slave = frame(TOLVENDRUM_SLAVE, words, 16), master_frame = master(SIXTEEN_WORDS * 4096 + LONG_ADDRESS);
    IS(tolvendrum_open(AREAS, LONG_ADDRESS, LONG_PORT, SIXTEEN_WORDS, TOLVENDRUM_SINK, 0, 0), 0);
    for (int k = 0; k < 4; k++) {
        tolvendrum_hearing wrong = slave;
        wrong.checks[k] ^= 1;
        hear(hear(tolvendrum_reset(), master_frame).controller, wrong);
        IS(port_words[LONG_FLAGS], TOLVENDRUM_PORT_SINK | TERR | CRC | marks[k]);
    }
    quiet(hear(tolvendrum_reset(), master_frame).controller, 64);
    IS(port_words[LONG_FLAGS], TOLVENDRUM_PORT_SINK | TOLVENDRUM_PORT_STO);
    hear(hear(tolvendrum_reset(), master_frame).controller, slave);
    IS(port_words[LONG_FLAGS], TOLVENDRUM_PORT_SINK | TOLVENDRUM_PORT_EVER | TOLVENDRUM_PORT_VP);
}

int main(void)
{
    hearings_and_ports();
    blocks();
    exchange_and_times();
    lines_and_device();
    status_replies();
    counts_and_groups();
    printf("fields: %s\n", failures ? "wrong" : "each where its name says");
    return failures != 0;
}
