/* Listens for the oil temperature: a sink of one word at address 1. Prints that nothing was heard yet, then the value, then that the value
 * is stale because nobody asked for it for 20 ms, and then that it is held because the next reply failed to come. run.sh builds and runs it. */
#include "tolvendrum.h"

#include <stdio.h>
#include <stdlib.h>

/* The areas live as long as the program, and begin with all words zero. */
static uint16_t index_table[TOLVENDRUM_INDEX_LENGTH];
static uint16_t port_words[TOLVENDRUM_PORTS_LENGTH];
static uint16_t page0[TOLVENDRUM_PAGE_LENGTH];
static uint16_t page1[TOLVENDRUM_PAGE_LENGTH];

/* The index table and the port words, which asking is lent, and all four. */
#define TABLES index_table, TOLVENDRUM_INDEX_LENGTH, port_words, TOLVENDRUM_PORTS_LENGTH
#define AREAS TABLES, page0, TOLVENDRUM_PAGE_LENGTH, page1, TOLVENDRUM_PAGE_LENGTH

enum { OIL = 1, PORT = 1, ONE_WORD = 0, SINK = 1, NO_INTERRUPT = 0, LIMIT = 20, REPLY_TIME = 64 };

static void must(uint16_t refusal)
{
    if (refusal != 0) {
        printf("refused: %u\n", refusal);
        exit(1);
    }
}

/* A frame of one word and its check byte, without quality marks. */
static tolvendrum_hearing frame(uint16_t kind, uint16_t word, uint8_t check)
{
    tolvendrum_hearing h = {.kind = kind, .words = {word}, .size = 1, .checks = {check}, .ends = 1};
    return h;
}

/* Both lines hear the same. */
static tolvendrum_controller hear(tolvendrum_controller c, tolvendrum_hearing h)
{
    tolvendrum_answered r = tolvendrum_hear(AREAS, c, h, h);
    must(r.refusal);
    return r.controller;
}

static tolvendrum_controller quiet(tolvendrum_controller c, uint32_t bit_times)
{
    tolvendrum_answered r = tolvendrum_quiet(AREAS, c, bit_times);
    must(r.refusal);
    return r.controller;
}

static void print_oil(void)
{
    static const char *const states[] = {"never", "good", "held", "stale"};
    tolvendrum_number state = tolvendrum_ask(TABLES, OIL);
    must(state.refusal);
    tolvendrum_fetched f = tolvendrum_fetch(AREAS, OIL);
    must(f.refusal);
    printf("oil temperature: %s", states[state.value]);
    if (f.size == 1)
        printf(", %u", f.words[0]);
    printf("\n");
}

int main(void)
{
    tolvendrum_controller c = tolvendrum_reset();
    must(tolvendrum_open(AREAS, OIL, PORT, ONE_WORD, SINK, NO_INTERRUPT, LIMIT));
    print_oil();

    tolvendrum_hearing master = frame(TOLVENDRUM_MASTER, OIL, 0x34);
    c = hear(c, master);
    c = hear(c, frame(TOLVENDRUM_SLAVE, 2, 0xA1));
    print_oil();

    c = quiet(c, LIMIT * TOLVENDRUM_MILLISECOND);
    print_oil();

    quiet(hear(c, master), REPLY_TIME);
    print_oil();
    return 0;
}
