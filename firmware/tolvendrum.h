/* Tolvendrum: the bus controller for C (C11) and C++ (C++11). The archive is made by firmware/archive.sh
 * (target/staticlib/libfirmware.a), for x86-64.
 *
 * The controller is a struct of 16-bit numbers that goes into a call by value and comes back in its answer. Nothing is kept between calls,
 * nothing is allocated, and every call ends. What a call may change besides is what it is lent: four areas of 16-bit words, each as a
 * pointer and its length in words (not in bytes). Asking is lent two of them, the index table and the port words. A pointer must lead to as
 * many words as its length says, and the areas must not overlap; all else is tested, and refused by number.
 *
 * Refusals. A refused call answers its number and leaves controller and areas as they were; a refused bus event has no reply.
 *
 *   0          accepted
 *   1 AREA     an area that the call is lent has another length
 *   2 RANGE    an argument is out of range, or a write has not the port's size
 *   3 NOPORT   the index entry is 0 (not on opening)
 *   4 TAKEN    opening: the address has an entry, or word 1 of that port is not 0
 *   5 SIDE     the host writes to a sink
 *   6 DAMAGED  an index entry needed is above 255, or port words needed are not well formed
 *
 * Order: 1, 2, 6 for the entry, 3 or 4, 6 for the port words (not on opening), 5, 2 for the size of a write.
 *
 * A controller is handed to a call as an earlier call gave it. Its numbers are an argument out of range (2) in exactly these cases: `stage`
 * above 2; a `word` other than 0 while none is waited for; a flag (`laa`, `rld`, `ls`, `slm`, `frozen`, `set`) that is neither 0 nor 1;
 * `since` above 1950; `line` of 2130 or more; a `phase` of 1500 or more; a `chosen` or `adopted` reply time other than 32, 64, 96 and 128;
 * an `address` above 4095; a `status` word other than 0 that is not set; an unused interrupt bit; a pending bit in a group that is not
 * frozen. Other numbers that no call gives, for instance a `word` of an F-code that expects no reply, are not refused.
 *
 * What stands between "from the crates" and "end" is written by make.py from the crates, and the gate says when it differs.
 */
#ifndef TOLVENDRUM_H
#define TOLVENDRUM_H

#include <stddef.h>
#include <stdint.h>

/* The version of this interface. docs/INTERFACE.md says when each number grows. */
#define TOLVENDRUM_VERSION_MAJOR 5
#define TOLVENDRUM_VERSION_MINOR 0

#ifdef __cplusplus
extern "C" {
#define TOLVENDRUM_ASSERT static_assert
#else
#define TOLVENDRUM_ASSERT _Static_assert
#endif

/* What a call answers: 0, or the number of its refusal. */
typedef uint16_t tolvendrum_refusal;

/* from the crates: numbers */
enum {
    TOLVENDRUM_AREA = 1,
    TOLVENDRUM_RANGE = 2,
    TOLVENDRUM_NOPORT = 3,
    TOLVENDRUM_TAKEN = 4,
    TOLVENDRUM_SIDE = 5,
    TOLVENDRUM_DAMAGED = 6
};

/* The lengths of the areas, in words. All zero is a table of no ports. */
enum {
    TOLVENDRUM_INDEX_LENGTH = 4096,
    TOLVENDRUM_PORTS_LENGTH = 2048,
    TOLVENDRUM_PAGE_LENGTH = 4096
};

/* A port has so many words of `ports`, one port after the other: its master word, its flags, its transfer interrupt, its fills, its limit
 * and its age in milliseconds, and two that are zero. */
enum {
    TOLVENDRUM_PORT_WORDS = 8
};

/* A millisecond in quiet bit times, at 1.5 Mbit/s. */
enum {
    TOLVENDRUM_MILLISECOND = 1500
};

/* The bits of a port's flags, the second of its words: the valid page, whether it was ever filled, its side, and the status bits.
 * The last four say which blocks of an unsound reply had a wrong check byte, if its counts were right; CRC is set exactly if one is. */
enum {
    TOLVENDRUM_PORT_VP = 0x0001,
    TOLVENDRUM_PORT_EVER = 0x0002,
    TOLVENDRUM_PORT_SRC = 0x0004,
    TOLVENDRUM_PORT_SINK = 0x0008,
    TOLVENDRUM_PORT_STO = 0x0010,
    TOLVENDRUM_PORT_TERR = 0x0020,
    TOLVENDRUM_PORT_CRC = 0x0040,
    TOLVENDRUM_PORT_SQE = 0x0080,
    TOLVENDRUM_PORT_ALO = 0x0100,
    TOLVENDRUM_PORT_FIRST_BLOCK = 0x0200,
    TOLVENDRUM_PORT_SECOND_BLOCK = 0x0400,
    TOLVENDRUM_PORT_THIRD_BLOCK = 0x0800,
    TOLVENDRUM_PORT_FOURTH_BLOCK = 0x1000
};

/* The bits of a status reply that are ours, whatever the host set there: LAA and RLD as they are before the poll switches the line and
 * clears RLD; an RLD that the poll itself sets is told. Each other bit is that of the status word. */
enum {
    TOLVENDRUM_STATUS_LAA = 0x0080,
    TOLVENDRUM_STATUS_RLD = 0x0040
};
/* end */

/* The sides of a port, as opening takes them. */
enum { TOLVENDRUM_SOURCE = 0, TOLVENDRUM_SINK = 1 };

/* The reply times, in bit times. */
enum {
    TOLVENDRUM_REPLY_TIME_32 = 32,
    TOLVENDRUM_REPLY_TIME_64 = 64, /* of a fresh controller */
    TOLVENDRUM_REPLY_TIME_96 = 96,
    TOLVENDRUM_REPLY_TIME_128 = 128
};

/* What asking answers. */
enum { TOLVENDRUM_NEVER = 0, TOLVENDRUM_GOOD = 1, TOLVENDRUM_HELD = 2, TOLVENDRUM_STALE = 3 };

/* The stages of an exchange. */
enum { TOLVENDRUM_IDLE = 0, TOLVENDRUM_WAITING = 1, TOLVENDRUM_DONE = 2 };

/* What a line heard. */
enum { TOLVENDRUM_SILENCE = 0, TOLVENDRUM_NOISE = 1, TOLVENDRUM_MASTER = 2, TOLVENDRUM_SLAVE = 3 };

/* from the crates: bits */
/* Interrupt group 0, from bit 15 down: the bits, and the vectors that reading gives of them. */
enum {
    TOLVENDRUM_EMF = 0x8000,
    TOLVENDRUM_ESF = 0x4000,
    TOLVENDRUM_DMF = 0x2000,
    TOLVENDRUM_DSF = 0x1000,
    TOLVENDRUM_AMFX = 0x0800,
    TOLVENDRUM_MFC = 0x0400,
    TOLVENDRUM_SFC = 0x0200,
    TOLVENDRUM_RTI = 0x0100,
    TOLVENDRUM_BTI = 0x0080,
    TOLVENDRUM_DTI7 = 0x0040,
    TOLVENDRUM_DTI6 = 0x0020,
    TOLVENDRUM_DTI5 = 0x0010,
    TOLVENDRUM_DTI4 = 0x0008,
    TOLVENDRUM_DTI3 = 0x0004,
    TOLVENDRUM_DTI2 = 0x0002,
    TOLVENDRUM_DTI1 = 0x0001
};
enum {
    TOLVENDRUM_VECTOR_EMF = 271,
    TOLVENDRUM_VECTOR_ESF = 270,
    TOLVENDRUM_VECTOR_DMF = 269,
    TOLVENDRUM_VECTOR_DSF = 268,
    TOLVENDRUM_VECTOR_AMFX = 267,
    TOLVENDRUM_VECTOR_MFC = 266,
    TOLVENDRUM_VECTOR_SFC = 265,
    TOLVENDRUM_VECTOR_RTI = 264,
    TOLVENDRUM_VECTOR_BTI = 263,
    TOLVENDRUM_VECTOR_DTI7 = 262,
    TOLVENDRUM_VECTOR_DTI6 = 261,
    TOLVENDRUM_VECTOR_DTI5 = 260,
    TOLVENDRUM_VECTOR_DTI4 = 259,
    TOLVENDRUM_VECTOR_DTI3 = 258,
    TOLVENDRUM_VECTOR_DTI2 = 257,
    TOLVENDRUM_VECTOR_DTI1 = 256
};

/* Interrupt group 1, from bit 15 down: the bits, and the vectors that reading gives of them. */
enum {
    TOLVENDRUM_TI2 = 0x8000,
    TOLVENDRUM_XI3 = 0x4000,
    TOLVENDRUM_XI2 = 0x2000,
    TOLVENDRUM_XQE = 0x1000,
    TOLVENDRUM_RQE = 0x0800,
    TOLVENDRUM_XQ1C = 0x0400,
    TOLVENDRUM_XQ0C = 0x0200,
    TOLVENDRUM_RQC = 0x0100,
    TOLVENDRUM_FEV = 0x0080,
    TOLVENDRUM_TI1 = 0x0004,
    TOLVENDRUM_XI1 = 0x0002,
    TOLVENDRUM_XI0 = 0x0001
};
enum {
    TOLVENDRUM_VECTOR_TI2 = 271,
    TOLVENDRUM_VECTOR_XI3 = 270,
    TOLVENDRUM_VECTOR_XI2 = 269,
    TOLVENDRUM_VECTOR_XQE = 268,
    TOLVENDRUM_VECTOR_RQE = 267,
    TOLVENDRUM_VECTOR_XQ1C = 266,
    TOLVENDRUM_VECTOR_XQ0C = 265,
    TOLVENDRUM_VECTOR_RQC = 264,
    TOLVENDRUM_VECTOR_FEV = 263,
    TOLVENDRUM_VECTOR_TI1 = 258,
    TOLVENDRUM_VECTOR_XI1 = 257,
    TOLVENDRUM_VECTOR_XI0 = 256
};
/* end */

/* from the crates: structs */
/* The exchange on the bus. */
typedef struct {
    uint16_t stage; /* 0 idle, 1 waiting, 2 done */
    uint16_t word; /* the master word that is waited for, else 0 */
} tolvendrum_exchange;

/* Times, in bit times. */
typedef struct {
    uint16_t since; /* since the last sound master frame or reset, counted up to 1950 */
    uint16_t line; /* the line count, below 2130 */
    uint16_t chosen; /* the reply time that the host chose */
    uint16_t adopted; /* the reply time that the last sound master frame adopted */
} tolvendrum_times;

/* The two lines, each flag 0 or 1. */
typedef struct {
    uint16_t laa; /* line A active: 1 where line A is trusted, 0 where line B is */
    uint16_t rld; /* redundant line disturbed: set by a failure, cleared by a status poll to us */
    uint16_t ls; /* a line switch is filed */
    uint16_t slm; /* single line mode: no rule switches or sets RLD */
} tolvendrum_lines;

/* Counts of frames. */
typedef struct {
    uint16_t fc; /* judged frames, modulo 65,536 */
    uint16_t ec; /* unsound ones, up to 65,535 */
} tolvendrum_counts;

/* An interrupt group. Its unused bits are zero, and nothing is pending unless it is frozen. */
typedef struct {
    uint16_t pending; /* bits raised while it is frozen */
    uint16_t mask; /* 1 lets a bit through */
    uint16_t status; /* bits to be served */
    uint16_t frozen; /* 0 or 1 */
} tolvendrum_group;

/* Our device on the bus. */
typedef struct {
    uint16_t address; /* the device address, 0 to 4095 */
    uint16_t set; /* 1 once the host has set a status word */
    uint16_t status; /* the status word, 0 unless set */
} tolvendrum_device;

/* The controller. No struct in it lies across a multiple of four words, so that a machine that copies the controller moves each whole. */
typedef struct {
    tolvendrum_exchange exchange;
    tolvendrum_counts counts;
    tolvendrum_times times;
    tolvendrum_lines lines;
    tolvendrum_group group0;
    tolvendrum_group group1;
    tolvendrum_device device;
    uint16_t phase; /* quiet bit times of the millisecond that runs, below 1500 */
} tolvendrum_controller;

/* What one line heard in an event. In silence and in noise the rest says nothing, but is tested. */
typedef struct {
    uint16_t kind; /* 0 silence, 1 noise, 2 master frame, 3 slave frame */
    uint16_t words[16];
    uint16_t size; /* how many words, 0 to 16 */
    uint8_t checks[4];
    uint16_t ends; /* how many check bytes, 0 to 4 */
    uint16_t sqe; /* the three quality marks, each 0 or 1 */
    uint16_t violation;
    uint16_t alo;
} tolvendrum_hearing;

/* What a bus event and quiet time answer. */
typedef struct {
    tolvendrum_controller controller;
    tolvendrum_refusal refusal;
    tolvendrum_hearing reply; /* the slave frame that we send, or silence */
} tolvendrum_answered;

/* What a setting answers. */
typedef struct {
    tolvendrum_controller controller;
    tolvendrum_refusal refusal;
} tolvendrum_told;

/* What a call on an interrupt group answers. */
typedef struct {
    tolvendrum_controller controller;
    tolvendrum_refusal refusal;
    uint16_t value; /* what was read; 0 by a write */
} tolvendrum_reading;

/* A number that was asked for. */
typedef struct {
    tolvendrum_refusal refusal;
    uint16_t value; /* 0 where refused */
} tolvendrum_number;

/* The words of a port. */
typedef struct {
    tolvendrum_refusal refusal;
    uint16_t size; /* how many words; 0 where refused, or never filled */
    uint16_t words[16]; /* zeros after them */
} tolvendrum_fetched;

/* The check bytes of a frame. */
typedef struct {
    uint16_t count; /* how many; 0 for no words or more than 16 */
    uint8_t bytes[4]; /* zeros after them */
} tolvendrum_check_bytes;

/* Where each field lies, in bytes. */
TOLVENDRUM_ASSERT(offsetof(tolvendrum_exchange, stage) == 0, "stage");
TOLVENDRUM_ASSERT(offsetof(tolvendrum_exchange, word) == 2, "word");
TOLVENDRUM_ASSERT(sizeof(tolvendrum_exchange) == 4, "tolvendrum_exchange");
TOLVENDRUM_ASSERT(offsetof(tolvendrum_times, since) == 0, "since");
TOLVENDRUM_ASSERT(offsetof(tolvendrum_times, line) == 2, "line");
TOLVENDRUM_ASSERT(offsetof(tolvendrum_times, chosen) == 4, "chosen");
TOLVENDRUM_ASSERT(offsetof(tolvendrum_times, adopted) == 6, "adopted");
TOLVENDRUM_ASSERT(sizeof(tolvendrum_times) == 8, "tolvendrum_times");
TOLVENDRUM_ASSERT(offsetof(tolvendrum_lines, laa) == 0, "laa");
TOLVENDRUM_ASSERT(offsetof(tolvendrum_lines, rld) == 2, "rld");
TOLVENDRUM_ASSERT(offsetof(tolvendrum_lines, ls) == 4, "ls");
TOLVENDRUM_ASSERT(offsetof(tolvendrum_lines, slm) == 6, "slm");
TOLVENDRUM_ASSERT(sizeof(tolvendrum_lines) == 8, "tolvendrum_lines");
TOLVENDRUM_ASSERT(offsetof(tolvendrum_counts, fc) == 0, "fc");
TOLVENDRUM_ASSERT(offsetof(tolvendrum_counts, ec) == 2, "ec");
TOLVENDRUM_ASSERT(sizeof(tolvendrum_counts) == 4, "tolvendrum_counts");
TOLVENDRUM_ASSERT(offsetof(tolvendrum_group, pending) == 0, "pending");
TOLVENDRUM_ASSERT(offsetof(tolvendrum_group, mask) == 2, "mask");
TOLVENDRUM_ASSERT(offsetof(tolvendrum_group, status) == 4, "status");
TOLVENDRUM_ASSERT(offsetof(tolvendrum_group, frozen) == 6, "frozen");
TOLVENDRUM_ASSERT(sizeof(tolvendrum_group) == 8, "tolvendrum_group");
TOLVENDRUM_ASSERT(offsetof(tolvendrum_device, address) == 0, "address");
TOLVENDRUM_ASSERT(offsetof(tolvendrum_device, set) == 2, "set");
TOLVENDRUM_ASSERT(offsetof(tolvendrum_device, status) == 4, "status");
TOLVENDRUM_ASSERT(sizeof(tolvendrum_device) == 6, "tolvendrum_device");
TOLVENDRUM_ASSERT(offsetof(tolvendrum_controller, exchange) == 0, "exchange");
TOLVENDRUM_ASSERT(offsetof(tolvendrum_controller, counts) == 4, "counts");
TOLVENDRUM_ASSERT(offsetof(tolvendrum_controller, times) == 8, "times");
TOLVENDRUM_ASSERT(offsetof(tolvendrum_controller, lines) == 16, "lines");
TOLVENDRUM_ASSERT(offsetof(tolvendrum_controller, group0) == 24, "group0");
TOLVENDRUM_ASSERT(offsetof(tolvendrum_controller, group1) == 32, "group1");
TOLVENDRUM_ASSERT(offsetof(tolvendrum_controller, device) == 40, "device");
TOLVENDRUM_ASSERT(offsetof(tolvendrum_controller, phase) == 46, "phase");
TOLVENDRUM_ASSERT(sizeof(tolvendrum_controller) == 48, "tolvendrum_controller");
TOLVENDRUM_ASSERT(offsetof(tolvendrum_hearing, kind) == 0, "kind");
TOLVENDRUM_ASSERT(offsetof(tolvendrum_hearing, words) == 2, "words");
TOLVENDRUM_ASSERT(offsetof(tolvendrum_hearing, size) == 34, "size");
TOLVENDRUM_ASSERT(offsetof(tolvendrum_hearing, checks) == 36, "checks");
TOLVENDRUM_ASSERT(offsetof(tolvendrum_hearing, ends) == 40, "ends");
TOLVENDRUM_ASSERT(offsetof(tolvendrum_hearing, sqe) == 42, "sqe");
TOLVENDRUM_ASSERT(offsetof(tolvendrum_hearing, violation) == 44, "violation");
TOLVENDRUM_ASSERT(offsetof(tolvendrum_hearing, alo) == 46, "alo");
TOLVENDRUM_ASSERT(sizeof(tolvendrum_hearing) == 48, "tolvendrum_hearing");
TOLVENDRUM_ASSERT(offsetof(tolvendrum_answered, controller) == 0, "controller");
TOLVENDRUM_ASSERT(offsetof(tolvendrum_answered, refusal) == 48, "refusal");
TOLVENDRUM_ASSERT(offsetof(tolvendrum_answered, reply) == 50, "reply");
TOLVENDRUM_ASSERT(sizeof(tolvendrum_answered) == 98, "tolvendrum_answered");
TOLVENDRUM_ASSERT(offsetof(tolvendrum_told, controller) == 0, "controller");
TOLVENDRUM_ASSERT(offsetof(tolvendrum_told, refusal) == 48, "refusal");
TOLVENDRUM_ASSERT(sizeof(tolvendrum_told) == 50, "tolvendrum_told");
TOLVENDRUM_ASSERT(offsetof(tolvendrum_reading, controller) == 0, "controller");
TOLVENDRUM_ASSERT(offsetof(tolvendrum_reading, refusal) == 48, "refusal");
TOLVENDRUM_ASSERT(offsetof(tolvendrum_reading, value) == 50, "value");
TOLVENDRUM_ASSERT(sizeof(tolvendrum_reading) == 52, "tolvendrum_reading");
TOLVENDRUM_ASSERT(offsetof(tolvendrum_number, refusal) == 0, "refusal");
TOLVENDRUM_ASSERT(offsetof(tolvendrum_number, value) == 2, "value");
TOLVENDRUM_ASSERT(sizeof(tolvendrum_number) == 4, "tolvendrum_number");
TOLVENDRUM_ASSERT(offsetof(tolvendrum_fetched, refusal) == 0, "refusal");
TOLVENDRUM_ASSERT(offsetof(tolvendrum_fetched, size) == 2, "size");
TOLVENDRUM_ASSERT(offsetof(tolvendrum_fetched, words) == 4, "words");
TOLVENDRUM_ASSERT(sizeof(tolvendrum_fetched) == 36, "tolvendrum_fetched");
TOLVENDRUM_ASSERT(offsetof(tolvendrum_check_bytes, count) == 0, "count");
TOLVENDRUM_ASSERT(offsetof(tolvendrum_check_bytes, bytes) == 2, "bytes");
TOLVENDRUM_ASSERT(sizeof(tolvendrum_check_bytes) == 6, "tolvendrum_check_bytes");
/* end */

/* ---- the controller */

/* A fresh controller. No area is touched. */
tolvendrum_controller tolvendrum_reset(void);

/* The device address, 0 to 4095. */
tolvendrum_told tolvendrum_set_address(tolvendrum_controller c, uint16_t address);

/* The status word that a status poll to our address is answered with, but for TOLVENDRUM_STATUS_LAA and TOLVENDRUM_STATUS_RLD, which are
 * ours. Until it is set we do not answer. */
tolvendrum_told tolvendrum_set_status(tolvendrum_controller c, uint16_t word);

/* The reply time in bit times: 32, 64, 96 or 128. The next sound master frame adopts it. */
tolvendrum_told tolvendrum_set_reply_time(tolvendrum_controller c, uint16_t time);

/* Single line mode, 0 or 1. */
tolvendrum_told tolvendrum_set_slm(tolvendrum_controller c, uint16_t on);

/* A line switch filed (1) or withdrawn (0). */
tolvendrum_told tolvendrum_set_ls(tolvendrum_controller c, uint16_t on);

/* EC is cleared. */
tolvendrum_told tolvendrum_clear_ec(tolvendrum_controller c);

/* FC counts judged frames modulo 65,536, EC the unsound ones up to 65,535. */
tolvendrum_number tolvendrum_fc(tolvendrum_controller c);
tolvendrum_number tolvendrum_ec(tolvendrum_controller c);

/* ---- interrupt group 0 or 1 */

/* The status word; freezes. */
tolvendrum_reading tolvendrum_read_status(tolvendrum_controller c, uint16_t group);

/* 256 + the number of the highest set status bit, which is cleared, or 0; freezes. */
tolvendrum_reading tolvendrum_read_vector(tolvendrum_controller c, uint16_t group);

/* Clears status where 0 is written. */
tolvendrum_reading tolvendrum_write_status(tolvendrum_controller c, uint16_t group, uint16_t value);

/* Releases the group and lets pending through. */
tolvendrum_reading tolvendrum_write_vector(tolvendrum_controller c, uint16_t group);

/* Replaces pending, or the mask; unused bits are dropped. */
tolvendrum_reading tolvendrum_write_pending(tolvendrum_controller c, uint16_t group, uint16_t value);
tolvendrum_reading tolvendrum_write_mask(tolvendrum_controller c, uint16_t group, uint16_t value);

/* The outgoing line: 1 while status is nonzero and the group is not frozen. */
tolvendrum_number tolvendrum_line(tolvendrum_controller c, uint16_t group);

/* ---- ports */

/* Opens port 1 to 255 at address 0 to 4095, as a sink (1) or a source (0) of F-code 0 to 4, with data transfer interrupt 1 to 7, or 0 for
 * none, and a limit in milliseconds, or 0 where the port is not supervised. Its age is then 0; `tolvendrum_ask` says when it is stale. Answers
 * 0 or the refusal. */
tolvendrum_refusal tolvendrum_open(uint16_t *index, size_t index_length, uint16_t *ports, size_t ports_length, const uint16_t *page0,
                         size_t page0_length, const uint16_t *page1, size_t page1_length, uint16_t address, uint16_t port, uint16_t code,
                         uint16_t sink, uint16_t interrupt, uint16_t limit);

/* Closes the port at an address; the pages stay. Answers 0 or the refusal. */
tolvendrum_refusal tolvendrum_close(uint16_t *index, size_t index_length, uint16_t *ports, size_t ports_length, const uint16_t *page0,
                          size_t page0_length, const uint16_t *page1, size_t page1_length, uint16_t address);

/* Fills the source at an address; `length` is the port's size, 1, 2, 4, 8 or 16 words. Answers 0 or the refusal. */
tolvendrum_refusal tolvendrum_write(const uint16_t *index, size_t index_length, uint16_t *ports, size_t ports_length, uint16_t *page0,
                          size_t page0_length, uint16_t *page1, size_t page1_length, uint16_t address, const uint16_t *words,
                          size_t length);

/* The state of the port at an address: never; held (filled, but the last exchange failed); stale (filled and not held, but its limit is not 0,
 * and its age in milliseconds is at or above it); or good. `tolvendrum_quiet` says how an age grows. The pages are not needed. */
tolvendrum_number tolvendrum_ask(const uint16_t *index, size_t index_length, const uint16_t *ports, size_t ports_length,
                                 uint16_t address);

/* The words of the port at an address, and zeros after them. It is refused as asking is, and with 1 where a page has another length. */
tolvendrum_fetched tolvendrum_fetch(const uint16_t *index, size_t index_length, const uint16_t *ports, size_t ports_length,
                                    const uint16_t *page0, size_t page0_length, const uint16_t *page1, size_t page1_length,
                                    uint16_t address);

/* ---- the bus */

/* What line A and what line B heard. */
tolvendrum_answered tolvendrum_hear(const uint16_t *index, size_t index_length, uint16_t *ports, size_t ports_length, uint16_t *page0,
                                    size_t page0_length, uint16_t *page1, size_t page1_length, tolvendrum_controller c,
                                    tolvendrum_hearing a, tolvendrum_hearing b);

/* So many quiet bit times, 0 to 65,535; at 1.5 Mbit/s a bit time is two thirds of a microsecond. With every TOLVENDRUM_MILLISECOND of them since
 * reset the age of each open sink grows by 1, up to 65,535. Opening the port and a sound reply set it to 0; a reset leaves it. Milliseconds
 * are counted from reset and not from the reply, so a value is stale up to one millisecond early. */
tolvendrum_answered tolvendrum_quiet(const uint16_t *index, size_t index_length, uint16_t *ports, size_t ports_length,
                                     const uint16_t *page0, size_t page0_length, const uint16_t *page1, size_t page1_length,
                                     tolvendrum_controller c, uint32_t bit_times);

/* The check bytes of a frame of 1 to 16 words. */
tolvendrum_check_bytes tolvendrum_checks(const uint16_t *words, size_t length);

#ifdef __cplusplus
}
#endif

#endif
