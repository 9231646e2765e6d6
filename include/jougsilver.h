/*
 * Jougsilver: the exact judge of partition budgets. C99 or later, or C++.
 *
 * A sheet is at most 65,536 bytes of records. docs/RULES.md (PREFIX/share/doc/jougsilver/RULES.md where it is installed) has
 * the layout of the records byte by byte in section 10, the refusal numbers in 12 and these calls in 14.
 *
 * Linking. The archive libjougsilver.a is x86-64 code that needs nothing but memcpy and memset of the C library, and can
 * stand in a shared library too. At the top of the repository `make build` proves it and leaves it as
 * target/libjougsilver.a; `make install PREFIX=...` puts it, with this file, where
 * `pkg-config --cflags --libs jougsilver` finds it.
 *
 * Calls. Each is a plain function of its arguments: it keeps no memory and no state between calls, allocates nothing,
 * reads and writes only what it is lent, and ends for every input there is. Calls may run on several threads at once as
 * long as no two of them are lent the same bytes to write. For each pair of pointer and length: the pointer is to that many
 * readable bytes (writable ones for a reply), and is not null, also where the length is 0. The bytes are needed only until
 * the call returns. The sheet and the reply must not overlap.
 *
 * A call returns 0 or a refusal number and nothing else; one that is refused leaves the caller's buffers unwritten. What a
 * number means in words, and the fields of a reply, are for the small functions at the end of this file, which are the
 * host's own code and not proved.
 *
 * Stack and time, measured by tests/outside/worst.c (`make measure`) and not proved. The figures are those of an archive that
 * an older kit compiled; the tests hold every archive to JOUGSILVER_STACK. On a thread whose stack was filled with
 * one byte beforehand no call on the sheets tried touched more than 27,399 bytes of it, and 28,887 the first call of a
 * program, which has the C library's linker resolve memcpy on the way; jougsilver_judge_all touched 21,735 of it and
 * jougsilver_check 12,711. JOUGSILVER_STACK is more than twice that. The longest judgement of one component known is an asked
 * one of 64 tasks with a common period of 1,048,576 and a deadline at every instant: 94 to 126 ms of processor time in nine
 * runs on a virtual machine (Intel Xeon, x86-64); stated instead of asked, 48 to 66 ms. Tasks that are late took no longer. To
 * judge a parent, jougsilver_judge judges all that lives inside it first: the top of a chain of 256 components at the large
 * end took 0.95 to 1.77 s in nine runs, and jougsilver_judge_all, which judges each component of a sheet just once, 1.21 to
 * 1.78 s for that sheet. 63 components of that longest kind, as many as a sheet holds, took it 6.9 to 7.6 s in three runs, and
 * 256 asked components of 15 tasks each with a deadline at every instant 8.2 to 8.8 s. To check a full sheet of 256 components
 * took 0.07 to 0.09 ms. Time grows with the common periods and the number of tasks.
 */
#ifndef JOUGSILVER_H
#define JOUGSILVER_H

#include <stddef.h>
#include <stdint.h>

#ifdef __cplusplus
extern "C" {
#endif

/* Below 1.0.0 a new minor version may bring new refusal numbers and new codes of a reply; take those that you don't know as
   neither accepted nor short. A patch changes no answer. 0.2.0 brought components inside components: jougsilver_judge_all,
   code 3 and refusal 16. 0.3.0 brought jobs that become ready late: a sheet's record of kind 5, a task with its lateness J,
   which was refused with 2 before. 0.4.0 brought components that store their common period, and refusal 17 for one that is
   handed in with a wrong one; the calls here take sheets alone, and answer every sheet as before. 0.5.0 scans the instants once
   for verdict and margin together, and answers every sheet as before. */
#define JOUGSILVER_VERSION_MAJOR 0
#define JOUGSILVER_VERSION_MINOR 5
#define JOUGSILVER_VERSION_PATCH 0
#define JOUGSILVER_VERSION "0.5.0"

/* Bytes of stack that are enough for any call, as measured. */
#define JOUGSILVER_STACK 65536

/* The most bytes, and the most components, that a sheet may have. */
#define JOUGSILVER_SHEET_LENGTH 65536
#define JOUGSILVER_MOST_COMPONENTS 256

/*
 * Refusal numbers. 0 is no refusal. The rules number 17 of them for all operations of the judge. Three of those no call here
 * answers: 12 (a job list) and 13 (a supply trace) are of operations that take jobs and traces, and 17 (a stored common period
 * that is not the component's own) is of operations that take a component. No sheet holds a stored common period: the calls work
 * it out as they read.
 */
enum {
    JOUGSILVER_TAKEN = 0,
    JOUGSILVER_CUT = 1,           /* the bytes end inside a record, or with no end record */
    JOUGSILVER_KIND = 2,          /* no record has that kind */
    JOUGSILVER_LENGTH = 3,        /* no record of that kind has that length */
    JOUGSILVER_NO_COMPONENT = 4,  /* a task comes before the first component */
    JOUGSILVER_NUMBER = 5,        /* component numbers don't rise */
    JOUGSILVER_TASKS = 6,         /* a component has a 65th task, or a parent's tasks and children together are more than 64 */
    JOUGSILVER_COMPONENTS = 7,    /* there are over 256 components */
    JOUGSILVER_END = 8,           /* the end record counts wrong, or isn't the last thing there */
    JOUGSILVER_RANGE = 9,         /* a number is out of its range (RULES 2) */
    JOUGSILVER_LONG = 10,         /* the common period is over 1,048,576: too long to be judged exactly */
    JOUGSILVER_ROOM = 11,         /* the reply doesn't fit into the buffer from that place on */
    JOUGSILVER_SHEET = 14,        /* the sheet has over 65,536 bytes */
    JOUGSILVER_PLACE = 15,        /* the sheet has fewer components than that */
    JOUGSILVER_PAIR = 16          /* a pair breaks the rules of pairs (RULES 10), or a component or task stands behind a pair */
};

/* Codes of a reply. */
enum {
    JOUGSILVER_ACCEPTED = 0,      /* the capacity is enough at every instant */
    JOUGSILVER_SHORT = 1,         /* it isn't: demand exceeds supply, first at the short instant */
    JOUGSILVER_NONE = 2,          /* asked, and not even the full deadline is enough */
    JOUGSILVER_WAITING = 3        /* some component inside it is not accepted: it has no verdict */
};

/* The length of a reply, in bytes. */
#define JOUGSILVER_REPLY_LENGTH 24

/*
 * Judges the component at `place` (0 is the first of the sheet) and writes the reply into `reply` from byte `at` on. A parent
 * is judged with its whole workload: its own tasks, and the interface of each of its children as a task (RULES 7). A task
 * that states a lateness J is judged with D - J in the place of its deadline D (RULES 4).
 *
 * Returns 0, or the refusal: that of the sheet (1 to 9, 14 or 16), then 15 (no component at that place), then 10 (common
 * period too long; never for a component that waits), then 11 (`at` is past the buffer, or fewer than 24 bytes are left from
 * there). A refusal writes nothing.
 *
 * The reply is 24 bytes, little-endian; every other byte of the buffer stays as it was:
 *
 *   offset  bytes  field
 *        0      2  length, 24
 *        2      2  kind, 16
 *        4      2  component number
 *        6      2  code: 0 accepted, 1 short, 2 none, 3 waiting
 *        8      4  capacity: the stated one, or the smallest accepted one where it was asked
 *       12      4  first short instant (code 1), else 0
 *       16      4  margin, signed: least supply minus demand over the instants where demand steps up
 *       20      4  margin instant: the smallest instant with that margin; 0 says that there is no margin
 *
 * For codes 2 and 3 the last four fields are 0.
 */
uint32_t jougsilver_judge(const uint8_t *sheet, size_t sheet_len, size_t place,
                          uint8_t *reply, size_t reply_len, size_t at);

/* The length of a check's reply, in bytes. */
#define JOUGSILVER_CHECK_LENGTH 12

/*
 * Checks a whole sheet and writes what it found into `reply` from byte `at` on. That a sheet is refused is this call's
 * answer, not a refusal of the call: it returns 0 whatever the sheet holds, or 11 (`at` is past the buffer, or fewer than 12
 * bytes are left from there), and then writes nothing.
 *
 * The reply is 12 bytes, little-endian; every other byte of the buffer stays as it was:
 *
 *   offset  bytes  field
 *        0      4  the sheet's refusal number, or 0 if it is taken
 *        4      4  the byte where the refused record began; 0 if the sheet is taken or longer than 65,536 bytes
 *        8      4  the count of components; 0 if the sheet is refused
 */
uint32_t jougsilver_check(const uint8_t *sheet, size_t sheet_len,
                          uint8_t *reply, size_t reply_len, size_t at);

/* The length of one component's entry in the reply of jougsilver_judge_all, and of the whole reply for `count` components. */
#define JOUGSILVER_ENTRY_LENGTH 36
#define JOUGSILVER_ALL_LENGTH(count) (JOUGSILVER_CHECK_LENGTH + JOUGSILVER_ENTRY_LENGTH * (size_t)(count))

/*
 * Judges every component of a sheet in one pass, each once and before its parent, and writes all replies into `reply` from
 * byte `at` on. A buffer of JOUGSILVER_ALL_LENGTH(JOUGSILVER_MOST_COMPONENTS) bytes has room for any sheet.
 *
 * Returns 0, or the refusal: that of the sheet (1 to 9, 14 or 16), then 11 (`at` is past the buffer, or fewer than
 * JOUGSILVER_ALL_LENGTH(count) bytes are left from there, `count` being the sheet's components). A refusal writes nothing;
 * jougsilver_check tells at which byte a sheet is refused. A common period that is too long refuses only its component.
 *
 * The reply begins with the 12 bytes that jougsilver_check writes, 0, 0 and the count of components. Then come as many
 * entries of 36 bytes, in the sheet's order; every other byte of the buffer stays as it was:
 *
 *   offset  bytes  field
 *        0      4  10 if the component's common period is too long, else 0
 *        4      4  component number
 *        8      4  the byte of the sheet where the component's record begins
 *       12     24  its reply as jougsilver_judge writes it; all 0 if the common period is too long
 */
uint32_t jougsilver_judge_all(const uint8_t *sheet, size_t sheet_len,
                              uint8_t *reply, size_t reply_len, size_t at);

/* A judge's reply, field by field. */
struct jougsilver_reply {
    uint16_t length;
    uint16_t kind;
    uint16_t number;
    uint16_t code;
    uint32_t capacity;
    uint32_t short_instant;
    int32_t margin;
    uint32_t margin_instant;
};

/* A check's reply, field by field. */
struct jougsilver_checked {
    uint32_t refusal;
    uint32_t byte;
    uint32_t components;
};

/* One component's entry in the reply of jougsilver_judge_all, field by field; `reply` is all 0 where `refusal` isn't 0. */
struct jougsilver_entry {
    uint32_t refusal;
    uint32_t number;
    uint32_t byte;
    struct jougsilver_reply reply;
};

/* The little-endian number of `width` bytes, 1 to 4. */
static inline uint32_t jougsilver_number_at(const uint8_t *bytes, unsigned width)
{
    uint32_t value = 0;
    while (width > 0)
        value = value << 8 | bytes[--width];
    return value;
}

/* The signed number of 4 bytes, in two's complement, on any compiler. */
static inline int32_t jougsilver_signed_at(const uint8_t *bytes)
{
    uint32_t value = jougsilver_number_at(bytes, 4);
    return value <= 0x7fffffffu ? (int32_t)value : -(int32_t)(0xffffffffu - value) - 1;
}

/* The fields of the 24 bytes that jougsilver_judge wrote. Nothing is judged: a code that this version lacks stays what it is. */
static inline struct jougsilver_reply jougsilver_decode_reply(const uint8_t *bytes)
{
    struct jougsilver_reply reply;
    reply.length = (uint16_t)jougsilver_number_at(bytes, 2);
    reply.kind = (uint16_t)jougsilver_number_at(bytes + 2, 2);
    reply.number = (uint16_t)jougsilver_number_at(bytes + 4, 2);
    reply.code = (uint16_t)jougsilver_number_at(bytes + 6, 2);
    reply.capacity = jougsilver_number_at(bytes + 8, 4);
    reply.short_instant = jougsilver_number_at(bytes + 12, 4);
    reply.margin = jougsilver_signed_at(bytes + 16);
    reply.margin_instant = jougsilver_number_at(bytes + 20, 4);
    return reply;
}

/* The fields of the 12 bytes that jougsilver_check wrote, or of the first 12 that jougsilver_judge_all wrote. */
static inline struct jougsilver_checked jougsilver_decode_check(const uint8_t *bytes)
{
    struct jougsilver_checked checked;
    checked.refusal = jougsilver_number_at(bytes, 4);
    checked.byte = jougsilver_number_at(bytes + 4, 4);
    checked.components = jougsilver_number_at(bytes + 8, 4);
    return checked;
}

/*
 * The entry of the component at `place` (0 is the first of the sheet), from the bytes that jougsilver_judge_all wrote, the
 * first 12 included. `place` is below the count of components that stands there.
 */
static inline struct jougsilver_entry jougsilver_decode_entry(const uint8_t *bytes, size_t place)
{
    struct jougsilver_entry entry;
    bytes += JOUGSILVER_ALL_LENGTH(place);
    entry.refusal = jougsilver_number_at(bytes, 4);
    entry.number = jougsilver_number_at(bytes + 4, 4);
    entry.byte = jougsilver_number_at(bytes + 8, 4);
    entry.reply = jougsilver_decode_reply(bytes + 12);
    return entry;
}

/* A refusal number in words; never null. */
static inline const char *jougsilver_refusal_text(uint32_t refusal)
{
    switch (refusal) {
    case JOUGSILVER_TAKEN: return "taken";
    case JOUGSILVER_CUT: return "the sheet ends inside a record, or has no end record";
    case JOUGSILVER_KIND: return "a record of unknown kind";
    case JOUGSILVER_LENGTH: return "a record whose length is not its kind's";
    case JOUGSILVER_NO_COMPONENT: return "a task before any component";
    case JOUGSILVER_NUMBER: return "a component number that does not rise";
    case JOUGSILVER_TASKS: return "more than 64 tasks and children in a component";
    case JOUGSILVER_COMPONENTS: return "more than 256 components";
    case JOUGSILVER_END: return "a wrong count in the end record, or bytes after it";
    case JOUGSILVER_RANGE: return "a number outside its range";
    case JOUGSILVER_LONG: return "a common period above 1,048,576, too long to be judged exactly";
    case JOUGSILVER_ROOM: return "too little room for the reply";
    case JOUGSILVER_SHEET: return "more than 65,536 bytes";
    case JOUGSILVER_PLACE: return "no component at that place";
    case JOUGSILVER_PAIR: return "a pair that breaks the rules of pairs, or a component or task after a pair";
    default: return "a refusal that this version doesn't know";
    }
}

/* A reply's code in words; never null. */
static inline const char *jougsilver_code_text(uint32_t code)
{
    switch (code) {
    case JOUGSILVER_ACCEPTED: return "accepted";
    case JOUGSILVER_SHORT: return "short";
    case JOUGSILVER_NONE: return "none";
    case JOUGSILVER_WAITING: return "waiting";
    default: return "an answer that this version doesn't know";
    }
}

#ifdef __cplusplus
}
#endif

#endif
