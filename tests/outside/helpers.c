/*
 * The header's own functions against the rules (docs/RULES.md, 12 and 14), in C99, C11 and C++17 alike: prints what is wrong.
 * With a word after its name it prints each refusal's number and text instead.
 */
#include <jougsilver.h>

#include <stdio.h>
#include <string.h>

static int wrong;

static void expect(int holds, const char *what)
{
    if (!holds) {
        printf("wrong: %s\n", what);
        wrong = 1;
    }
}

/* What the calls can return, and what a check can find: all refusal numbers but those of jobs and traces. */
static const uint32_t numbers[] = {0, 1, 2, 3, 4, 5, 6, 7, 8, 9, 10, 11, 14, 15, 16};
enum { NUMBERS = sizeof numbers / sizeof numbers[0] };

static void texts(void)
{
    const char *unknown = jougsilver_refusal_text(99);
    for (int i = 0; i < NUMBERS; i++) {
        const char *text = jougsilver_refusal_text(numbers[i]);
        expect(text[0] != '\0' && strcmp(text, unknown) != 0, "a refusal has a text of its own");
        for (int j = 0; j < i; j++)
            expect(strcmp(text, jougsilver_refusal_text(numbers[j])) != 0, "two refusals have different texts");
    }
    expect(strcmp(jougsilver_refusal_text(12), unknown) == 0, "12 is no refusal of these calls");
    expect(strcmp(jougsilver_refusal_text(13), unknown) == 0, "13 is no refusal of these calls");
    expect(strcmp(jougsilver_code_text(0), "accepted") == 0, "code 0");
    expect(strcmp(jougsilver_code_text(1), "short") == 0, "code 1");
    expect(strcmp(jougsilver_code_text(2), "none") == 0, "code 2");
    expect(strcmp(jougsilver_code_text(3), "waiting") == 0, "code 3");
    expect(strcmp(jougsilver_code_text(4), jougsilver_code_text(65535)) == 0, "an unknown code is said to be unknown");
}

/* Every byte of a reply has a value of its own, and the code is one that this version doesn't have. */
static void decoding(void)
{
    const uint8_t bytes[JOUGSILVER_REPLY_LENGTH] = {24, 0, 16, 0, 0x02, 0x01, 0xfe, 0xca, 0x14, 0x13, 0x12, 0x11,
                                                    0x24, 0x23, 0x22, 0x21, 0xfc, 0xfd, 0xfe, 0xff, 0x44, 0x43, 0x42, 0x41};
    struct jougsilver_reply reply = jougsilver_decode_reply(bytes);
    expect(reply.length == 24 && reply.kind == 16, "length and kind");
    expect(reply.number == 0x0102, "component number");
    expect(reply.code == 0xcafe, "code");
    expect(reply.capacity == 0x11121314, "capacity");
    expect(reply.short_instant == 0x21222324, "first short instant");
    expect(reply.margin == -66052, "margin");
    expect(reply.margin_instant == 0x41424344, "margin instant");
    struct jougsilver_checked checked = jougsilver_decode_check(bytes + 8);
    expect(checked.refusal == 0x11121314 && checked.byte == 0x21222324 && checked.components == 0xfffefdfcu, "a check's reply");
}

/* The second of two entries, with a value of its own in every byte but the reply's last ones. */
static void entries(void)
{
    uint8_t bytes[JOUGSILVER_ALL_LENGTH(2)] = {0};
    expect(sizeof bytes == 84 && JOUGSILVER_ALL_LENGTH(0) == 12, "the length of all");
    for (int i = 0; i < 32; i++)
        bytes[48 + i] = (uint8_t)(i + 1);
    struct jougsilver_entry entry = jougsilver_decode_entry(bytes, 1);
    expect(entry.refusal == 0x04030201 && entry.number == 0x08070605 && entry.byte == 0x0c0b0a09, "an entry's head");
    expect(entry.reply.length == 0x0e0d && entry.reply.margin_instant == 0, "an entry's reply");
    expect(jougsilver_decode_entry(bytes, 0).number == 0, "the first entry");
}

static void margins(void)
{
    const uint8_t ends[5][4] = {{0, 0, 0, 0}, {0xff, 0xff, 0xff, 0x7f}, {0, 0, 0, 0x80}, {0xff, 0xff, 0xff, 0xff}, {1, 0, 0, 0x80}};
    const int32_t values[5] = {0, INT32_MAX, INT32_MIN, -1, -INT32_MAX};
    for (int i = 0; i < 5; i++)
        expect(jougsilver_signed_at(ends[i]) == values[i], "a signed number at an end of its range");
}

/* The rules' figure: one task (8, 2, 7) on (6, 2, 4) is short at 7, margin -1 at 7; and each end of the refusals of the calls for one
   component and for a check. */
static void calls(void)
{
    const uint8_t sheet[40] = {18, 0, 1, 0, 1, 0, 6, 0, 0, 0, 2, 0, 0, 0, 4, 0, 0, 0, 16, 0,
                               2,  0, 8, 0, 0, 0, 2, 0, 0, 0, 7, 0, 0, 0, 6, 0, 3, 0, 1, 0};
    uint8_t bytes[JOUGSILVER_REPLY_LENGTH];
    expect(jougsilver_judge(sheet, 40, 0, bytes, sizeof bytes, 0) == JOUGSILVER_TAKEN, "judged");
    struct jougsilver_reply reply = jougsilver_decode_reply(bytes);
    expect(reply.length == JOUGSILVER_REPLY_LENGTH && reply.kind == 16 && reply.number == 1, "the reply's head");
    expect(reply.code == JOUGSILVER_SHORT && reply.capacity == 2 && reply.short_instant == 7, "short at 7");
    expect(reply.margin == -1 && reply.margin_instant == 7, "margin -1 at 7");
    expect(jougsilver_judge(sheet, 40, 1, bytes, sizeof bytes, 0) == JOUGSILVER_PLACE, "no component there");
    expect(jougsilver_judge(sheet, 40, 0, bytes, sizeof bytes, 1) == JOUGSILVER_ROOM, "no room there");
    expect(jougsilver_check(sheet, 39, bytes, JOUGSILVER_CHECK_LENGTH, 0) == JOUGSILVER_TAKEN, "checked");
    struct jougsilver_checked checked = jougsilver_decode_check(bytes);
    expect(checked.refusal == JOUGSILVER_CUT && checked.byte == 34 && checked.components == 0, "cut in the end record");
}

/* The rules' figure for judging all: component 1, the task (8, 2, 7) on (6, 2, 4), inside component 2. Every byte is settled, and
   those beside the reply stay. */
static void all(void)
{
    const uint8_t sheet[82] = {18, 0, 1, 0, 1, 0, 6, 0, 0, 0, 2, 0, 0, 0, 4, 0, 0, 0, 16, 0, 2, 0, 8, 0, 0, 0, 2, 0, 0, 0, 7, 0, 0, 0,
                               18, 0, 1, 0, 2, 0, 1, 0, 0, 0, 1, 0, 0, 0, 1, 0, 0, 0, 16, 0, 2, 0, 4, 0, 0, 0, 2, 0, 0, 0, 4, 0, 0, 0,
                               8,  0, 6, 0, 1, 0, 2, 0, 6, 0, 3, 0, 2, 0};
    const uint8_t expected[86] = {0xa5, 0, 0, 0, 0, 0, 0, 0, 0, 2, 0, 0, 0, 0, 0, 0, 0, 1, 0, 0, 0, 0, 0, 0, 0, 24, 0, 16, 0, 1, 0, 1, 0,
                                  2, 0, 0, 0, 7, 0, 0, 0, 255, 255, 255, 255, 7, 0, 0, 0, 0, 0, 0, 0, 2, 0, 0, 0, 34, 0, 0, 0,
                                  24, 0, 16, 0, 2, 0, 3, 0, 0, 0, 0, 0, 0, 0, 0, 0, 0, 0, 0, 0, 0, 0, 0, 0, 0xa5};
    uint8_t bytes[86], untouched[86];
    memset(bytes, 0xa5, sizeof bytes);
    memset(untouched, 0xa5, sizeof untouched);
    expect(jougsilver_judge_all(sheet, 82, bytes, 84, 1) == JOUGSILVER_ROOM, "a byte too few for all");
    expect(jougsilver_judge_all(sheet, 82, bytes, 84, 85) == JOUGSILVER_ROOM, "all past the buffer");
    expect(jougsilver_judge_all(sheet, 81, bytes, 3, 9) == JOUGSILVER_CUT, "a sheet's refusal before the room");
    expect(memcmp(bytes, untouched, sizeof bytes) == 0, "a refusal writes nothing");
    expect(jougsilver_judge_all(sheet, 82, bytes, 85, 1) == JOUGSILVER_TAKEN, "all judged");
    expect(memcmp(bytes, expected, sizeof bytes) == 0, "the reply of all");
    struct jougsilver_entry first = jougsilver_decode_entry(bytes + 1, 0), second = jougsilver_decode_entry(bytes + 1, 1);
    expect(first.number == 1 && first.byte == 0 && first.reply.code == JOUGSILVER_SHORT && first.reply.short_instant == 7, "1 is short at 7");
    expect(second.number == 2 && second.byte == 34 && second.reply.code == JOUGSILVER_WAITING && second.reply.capacity == 0, "2 waits");
    expect(jougsilver_judge(sheet, 82, 1, bytes, 24, 0) == JOUGSILVER_TAKEN && memcmp(bytes, expected + 61, 24) == 0, "2 alone waits too");
}

static void version(void)
{
    char text[32];
    snprintf(text, sizeof text, "%d.%d.%d", JOUGSILVER_VERSION_MAJOR, JOUGSILVER_VERSION_MINOR, JOUGSILVER_VERSION_PATCH);
    expect(strcmp(text, JOUGSILVER_VERSION) == 0, "the version's numbers are its text");
}

int main(int argc, char **argv)
{
    (void)argv;
    for (int i = 0; argc > 1 && i < NUMBERS; i++)
        printf("%u %s\n", (unsigned)numbers[i], jougsilver_refusal_text(numbers[i]));
    texts();
    decoding();
    entries();
    margins();
    calls();
    all();
    version();
    return wrong;
}
