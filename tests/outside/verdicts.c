/*
 * Prints the listing (docs/RULES.md, 15) of the sheet on standard input, from the call that judges all and the header's decoding
 * alone. Ends with 3 where something failed, or where a component judged by itself gets another answer.
 */
#include <jougsilver.h>

#include <inttypes.h>
#include <stdio.h>
#include <string.h>

/* One byte more than a sheet may have, so that a longer input is seen to be longer. */
static uint8_t sheet[JOUGSILVER_SHEET_LENGTH + 1];
static uint8_t all[JOUGSILVER_ALL_LENGTH(JOUGSILVER_MOST_COMPONENTS)];

static void print_margin(const struct jougsilver_reply *reply)
{
    if (reply->margin_instant == 0)
        printf(" - -\n");
    else
        printf(" %" PRId32 " %" PRIu32 "\n", reply->margin, reply->margin_instant);
}

static int print_reply(const struct jougsilver_reply *reply)
{
    printf("%" PRIu16 " %s", reply->number, jougsilver_code_text(reply->code));
    switch (reply->code) {
    case JOUGSILVER_ACCEPTED:
        printf(" %" PRIu32, reply->capacity);
        print_margin(reply);
        return 0;
    case JOUGSILVER_SHORT:
        printf(" %" PRIu32 " %" PRIu32, reply->capacity, reply->short_instant);
        print_margin(reply);
        return 0;
    case JOUGSILVER_NONE:
    case JOUGSILVER_WAITING:
        printf("\n");
        return 0;
    default:
        return 3;
    }
}

/* Whether an entry is what the single call answers, and names the component's number and the place of its record. */
static int agrees(size_t length, uint32_t place, const struct jougsilver_entry *entry)
{
    uint8_t bytes[JOUGSILVER_REPLY_LENGTH] = {0};
    uint32_t refusal = jougsilver_judge(sheet, length, place, bytes, sizeof bytes, 0);
    uint32_t kind = jougsilver_number_at(sheet + entry->byte + 2, 2);
    return refusal == entry->refusal && memcmp(bytes, all + JOUGSILVER_ALL_LENGTH(place) + 12, sizeof bytes) == 0 &&
           (kind == 1 || kind == 4) && jougsilver_number_at(sheet + entry->byte + 4, 2) == entry->number &&
           (refusal != JOUGSILVER_TAKEN || entry->reply.number == entry->number);
}

static int print_all(size_t length)
{
    uint32_t count = jougsilver_decode_check(all).components;
    for (uint32_t place = 0; place < count; place++) {
        struct jougsilver_entry entry = jougsilver_decode_entry(all, place);
        if (!agrees(length, place, &entry))
            return 3;
        if (entry.refusal == JOUGSILVER_LONG)
            printf("%" PRIu32 " long\n", entry.number);
        else if (entry.refusal != JOUGSILVER_TAKEN || print_reply(&entry.reply) != 0)
            return 3;
    }
    printf("end %" PRIu32 "\n", count);
    return 0;
}

int main(void)
{
    uint8_t bytes[JOUGSILVER_CHECK_LENGTH];
    size_t length = fread(sheet, 1, sizeof sheet, stdin);
    if (ferror(stdin) || jougsilver_check(sheet, length, bytes, sizeof bytes, 0) != JOUGSILVER_TAKEN)
        return 3;
    struct jougsilver_checked checked = jougsilver_decode_check(bytes);
    if (jougsilver_judge_all(sheet, length, all, sizeof all, 0) != checked.refusal)
        return 3;
    if (checked.refusal == JOUGSILVER_TAKEN)
        return memcmp(bytes, all, sizeof bytes) == 0 ? print_all(length) : 3;
    printf("refused %" PRIu32 " %" PRIu32 "\n", checked.refusal, checked.byte);
    fprintf(stderr, "%s\n", jougsilver_refusal_text(checked.refusal));
    return 2;
}
