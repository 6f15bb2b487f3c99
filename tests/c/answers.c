/* Answers a row of cases through the C library, in the text that the second program compares with its own. A case is one byte for the
 * operation (r read, p play, f flatten, t pitch, m items, s entries, w write), four numbers of four bytes (stated length, row number,
 * room, length of the buffer), and the buffer; that of a write holds a description, of which the two tables are made here. Every field of
 * every reply comes into the text, and so does whether lent memory outside the answer was kept. */
#include <inttypes.h>
#include <stdio.h>
#include <string.h>

#include "smaf.h"

enum { LARGEST = 70000, LARGEST_DESCRIPTION = 300000, LETTERS = 65536 };

static uint8_t buffer[LARGEST_DESCRIPTION];
static uint32_t rows[4 * LARGEST];
static uint64_t steps[LARGEST];
static uint32_t words[LARGEST];
static uint8_t room[LARGEST];
static uint8_t letters[LETTERS];
static uint32_t given_numbers[LARGEST_DESCRIPTION];
static uint8_t given_bytes[LARGEST_DESCRIPTION];

struct test_case {
    int operation;
    uint32_t stated, row, room, length;
};

/* What lent memory holds before a call, byte by byte. */
enum { BLANK = 0xA5 };

static bool is_kept(const void *memory, size_t from, size_t to)
{
    const uint8_t *bytes = memory;
    for (size_t at = from; at < to; at++)
        if (bytes[at] != BLANK)
            return false;
    return true;
}

static void put_kept(bool kept)
{
    puts(kept ? "-- kept" : "-- spoilt");
}

/* The refusal, where there is one. Its other fields are then 0; where there is none, its place is. */
static void put_refusal(bool zeros, uint32_t refusal, size_t place)
{
    if (!zeros)
        puts("a field that should be 0 is not");
    if (refusal != 0)
        printf("refused %" PRIu32 " %zu\n", refusal, place);
}

static void answer_read(struct test_case asked)
{
    size_t numbers = 4 * (size_t)asked.room;
    memset(rows, BLANK, numbers * sizeof rows[0]);
    struct smaf_read_reply reply = smaf_read(buffer, asked.length, asked.stated, rows, numbers);
    put_refusal(reply.refusal == 0 ? reply.place == 0 : reply.count == 0 && reply.code == 0 && !reply.matches, reply.refusal, reply.place);
    if (reply.refusal == 0)
        printf("rows %zu code %04x verdict %s\n", reply.count, (unsigned)reply.code, reply.matches ? "yes" : "no");
    if (reply.refusal == 0 && smaf_check_code(buffer, asked.stated - 2) != reply.code)
        puts("another check code");
    for (size_t at = 0; at < 4 * reply.count && at < numbers; at += 4)
        printf("%08" PRIx32 " %" PRIu32 " %" PRIu32 " %" PRIu32 "\n", rows[at], rows[at + 1], rows[at + 2], rows[at + 3]);
    put_kept(is_kept(rows, 4 * reply.count * sizeof rows[0], numbers * sizeof rows[0]));
}

static void answer_play(struct test_case asked)
{
    memset(steps, BLANK, asked.room * sizeof steps[0]);
    memset(words, BLANK, asked.room * sizeof words[0]);
    struct smaf_play_reply reply =
        smaf_play(buffer, asked.length, asked.stated, asked.row, steps, asked.room, words, asked.room);
    put_refusal(reply.refusal == 0 ? reply.place == 0 : reply.count == 0 && reply.end == 0, reply.refusal, reply.place);
    if (reply.refusal == 0)
        printf("rows %zu end %" PRIu64 "\n", reply.count, reply.end);
    for (size_t at = 0; at < reply.count && at < asked.room; at++)
        printf("%" PRIu64 " %08" PRIx32 "\n", steps[at], words[at]);
    put_kept(is_kept(steps, reply.count * sizeof steps[0], asked.room * sizeof steps[0]) &&
             is_kept(words, reply.count * sizeof words[0], asked.room * sizeof words[0]));
}

static void put_written(size_t length, size_t lent)
{
    printf("bytes %zu\n", length);
    for (size_t at = 0; at < length && at < lent; at++)
        printf("%02x", (unsigned)room[at]);
    puts("");
}

static void answer_flatten(struct test_case asked)
{
    memset(room, BLANK, asked.room);
    struct smaf_flatten_reply reply = smaf_flatten(buffer, asked.length, asked.stated, asked.row, room, asked.room);
    put_refusal(reply.refusal == 0 ? reply.place == 0 : reply.length == 0, reply.refusal, reply.place);
    if (reply.refusal == 0)
        put_written(reply.length, asked.room);
    put_kept(is_kept(room, reply.length, asked.room));
}

static void answer_items(struct test_case asked)
{
    size_t numbers = 2 * (size_t)asked.room;
    memset(rows, BLANK, numbers * sizeof rows[0]);
    struct smaf_items_reply reply = smaf_items(buffer, asked.length, asked.stated, asked.row, rows, numbers);
    put_refusal(reply.refusal == 0 ? reply.place == 0 : reply.count == 0, reply.refusal, reply.place);
    if (reply.refusal == 0)
        printf("rows %zu\n", reply.count);
    for (size_t at = 0; at < 2 * reply.count && at < numbers; at += 2)
        printf("%" PRIu32 " %08" PRIx32 "\n", rows[at], rows[at + 1]);
    put_kept(is_kept(rows, 2 * reply.count * sizeof rows[0], numbers * sizeof rows[0]));
}

static void put_entry(const uint32_t *numbers, size_t letter_count)
{
    printf("%" PRIu32 " %02" PRIx32 " %" PRIu32 " %" PRIu32 "\n", numbers[0], numbers[1], numbers[2], numbers[3]);
    if (numbers[0] != 3)
        return;
    for (size_t at = 0; at < letter_count && at < LETTERS; at++)
        printf("%02x", (unsigned)letters[at]);
    puts("");
}

static bool lacks_letters(struct test_case asked, size_t numbers, size_t lent)
{
    struct smaf_entries_reply reply =
        smaf_entries(buffer, asked.length, asked.stated, asked.row, rows, numbers, letters, lent);
    return reply.refusal == 15 && reply.place == 0;
}

static void answer_entries(struct test_case asked)
{
    size_t numbers = 4 * (size_t)asked.room;
    memset(rows, BLANK, numbers * sizeof rows[0]);
    memset(letters, BLANK, LETTERS);
    struct smaf_entries_reply reply =
        smaf_entries(buffer, asked.length, asked.stated, asked.row, rows, numbers, letters, LETTERS);
    put_refusal(reply.refusal == 0 ? reply.place == 0 : reply.count == 0 && reply.letters == 0, reply.refusal, reply.place);
    if (reply.refusal == 0)
        printf("rows %zu\n", reply.count);
    for (size_t at = 0; at < 4 * reply.count && at < numbers; at += 4)
        put_entry(rows + at, reply.letters);
    if (reply.letters > 0 && !lacks_letters(asked, numbers, reply.letters - 1))
        puts("room for a letter too few is enough");
    put_kept(is_kept(rows, 4 * reply.count * sizeof rows[0], numbers * sizeof rows[0]) && is_kept(letters, reply.letters, LETTERS));
}

/* A description as it is read: how much of it is taken, and how much of either table is used. */
static struct {
    size_t length, taken, numbers, bytes;
} given;

static bool has_left(size_t count)
{
    return count <= given.length - given.taken;
}

static uint32_t take_number(int size)
{
    uint32_t number = 0;
    for (int at = 0; at < size; at++)
        number = number << 8 | buffer[given.taken++];
    return number;
}

static void put_number(uint32_t number)
{
    given_numbers[given.numbers++] = number;
}

static bool put_bytes(size_t count)
{
    if (!has_left(count))
        return false;
    memcpy(given_bytes + given.bytes, buffer + given.taken, count);
    given.taken += count;
    given.bytes += count;
    return true;
}

/* The letters of all lists of a track stand together: a second list is refused, whatever its letters. */
static bool take_entries(uint32_t *counts, size_t count)
{
    for (size_t at = 0; at < count; at++) {
        if (!has_left(10))
            return false;
        uint32_t kind = take_number(1);
        put_number(kind);
        put_number(take_number(1));
        uint32_t from = take_number(4);
        put_number(from);
        put_number(take_number(4));
        if (kind == 3 && !put_bytes(from))
            return false;
        counts[2] += kind == 3 ? from : 0;
    }
    return true;
}

static bool take_items(size_t count)
{
    if (!has_left(8 * count))
        return false;
    for (size_t at = 0; at < 2 * count; at++)
        put_number(take_number(4));
    return true;
}

static bool take_track(void)
{
    uint32_t *counts = given_numbers + given.numbers;
    if (!put_bytes(7) || !has_left(2))
        return false;
    given.numbers += 4;
    counts[2] = 0;
    counts[0] = take_number(2);
    if (!take_entries(counts, counts[0]) || !has_left(4))
        return false;
    counts[1] = take_number(4);
    if (!take_items(counts[1]) || !has_left(4))
        return false;
    counts[3] = take_number(4);
    return put_bytes(counts[3]);
}

/* The two tables that a description says; whether it is whole. */
static bool take_description(size_t length)
{
    given.length = length;
    given.taken = given.numbers = given.bytes = 0;
    if (!put_bytes(5) || !has_left(1))
        return false;
    uint32_t tracks = take_number(1);
    for (uint32_t track = 0; track < tracks; track++)
        if (!take_track())
            return false;
    return true;
}

static void answer_write(struct test_case asked)
{
    memset(room, BLANK, asked.room);
    struct smaf_write_reply reply =
        smaf_write(given_numbers, given.numbers, given_bytes, given.bytes, room, asked.room);
    put_refusal(reply.refusal == 0 ? reply.place == 0 : reply.length == 0, reply.refusal, reply.place);
    if (reply.refusal == 0)
        put_written(reply.length, asked.room);
    put_kept(is_kept(room, reply.length, asked.room));
}

static void answer_pitch(struct test_case asked)
{
    struct smaf_pitch_reply reply = smaf_pitch((uint8_t)asked.stated, (uint8_t)asked.row);
    put_refusal(reply.refusal == 0 ? reply.place == 0 : reply.semitones == 0, reply.refusal, reply.place);
    if (reply.refusal == 0)
        printf("pitch %lld\n", (long long)reply.semitones);
    put_kept(true);
}

static uint32_t next_number(void)
{
    uint32_t number = 0;
    for (int at = 0; at < 4; at++)
        number = number << 8 | (uint32_t)(getchar() & 0xFF);
    return number;
}

/* Reads the next case and its buffer; whether there was a whole one within bounds. */
static bool next_case(struct test_case *asked)
{
    asked->operation = getchar();
    asked->stated = next_number();
    asked->row = next_number();
    asked->room = next_number();
    asked->length = next_number();
    bool writes = asked->operation == 'w';
    if (feof(stdin) || asked->room > LARGEST || asked->length > (writes ? LARGEST_DESCRIPTION : LARGEST))
        return false;
    if (fread(buffer, 1, asked->length, stdin) != asked->length)
        return false;
    return !writes || take_description(asked->length);
}

int main(void)
{
    struct test_case asked;
    while (next_case(&asked)) {
        switch (asked.operation) {
        case 'r': answer_read(asked); break;
        case 'p': answer_play(asked); break;
        case 'f': answer_flatten(asked); break;
        case 't': answer_pitch(asked); break;
        case 'm': answer_items(asked); break;
        case 's': answer_entries(asked); break;
        case 'w': answer_write(asked); break;
        default: puts("bad case"); return 1;
        }
    }
    return 0;
}
