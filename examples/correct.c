/* Lengthens the last note of the first readable track of a SMAF file, and writes the corrected file.
 *
 *     correct INPUT STEPS OUTPUT
 *
 * The note is the one that stands last in the track's sequence. Its gate time grows by STEPS, a number from 0 to 16,511, and may not come
 * out over 16,511. Where it then takes a byte more, the addresses behind it in the seek entries move by one. All else is as it was.
 *
 * A file can be written only in one layout: contents information (CNTI) of five bytes, then score tracks of format type 0, each with its seek
 * chunk or none, then its sequence chunk. What a file has beside that would be lost, so OUTPUT is not written then, and standard error
 * says what it is: another chunk, a setup chunk, a closed score track, a PCM track (the first readable track or a later one), a
 * longer CNTI. Nor is it written where the first readable track has no note.
 *
 * Two things are not kept, and standard error says so where they were there: a comma behind the last entry of a seek body, which makes the
 * file shorter, and a check code that was not the file's.
 *
 * The exit status is 0 where OUTPUT is written, 1 where INPUT cannot be corrected so, and 2 where the words are no good or a file cannot be read
 * or written. */
#include <inttypes.h>
#include <stdio.h>
#include <string.h>

#include "smaf.h"

enum { LARGEST = 65536, LONGEST = 16511 };
enum { CONTENTS_SIZE = 5, FIXED_SIZE = 6, HEADER_SIZE = 8 };
enum { NOTE = 1, SHORT_MODULATION = 11, EXCLUSIVE = 14, END_MARK = 16 };
enum { START, STOP, PHRASE };

/* One byte more than the largest file shows that a file is too large. */
static uint8_t file[LARGEST + 1];
static size_t length;
static uint32_t rows[32768];

/* The two tables that a file is written from, and how much of each is used. No file of LARGEST bytes needs more. */
static uint32_t numbers[LARGEST];
static uint8_t bytes[LARGEST];
static size_t numbers_used, bytes_used;

static uint8_t corrected[LARGEST];

static int complain(int status, const char *what, const char *name)
{
    fprintf(stderr, "correct: %s%s\n", what, name);
    return status;
}

static int complain_of_refusal(const char *what, uint32_t refusal, size_t place)
{
    fprintf(stderr, "correct: %s: refused %" PRIu32 " at %zu (smaf.h says what that means)\n", what, refusal, place);
    return 1;
}

struct chunk {
    uint32_t id;
    size_t place, size, container;
};

static struct chunk chunk_of(size_t row)
{
    const uint32_t *cells = rows + 4 * row;
    struct chunk chunk = {cells[0], cells[1], cells[2], cells[3]};
    return chunk;
}

/* The ID of four characters; for a track, whose fourth byte is its number, of three and a 0. */
static bool has_id(struct chunk chunk, const char *id, uint32_t mask)
{
    uint32_t wanted = 0;
    for (int at = 0; at < 4; at++)
        wanted = wanted << 8 | (uint8_t)id[at];
    return (chunk.id & mask) == wanted;
}

/* What stands in the file's own list for which a written file has no place, or NULL. */
static const char *obstacle_on_top(struct chunk chunk)
{
    if (has_id(chunk, "ATR", 0xFFFFFF00))
        return "a PCM track";
    if (!has_id(chunk, "MTR", 0xFFFFFF00))
        return "a chunk that is no score track";
    return file[chunk.place + HEADER_SIZE] == 0 ? NULL : "a closed score track";
}

static const char *obstacle_in(size_t row)
{
    struct chunk chunk = chunk_of(row);
    if (row == 1)
        return chunk.size == CONTENTS_SIZE ? NULL : "a CNTI of more than five bytes";
    if (chunk.container == 0)
        return obstacle_on_top(chunk);
    if (has_id(chunk, "Mtsu", 0xFFFFFFFF))
        return "a setup chunk";
    if (has_id(chunk, "MspI", 0xFFFFFFFF) && row != chunk.container + 1)
        return "a seek chunk behind its sequence chunk";
    return NULL;
}

static bool can_be_written(size_t count)
{
    for (size_t row = 1; row < count; row++) {
        const char *obstacle = obstacle_in(row);
        if (obstacle != NULL) {
            fprintf(stderr, "correct: %s at %zu, for which a written file has no place\n", obstacle, chunk_of(row).place);
            return false;
        }
    }
    return true;
}

/* Puts the track that a row names behind those that are in the tables. Its sequence body, in its last row, is the source of its exclusives. */
static int add_track(size_t row, size_t last)
{
    uint32_t *counts = numbers + numbers_used;
    uint8_t *head = bytes + bytes_used;
    struct chunk track = chunk_of(row), sequence = chunk_of(last);
    head[0] = (uint8_t)track.id;
    memcpy(head + 1, file + track.place + HEADER_SIZE, FIXED_SIZE);
    numbers_used += 4;
    bytes_used += 1 + FIXED_SIZE;
    struct smaf_entries_reply entries = smaf_entries(file, sizeof file, length, row, numbers + numbers_used, LARGEST - numbers_used,
                                                     bytes + bytes_used, LARGEST - bytes_used);
    if (entries.refusal != 0)
        return complain_of_refusal("the entries of a track", entries.refusal, entries.place);
    numbers_used += 4 * entries.count;
    bytes_used += entries.letters;
    struct smaf_items_reply items =
        smaf_items(file, sizeof file, length, row, numbers + numbers_used, LARGEST - numbers_used);
    if (items.refusal != 0)
        return complain_of_refusal("the items of a track", items.refusal, items.place);
    numbers_used += 2 * items.count;
    memcpy(bytes + bytes_used, file + sequence.place + HEADER_SIZE, sequence.size);
    bytes_used += sequence.size;
    counts[0] = (uint32_t)entries.count;
    counts[1] = (uint32_t)items.count;
    counts[2] = (uint32_t)entries.letters;
    counts[3] = (uint32_t)sequence.size;
    return 0;
}

/* The tables of a file that can be written. */
static int fill_tables(size_t count)
{
    memcpy(bytes, file + chunk_of(1).place + HEADER_SIZE, CONTENTS_SIZE);
    bytes_used = CONTENTS_SIZE;
    for (size_t row = 2, last; row < count; row = last + 1) {
        last = row;
        while (last + 1 < count && chunk_of(last + 1).container == row)
            last++;
        int status = add_track(row, last);
        if (status != 0)
            return status;
    }
    return 0;
}

static uint32_t gate_in(uint32_t word)
{
    return word >> 2 & 0x7FFF;
}

/* How many bytes a duration or a gate time takes. */
static uint32_t time_size(uint32_t steps)
{
    return steps < 128 ? 1 : 2;
}

/* How many bytes an item takes. */
static uint32_t item_size(const uint32_t *item)
{
    uint32_t word = item[1], kind = word >> 27, before = time_size(item[0]);
    if (kind == END_MARK)
        return 4;
    if (kind == NOTE)
        return before + 1 + time_size(gate_in(word));
    if (kind == EXCLUSIVE)
        return before + 3 + (word >> 3 & 0xFF);
    return before + (kind < SHORT_MODULATION ? 3 : 2);
}

/* Addresses behind a place move on. Of the points only a stream's are addresses. */
static void move_addresses(uint32_t *entries, size_t count, bool phrases, uint32_t place, uint32_t by)
{
    for (uint32_t *entry = entries; entry < entries + 4 * count; entry += 4) {
        bool point = entry[0] == START || entry[0] == STOP;
        if ((entry[0] == PHRASE || (point && !phrases)) && entry[2] > place)
            entry[2] += by;
        if (entry[0] == PHRASE && entry[3] > place)
            entry[3] += by;
    }
}

/* The note that is lengthened: its gate time before and after, and how many bytes more it takes. */
struct change {
    uint32_t from, to;
    size_t bytes;
};

/* Lengthens the last note of the first track in the tables. */
static int lengthen(uint32_t steps, struct change *change)
{
    uint32_t *entries = numbers + 4, *items = entries + 4 * numbers[0], *note = NULL;
    uint32_t place = 0, place_of_note = 0;
    for (uint32_t *item = items; item < items + 2 * numbers[1]; item += 2) {
        if (item[1] >> 27 == NOTE) {
            note = item;
            place_of_note = place;
        }
        place += item_size(item);
    }
    if (note == NULL)
        return complain(1, "the first readable track has no note", "");
    change->from = gate_in(note[1]);
    change->to = change->from + steps;
    if (change->to > LONGEST)
        return complain(1, "the note's gate time would be over 16,511", "");
    note[1] += steps << 2;
    change->bytes = time_size(change->to) - time_size(change->from);
    move_addresses(entries, numbers[0], bytes[CONTENTS_SIZE + 2] == 1, place_of_note, (uint32_t)change->bytes);
    return 0;
}

static int put_file(const char *name, size_t size)
{
    FILE *output = fopen(name, "wb");
    if (output == NULL)
        return complain(2, "cannot write ", name);
    size_t written = fwrite(corrected, 1, size, output);
    return fclose(output) != 0 || written != size ? complain(2, "cannot write ", name) : 0;
}

/* Corrects the file that was read, and writes it. */
static int correct(uint32_t steps, const char *name)
{
    struct change change;
    struct smaf_read_reply read = smaf_read(file, sizeof file, length, rows, sizeof rows / sizeof rows[0]);
    if (read.refusal != 0)
        return complain_of_refusal("the file", read.refusal, read.place);
    if (!can_be_written(read.count) || fill_tables(read.count) != 0 || lengthen(steps, &change) != 0)
        return 1;
    struct smaf_write_reply written = smaf_write(numbers, numbers_used, bytes, bytes_used, corrected, sizeof corrected);
    if (written.refusal != 0)
        return complain_of_refusal("the corrected file", written.refusal, written.place);
    if (put_file(name, written.length) != 0)
        return 2;
    if (written.length < length + change.bytes)
        complain(0, "a comma behind the last entry of a seek body is not kept", "");
    if (!read.matches)
        complain(0, "the check code was not the file's; the corrected file has its own", "");
    printf("the last note's gate time was %" PRIu32 ", and is %" PRIu32 "\n", change.from, change.to);
    return 0;
}

/* A number from 0 to 16,511, in digits; whether the word is one. */
static bool read_steps(const char *word, uint32_t *steps)
{
    *steps = 0;
    for (const char *digit = word; *digit != '\0'; digit++) {
        if (*digit < '0' || *digit > '9' || *steps > LONGEST)
            return false;
        *steps = 10 * *steps + (uint32_t)(*digit - '0');
    }
    return *word != '\0' && *steps <= LONGEST;
}

int main(int count, char **words)
{
    uint32_t steps;
    if (count != 4)
        return complain(2, "give three words: correct INPUT STEPS OUTPUT", "");
    if (!read_steps(words[2], &steps))
        return complain(2, "no number of steps from 0 to 16511: ", words[2]);
    FILE *input = fopen(words[1], "rb");
    if (input == NULL)
        return complain(2, "cannot open ", words[1]);
    length = fread(file, 1, sizeof file, input);
    bool failed = ferror(input) != 0;
    fclose(input);
    if (failed)
        return complain(2, "cannot read ", words[1]);
    return correct(steps, words[3]);
}
