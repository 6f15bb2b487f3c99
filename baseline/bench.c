/* Runs the proved operations and those of the baseline on the same files and tables in turn, and sees to it that they answer the same.
 *   bench            prints for each task the microseconds of both and their ratio; the time of a task is the least of many rounds in many passes
 *   bench TASK       prints the task's name, tasks being a, b, c and on; ends with 1 where there is no such task
 *   bench TASK SIDE  lays the task's file out and, where SIDE is o for the proved operation or t for the baseline's, calls that once; prints
 *                    nothing, so that somebody else can count its instructions */
#include <stdio.h>
#include <string.h>
#include <time.h>

#include "baseline.h"

enum { LARGEST = 65536, ROWS = 8192, MESSAGES = 70000, ROUNDS = 20, PASSES = 15 };

/* What one side is lent, and what it answers. */
struct side {
    uint32_t rows[4 * ROWS];
    uint64_t steps[MESSAGES];
    uint32_t words[MESSAGES];
    uint8_t room[LARGEST];
    size_t refusal, place, count, end;
};
static struct side ours, theirs;

static uint8_t file[LARGEST];
static size_t length;

/* FILES */

static void put(const void *given, size_t many) {
    memcpy(file + length, given, many);
    length += many;
}

static void put_byte(unsigned byte) { file[length++] = (uint8_t)byte; }

static void put_number(size_t number) {
    for (int shift = 24; shift >= 0; shift -= 8)
        put_byte(number >> shift & 255);
}

/* Writes a chunk's header with no size yet; answers where its body begins. */
static size_t begin(const char *id, unsigned last) {
    put(id, 3);
    put_byte(last);
    put_number(0);
    return length;
}

static void end(size_t body) {
    size_t past = length;
    length = body - 4;
    put_number(past - body);
    length = past;
}

static size_t begin_file(void) {
    length = 0;
    size_t body = begin("MMM", 'D');
    put_byte('C'), put_byte('N'), put_byte('T'), put_byte('I');
    put_number(5);
    put("\0\0\0\0\0", 5);
    return body;
}

static void end_file(size_t body) {
    length += 2;
    end(body);
    uint16_t code = base_check_code(file, length - 2);
    file[length - 2] = (uint8_t)(code >> 8);
    file[length - 1] = (uint8_t)code;
}

static size_t begin_track(int phrases) {
    size_t body = begin("MTR", 0);
    put_byte(0), put_byte((unsigned)phrases), put_byte(2), put_byte(2), put_byte(0), put_byte(0);
    return body;
}

static uint32_t state;
static uint32_t any(uint32_t many) {
    state = state * 1664525u + 1013904223u;
    return (state >> 8) % many;
}

/* A note, now and then a program, a volume or a short form: three bytes each, duration and all, but for a few. */
static void put_item(void) {
    put_byte(any(24) + 1);
    if (any(16) == 0)
        put_byte(0), put_byte(any(4) << 6 | (any(2) ? 0x37 : 0x30)), put_byte(any(128));
    else if (any(16) == 0)
        put_byte(0), put_byte(any(4) << 6 | any(3) << 4 | (any(14) + 1));
    else
        put_byte(any(4) << 6 | any(3) << 4 | (any(12) + 1)), put_byte(any(100) + 1);
}

/* A stream of so many items, or as many as have room in so many bytes. */
static void stream(size_t items, size_t bytes) {
    state = 1;
    size_t body = begin_file(), track = begin_track(0), sequence = begin("Mts", 'q');
    for (size_t i = 0; i < items && length + 8 < bytes; i++)
        put_item();
    end(sequence);
    end(track);
    end_file(body);
}

static void put_phrase(unsigned letter, size_t from, size_t to) {
    put_byte('P'), put_byte(letter), put_byte(':');
    put_number(from), put_number(to);
    put_byte(',');
}

/* A track of eight phrases of so many items each, played in an order of so many letters. Where it is marked, an end mark stands after each
 * phrase, which none of the eight reaches, and the last letter is that of a ninth one: the seventh, its mark, and the eighth. */
static void order(size_t items, size_t letters, int marked) {
    static size_t starts[8], stops[8];
    state = 2;
    size_t body = begin_file(), track = begin_track(1), sequence = begin("Mts", 'q');
    for (int p = 0; p < 8; p++) {
        starts[p] = length - sequence;
        for (size_t i = 0; i < items; i++)
            put_item();
        stops[p] = length - sequence;
        if (marked)
            put("\0\0\0\0", 4);
    }
    end(sequence);
    size_t seek = begin("Msp", 'I');
    for (int p = 0; p < 8; p++)
        put_phrase('a' + (unsigned)p, starts[p], stops[p]);
    if (marked)
        put_phrase('i', starts[6], stops[7]);
    put("SL:", 3);
    for (size_t i = 0; i < letters; i++)
        put_byte('a' + any(8));
    if (marked)
        file[length - 1] = 'i';
    end(seek);
    end(track);
    end_file(body);
}

static void chunks(size_t many) {
    size_t body = begin_file(), track = begin_track(0), sequence = begin("Mts", 'q');
    put("\0\0\0\0", 4);
    end(sequence);
    end(track);
    for (size_t i = 0; i < many; i++) {
        put_number(0x58000000 + i * 40503);
        put_number(0);
    }
    end_file(body);
}

/* TABLES, of which a file is written */

static uint32_t numbers[LARGEST];
static uint8_t bytes[LARGEST];
static size_t number_count, byte_count;

/* How far the items of a track come in its sequence body. */
static size_t place;

static void give_bytes(const void *given, size_t many) {
    memcpy(bytes + byte_count, given, many);
    byte_count += many;
}

static void give_pair(size_t a, size_t b) {
    numbers[number_count++] = (uint32_t)a;
    numbers[number_count++] = (uint32_t)b;
}

static void give_entry(unsigned kind, unsigned letter, size_t from, size_t to) {
    give_pair(kind, letter);
    give_pair(from, to);
}

/* An item whose word has these fields; it takes so many bytes behind its duration. */
static void give_item(uint32_t duration, uint32_t kind, uint32_t value, uint32_t gate, size_t size) {
    uint32_t channel = kind < 14 ? any(4) : 0;
    give_pair(duration, kind << 27 | channel << 25 | value << 17 | gate << 2);
    place += (duration < 128 ? 1 : 2) + size;
}

static void give_note(uint32_t duration, uint32_t gate) { give_item(duration, 1, any(3) << 4 | (any(12) + 1), gate, gate < 128 ? 2 : 3); }

static void begin_tables(void) {
    number_count = byte_count = 0;
    give_bytes("\0\0\0\0\0", 5);
}

/* Answers where the track's counts stand, which are set when its parts are given: entries, items; then letters and source. */
static uint32_t *give_track(unsigned number, unsigned phrases) {
    uint32_t *counts = numbers + number_count;
    uint8_t head[7] = {(uint8_t)number, 0, (uint8_t)phrases, 2, 2, 0, 0};
    memset(counts, 0, 4 * sizeof *counts);
    number_count += 4;
    place = 0;
    give_bytes(head, 7);
    return counts;
}

/* One track of short notes, three bytes each, in eight phrases, with an order of so many letters. */
static void tables_of_notes(void) {
    enum { PHRASE = 2700, ORDER = 500 };
    state = 3;
    begin_tables();
    uint32_t *counts = give_track(0, 1);
    for (unsigned p = 0; p < 8; p++)
        give_entry(2, 'a' + p, p * PHRASE * 3, (p + 1) * PHRASE * 3);
    give_entry(3, 0, 0, 0);
    for (int i = 0; i < 8 * PHRASE; i++)
        give_note(any(24) + 1, any(100) + 1);
    for (int i = 0; i < ORDER; i++)
        bytes[byte_count++] = (uint8_t)('a' + any(8));
    counts[0] = 9, counts[1] = 8 * PHRASE, counts[2] = ORDER;
}

/* An exclusive of so many bytes from maker to F7, which stand in the source behind three that are its head. */
static void give_exclusive(uint32_t duration, uint32_t *counts, uint32_t size) {
    give_pair(duration, 14u << 27 | counts[3] << 11 | size << 3);
    place += (duration < 128 ? 1 : 2) + 3 + size;
    give_bytes("\xFF\xF0", 3);
    for (uint32_t i = 1; i < size; i++)
        bytes[byte_count++] = (uint8_t)any(128);
    bytes[byte_count++] = 0xF7;
    counts[3] += 3 + size;
}

/* Of sixteen items half are notes, some of them long, and the others controls, short forms, exclusives, rests; few are end marks. */
static void give_mixed(uint32_t *counts) {
    uint32_t duration = any(4) ? any(100) : any(16000) + 128, turn = any(16);
    counts[1]++;
    if (turn < 8)
        give_note(duration, any(4) ? any(127) + 1 : any(16000) + 128);
    else if (turn < 12)
        give_item(duration, any(8) + 3, any(5), 0, 3);
    else if (turn < 14)
        give_item(duration, any(3) + 11, any(14) + 1, 0, 2);
    else if (turn < 15)
        give_exclusive(duration, counts, any(16) + 3);
    else if (any(4))
        give_item(duration, 15, 0, 0, 2);
    else
        give_item(0, 16, 0, 0, 3);
}

/* Eight tracks of mixed events, streams with a start and a stop. */
static void tables_of_tracks(void) {
    state = 4;
    begin_tables();
    for (unsigned number = 0; number < 8; number++) {
        uint32_t *counts = give_track(number, 0);
        uint32_t *entries = numbers + number_count;
        give_entry(0, 0, 0, 0);
        give_entry(1, 0, 0, 0);
        counts[0] = 2;
        while (place < 8100) {
            if (counts[1] == 100)
                entries[2] = (uint32_t)place;
            give_mixed(counts);
        }
        entries[6] = (uint32_t)place;
    }
}

/* CALLS */

static void read_ours(void) {
    struct smaf_read_reply r = smaf_read(file, length, length, ours.rows, 4 * ROWS);
    ours.refusal = r.refusal, ours.place = r.place, ours.count = r.count, ours.end = (size_t)r.code << 1 | r.matches;
}
static void read_theirs(void) {
    struct smaf_read_reply r = base_read(file, length, length, theirs.rows, 4 * ROWS);
    theirs.refusal = r.refusal, theirs.place = r.place, theirs.count = r.count, theirs.end = (size_t)r.code << 1 | r.matches;
}
static void play_ours(void) {
    struct smaf_play_reply r = smaf_play(file, length, length, 2, ours.steps, MESSAGES, ours.words, MESSAGES);
    ours.refusal = r.refusal, ours.place = r.place, ours.count = r.count, ours.end = r.end;
}
static void play_theirs(void) {
    struct smaf_play_reply r = base_play(file, length, length, 2, theirs.steps, MESSAGES, theirs.words, MESSAGES);
    theirs.refusal = r.refusal, theirs.place = r.place, theirs.count = r.count, theirs.end = r.end;
}
static void flatten_ours(void) {
    struct smaf_flatten_reply r = smaf_flatten(file, length, length, 2, ours.room, LARGEST);
    ours.refusal = r.refusal, ours.place = r.place, ours.count = r.length;
}
static void flatten_theirs(void) {
    struct smaf_flatten_reply r = base_flatten(file, length, length, 2, theirs.room, LARGEST);
    theirs.refusal = r.refusal, theirs.place = r.place, theirs.count = r.length;
}
static void write_ours(void) {
    struct smaf_write_reply r = smaf_write(numbers, number_count, bytes, byte_count, ours.room, LARGEST);
    ours.refusal = r.refusal, ours.place = r.place, ours.count = r.length;
}
static void write_theirs(void) {
    struct smaf_write_reply r = base_write(numbers, number_count, bytes, byte_count, theirs.room, LARGEST);
    theirs.refusal = r.refusal, theirs.place = r.place, theirs.count = r.length;
}
static void code_ours(void) { ours.count = smaf_check_code(file, length); }
static void code_theirs(void) { theirs.count = base_check_code(file, length); }

/* TASKS: the file or the tables of each, and the refusal that both sides answer with */

static void file_of_items(void) { stream(100000, LARGEST - 8); }
static void file_of_chunks(void) { chunks(8000); }
static void file_of_stream(void) { stream(20000, LARGEST); }
static void file_of_order(void) { order(20, 3000, 0); }
static void file_of_stopped_order(void) { order(20, 3000, 1); }
static void file_of_short_order(void) { order(20, 1000, 0); }
static void file_of_long_order(void) { order(200, 58000, 0); }

static const struct task {
    const char *what;
    void (*lay_out)(void);
    void (*mine)(void);
    void (*other)(void);
    size_t refusal;
} tasks[] = {
    {"read: a 64 KB body of small items", file_of_items, read_ours, read_theirs, 0},
    {"read: 8,000 chunks", file_of_chunks, read_ours, read_theirs, 0},
    {"play: a stream of 20,000 messages", file_of_stream, play_ours, play_theirs, 0},
    {"play: an order of 3,000 letters, 60,000 messages", file_of_order, play_ours, play_theirs, 0},
    {"play: an order of 3,000 letters, stopped by a mark in the last", file_of_stopped_order, play_ours, play_theirs, 0},
    {"flatten: an order of 1,000 letters, 20,000 messages", file_of_short_order, flatten_ours, flatten_theirs, 0},
    {"refused: an order of 58,000 letters, play", file_of_long_order, play_ours, play_theirs, 15},
    {"refused: an order of 58,000 letters, flatten", file_of_long_order, flatten_ours, flatten_theirs, 18},
    {"write: a 64 KB file of one track, short notes in phrases", tables_of_notes, write_ours, write_theirs, 0},
    {"write: a 64 KB file of eight tracks, mixed events", tables_of_tracks, write_ours, write_theirs, 0},
    {"check code of 64 KB", file_of_items, code_ours, code_theirs, 0},
};
enum { TASKS = sizeof tasks / sizeof *tasks };

/* Lays the task's file out; whether both sides answer it alike, and with the task's refusal. */
static int agree(const struct task *task) {
    task->lay_out();
    memset(&ours, 0, sizeof ours);
    memset(&theirs, 0, sizeof theirs);
    task->mine();
    task->other();
    if (memcmp(&ours, &theirs, sizeof ours) == 0 && ours.refusal == task->refusal)
        return 1;
    printf("%s: the two answer differently, or with another refusal than %zu\n", task->what, task->refusal);
    return 0;
}

/* TIME */

static double now(void) {
    struct timespec t;
    clock_gettime(CLOCK_MONOTONIC, &t);
    return (double)t.tv_sec * 1e6 + (double)t.tv_nsec / 1e3;
}

/* Microseconds of one call, from so many in a row. */
static double once(void (*task)(void), int calls) {
    double start = now();
    for (int i = 0; i < calls; i++)
        task();
    return (now() - start) / calls;
}

/* The least time of a task's call on either side. */
struct best {
    double mine, other;
};

/* Measures both sides in turn; whether they agree. */
static int measure(const struct task *task, struct best *best) {
    if (!agree(task))
        return 0;
    int calls = (int)(2000 / (once(task->other, 3) + 1)) + 1;
    for (int round = 0; round < ROUNDS; round++) {
        double a = once(task->mine, calls), b = once(task->other, calls);
        best->mine = a < best->mine ? a : best->mine;
        best->other = b < best->other ? b : best->other;
    }
    return 1;
}

/* Whether the ratio is over 1.25. */
static int print_row(const struct task *task, const struct best *best) {
    double ratio = best->mine / best->other;
    printf("| %s | %.1f | %.1f | %.2f%s |\n", task->what, best->mine, best->other, ratio, ratio > 1.25 ? " (over)" : "");
    return ratio > 1.25;
}

/* All tasks are gone over some times, since others' work on a machine can slow all of a task's rounds down, and one side's more than the other's. Answers
 * 0; or 1 where a ratio is over 1.25, 2 where two sides do not agree. */
static int measure_all(void) {
    struct best best[TASKS];
    int worst = 0;
    for (int i = 0; i < TASKS; i++)
        best[i] = (struct best){1e18, 1e18};
    for (int pass = 0; pass < PASSES; pass++)
        for (int i = 0; i < TASKS; i++)
            if (!measure(&tasks[i], &best[i]))
                return 2;
    printf("| task | proved, µs | baseline, µs | ratio |\n|---|---|---|---|\n");
    for (int i = 0; i < TASKS; i++)
        worst |= print_row(&tasks[i], &best[i]);
    return worst;
}

static int name(const struct task *task) {
    if (!agree(task))
        return 2;
    printf("%s\n", task->what);
    return 0;
}

static void call(const struct task *task, char side) {
    task->lay_out();
    if (side == 'o')
        task->mine();
    if (side == 't')
        task->other();
}

int main(int words, char **word) {
    if (words == 1)
        return measure_all();
    int task = word[1][0] - 'a';
    if (task < 0 || task >= TASKS)
        return 1;
    if (words == 2)
        return name(&tasks[task]);
    call(&tasks[task], word[2][0]);
    return 0;
}
