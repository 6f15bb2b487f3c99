/* Read, play and flatten. */
#include "baseline.h"
#include "parse.h"

#include <string.h>

struct smaf_read_reply base_read(const uint8_t *s, size_t length, size_t n, uint32_t *rows, size_t room) {
    static struct file file;
    if (n > length || n > 65536)
        return (struct smaf_read_reply){.refusal = 1};
    struct refusal r = check_file(s, n, 0, &file);
    if (r.number)
        return (struct smaf_read_reply){.refusal = r.number, .place = r.place};
    if (room / 4 < file.rows)
        return (struct smaf_read_reply){.refusal = 15};
    uint32_t *put = rows, row = 0;
#define ROW(at, container) (put[0] = number_4(s + (at)), put[1] = (uint32_t)(at), put[2] = number_4(s + (at) + 4), put[3] = (container), put += 4)
    ROW(0, 0);
    for (size_t at = 8; at < n - 2; at += 8 + number_4(s + at + 4)) {
        ROW(at, 0);
        uint32_t own = ++row, family = number_4(s + at) >> 8, size = number_4(s + at + 4);
        if ((family == ID(0, 'M', 'T', 'R') || family == ID(0, 'A', 'T', 'R')) && size > 0 && s[at + 8] == 0)
            for (size_t in = at + 14; in < at + 8 + size; in += 8 + number_4(s + in + 4), row++)
                ROW(in, own);
    }
    uint16_t code = base_check_code(s, n - 2);
    return (struct smaf_read_reply){.count = file.rows, .code = code, .matches = s[n - 2] == code >> 8 && s[n - 1] == (code & 255)};
}

/* A sequence body decoded once: its messages with their onsets, and the bytes of each event. */
static struct {
    uint64_t onset[32769];
    uint32_t word[32768];
    uint32_t event[32768], past[32768];
    size_t count;
} messages;

/* Its end marks: where each stands, its onset, and how many messages stand before it. */
struct mark {
    uint64_t onset;
    uint32_t place, before;
};
static struct mark marks[65536 / 4 + 1];
static size_t mark_count;

/* Decodes up to the first end mark that stands at an address or after it; with the body's size for an address, all of it. The last of the
 * marks is where that ended: the body's end is one too, since a section without a stop ends there as at a mark. */
static void decode(const uint8_t *s, const struct track *t, size_t address) {
    const uint8_t *body = s + t->sequence.at;
    size_t n = t->sequence.size, at = 0, count = 0, marked = 0;
    uint64_t time = 0;
    while (at < n) {
        struct item item;
        size_t next = read_item(body, n, at, t->pcm, &item);
        time += item.duration;
        if (item.what == MESSAGE) {
            messages.onset[count] = time;
            messages.word[count] = item.word;
            messages.event[count] = (uint32_t)item.event;
            messages.past[count] = (uint32_t)next;
            count++;
        } else if (item.what == END_MARK) {
            if (at >= address)
                break;
            marks[marked++] = (struct mark){time, (uint32_t)at, (uint32_t)count};
        }
        at = next;
    }
    marks[marked++] = (struct mark){time, (uint32_t)at, (uint32_t)count};
    messages.count = count;
    mark_count = marked;
}

/* A section: its first message and the one after its last, its start and how long it lasts, and whether a mark stops it. */
struct section {
    size_t first, past;
    uint64_t start, lasts;
    int known, stopped;
};

static uint64_t time_of(const uint8_t *s, const struct track *t, size_t address) {
    const uint8_t *body = s + t->sequence.at;
    uint64_t time = 0;
    size_t at = 0;
    while (at < address) {
        struct item item;
        at = read_item(body, t->sequence.size, at, t->pcm, &item);
        time += item.duration;
    }
    return time;
}

static size_t first_from(uint64_t time) {
    size_t low = 0, high = messages.count;
    while (low < high) {
        size_t middle = (low + high) / 2;
        if (messages.onset[middle] < time)
            low = middle + 1;
        else
            high = middle;
    }
    return low;
}

/* The first mark at an address or after it. The body's end is among them, so there is one. */
static const struct mark *mark_from(size_t address) {
    size_t low = 0, high = mark_count - 1;
    while (low < high) {
        size_t middle = (low + high) / 2;
        if (marks[middle].place < address)
            low = middle + 1;
        else
            high = middle;
    }
    return marks + low;
}

/* From an address to a time, unless a mark stops it before. With no stop that time is FOREVER, and the body's end stops it too. */
static const uint64_t FOREVER = ~0ull;
static struct section between(const uint8_t *s, const struct track *t, size_t address, uint64_t to) {
    const struct mark *mark = mark_from(address);
    uint64_t from = time_of(s, t, address);
    int stopped = mark->onset < to;
    size_t past = stopped ? mark->before : first_from(to);
    uint64_t end = stopped ? mark->onset : to;
    return (struct section){first_from(from), past, from, end - from, 1, stopped};
}

/* The sections of a track in their order. */
static struct section sections[256];
static const uint8_t one_letter[1];
static const uint8_t *letters;
static size_t letter_count;

/* Finds the track of a row and its order, as far as it is played: 1 to 14, 20 to 23, 16, 17. */
static struct refusal perform(const uint8_t *s, size_t length, size_t n, size_t row, struct file *file) {
    if (n > length || n > 65536)
        return (struct refusal){1, 0};
    struct refusal r = check_file(s, n, row, file);
    if (r.number)
        return r;
    if (!file->found)
        return (struct refusal){16, 0};
    struct track *t = &file->track;
    if (t->phrases && !t->ordered)
        return (struct refusal){17, t->header};
    if (!t->phrases) {
        size_t start = t->starts ? t->start : 0;
        decode(s, t, start);
        sections[0] = between(s, t, start, t->stops ? time_of(s, t, t->stop) : FOREVER);
        letters = one_letter;
        letter_count = 1;
        return (struct refusal){0, 0};
    }
    decode(s, t, t->sequence.size);
    size_t first = t->starts ? t->start : 0, last = t->stops ? t->stop : t->order.size;
    letters = s + t->order.at + first;
    letter_count = last - first;
    for (int i = 0; i < 256; i++)
        sections[i].known = 0;
    for (size_t i = 0; i < letter_count; i++) {
        struct section *one = &sections[letters[i]];
        if (!one->known) {
            struct phrase p = t->of_letter[letters[i]];
            *one = between(s, t, p.from, time_of(s, t, p.to));
            /* Nothing plays after it: a letter that is known is never one that is stopped. */
            if (one->stopped) {
                letter_count = i + 1;
                break;
            }
        }
    }
    return (struct refusal){0, 0};
}

struct smaf_play_reply base_play(const uint8_t *s, size_t length, size_t n, size_t row, uint64_t *steps, size_t step_room,
                                 uint32_t *words, size_t word_room) {
    static struct file file;
    struct refusal r = perform(s, length, n, row, &file);
    if (r.number)
        return (struct smaf_play_reply){.refusal = r.number, .place = r.place};
    size_t count = 0, room = step_room < word_room ? step_room : word_room;
    uint64_t end = 0;
    for (size_t i = 0; i < letter_count; i++) {
        struct section *one = &sections[letters[i]];
        count += one->past - one->first;
        end += one->lasts;
    }
    if (room < count)
        return (struct smaf_play_reply){.refusal = 15, .place = file.track.header};
    uint64_t before = 0;
    for (size_t i = 0; i < letter_count; i++) {
        struct section *one = &sections[letters[i]];
        uint64_t add = before - one->start;
        size_t many = one->past - one->first;
        for (size_t k = 0; k < many; k++)
            steps[k] = messages.onset[one->first + k] + add;
        memcpy(words, messages.word + one->first, many * sizeof *words);
        steps += many;
        words += many;
        before += one->lasts;
    }
    return (struct smaf_play_reply){.count = count, .end = end};
}

/* THE PLAIN FORM */

enum { LONGEST = 16511 };

static inline size_t gap_size(uint64_t gap) {
    uint64_t times = gap ? (gap - 1) / LONGEST : 0, left = gap - times * LONGEST;
    return times * 4 + (left < 128 ? 1 : 2);
}

static inline uint8_t *put_gap(uint8_t *out, uint64_t gap) {
    for (; gap > LONGEST; gap -= LONGEST) {
        memcpy(out, "\xFF\x7F\xFF\x00", 4);
        out += 4;
    }
    if (gap < 128) {
        *out++ = (uint8_t)gap;
        return out;
    }
    *out++ = (uint8_t)(128 + (gap - 128) / 128);
    *out++ = (uint8_t)((gap - 128) % 128);
    return out;
}

/* What a section comes to: the bytes from its first event to its last. */
static uint64_t section_bytes(const struct section *one) {
    uint64_t bytes = 0;
    for (size_t k = one->first; k < one->past; k++) {
        bytes += messages.past[k] - messages.event[k];
        if (k > one->first)
            bytes += gap_size(messages.onset[k] - messages.onset[k - 1]);
    }
    return bytes;
}

static uint64_t plain_size(size_t limit) {
    static uint64_t bytes[256];
    static int known[256];
    memset(known, 0, sizeof known);
    uint64_t total = 4, gap = 0;
    for (size_t i = 0; i < letter_count; i++) {
        uint8_t letter = letters[i];
        const struct section *one = &sections[letter];
        if (one->first == one->past) {
            gap += one->lasts;
            continue;
        }
        if (!known[letter]) {
            bytes[letter] = section_bytes(one);
            known[letter] = 1;
        }
        total += gap_size(gap + messages.onset[one->first] - one->start) + bytes[letter];
        gap = one->lasts - (messages.onset[one->past - 1] - one->start);
        if (total > limit)
            return total;
    }
    uint64_t times = gap ? (gap - 1) / LONGEST : 0, left = gap - times * LONGEST;
    return total + times * 4 + (left == 0 ? 0 : left < 128 ? 3 : 4);
}

struct smaf_flatten_reply base_flatten(const uint8_t *s, size_t length, size_t n, size_t row, uint8_t *room, size_t room_length) {
    static struct file file;
    struct refusal r = perform(s, length, n, row, &file);
    if (r.number)
        return (struct smaf_flatten_reply){.refusal = r.number, .place = r.place};
    size_t limit = room_length < 65536 ? room_length : 65536;
    if (plain_size(limit) > limit)
        return (struct smaf_flatten_reply){.refusal = 18, .place = file.track.header};
    const uint8_t *body = s + file.track.sequence.at;
    uint8_t *out = room;
    uint64_t gap = 0;
    for (size_t i = 0; i < letter_count; i++) {
        const struct section *one = &sections[letters[i]];
        uint64_t last = one->start;
        for (size_t k = one->first; k < one->past; k++) {
            out = put_gap(out, gap + messages.onset[k] - last);
            size_t many = messages.past[k] - messages.event[k];
            memcpy(out, body + messages.event[k], many);
            out += many;
            last = messages.onset[k];
            gap = 0;
        }
        gap += one->lasts - (last - one->start);
    }
    while (gap > LONGEST) {
        memcpy(out, "\xFF\x7F\xFF\x00", 4);
        out += 4;
        gap -= LONGEST;
    }
    if (gap > 0) {
        out = put_gap(out, gap);
        memcpy(out, "\xFF\x00", 2);
        out += 2;
    }
    memset(out, 0, 4);
    out += 4;
    return (struct smaf_flatten_reply){.length = (size_t)(out - room)};
}
