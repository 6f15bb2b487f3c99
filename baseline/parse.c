/* The checks of a file: frame, tracks, items, points (2 to 14, 20 to 23). */
#include "parse.h"

#include <string.h>

static struct refusal refuse(uint32_t number, size_t place) { return (struct refusal){number, place}; }
static const struct refusal passed = {0, 0};

/* ITEMS */

/* A duration or gate time: how many bytes it has, 0 where it is refused. */
static inline size_t length_at(const uint8_t *s, size_t n, size_t at, uint32_t *value) {
    if (at >= n)
        return 0;
    uint8_t a = s[at];
    if (a < 128) {
        *value = a;
        return 1;
    }
    if (at + 1 >= n || s[at + 1] >= 128)
        return 0;
    *value = 128u * (a - 128u) + s[at + 1] + 128u;
    return 2;
}

static inline int is_value(uint32_t kind, uint8_t v) {
    if (kind == 4)
        return 1;
    if (kind == 5)
        return v <= 4 || (v >= 0x81 && v <= 0x84);
    return v < 128;
}

/* Kinds of the long form, by its low bits. */
static const uint8_t long_kind[16] = {3, 4, 5, 6, 7, 0, 0, 8, 0, 0, 9, 10, 0, 0, 0, 0};
static const uint8_t short_kind[3] = {13, 12, 11};
/* Kinds that a PCM track has not. */
static const uint8_t score_only[16] = {0, 0, 0, 1, 1, 1, 1, 0, 0, 0, 0, 1, 0, 0, 0, 0};

static inline uint32_t word_of(uint32_t kind, uint32_t channel, uint32_t value, uint32_t gate) {
    return kind << 27 | channel << 25 | value << 17 | gate << 2;
}

size_t read_item(const uint8_t *s, size_t n, size_t at, int pcm, struct item *item) {
    size_t long_by = length_at(s, n, at, &item->duration);
    size_t e = at + long_by;
    if (long_by == 0 || e >= n)
        return 0;
    item->event = e;
    item->what = MESSAGE;
    uint8_t b = s[e];
    if (b != 0 && b != 0xFF) {
        uint32_t gate;
        uint32_t value = b & 63u;
        if (pcm ? value == 0 || value == 63 : (b & 15) == 0 || (b & 15) > 12)
            return 0;
        size_t g = length_at(s, n, e + 1, &gate);
        if (g == 0 || gate == 0)
            return 0;
        item->word = word_of(pcm ? 2 : 1, b >> 6, value, gate);
        return e + 1 + g;
    }
    if (e + 1 >= n)
        return 0;
    uint8_t c = s[e + 1];
    if (b == 0) {
        uint32_t form = c >> 4 & 3, low = c & 15;
        if (form == 3) {
            uint32_t kind = long_kind[low];
            if (kind == 0 || (pcm && score_only[kind]) || e + 2 >= n || !is_value(kind, s[e + 2]))
                return 0;
            item->word = word_of(kind, c >> 6, s[e + 2], 0);
            return e + 3;
        }
        uint32_t kind = short_kind[form];
        if ((pcm && score_only[kind]) || low == 0 || low == 15) {
            /* The first three zeros of an end mark read as a short form of value 0, which is none: it is told from that here, and no message
             * pays for it. */
            if (n - at < 4 || number_4(s + at) != 0)
                return 0;
            item->what = END_MARK;
            return at + 4;
        }
        item->word = word_of(kind, c >> 6, low, 0);
        return e + 2;
    }
    if (c == 0) {
        item->what = NOTHING;
        return e + 2;
    }
    if (c != 0xF0 || e + 2 >= n)
        return 0;
    size_t size = s[e + 2];
    if (size < 3 || e + 3 + size > n || s[e + 2 + size] != 0xF7)
        return 0;
    item->word = 14u << 27 | (uint32_t)e << 11 | (uint32_t)size << 3;
    return e + 3 + size;
}

/* What is wrong with a refused item (20 to 23). n is where its body ends, and places are those of the file. */

/* Of a duration or gate time that length_at refuses. */
static struct refusal length_fault(size_t n, size_t at) { return at + 1 < n ? refuse(23, at + 1) : refuse(20, n); }

static struct refusal control_fault(const uint8_t *s, size_t n, size_t e, int pcm) {
    uint32_t form = s[e + 1] >> 4 & 3, low = s[e + 1] & 15;
    uint32_t kind = form == 3 ? long_kind[low] : short_kind[form];
    if (kind == 0 || (pcm && score_only[kind]))
        return refuse(22, e + 1);
    if (form != 3)
        return refuse(23, e + 1);
    return e + 2 < n ? refuse(23, e + 2) : refuse(20, n);
}

static struct refusal exclusive_fault(const uint8_t *s, size_t n, size_t e) {
    if (s[e + 1] != 0xF0)
        return refuse(22, e + 1);
    if (e + 2 >= n)
        return refuse(20, n);
    size_t size = s[e + 2];
    if (size < 3)
        return refuse(23, e + 2);
    return e + 3 + size > n ? refuse(20, n) : refuse(23, e + 2 + size);
}

/* Runs once in a file at most, and is kept away from the code that reads items. */
__attribute__((cold, noinline)) static struct refusal item_fault(const uint8_t *s, const struct track *t, size_t at) {
    uint32_t value;
    size_t n = t->sequence.at + t->sequence.size, long_by = length_at(s, n, at, &value), e = at + long_by;
    if (long_by == 0)
        return length_fault(n, at);
    if (e >= n)
        return refuse(20, n);
    uint8_t b = s[e];
    if (b != 0 && b != 0xFF) {
        if (t->pcm ? (b & 63) == 0 || (b & 63) == 63 : (b & 15) == 0 || (b & 15) > 12)
            return refuse(21, e);
        return length_at(s, n, e + 1, &value) ? refuse(21, e + 1) : length_fault(n, e + 1);
    }
    if (e + 1 >= n)
        return refuse(20, n);
    return b == 0 ? control_fault(s, n, e, t->pcm) : exclusive_fault(s, n, e);
}

/* Which places of a sequence body are addresses, noted while it is checked. */
static uint64_t addresses[65537 / 64 + 1];

static inline int is_address(uint32_t place, size_t size) { return place <= size && (addresses[place / 64] >> place % 64 & 1); }

static struct refusal check_sequence(const uint8_t *s, struct track *t) {
    const uint8_t *body = s + t->sequence.at;
    size_t n = t->sequence.size, at = 0;
    if (n == 0)
        return refuse(11, t->sequence.at);
    int noted = t->seek.at != 0;
    if (noted)
        memset(addresses, 0, (n / 64 + 1) * 8);
    while (at < n) {
        struct item item;
        size_t next = read_item(body, n, at, t->pcm, &item);
        if (next == 0)
            return item_fault(s, t, t->sequence.at + at);
        if (noted)
            addresses[at / 64] |= 1ull << at % 64;
        at = next;
    }
    if (noted)
        addresses[n / 64] |= 1ull << n % 64;
    return passed;
}

static struct refusal check_setup(const uint8_t *s, struct stretch setup) {
    size_t at = setup.at, end = setup.at + setup.size;
    if (setup.size == 0)
        return refuse(10, at);
    while (at < end) {
        if (end - at < 3 || s[at] != 0xFF || s[at + 1] != 0xF0)
            return refuse(10, at);
        size_t size = s[at + 2];
        if (size < 3 || at + 3 + size > end || s[at + 2 + size] != 0xF7)
            return refuse(10, at);
        at += 3 + size;
    }
    return passed;
}

/* POINTS */

uint8_t is_letter[256];
__attribute__((constructor)) static void fill(void) {
    for (const char *p = "abcdefghijklmnopqrstuvwxyzABEIKSR"; *p; p++)
        is_letter[(uint8_t)*p] = 1;
}

/* Where the data of an entry end, or 0 where it is malformed; and its rank in the order of entries. */
static size_t read_entry(const uint8_t *s, size_t at, size_t end, struct track *t, int *rank) {
    if (end - at < 3 || s[at + 2] != ':')
        return 0;
    size_t data = at + 3, left = end - data, width = t->phrases ? 1 : 4;
    uint8_t a = s[at], b = s[at + 1];
    if (a == 's' && (b == 't' || b == 'p')) {
        if (left < width)
            return 0;
        uint32_t value = width == 1 ? s[data] : number_4(s + data);
        *rank = b == 't' ? 0 : 1;
        if (b == 't')
            t->starts = 1, t->start = value;
        else
            t->stops = 1, t->stop = value;
        return data + width;
    }
    if (a == 'P' && is_letter[b]) {
        if (left < 8)
            return 0;
        *rank = t->has_phrase[b] ? -1 : 2;
        t->has_phrase[b] = 1;
        t->of_letter[b] = (struct phrase){number_4(s + data), number_4(s + data + 4)};
        return data + 8;
    }
    if (a == 'S' && b == 'L') {
        size_t past = data;
        while (past < end && s[past] != ',') {
            if (!is_letter[s[past]])
                return 0;
            past++;
        }
        *rank = 3;
        t->ordered = 1;
        t->order = (struct stretch){data, past - data};
        return past;
    }
    return 0;
}

static struct refusal check_form(const uint8_t *s, struct track *t) {
    size_t at = t->seek.at, end = t->seek.at + t->seek.size;
    if (t->seek.size == 0)
        return refuse(12, at);
    int last = -1;
    while (at < end) {
        int rank = -1;
        size_t past = read_entry(s, at, end, t, &rank);
        if (past == 0 || rank < last || (rank == last && rank != 2) || (past < end && s[past] != ','))
            return refuse(12, at);
        last = rank;
        at = past + 1;
    }
    return passed;
}

static struct refusal check_points(const uint8_t *s, struct track *t) {
    size_t at = t->seek.at, end = t->seek.at + t->seek.size, size = t->sequence.size;
    uint32_t letters = (uint32_t)t->order.size, start = t->starts ? t->start : 0;
    while (at < end) {
        uint8_t a = s[at], b = s[at + 1];
        if (a == 's' && b == 't') {
            if (t->phrases ? t->start > letters : !is_address(t->start, size))
                return refuse(13, at);
            at += t->phrases ? 5 : 8;
        } else if (a == 's') {
            if (t->phrases ? t->stop > letters : !is_address(t->stop, size))
                return refuse(13, at);
            if (start > t->stop)
                return refuse(13, at);
            at += t->phrases ? 5 : 8;
        } else if (a == 'P') {
            struct phrase p = t->of_letter[b];
            if (!is_address(p.from, size) || !is_address(p.to, size) || p.from > p.to)
                return refuse(13, at);
            at += 12;
        } else
            break;
    }
    if (t->phrases)
        for (size_t i = 0; i < t->order.size; i++)
            if (!t->has_phrase[s[t->order.at + i]])
                return refuse(14, t->order.at + i);
    return passed;
}

/* TRACKS */

static int is_readable(const uint8_t *s, size_t at, size_t size) {
    uint32_t family = number_4(s + at) >> 8;
    return size > 0 && s[at + 8] == 0 && (family == ID(0, 'M', 'T', 'R') || family == ID(0, 'A', 'T', 'R'));
}

static struct refusal check_list(const uint8_t *s, size_t at, size_t end, struct track *t, size_t *rows) {
    uint8_t waves[64] = {0};
    int any_wave = 0;
    struct stretch *parts[3] = {&t->seek, &t->setup, &t->sequence};
    uint32_t ids[3] = {ID('M', 's', 'p', 'I'), ID('M', 't', 's', 'u'), ID('M', 't', 's', 'q')};
    uint32_t pcm_ids[3] = {ID('A', 's', 'p', 'I'), ID('A', 't', 's', 'u'), ID('A', 't', 's', 'q')};
    while (at < end) {
        if (end - at < 8 || end - at - 8 < number_4(s + at + 4))
            return refuse(4, at);
        uint32_t id = number_4(s + at), size = number_4(s + at + 4);
        struct stretch *part = 0;
        for (int i = 0; i < 3; i++)
            if (id == (t->pcm ? pcm_ids : ids)[i])
                part = parts[i];
        if (part) {
            if (part->at)
                return refuse(6, at);
            *part = (struct stretch){at + 8, size};
        } else if (t->pcm && id >> 8 == ID(0, 'A', 'w', 'a') && (id & 255) >= 1 && (id & 255) <= 0x3E) {
            if (waves[id & 255])
                return refuse(6, at);
            waves[id & 255] = 1;
            any_wave = 1;
        } else
            return refuse(9, at);
        ++*rows;
        at += 8 + size;
    }
    if (!t->sequence.at || (t->pcm && !any_wave))
        return refuse(9, t->header);
    return passed;
}

static struct refusal check_track(const uint8_t *s, size_t header, size_t size, struct track *t, size_t *rows) {
    size_t body = header + 8;
    memset(t, 0, sizeof *t);
    t->header = header;
    t->pcm = s[header] == 'A';
    if (size < 6 || s[body + 1] > 1)
        return refuse(8, body);
    const uint8_t *bases = s + body + (t->pcm ? 4 : 2);
    if (!is_time_base(bases[0]) || !is_time_base(bases[1]))
        return refuse(8, body);
    t->phrases = s[body + 1];
    struct refusal r = check_list(s, body + 6, body + size, t, rows);
    if (!r.number && t->setup.at)
        r = check_setup(s, t->setup);
    if (!r.number)
        r = check_sequence(s, t);
    if (!r.number && t->seek.at) {
        r = check_form(s, t);
        if (!r.number)
            r = check_points(s, t);
    }
    return r;
}

/* THE FRAME */

/* The IDs of a list: compared one by one while they are few, then in a table of 16,384 slots. */
enum { FEW = 24, SLOTS = 16384 };
static uint32_t few_ids[FEW];
static uint64_t slots[SLOTS];
static uint32_t lists;

static inline int put_id(uint32_t id) {
    uint64_t entry = (uint64_t)lists << 32 | id;
    uint32_t slot = id * 2654435769u >> 18;
    while (slots[slot] >> 32 == lists) {
        if (slots[slot] == entry)
            return 0;
        slot = (slot + 1) % SLOTS;
    }
    slots[slot] = entry;
    return 1;
}

static inline int is_new(uint32_t id, size_t count) {
    if (count < FEW) {
        for (size_t i = 0; i < count; i++)
            if (few_ids[i] == id)
                return 0;
        few_ids[count] = id;
        return 1;
    }
    if (count == FEW) {
        lists++;
        for (size_t i = 0; i < FEW; i++)
            put_id(few_ids[i]);
    }
    return put_id(id);
}

static int is_track_id(uint32_t id) {
    uint32_t family = id >> 8;
    return family == ID(0, 'M', 'T', 'R') || family == ID(0, 'A', 'T', 'R') || family == ID(0, 'G', 'T', 'R') || id == ID('M', 'S', 'T', 'R');
}

static struct refusal check_frame(const uint8_t *s, size_t n) {
    if (n < 10 || number_4(s) != ID('M', 'M', 'M', 'D'))
        return refuse(2, 0);
    if ((size_t)number_4(s + 4) + 8 != n)
        return refuse(3, 4);
    size_t at = 8, end = n - 2, count = 0;
    int any_track = 0;
    while (at < end) {
        if (end - at < 8 || end - at - 8 < number_4(s + at + 4))
            return refuse(4, at);
        uint32_t id = number_4(s + at);
        if (!is_new(id, count++))
            return refuse(6, at);
        any_track |= is_track_id(id);
        at += 8 + number_4(s + at + 4);
    }
    if (end - 8 < 8 || number_4(s + 8) != ID('C', 'N', 'T', 'I') || number_4(s + 12) < 5)
        return refuse(5, 8);
    return any_track ? passed : refuse(7, end);
}

struct refusal check_file(const uint8_t *s, size_t n, size_t row, struct file *file) {
    struct refusal r = check_frame(s, n);
    if (r.number)
        return r;
    static struct track track;
    size_t rows = 1;
    file->found = 0;
    for (size_t at = 8; at < n - 2; at += 8 + number_4(s + at + 4)) {
        uint32_t size = number_4(s + at + 4), family = number_4(s + at) >> 8;
        size_t own = rows++;
        int score = family == ID(0, 'M', 'T', 'R'), pcm = family == ID(0, 'A', 'T', 'R');
        if (!score && !pcm)
            continue;
        if (size == 0 || s[at + 8] > (score ? 2 : 0))
            return refuse(8, at + 8);
        if (!is_readable(s, at, size))
            continue;
        r = check_track(s, at, size, &track, &rows);
        if (r.number)
            return r;
        if (own == row) {
            file->track = track;
            file->found = 1;
        }
    }
    file->rows = rows;
    return passed;
}
