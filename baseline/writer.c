/* Writes a whole file from two tables, of numbers and of bytes. All is checked and measured first, in one walk over the items of each track;
 * then the file is written. */
#include "baseline.h"
#include "parse.h"

#include <string.h>

enum { LONGEST = 16511, LARGEST = 65536, MOST_TRACKS = 16, NUMBERS = 256, LETTERS = 33 };

/* A track as it is given, and how many bytes its seek and sequence bodies come to. */
struct given {
    const uint8_t *head; /* its number and its fixed bytes */
    const uint32_t *entries, *items;
    size_t entry_count, item_count;
    const uint8_t *letters, *source;
    size_t letter_count, source_size;
    size_t seek, sequence;
};

/* TABLES */

static inline size_t within(size_t count, size_t left) { return count < left ? count : left; }

/* The track whose numbers and bytes begin here, with four of the one and seven of the other. */
static struct given first_given(const uint32_t *numbers, const uint32_t *numbers_end, const uint8_t *bytes, const uint8_t *bytes_end) {
    struct given t = {.head = bytes, .entries = numbers + 4, .letters = bytes + 7};
    size_t entry_numbers = within(4 * (size_t)numbers[0], (size_t)(numbers_end - t.entries));
    t.items = t.entries + entry_numbers;
    t.entry_count = entry_numbers / 4;
    t.item_count = within(2 * (size_t)numbers[1], (size_t)(numbers_end - t.items)) / 2;
    t.letter_count = within(numbers[2], (size_t)(bytes_end - t.letters));
    t.source = t.letters + t.letter_count;
    t.source_size = within(numbers[3], (size_t)(bytes_end - t.source));
    return t;
}

/* Finds the tracks, of which there are no more than numbers: 6, 7. */
static struct refusal find_tracks(const uint32_t *numbers, const uint32_t *numbers_end, const uint8_t *bytes, const uint8_t *bytes_end,
                                  struct given *tracks, size_t *count) {
    uint8_t seen[NUMBERS] = {0};
    *count = 0;
    bytes += within(5, (size_t)(bytes_end - bytes));
    while (numbers_end - numbers >= 4 && bytes_end - bytes >= 7) {
        if (seen[bytes[0]])
            return (struct refusal){6, *count};
        seen[bytes[0]] = 1;
        struct given *t = &tracks[(*count)++];
        *t = first_given(numbers, numbers_end, bytes, bytes_end);
        /* An item that is cut leaves one number, which is too few for a further track. */
        numbers = t->items + 2 * t->item_count;
        bytes = t->source + t->source_size;
    }
    return (struct refusal){*count ? 0 : 7, 0};
}

/* ENTRIES */

static const uint64_t NOWHERE = ~0ull;

/* What the entries of a track say: which letters have phrases, the points, what is wrong as far as that can be told without the items, and the
 * addresses that they name, the least one first. */
struct named {
    uint8_t has_phrase[256];
    uint32_t start, furthest;
    size_t positions;
    int crossed, unnamed; /* a start over its stop; a letter without a phrase */
    size_t count;
    uint64_t addresses[2 + 2 * LETTERS + 1]; /* with NOWHERE behind the last */
};

/* Puts an address among those before it. Phrases mostly come in the order of their addresses, so that it mostly stays at the end. */
static void name_address(struct named *named, uint32_t address) {
    size_t at = named->count++;
    named->addresses[named->count] = NOWHERE;
    for (; at > 0 && named->addresses[at - 1] > address; at--)
        named->addresses[at] = named->addresses[at - 1];
    named->addresses[at] = address;
}

static int all_known(const uint8_t *letters, size_t count, const uint8_t *known) {
    uint8_t all = 1;
    for (size_t i = 0; i < count; i++)
        all &= known[letters[i]];
    return all;
}

/* Each of the three answers how many bytes an entry has, or 0 where it is malformed. */

static size_t name_point(struct named *named, int phrases, uint32_t kind, uint32_t value) {
    if (phrases && value > 255)
        return 0;
    if (!phrases)
        name_address(named, value);
    if (kind == 0)
        named->start = value;
    named->furthest = value > named->furthest ? value : named->furthest;
    named->crossed |= named->start > value;
    return phrases ? 4 : 7;
}

static size_t name_phrase(struct named *named, uint32_t letter, uint32_t from, uint32_t to) {
    if (letter > 255 || !is_letter[letter] || named->has_phrase[letter])
        return 0;
    named->has_phrase[letter] = 1;
    named->crossed |= from > to;
    name_address(named, from);
    name_address(named, to);
    return 11;
}

/* The list stands behind all phrases: where its letters have them, they are letters. */
static size_t name_order(struct named *named, int phrases, const struct given *t) {
    named->positions = t->letter_count;
    named->unnamed = phrases && !all_known(t->letters, t->letter_count, named->has_phrase);
    if ((named->unnamed || !phrases) && !all_known(t->letters, t->letter_count, is_letter))
        return 0;
    return 3 + t->letter_count;
}

/* Reads the entries and measures their body; whether they are well formed. Kinds are numbered in the order that entries have. */
static int name_entries(struct given *t, struct named *named) {
    int phrases = t->head[2];
    uint32_t least = 0;
    memset(named, 0, sizeof *named);
    named->addresses[0] = NOWHERE;
    t->seek = t->entry_count - (t->entry_count > 0);
    for (const uint32_t *e = t->entries, *end = e + 4 * t->entry_count; e < end; e += 4) {
        uint32_t kind = e[0];
        if (kind < least || kind > 3)
            return 0;
        least = kind == 2 ? 2 : kind + 1;
        size_t size = kind == 2   ? name_phrase(named, e[1], e[2], e[3])
                      : kind == 3 ? name_order(named, phrases, t)
                                  : name_point(named, phrases, kind, e[2]);
        if (size == 0)
            return 0;
        t->seek += size;
    }
    named->crossed |= phrases && named->furthest > named->positions;
    return 1;
}

/* ITEMS */

static inline uint32_t gate_in(uint32_t word) { return word >> 2 & 0x7FFF; }
static inline size_t place_in(uint32_t word) { return word >> 11 & 0xFFFF; }
static inline size_t size_in(uint32_t word) { return word >> 3 & 0xFF; }

static inline int is_exclusive(uint32_t word, const uint8_t *source, size_t source_size) {
    size_t size = size_in(word), past = place_in(word) + 3 + size;
    return size >= 3 && past <= source_size && source[past - 1] == 0xF7 && (word & 7) == 0;
}

/* How many bytes a control has, by its kind and value: 0 where it is none. */
static uint8_t control_size[16][256];
__attribute__((constructor)) static void fill(void) {
    for (int value = 0; value < 256; value++) {
        for (int kind = 3; kind <= 10; kind++)
            control_size[kind][value] = kind == 4 || (kind == 5 ? value <= 4 || (value >= 0x81 && value <= 0x84) : value < 128) ? 3 : 0;
        for (int kind = 11; kind <= 13; kind++)
            control_size[kind][value] = value >= 1 && value <= 14 ? 2 : 0;
    }
}

static const uint32_t NOP = 15u << 27, MARK = 16u << 27;

/* How many bytes an event has that is no note, 0 where it is refused. A mark counts as three bytes behind its duration, which is a zero. */
static inline size_t event_size(uint32_t duration, uint32_t word, const struct given *t) {
    uint32_t kind = word >> 27;
    if (kind < 14)
        return (word & 0x1FFFF) == 0 ? control_size[kind][word >> 17 & 255] : 0;
    if (kind == 14)
        return is_exclusive(word, t->source, t->source_size) ? 3 + size_in(word) : 0;
    if (word == NOP)
        return 2;
    return word == MARK && duration == 0 ? 3 : 0;
}

static inline int is_key(uint32_t value) { return ((value - 1) & 15) < 12; }

/* How many bytes an item has, 0 where it is refused. */
static inline size_t item_size(uint32_t duration, uint32_t word, const struct given *t) {
    /* Most items are notes whose duration and gate time have a byte each: kind 1, a value up to 63, a gate time under 128, no bits behind it. */
    if (duration < 128 && (word & 0xF981FE03) == 0x08000000 && (word & 0x1FC) != 0 && is_key(word >> 17))
        return 3;
    if (duration > LONGEST)
        return 0;
    size_t before = 1 + (duration > 127);
    if ((word & 0xF9800003) == 0x08000000) {
        uint32_t gate = gate_in(word);
        return is_key(word >> 17) && gate - 1 < LONGEST ? before + 2 + (gate > 127) : 0;
    }
    size_t size = event_size(duration, word, t);
    return size ? before + size : 0;
}

/* What is wrong with an item that has no size. Runs once in a file at most, and is kept away from the code that measures items. */
__attribute__((cold, noinline)) static uint32_t item_fault(uint32_t duration, uint32_t word) {
    uint32_t kind = word >> 27, value = word >> 17 & 255;
    if (duration > LONGEST || (kind == 16 && duration != 0))
        return 23;
    if (kind == 0 || kind == 2 || kind > 16)
        return 22;
    if (kind == 1 && (value > 63 || (value & 15) == 0 || (value & 15) > 12 || gate_in(word) == 0))
        return 21;
    return 23;
}

/* Checks and measures the items; whether all addresses that are named stand at one of them, or at the end. */
static uint32_t check_items(struct given *t, const struct named *named, int *found) {
    const uint64_t *address = named->addresses;
    uint64_t at = 0, wanted = *address;
    *found = 1;
    for (const uint32_t *item = t->items, *end = item + 2 * t->item_count; item < end; item += 2) {
        while (wanted <= at) {
            *found &= wanted == at;
            wanted = *++address;
        }
        size_t size = item_size(item[0], item[1], t);
        if (size == 0)
            return item_fault(item[0], item[1]);
        at += size;
    }
    while (wanted == at)
        wanted = *++address;
    *found &= wanted == NOWHERE;
    t->sequence = at;
    return t->item_count ? 0 : 11;
}

/* One track: 8; 11 and 21 to 23; 12, 13, 14. */
static uint32_t check_given(struct given *t) {
    static struct named named;
    const uint8_t *fixed = t->head + 1;
    int found;
    if (fixed[0] != 0 || fixed[1] > 1 || !is_time_base(fixed[2]) || !is_time_base(fixed[3]))
        return 8;
    int formed = name_entries(t, &named);
    uint32_t fault = check_items(t, &named, &found);
    if (fault)
        return fault;
    if (!formed)
        return 12;
    if (!found || named.crossed)
        return 13;
    return named.unnamed ? 14 : 0;
}

/* BYTES */

static inline uint8_t *put_4(uint8_t *out, uint32_t number) {
    out[0] = (uint8_t)(number >> 24);
    out[1] = (uint8_t)(number >> 16);
    out[2] = (uint8_t)(number >> 8);
    out[3] = (uint8_t)number;
    return out + 4;
}

static inline uint8_t *put_header(uint8_t *out, uint32_t id, size_t size) { return put_4(put_4(out, id), (uint32_t)size); }

static inline uint8_t *put_bytes(uint8_t *out, const uint8_t *bytes, size_t count) {
    memcpy(out, bytes, count);
    return out + count;
}

static inline uint8_t *put_length(uint8_t *out, uint32_t length) {
    if (length < 128) {
        *out++ = (uint8_t)length;
        return out;
    }
    out[0] = (uint8_t)(127 + (length >> 7));
    out[1] = (uint8_t)(length & 127);
    return out + 2;
}

/* The second byte of a control but for its channel, and for the value of a short one. */
static const uint8_t control_form[14] = {[3] = 0x30, 0x31, 0x32, 0x33, 0x34, 0x37, 0x3A, 0x3B, 0x20, 0x10, 0x00};

static inline uint8_t *put_event(uint8_t *out, uint32_t word, const uint8_t *source) {
    uint32_t kind = word >> 27, channel = word >> 19 & 0xC0, value = word >> 17 & 255;
    if (kind == 1) {
        *out++ = (uint8_t)(channel | value);
        return put_length(out, gate_in(word));
    }
    if (kind < 14) {
        out[0] = 0;
        if (kind < 11) {
            out[1] = (uint8_t)(channel | control_form[kind]);
            out[2] = (uint8_t)value;
            return out + 3;
        }
        out[1] = (uint8_t)(channel | control_form[kind] | value);
        return out + 2;
    }
    if (kind == 14) {
        out[0] = 0xFF, out[1] = 0xF0, out[2] = (uint8_t)size_in(word);
        return put_bytes(out + 3, source + place_in(word) + 3, size_in(word));
    }
    if (kind == 15) {
        out[0] = 0xFF, out[1] = 0;
        return out + 2;
    }
    out[0] = out[1] = out[2] = 0;
    return out + 3;
}

/* As in item_size, a short note is told first. */
static inline uint8_t *put_item(uint8_t *out, uint32_t duration, uint32_t word, const uint8_t *source) {
    if (duration < 128 && (word & 0xF801FE00) == 0x08000000) {
        out[0] = (uint8_t)duration;
        out[1] = (uint8_t)((word >> 19 & 0xC0) | word >> 17);
        out[2] = (uint8_t)(word >> 2);
        return out + 3;
    }
    return put_event(put_length(out, duration), word, source);
}

static uint8_t *put_entry(uint8_t *out, const uint32_t *e, const struct given *t) {
    static const char *tags[4] = {"st:", "sp:", "P :", "SL:"};
    memcpy(out, tags[e[0]], 3);
    if (e[0] == 2) {
        out[1] = (uint8_t)e[1];
        return put_4(put_4(out + 3, e[2]), e[3]);
    }
    if (e[0] == 3)
        return put_bytes(out + 3, t->letters, t->letter_count);
    if (t->head[2] == 0)
        return put_4(out + 3, e[2]);
    out[3] = (uint8_t)e[2];
    return out + 4;
}

/* How many bytes a track's body has. */
static size_t body_size(const struct given *t) { return 6 + (t->entry_count ? 8 + t->seek : 0) + 8 + t->sequence; }

static uint8_t *put_track(uint8_t *out, const struct given *t) {
    out = put_header(out, ID('M', 'T', 'R', t->head[0]), body_size(t));
    out = put_bytes(out, t->head + 1, 6);
    if (t->entry_count)
        out = put_header(out, ID('M', 's', 'p', 'I'), t->seek);
    for (size_t i = 0; i < t->entry_count; i++) {
        if (i > 0)
            *out++ = ',';
        out = put_entry(out, t->entries + 4 * i, t);
    }
    out = put_header(out, ID('M', 't', 's', 'q'), t->sequence);
    const uint8_t *source = t->source;
    for (const uint32_t *item = t->items, *end = item + 2 * t->item_count; item < end; item += 2)
        out = put_item(out, item[0], item[1], source);
    return out;
}

struct smaf_write_reply base_write(const uint32_t *numbers, size_t numbers_length, const uint8_t *bytes, size_t bytes_length, uint8_t *room,
                                   size_t room_length) {
    static struct given tracks[NUMBERS];
    size_t count, size = 23;
    struct refusal r = find_tracks(numbers, numbers + numbers_length, bytes, bytes + bytes_length, tracks, &count);
    if (r.number)
        return (struct smaf_write_reply){.refusal = r.number, .place = r.place};
    for (size_t i = 0; i < count; i++) {
        uint32_t fault = check_given(&tracks[i]);
        if (fault)
            return (struct smaf_write_reply){.refusal = fault, .place = i};
        size += 8 + body_size(&tracks[i]);
    }
    if (count > MOST_TRACKS || size > LARGEST || size > room_length)
        return (struct smaf_write_reply){.refusal = 24};
    uint8_t *out = put_header(room, ID('M', 'M', 'M', 'D'), size - 8);
    out = put_bytes(put_header(out, ID('C', 'N', 'T', 'I'), 5), bytes, 5);
    for (size_t i = 0; i < count; i++)
        out = put_track(out, &tracks[i]);
    uint16_t code = base_check_code(room, size - 2);
    out[0] = (uint8_t)(code >> 8);
    out[1] = (uint8_t)code;
    return (struct smaf_write_reply){.length = size};
}
