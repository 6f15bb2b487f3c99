/* The items and the seek entries of a track, in the form that the writer takes. */
#include "baseline.h"
#include "parse.h"

#include <string.h>

/* Finds the track of a row: 1 to 14, 20 to 23, 16. */
static struct refusal find_track(const uint8_t *s, size_t length, size_t n, size_t row, struct file *file) {
    if (n > length || n > 65536)
        return (struct refusal){1, 0};
    struct refusal r = check_file(s, n, row, file);
    if (!r.number && !file->found)
        return (struct refusal){16, 0};
    return r;
}

struct smaf_items_reply base_items(const uint8_t *s, size_t length, size_t n, size_t row, uint32_t *items, size_t room) {
    static struct file file;
    static uint32_t numbers[2 * 65536 / 2];
    struct refusal r = find_track(s, length, n, row, &file);
    if (r.number)
        return (struct smaf_items_reply){.refusal = r.number, .place = r.place};
    const uint8_t *body = s + file.track.sequence.at;
    uint32_t *put = numbers;
    for (size_t at = 0; at < file.track.sequence.size; put += 2) {
        struct item item;
        at = read_item(body, file.track.sequence.size, at, file.track.pcm, &item);
        put[0] = item.duration;
        put[1] = item.what == MESSAGE ? item.word : item.what == NOTHING ? 15u << 27 : 16u << 27;
    }
    size_t count = (size_t)(put - numbers) / 2;
    if (room / 2 < count)
        return (struct smaf_items_reply){.refusal = 15};
    memcpy(items, numbers, 2 * count * sizeof *numbers);
    return (struct smaf_items_reply){.count = count};
}

/* A point in so many bytes. */
static uint32_t point_at(const uint8_t *s, size_t width) { return width == 1 ? s[0] : number_4(s); }

struct smaf_entries_reply base_entries(const uint8_t *s, size_t length, size_t n, size_t row, uint32_t *entries, size_t room, uint8_t *letters,
                                       size_t letter_room) {
    static struct file file;
    uint32_t numbers[4 * (2 + 33 + 1)], *put = numbers;
    struct refusal r = find_track(s, length, n, row, &file);
    if (r.number)
        return (struct smaf_entries_reply){.refusal = r.number, .place = r.place};
    const struct track *t = &file.track;
    size_t width = t->phrases ? 1 : 4, end = t->seek.at + t->seek.size;
    for (size_t at = t->seek.at; at < end; put += 4) {
        uint8_t a = s[at], b = s[at + 1];
        memset(put, 0, 4 * sizeof *put);
        if (a == 'P') {
            put[0] = 2, put[1] = b, put[2] = number_4(s + at + 3), put[3] = number_4(s + at + 7);
            at += 12;
        } else if (a == 's') {
            put[0] = b == 'p', put[2] = point_at(s + at + 3, width);
            at += 4 + width;
        } else {
            put[0] = 3, put[2] = (uint32_t)t->order.size;
            at += 4 + t->order.size;
        }
    }
    size_t count = (size_t)(put - numbers) / 4, many = t->order.size;
    if (room / 4 < count || letter_room < many)
        return (struct smaf_entries_reply){.refusal = 15};
    memcpy(entries, numbers, 4 * count * sizeof *numbers);
    memcpy(letters, s + t->order.at, many);
    return (struct smaf_entries_reply){.count = count, .letters = many};
}
