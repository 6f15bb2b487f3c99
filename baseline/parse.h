/* What the files of the baseline share: a checked file, its tracks, and the refusals. */
#ifndef PARSE_H
#define PARSE_H

#include <stddef.h>
#include <stdint.h>

struct refusal {
    uint32_t number; /* 0: none */
    size_t place;
};

struct stretch {
    size_t at, size;
};

struct phrase {
    uint32_t from, to;
};

struct track {
    size_t header, row;
    int pcm, phrases;
    struct stretch setup, sequence, seek; /* of size 0 at 0 where there is none */
    int starts, stops, ordered;
    uint32_t start, stop;
    struct stretch order;
    struct phrase of_letter[256];
    uint8_t has_phrase[256];
};

struct file {
    size_t rows;
    struct track track; /* the one that was asked for, where found */
    int found;
};

static inline uint32_t number_4(const uint8_t *s) {
    return (uint32_t)s[0] << 24 | (uint32_t)s[1] << 16 | (uint32_t)s[2] << 8 | s[3];
}

#define ID(a, b, c, d) ((uint32_t)(a) << 24 | (uint32_t)(b) << 16 | (uint32_t)(c) << 8 | (uint32_t)(d))

/* The letters that phrases have. */
extern uint8_t is_letter[256];

static inline int is_time_base(uint8_t code) { return code <= 3 || (code >= 0x10 && code <= 0x13); }

/* One item: how it is read. Answers the place after it, or 0 where it is refused. */
enum { NOTHING, MESSAGE, END_MARK };
struct item {
    uint32_t duration;
    uint32_t word; /* as a played row has it, 0 for none */
    size_t event;  /* where its event begins */
    int what;
};
size_t read_item(const uint8_t *s, size_t n, size_t at, int pcm, struct item *item);

/* Checks a file of n bytes (2 to 14, 20 to 23) and notes the track of a row, where the row names one. */
struct refusal check_file(const uint8_t *s, size_t n, size_t row, struct file *file);

#endif
