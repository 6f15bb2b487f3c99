/* The C library of Qishradul: reads SMAF files (.mmf), plays and flattens their tracks, gives a track's items and seek entries, writes a
 * whole file from such items and entries, and gives the pitch of a note and the check code of any bytes.
 *
 * `rt lib`, in crates/smaf_c, writes crates/smaf_c/out/libsmaf_c.a, for programs on x86-64 Linux. It needs nothing beside the C library's
 * memcpy and memset. The functions keep nothing between calls and reserve no memory.
 *
 * ARGUMENTS. Lent memory is a pointer and, right behind it, a length in elements. `buffer` holds a file in its first n bytes; what it
 * holds past n alters nothing. Any content, any n, any row number and any length gets an answer.
 *
 * ANSWERS. Each function but smaf_check_code returns a struct. Where its `refusal` is 0 the call was accepted: `place` is 0, and the
 * fields after it hold what was asked. Else `refusal` is a number of the table below, `place` is where in the file that is (for smaf_write:
 * in which track), and the fields after it are 0.
 *
 * MEMORY. What is const is only read. An accepted call writes the rows or bytes that it reports, from the head of each output on; the rest of
 * each output stays as it was. A refused call writes nothing.
 *
 * WHAT THE CALLER OWES, and the library cannot test:
 * - Each pointer is aligned for its type and points to at least as many elements as the length behind it says; each element has a value
 *   (clear a table that is fresh from malloc). That holds for a length of 0 too: the pointer is then not NULL, but nothing is read or
 *   written through it, so the address of any object of that type will do.
 * - The memory areas of one call do not overlap.
 * - While a call runs, nothing else writes to what it reads, and nothing else uses its outputs. Calls on other memory may run beside it.
 * - There is stack for the call: 128 KiB is enough.
 *
 * REFUSALS and their places, in the order in which they are tried: first the file's own chunk list; then each track in file order, from 8 on,
 * its chunk list for 4, 9 and 6 before the rest of 9. A sequence body is tried for 11, then item by item for 20 to 23, behind end marks too;
 * of several faults of one item the earliest byte counts, then the lower number.
 *
 *    1  n is over buffer_length, or over 65,536                              0
 *    2  n is below 10, or the first four bytes are not MMMD                  0
 *    3  the file's size + 8 is not n                                         4
 *    4  under 8 bytes left for a header, or a size past its list's end       that header
 *    6  an ID again in one list                                              the second header
 *    5  no first chunk, or not CNTI, or its body under 5 bytes               8
 *    7  no track                                                             the check code
 *    8  a track of unknown format, sequence type or time base, or too short  the track's body
 *    9  a sub-chunk that is not allowed; a required one that is missing      its header; the track's
 *   10  a setup body that is empty, or not exclusives                        the body; the bad message
 *   11  a sequence body that is empty                                        the body
 *   20  an item cut short                                                    the byte after the body's last
 *   21  a forbidden note or wave number; a gate time of 0                    the event's first byte; the gate byte
 *   22  a reserved event or control, or one that a PCM track has not         its second byte
 *   23  a reserved value (a short form's 0 or 15 too), a second byte over    that byte; for a short form the
 *       0x7F of a duration or gate time, a size under 3 or an ending other   control's second
 *       than 0xF7 of an exclusive
 *   12  a seek body that is empty or malformed                               the body; the entry
 *   13  an address or a position against the rules                           the entry
 *   14  a letter without a phrase                                            the letter
 *   16  the row names no readable track (play, flatten, items, entries)      0
 *   17  a phrase track without an order list (play, flatten)                 the track's header
 *   15  an output table too short                                            the track's header playing; else 0
 *   18  a plain form over 65,536 bytes or over the room (flatten)            the track's header
 *   19  not a note byte, or a reserved shift (pitch)                         0
 *   24  over 16 tracks, or a file over 65,536 bytes or over the room (write) 0
 *
 * smaf_write is not given a file: what these numbers mean there, and in which order they are tried, stands with it.
 *
 * PROMISED AND NOT. That each function answers and writes exactly what its definition says is proved of its source (crates/smaf_c;
 * docs/PROMISES.md). That this header declares what that source has is tested, not proved. Nothing is promised of the compiler's back
 * end, of a caller that does not keep to the above, or of time.
 */
#ifndef SMAF_H
#define SMAF_H

#include <stdbool.h>
#include <stddef.h>
#include <stdint.h>

#ifdef __cplusplus
extern "C" {
#endif

/* READ: a file into chunk rows.
 *
 * Four numbers of `rows` are one chunk row: the chunk's ID (its first byte highest), the place of its header, the size of its body, and the
 * row number of its container. Row 0 is the file's own. Rows run in file order, a container before its contents. A table whose length
 * is no multiple of four has room for the whole rows in it.
 *
 * Accepted: the first 4 * count numbers of `rows` are the rows of the file, the rest is as it was. Refused: `rows` is as it was.
 *
 * No file has more than 8,191 rows, so a table of 32,768 numbers is never refused with 15. */
struct smaf_read_reply {
    uint32_t refusal; /* 0, 1 to 15, or 20 to 23 */
    size_t place;
    size_t count;  /* how many rows the file has */
    uint16_t code; /* the check code, computed from the file's bytes */
    bool matches;  /* whether the file ends with that code; where it does not, the file is accepted all the same */
};
struct smaf_read_reply smaf_read(const uint8_t *buffer, size_t buffer_length, size_t n, uint32_t *rows, size_t rows_length);

/* PLAY: the messages of the track that a chunk row names, in the order in which they sound.
 *
 * A played row is a number of `steps`, the step at which the message sounds, and the number of `words` at the same index, from its top bit
 * on: kind 5 bits, channel 2, value 8, gate time 15, zeros 2. Kinds: 1 note, 2 wave, 3 program, 4 bank, 5 octave shift, 6 modulation, 7 pitch bend,
 * 8 volume, 9 pan, 10 expression, 11 short modulation, 12 short pitch bend, 13 short expression, 14 exclusive. A note's value is octave *
 * 16 + note, a wave's its number, a short form's its 4 bits. The word of an exclusive is kind 5 bits, place of its FF byte in the sequence
 * body 16, size byte 8, zeros 3. The shorter of the two tables says how much room there is.
 *
 * Playing stops at the first end mark that a section reaches: one that stands at the section's start address or after it, with an onset
 * before the section's stop time (any onset where a stream has no stop point). The end is the step there. Of that section the messages that
 * stand before the mark play; nothing behind it does, and no later section is played.
 *
 * Accepted: the first `count` numbers of `steps` and of `words` are the played rows, the rest is as it was. Refused: both are as they were. */
struct smaf_play_reply {
    uint32_t refusal; /* 0, 1 to 17, or 20 to 23 */
    size_t place;
    size_t count; /* how many messages the track plays */
    uint64_t end; /* the step at which it ends */
};
struct smaf_play_reply smaf_play(const uint8_t *buffer, size_t buffer_length, size_t n, size_t row, uint64_t *steps,
                                 size_t steps_length, uint32_t *words, size_t words_length);

/* FLATTEN: the track that a chunk row names as one plain sequence body, which plays the same messages at the same steps to the same end. Where
 * an end mark stops the playing, the plain form ends there. It has one end mark, its last four bytes.
 *
 * Accepted: the first `length` bytes of `room` are the plain form, end mark and all, the rest is as it was. Refused: `room` is as it was. A
 * room of 65,536 bytes is enough for every plain form that there is. */
struct smaf_flatten_reply {
    uint32_t refusal; /* 0, 1 to 14, 16 to 18, or 20 to 23 */
    size_t place;
    size_t length; /* how many bytes the plain form has */
};
struct smaf_flatten_reply smaf_flatten(const uint8_t *buffer, size_t buffer_length, size_t n, size_t row, uint8_t *room,
                                       size_t room_length);

/* ITEMS: those of the track that a chunk row names, as smaf_write takes them.
 *
 * Two numbers of `items` are one item, in the order in which they stand in the sequence body: its duration, and a word as in a played row.
 * Beside the kinds of played rows there are 15, a NOP (0x78000000), and 16, an end mark (0x80000000), whose duration is 0. A table of odd
 * length has room for the whole items in it. The track may be a PCM track too, but only a score track's items can be written.
 *
 * Refused as a read of the file is, but for 15; then with 16; then with 15 at 0.
 *
 * Accepted: the first 2 * count numbers of `items` are the items, the rest is as it was. Refused: `items` is as it was.
 *
 * No track has more than 21,845 items, so a table of 43,690 numbers is never refused with 15. */
struct smaf_items_reply {
    uint32_t refusal; /* 0, 1 to 16, or 20 to 23 */
    size_t place;
    size_t count; /* how many items the track has */
};
struct smaf_items_reply smaf_items(const uint8_t *buffer, size_t buffer_length, size_t n, size_t row, uint32_t *items,
                                   size_t items_length);

/* ENTRIES: the seek entries of the track that a chunk row names, as smaf_write takes them. A track without a seek chunk has none.
 *
 * Four numbers of `entries` are one entry: its kind, a letter, from, to.
 *
 *     kind        letter      from                 to
 *     0 st        0           the start point      0
 *     1 sp        0           the stop point       0
 *     2 phrase    its letter  its start address    its stop address
 *     3 SL        0           how many letters     0
 *
 * The letters of the order list (SL) stand in `letters`. In a stream (sequence type 0) a point is an address too, in a phrase track a
 * position in the order list. A table whose length is no multiple of four has room for the whole entries in it.
 *
 * Refused as smaf_items is: with 15 at 0 where either table has too little room.
 *
 * Accepted: the first 4 * count numbers of `entries` are the entries, the first bytes of `letters`, as many as the reply says, the letters;
 * the rest of both is as it was. Refused: both are as they were.
 *
 * No track has more than 36 entries, so 144 numbers and 65,536 bytes are never refused with 15. */
struct smaf_entries_reply {
    uint32_t refusal; /* 0, 1 to 16, or 20 to 23 */
    size_t place;
    size_t count;   /* how many entries the track has */
    size_t letters; /* how many letters its order list has; 0 without one */
};
struct smaf_entries_reply smaf_entries(const uint8_t *buffer, size_t buffer_length, size_t n, size_t row, uint32_t *entries,
                                       size_t entries_length, uint8_t *letters, size_t letters_length);

/* WRITE: a whole file, from its five contents bytes and its score tracks of format type 0. The file has a CNTI chunk of those five bytes, then
 * the tracks in the order in which they are given, of each its seek chunk (none where it has no entries) before its sequence chunk, and the
 * right check code. Reading it gives what was put in; and a file of that layout, with up to 16 tracks, the right check code and no comma
 * after a seek body's last entry, comes out byte for byte as it was from what smaf_read, smaf_entries and smaf_items give of it.
 *
 * Two tables say what is written. `bytes` begins with the five contents bytes. Then the tracks stand in both tables one behind the other:
 *
 *     numbers   how many entries, items, letters and source bytes the track has: four counts
 *               its entries, four numbers each, as smaf_entries gives them
 *               its items, two numbers each, as smaf_items gives them
 *     bytes     its number, the last byte of the chunk's ID
 *               its six fixed bytes: format type, sequence type, time base D, time base G, two of channel status
 *               the letters of its order list
 *               the source of its exclusives
 *
 * A count that runs past its table's end means what is left there. A track is there where its four counts and its seven bytes are: what is
 * left of the tables behind the last one is not looked at.
 *
 * A word is exactly that of an item of a score: what its kind does not use is 0. An exclusive's word, kind 14, has a place and a size; its
 * bytes, from the maker's to 0xF7, are `size` bytes of the track's source from place + 3 on. So the sequence body that was read can be lent as
 * the source of the items that smaf_items gave of it, also where items were changed, put in or taken out. A track without exclusives needs
 * no source. What an entry does not use is not looked at, an SL's count of letters neither. Addresses are those in the body that the items make:
 * whoever changes how many bytes an item takes moves the addresses behind it.
 *
 * Refused, in this order; the place is the track's index, from 0 on, for all but 7 and 24:
 *
 *    6  a track's number again (the second)
 *    7  no track; the place is 0
 *       then, track by track:
 *    8  a format type other than 0, an unknown sequence type or time base
 *   11  no items
 *   21, 22, 23   of the first item at fault the first of these: 23 a duration over 16,511, or an end mark's over 0; 22 an unknown kind, or 2,
 *       which a score has not; 21 a forbidden note; 21 a gate time of 0; 23 one over 16,511; 23 a reserved value; 23 an exclusive of a size under
 *       3, past its source, or not ending in 0xF7; 23 bits that should be 0
 *   12  an unknown kind of entry; a letter that is none; a point of a phrase track over 255; entries out of order, or one again
 *   13  an address or a position against the rules
 *   14  a letter without a phrase
 *       then:
 *   24  over 16 tracks, or a file over 65,536 bytes or over the room; the place is 0
 *
 * Accepted: the first `length` bytes of `room` are the file, the rest is as it was. Refused: `room` is as it was. A room of 65,536 bytes is
 * enough for every file that there is. */
struct smaf_write_reply {
    uint32_t refusal; /* 0, 6 to 8, 11 to 14, or 21 to 24 */
    size_t place;
    size_t length; /* how many bytes the file has */
};
struct smaf_write_reply smaf_write(const uint32_t *numbers, size_t numbers_length, const uint8_t *bytes, size_t bytes_length,
                                   uint8_t *room, size_t room_length);

/* PITCH: of a note event's first byte, whose channel bits (the top two) are ignored, and the value byte of an octave shift: 0x00 to 0x04 are
 * octaves up, 0x81 to 0x84 one to four octaves down. It uses no memory of the caller. */
struct smaf_pitch_reply {
    uint32_t refusal; /* 0, or 19 */
    size_t place;
    int32_t semitones; /* from the A of 440 Hz, -80 to 63 */
};
struct smaf_pitch_reply smaf_pitch(uint8_t byte, uint8_t shift);

/* CHECK CODE: of any bytes, any number of them. A file ends with the check code of all bytes before it, its high byte first: what a read
 * computes and compares. That of no bytes is 0. It refuses nothing. */
uint16_t smaf_check_code(const uint8_t *bytes, size_t bytes_length);

#ifdef __cplusplus
}
#endif

#endif
