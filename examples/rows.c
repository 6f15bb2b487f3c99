/* Prints the chunk rows of a SMAF file, or why it is refused.
 *
 *     rows FILE     or   rows <FILE
 *
 * The exit status is 0 where the file is accepted, 1 where it is refused, and 2 where there is nothing to read. */
#include <inttypes.h>
#include <stdio.h>

#include "smaf.h"

/* The largest file is 65,536 bytes; one more shows that a file is too large. */
static uint8_t file[65537];
static uint32_t rows[32768];

/* What each refusal means, by its number. */
static const char *const meanings[] = {
    "accepted",
    "the file is over 65,536 bytes",
    "this is no SMAF file",
    "the file's size is not the one in its header",
    "a header is cut short, or a chunk ends past its list",
    "the file does not begin with its contents information (CNTI)",
    "an ID stands twice in one list",
    "the file has no track",
    "a track of unknown format, sequence type or time base, or too short",
    "a sub-chunk is not allowed there, or a required one is missing",
    "a setup body is empty, or not made of exclusives",
    "a sequence body is empty",
    "a seek body is empty or malformed",
    "an address or a position is against the rules",
    "a letter of an order list has no phrase",
    "the table of rows is too short",
    [20] = "the sequence body ends here, and its last item needs more bytes",
    [21] = "a forbidden note or wave number, or a gate time of 0",
    [22] = "a reserved event or control, or one that a PCM track has not",
    [23] = "a reserved value, or a bad byte of a duration, a gate time or an exclusive",
};

static int complain(const char *what, const char *name)
{
    fprintf(stderr, "rows: %s%s\n", what, name);
    return 2;
}

/* An ID as text: a byte that is no visible character, or is a backslash, as \x and two digits. */
static void print_id(uint32_t id)
{
    for (int shift = 24; shift >= 0; shift -= 8) {
        unsigned byte = id >> shift & 0xFF;
        if (byte > 0x20 && byte < 0x7F && byte != '\\')
            putchar((int)byte);
        else
            printf("\\x%02x", byte);
    }
}

static void print_rows(struct smaf_read_reply reply)
{
    puts("row id place size container");
    for (size_t row = 0; row < reply.count; row++) {
        const uint32_t *numbers = rows + 4 * row;
        printf("%zu ", row);
        print_id(numbers[0]);
        printf(" %" PRIu32 " %" PRIu32 " %" PRIu32 "\n", numbers[1], numbers[2], numbers[3]);
    }
    printf("check code %04x, %s\n", (unsigned)reply.code, reply.matches ? "as in the file" : "not the one in the file");
}

/* Reads all of the input and prints what it holds. */
static int show(FILE *input, const char *name)
{
    size_t length = fread(file, 1, sizeof file, input);
    if (ferror(input))
        return complain("cannot read ", name);
    struct smaf_read_reply reply = smaf_read(file, sizeof file, length, rows, sizeof rows / sizeof rows[0]);
    if (reply.refusal != 0) {
        printf("refused %" PRIu32 " at %zu: %s\n", reply.refusal, reply.place, meanings[reply.refusal]);
        return 1;
    }
    print_rows(reply);
    return 0;
}

int main(int count, char **words)
{
    if (count > 2)
        return complain("give one file: rows FILE", "");
    if (count < 2)
        return show(stdin, "standard input");
    FILE *input = fopen(words[1], "rb");
    if (input == NULL)
        return complain("cannot open ", words[1]);
    int status = show(input, words[1]);
    fclose(input);
    return status;
}
