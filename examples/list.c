/* Lists an 8086 image, one line for each instruction.
 *
 *     cc -I include examples/list.c target/staticlib/libmrc_c.a -o target/list-c
 *     target/list-c [--reading 1|2] IMAGE
 *
 * Reading 1 is the given Rust's and the usual one, reading 2 that of Intel's manual. */
#include "mrc.h"

#include <stdio.h>
#include <string.h>

/* One byte more than an image may have, so that an image that is too long is seen to be. */
static uint8_t image[MRC_LONGEST_IMAGE + 1];

/* Reads the image and answers its length, or answers -1. */
static long read_image(const char *name)
{
    FILE *file = fopen(name, "rb");
    if (file == NULL)
        return -1;
    size_t length = fread(image, 1, sizeof image, file);
    int failed = ferror(file);
    fclose(file);
    return failed ? -1 : (long)length;
}

/* Prints every line and answers why there is no further one: MRC_END_OF_INPUT where the whole image is listed. */
static enum mrc_refusal print_lines(size_t length, enum mrc_reading reading)
{
    uint8_t line[MRC_LONGEST_LINE];
    size_t position = 0;
    for (;;) {
        uint64_t answer = mrc_line(image, length, position, (uint8_t)reading, line, sizeof line);
        if (mrc_line_refusal(answer) != MRC_NOT_REFUSED)
            return mrc_line_refusal(answer);
        fwrite(line, 1, mrc_line_length(answer), stdout);
        position += mrc_line_taken(answer);
    }
}

static int fail(const char *name, const char *why)
{
    fprintf(stderr, "list: %s: %s\n", name, why);
    return 1;
}

/* The reading that a word names, or 0. */
static int reading_of(const char *word)
{
    return strcmp(word, "1") == 0 ? MRC_READING_1 : strcmp(word, "2") == 0 ? MRC_READING_2 : 0;
}

int main(int count, char **words)
{
    int chosen = count == 4 && strcmp(words[1], "--reading") == 0;
    if (count != 2 && !chosen)
        return fail("usage", "list [--reading 1|2] IMAGE");
    int reading = chosen ? reading_of(words[2]) : MRC_READING_1;
    if (reading == 0)
        return fail(words[2], "no reading; there are 1 and 2");
    const char *name = words[count - 1];
    long length = read_image(name);
    if (length < 0)
        return fail(name, "can't be read");
    if (print_lines((size_t)length, (enum mrc_reading)reading) == MRC_IMAGE_TOO_LONG)
        return fail(name, "longer than 65,536 bytes");
    if (fflush(stdout) != 0 || ferror(stdout))
        return fail("standard output", "can't be written");
    return 0;
}
