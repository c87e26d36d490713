/* What both drivers have: the image from standard input, and a line for each step of offset, bytes taken, whether they were
 * read, and text, with tabs between. */
#include <stdint.h>
#include <stdio.h>
#include <stdlib.h>

enum { LONGEST = 1 << 20 };

/* One byte more than an image may have, so that one that is too long is seen to be. */
static uint8_t image[LONGEST + 1];

static void stop(const char *why)
{
    fprintf(stderr, "%s\n", why);
    exit(2);
}

/* Reads the image and answers its length, or stops. */
static size_t read_image(void)
{
    size_t length = fread(image, 1, sizeof image, stdin);
    if (ferror(stdin))
        stop("standard input can't be read");
    if (length > LONGEST)
        stop("the image has more than 1,048,576 bytes");
    return length;
}

static void print_read(size_t offset, size_t taken, const char *name, const char *operands)
{
    printf("%zu\t%zu\tread\t%s%s%s\n", offset, taken, name, *operands ? " " : "", operands);
}

static void print_refused(size_t offset) { printf("%zu\t1\trefused\trefused\n", offset); }
