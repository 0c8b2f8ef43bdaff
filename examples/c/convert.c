/*
 * Converts a supplier's text into a catalogue, by a shape, and writes the catalogue to standard output.
 *
 *     gcc -std=c99 -Wall -Wextra -Werror -I include examples/c/convert.c crates/host/out/libhost.a -o convert
 *     ./convert examples/album.shape examples/album.xml > album.cat
 *
 * A refusal prints `refused` and its number to standard error, and nothing to standard output.
 */
#include "cagberin.h"

#include <stdio.h>
#include <stdlib.h>

#define OUTPUT_BYTES 4325542  /* enough for every catalogue: see cagberin_convert */

static uint8_t output[OUTPUT_BYTES];

/* Reads a whole file into memory of its own. Gives its first byte, or NULL. */
static uint8_t *read_file(const char *name, size_t *len)
{
    FILE *stream = fopen(name, "rb");
    uint8_t *bytes = malloc(1);
    size_t room = 1, got = 1;
    *len = 0;
    if (stream == NULL || bytes == NULL)
        return NULL;
    while (got != 0) {
        if (*len == room) {
            uint8_t *more = realloc(bytes, room *= 2);
            if (more == NULL)
                return NULL;
            bytes = more;
        }
        got = fread(bytes + *len, 1, room - *len, stream);
        *len += got;
    }
    if (ferror(stream))
        return NULL;
    fclose(stream);
    return bytes;
}

int main(int argc, char **argv)
{
    uint8_t *shape, *text;
    size_t shape_len, text_len;
    int64_t reply;

    if (argc != 3 || (shape = read_file(argv[1], &shape_len)) == NULL ||
        (text = read_file(argv[2], &text_len)) == NULL) {
        fprintf(stderr, "usage: convert SHAPE TEXT > CATALOGUE\n");
        return 2;
    }
    reply = cagberin_convert(shape, shape_len, text, text_len, output, sizeof output);
    free(shape);
    free(text);
    if (reply < 0) {
        fprintf(stderr, "refused %d\n", (int)-reply);
        return 1;
    }
    return fwrite(output, 1, (size_t)reply, stdout) == (size_t)reply && fflush(stdout) == 0 ? 0 : 1;
}
