/*
 * The conversion of a supplier's text over libexpat: the benchmark's peer, not part of the library.
 *
 *     gcc -std=c99 -O2 -Wall -Wextra -Werror -o expat_peer peer/expat_peer.c -lexpat
 *     expat_peer SHAPE TEXT OUT RUNS
 *
 * Writes the catalogue file to OUT and prints its length, or the refusal's number made negative; then the least
 * processor time of RUNS conversions and of as many parses without any handler, in seconds. Files are read and memory
 * is allocated beforehand. The shape must be a sound one without rows. A character reference in a value is taken for
 * the character, since the parser hands on no other; the library refuses it.
 */
#define _POSIX_C_SOURCE 199309L
#include <expat.h>

#include <stdint.h>
#include <stdio.h>
#include <stdlib.h>
#include <string.h>
#include <time.h>

#define TABLES 16
#define ROWS 4096
#define MISSING 4294967295u
#define NO_PARENT 65535u
#define TOO_LARGE 99999999999u /* what a larger number is taken for */

enum { NO_FORM = 20, MISFIT = 21, OVERFULL = 22 };

/* A table of the shape, its rows so far, and their bytes. */
struct table {
    unsigned columns, parent, rows;
    uint8_t *bytes;
};

/* An open element: its table, TABLES if it has none, and its row. */
struct open {
    unsigned table, row;
};

struct conversion {
    XML_Parser parser;
    struct table tables[TABLES];
    unsigned count, depth;
    struct open open[TABLES + 1];
    int no_form, misfit, overfull;
};

/* ---- Numbers ---- */

static unsigned number16(const uint8_t *at)
{
    return at[0] | at[1] << 8;
}

static void put16(uint8_t *at, unsigned number)
{
    at[0] = (uint8_t)number;
    at[1] = (uint8_t)(number >> 8);
}

static void put32(uint8_t *at, uint32_t number)
{
    put16(at, number & 0xffff);
    put16(at + 2, number >> 16);
}

/* Whether a word is decimal without leading zeros, with its number. */
static int numeral(const char *word, uint64_t *number)
{
    if (*word < '0' || *word > '9' || (word[0] == '0' && word[1] != 0))
        return 0;
    *number = 0;
    for (; *word >= '0' && *word <= '9'; word++) {
        *number = *number * 10 + (uint64_t)(*word - '0');
        if (*number > TOO_LARGE)
            *number = TOO_LARGE;
    }
    return *word == 0;
}

/* ---- Handlers ---- */

static void refuse(struct conversion *all)
{
    all->no_form = 1;
    XML_StopParser(all->parser, XML_FALSE);
}

/* The cells of a row: bytes, or NULL if the row has no place. */
static void cells(struct conversion *all, const struct table *table, uint8_t *bytes, const XML_Char **attributes)
{
    for (; *attributes != NULL; attributes += 2) {
        uint64_t column, value;
        if (attributes[0][0] != 'c' || !numeral(attributes[0] + 1, &column) || !numeral(attributes[1], &value)
            || value >= MISSING) {
            refuse(all);
            return;
        }
        if (table == NULL || column >= table->columns)
            all->misfit = 1;
        else if (bytes != NULL)
            put32(bytes + 2 + 4 * column, (uint32_t)value);
    }
}

static void row(struct conversion *all, const XML_Char *name, const XML_Char **attributes)
{
    const struct open *above = &all->open[all->depth - 1];
    unsigned within = all->depth == 1 ? NO_PARENT : above->table;
    struct table *table = NULL;
    uint8_t *bytes = NULL;
    uint64_t number;
    if (name[0] != 't' || !numeral(name + 1, &number) || all->depth > TABLES) {
        refuse(all);
        return;
    }
    if (number < all->count && all->tables[number].parent == within)
        table = &all->tables[number];
    else
        all->misfit = 1;
    all->open[all->depth].table = table == NULL ? TABLES : (unsigned)number;
    all->open[all->depth].row = table == NULL ? 0 : table->rows;
    if (table != NULL && table->rows >= ROWS) {
        all->overfull = 1;
    } else if (table != NULL) {
        size_t size = 2 + 4 * table->columns;
        bytes = table->bytes + size * table->rows++;
        put16(bytes, all->depth == 1 ? NO_PARENT : above->row);
        memset(bytes + 2, 0xff, size - 2);
    }
    cells(all, table, bytes, attributes);
}

static void start(void *data, const XML_Char *name, const XML_Char **attributes)
{
    struct conversion *all = data;
    if (all->depth > 0)
        row(all, name, attributes);
    else if (strcmp(name, "catalogue") != 0 || *attributes != NULL)
        refuse(all);
    all->depth++;
}

static void end(void *data, const XML_Char *name)
{
    struct conversion *all = data;
    (void)name;
    all->depth--;
}

static void characters(void *data, const XML_Char *text, int length)
{
    for (int i = 0; i < length; i++)
        if (text[i] != ' ' && text[i] != '\t' && text[i] != '\r' && text[i] != '\n') {
            refuse(data);
            return;
        }
}

static void comment(void *data, const XML_Char *text)
{
    (void)text;
    refuse(data);
}

static void instruction(void *data, const XML_Char *target, const XML_Char *text)
{
    (void)target, (void)text;
    refuse(data);
}

static void declaration(void *data, const XML_Char *version, const XML_Char *encoding, int standalone)
{
    (void)version, (void)encoding, (void)standalone;
    refuse(data);
}

static void type(void *data, const XML_Char *name, const XML_Char *system, const XML_Char *public, int internal)
{
    (void)name, (void)system, (void)public, (void)internal;
    refuse(data);
}

static void section(void *data)
{
    refuse(data);
}

static void set_handlers(struct conversion *all)
{
    XML_SetUserData(all->parser, all);
    XML_SetElementHandler(all->parser, start, end);
    XML_SetCharacterDataHandler(all->parser, characters);
    XML_SetCommentHandler(all->parser, comment);
    XML_SetProcessingInstructionHandler(all->parser, instruction);
    XML_SetXmlDeclHandler(all->parser, declaration);
    XML_SetStartDoctypeDeclHandler(all->parser, type);
    XML_SetStartCdataSectionHandler(all->parser, section);
}

/* ---- The conversion ---- */

/* Reads the tables of a sound shape, with memory for their rows. */
static void read_shape(struct conversion *all, const uint8_t *shape, size_t length)
{
    all->count = number16(shape + length - 6);
    for (unsigned i = 0; i < all->count; i++) {
        all->tables[i].columns = number16(shape + 6 * i);
        all->tables[i].parent = number16(shape + 6 * i + 2);
        all->tables[i].bytes = malloc(ROWS * (2 + 4 * all->tables[i].columns));
        memset(all->tables[i].bytes, 0, ROWS * (2 + 4 * all->tables[i].columns));
    }
}

/* Writes the catalogue file of the rows that were read. Gives its length. */
static size_t written(const struct conversion *all, uint8_t *out)
{
    uint32_t offsets[TABLES];
    uint8_t *at = out;
    for (unsigned i = 0; i < all->count; i++) {
        const struct table *table = &all->tables[i];
        size_t bytes = (size_t)table->rows * (2 + 4 * table->columns);
        offsets[i] = (uint32_t)(at - out);
        put16(at, table->columns);
        put16(at + 2, table->parent);
        put16(at + 4, table->rows);
        memcpy(at + 6, table->bytes, bytes);
        at += 6 + bytes;
    }
    uint32_t trailer = (uint32_t)(at - out);
    for (unsigned i = 0; i < all->count; i++, at += 4)
        put32(at, offsets[i]);
    put16(at, all->count);
    put32(at + 2, trailer);
    return (size_t)(at + 6 - out);
}

static long convert(struct conversion *all, const char *text, size_t length, uint8_t *out)
{
    all->depth = 0;
    all->no_form = all->misfit = all->overfull = 0;
    for (unsigned i = 0; i < all->count; i++)
        all->tables[i].rows = 0;
    all->parser = XML_ParserCreate(NULL);
    set_handlers(all);
    int parsed = XML_Parse(all->parser, text, (int)length, 1) == XML_STATUS_OK;
    XML_ParserFree(all->parser);
    if (!parsed || all->no_form)
        return -NO_FORM;
    if (all->misfit)
        return -MISFIT;
    return all->overfull ? -OVERFULL : (long)written(all, out);
}

static void parse(const char *text, size_t length)
{
    XML_Parser parser = XML_ParserCreate(NULL);
    XML_Parse(parser, text, (int)length, 1);
    XML_ParserFree(parser);
}

/* ---- The program ---- */

static double processor_time(void)
{
    struct timespec time;
    clock_gettime(CLOCK_PROCESS_CPUTIME_ID, &time);
    return (double)time.tv_sec + (double)time.tv_nsec * 1e-9;
}

static char *read_file(const char *path, size_t *length)
{
    FILE *file = fopen(path, "rb");
    if (file == NULL || fseek(file, 0, SEEK_END) != 0) {
        perror(path);
        exit(2);
    }
    *length = (size_t)ftell(file);
    rewind(file);
    char *bytes = malloc(*length + 1);
    if (bytes == NULL || fread(bytes, 1, *length, file) != *length) {
        perror(path);
        exit(2);
    }
    fclose(file);
    return bytes;
}

int main(int count, char **arguments)
{
    if (count != 5) {
        fprintf(stderr, "usage: expat_peer SHAPE TEXT OUT RUNS\n");
        return 2;
    }
    size_t shape_length, text_length;
    char *shape = read_file(arguments[1], &shape_length), *text = read_file(arguments[2], &text_length);
    static struct conversion all;
    read_shape(&all, (const uint8_t *)shape, shape_length);
    size_t room = 1024;
    for (unsigned i = 0; i < all.count; i++)
        room += ROWS * (2 + 4 * all.tables[i].columns);
    uint8_t *out = malloc(room);
    memset(out, 0, room);

    double least = 1e9, bare = 1e9;
    long reply = 0;
    for (int run = 0; run < atoi(arguments[4]); run++) {
        double begun = processor_time();
        reply = convert(&all, text, text_length, out);
        double converted = processor_time();
        parse(text, text_length);
        double parsed = processor_time();
        if (converted - begun < least)
            least = converted - begun;
        if (parsed - converted < bare)
            bare = parsed - converted;
    }
    FILE *file = fopen(arguments[3], "wb");
    if (file == NULL || fwrite(out, 1, reply > 0 ? (size_t)reply : 0, file) != (reply > 0 ? (size_t)reply : 0)
        || fclose(file) != 0) {
        perror(arguments[3]);
        return 2;
    }
    printf("%ld %.9f %.9f\n", reply, least, bare);
    return 0;
}
