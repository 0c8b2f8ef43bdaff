/*
 * Checks a catalogue, asks it four questions, lists it in steps, packs the list behind it, reads the list back and
 * checks it by evidence.
 *
 *     gcc -std=c99 -Wall -Wextra -Werror -I include examples/c/example.c crates/host/out/libhost.a -o example
 *     ./example examples/album.cat
 *
 * With the album the output is expected.txt.
 */
#include "cagberin.h"

#include <stdio.h>

#define FILE_BYTES 32768   /* bytes of a catalogue, at most */
#define LIST_ENTRIES 4096  /* entries of its listing, at most */
#define BUDGET 4           /* sets that a listing call passes, at most */
#define READ_RECORDS 2     /* entries read at a time */

static uint8_t file[FILE_BYTES + 4 * LIST_ENTRIES + 8];
static uint32_t work[CAGBERIN_WORK_WORDS];
static struct cagberin_entry list[LIST_ENTRIES];

/* The album's evidence. Each record: target, right, column set (2 bytes), two rows (2 bytes each). */
static const uint8_t evidence[] = {
    0, 0,            0, 0,  0, 0,  2, 0,
    0, CAGBERIN_ROW, 1, 0,  0, 0,  1, 0,
    1, 1,            5, 0,  0, 0,  1, 0,
    1, 2,            2, 0,  0, 0,  2, 0,
    1, CAGBERIN_ROW, 5, 0,  0, 0,  1, 0,
    1, CAGBERIN_ROW, 2, 0,  0, 0,  2, 0
};

/* Prints the document's number of a refusal and gives the program's status. */
static int refused(const char *call, int64_t reply)
{
    printf("%s refused %d\n", call, (int)-reply);
    return 1;
}

/* Reads a catalogue into the file buffer. Gives its length, or 0. */
static size_t read_file(const char *name)
{
    FILE *stream = fopen(name, "rb");
    size_t len;
    if (stream == NULL)
        return 0;
    len = fread(file, 1, FILE_BYTES, stream);
    fclose(stream);
    return len;
}

static void print_entry(struct cagberin_entry entry)
{
    if (entry.right == CAGBERIN_ROW)
        printf("%d %d row\n", entry.target, entry.left);
    else
        printf("%d %d %d\n", entry.target, entry.left, entry.right);
}

/* Asks whether left gives right in the target, and shows the first breaking pair if not. */
static int question(size_t len, uint32_t target, uint32_t left, uint32_t right)
{
    uint32_t first, second;
    int32_t holds = cagberin_ask(file, len, target, left, right, work, CAGBERIN_WORK_WORDS);
    int32_t found;
    if (holds < 0)
        return refused("ask", holds);
    if (holds == 1) {
        printf("table %u: %u gives %u\n", (unsigned)target, (unsigned)left, (unsigned)right);
        return 0;
    }
    found = cagberin_pair(file, len, target, left, right, work, CAGBERIN_WORK_WORDS, &first, &second);
    if (found < 0)
        return refused("pair", found);
    if (found == 1)
        printf("table %u: %u doesn't give %u, rows %u and %u are the first breaking pair\n", (unsigned)target,
               (unsigned)left, (unsigned)right, (unsigned)first, (unsigned)second);
    return 0;
}

/* Lists the whole catalogue in steps, each behind the entries of the one before. Gives their number, or a refusal. */
static int64_t list_in_steps(size_t len, uint32_t sets)
{
    uint32_t place = 0;
    size_t count = 0;
    while (place < sets) {
        uint32_t next_place, passed;
        int64_t reply = cagberin_list(file, len, place, BUDGET, list + count, LIST_ENTRIES - count, work,
                                      CAGBERIN_WORK_WORDS, &next_place, &passed);
        if (reply < 0)
            return reply;
        printf("place %u: %u sets passed, %d entries\n", (unsigned)place, (unsigned)passed, (int)reply);
        count += (size_t)reply;
        place = next_place;
    }
    return (int64_t)count;
}

/* Reads the packed list that ends the file, run by run, and prints it. Gives the number of entries, or a refusal. */
static int64_t read_in_runs(size_t len)
{
    size_t from = 0;
    for (;;) {
        struct cagberin_entry run[READ_RECORDS];
        int64_t i, reply = cagberin_read(file, len, from, run, READ_RECORDS);
        if (reply < 0)
            return reply;
        if (reply == 0)
            return (int64_t)from;
        for (i = 0; i < reply; i++)
            print_entry(run[i]);
        from += (size_t)reply;
    }
}

/* Checks the list that ends the file against the catalogue in front, by so many bytes of evidence. */
static int64_t verify(size_t front, size_t len, size_t evidence_len)
{
    int64_t reply = cagberin_verify(file, front, file, len, evidence, evidence_len);
    unsigned records = (unsigned)(evidence_len / CAGBERIN_RECORD_BYTES);
    if (reply >= 0)
        printf("by %u records the list is the full listing, %d entries\n", records, (int)reply);
    else if (reply == CAGBERIN_UNCOVERED_SET)
        printf("by %u records a set is uncovered\n", records);
    return reply;
}

int main(int argc, char **argv)
{
    uint32_t tables, sets;
    int64_t reply, count;
    size_t len, front;

    if (argc != 2 || (len = read_file(argv[1])) == 0) {
        fprintf(stderr, "usage: example CATALOGUE\n");
        return 2;
    }
    reply = cagberin_check(file, len, &tables, &sets);
    if (reply < 0)
        return refused("check", reply);
    printf("tables %u sets %u\n", (unsigned)tables, (unsigned)sets);

    if (question(len, 1, 1, 2) != 0 || question(len, 1, 2, 2) != 0 || question(len, 1, 4, 1) != 0 ||
        question(len, 0, 0, 0) != 0)
        return 1;

    count = list_in_steps(len, sets);
    if (count < 0)
        return refused("list", count);

    reply = cagberin_pack(list, (size_t)count, file + len, sizeof file - len);
    if (reply < 0)
        return refused("pack", reply);
    printf("packed %d entries into %d bytes\n", (int)count, (int)reply);

    len += (size_t)reply;
    count = cagberin_open(file, len, &front);
    if (count < 0)
        return refused("open", count);
    printf("a list of %d entries behind %u bytes\n", (int)count, (unsigned)front);

    count = read_in_runs(len);
    if (count < 0)
        return refused("read", count);
    printf("read back %d entries\n", (int)count);

    reply = cagberin_read(file, len - 1, 0, list, LIST_ENTRIES);
    if (reply != CAGBERIN_NO_LIST)
        return 1;
    printf("without its last byte it is no list\n");

    reply = verify(front, len, sizeof evidence);
    if (reply < 0)
        return refused("verify", reply);
    reply = verify(front, len, sizeof evidence - CAGBERIN_RECORD_BYTES);
    return reply == CAGBERIN_UNCOVERED_SET ? 0 : 1;
}
