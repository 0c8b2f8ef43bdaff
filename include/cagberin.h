/*
 * cagberin.h - what determines what in a media catalogue.
 *
 * A media catalogue is a file of tables in a tree. The calls check one, say whether a dependency holds in it, give the
 * first pair of rows that breaks one, list in steps all minimal dependencies and keys that some row backs, except those
 * of a column whose left side is a key, pack and read such lists, check by evidence that a list is the full one, and
 * convert a supplier's text into a catalogue. The programs in examples/c make each call.
 *
 * Link with libhost.a, an archive for x86-64 Linux. Of the outside it needs memcpy and memset, nothing else.
 *
 * Replies. Every call returns one signed number: below 0 a refusal, from 0 on an answer. A refusal is one of the
 * constants of enum cagberin_refusal, all below 0; compare the number returned with them as it stands. As a C
 * condition a refusal is true, so test for `< 0` first.
 *
 * Refusals alter no lent memory, with one exception: after CAGBERIN_TRAY_FULL every work word is 0.
 *
 * Lent memory. All memory is the caller's, lent for the time of a call; the library allocates nothing and keeps nothing
 * between calls. A pointer to several elements is followed by their number, a size_t, and must be valid for that many;
 * it must not be NULL, also where the number is 0: any other address of that alignment will do there. A pointer to a
 * single number must be valid for that number. What is behind a pointer to const is only read. What is behind any other
 * pointer may be written, needs no initialising, and must overlap nothing else that is lent to the same call. Bytes
 * need no alignment; words, numbers and entry records have that of their C types.
 *
 * Threads. Several threads may share one catalogue or packed list, since calls only read it, as long as nobody alters
 * it meanwhile. What a call may write must be each thread's own.
 *
 * Stack. cagberin_verify needs up to 400 KB (409,600 bytes) of stack, cagberin_list up to 300 KB (307,200 bytes),
 * cagberin_ask and cagberin_pair up to 240 KB (245,760 bytes), each other call up to 16 KB (16,384 bytes). That is the
 * call's own need, measured and not proved: a thread wants some more for what else it does (with POSIX threads at least
 * PTHREAD_STACK_MIN). docs/PERFORMANCE.md says what was measured.
 */
#ifndef CAGBERIN_H
#define CAGBERIN_H

#include <stddef.h>
#include <stdint.h>

#ifdef __cplusplus
extern "C" {
#endif

/*
 * The catalogue file. Numbers are unsigned, little-endian. Tables follow each other from byte 0 without gaps. A
 * table is: columns c (2 bytes), parent table (2), rows r (2), then r rows. A row is its parent row (2 bytes) and
 * c codes of 4 bytes. Code CAGBERIN_MISSING means that the cell is missing; every other code is a value, and codes
 * are only compared for equality. Table 0 is the root: its parent table, and the parent row of each of its rows, is
 * CAGBERIN_NO_PARENT. Every other table has a lower-numbered parent. The trailer ends the file: one 4-byte offset
 * for each table, the number of tables t (2 bytes), the offset of the trailer's first byte (4).
 *
 * The visible columns of a table are its ancestors' columns, root first, then its own, numbered from 0.
 */

/* ---- Bounds ---- */

#define CAGBERIN_TABLES 16            /* tables of a catalogue: 1 to 16 */
#define CAGBERIN_COLUMNS 16           /* own columns of a table, and its visible columns: 0 to 16 */
#define CAGBERIN_ROWS 4096            /* rows of a table: 0 to 4,096 */
#define CAGBERIN_SMALLEST_FILE 16     /* bytes of the smallest catalogue */
#define CAGBERIN_WORK_WORDS 16384     /* work words that a question, a pair or a listing needs at least */
#define CAGBERIN_MANY_WORDS 65536     /* a work word for each left side of 16 visible columns: see cagberin_list */
#define CAGBERIN_SET_ENTRIES 16       /* entries of one set, at most: 16 columns, or the row alone */
#define CAGBERIN_RECORD_BYTES 8       /* bytes of an evidence record */

/* ---- Codes ---- */

#define CAGBERIN_MISSING 4294967295u  /* the code of a missing cell */
#define CAGBERIN_NO_PARENT 65535      /* parent table of the root, and parent row of its rows */
#define CAGBERIN_ROW 255              /* the right side that stands for the row itself: the left side is a key */

/* ---- Refusals ---- */

/*
 * The numbers that calls return. The document's number is the same without the sign; its word, where it has one, and
 * its condition stand beside each. (The document is the one that sets the format and the numbers; a host needs only
 * this page.)
 *
 * Where there are several grounds, the first in this order is returned: -1 and -2; then table by table its offset and
 * 6 bytes (-3), -4, -5, -6, its rows' extent (-3), each row (-7); after the last table, left bytes (-3); then -8 to
 * -22 as they stand here. A list is checked for -14 first, then entry by entry for -15; a list with evidence for -17
 * over all records, then for -18 over all entries, then for -19; a text for -20 over the whole text, then for -21 over
 * the whole text, then for -22.
 */
enum cagberin_refusal {
    CAGBERIN_TORN = -1,            /* torn: file under 16 bytes */
    CAGBERIN_NO_TAIL = -2,         /* no tail: the number of tables t is 0 or over 16, or trailer offset + 4t + 6
                                      isn't the file's length */
    CAGBERIN_MISPLACED = -3,       /* misplaced: a table's offset isn't the end of the one before (0 for the first),
                                      its 6 bytes or its rows pass the trailer's first byte, or bytes are left after
                                      the last table */
    CAGBERIN_OVERSIZE = -4,        /* oversize: columns over 16 or rows over 4,096 */
    CAGBERIN_NO_STEM = -5,         /* no stem: the root's parent table isn't 65,535, or another's isn't a
                                      lower-numbered table */
    CAGBERIN_TOO_WIDE = -6,        /* too wide: over 16 visible columns */
    CAGBERIN_STRAY_ROW = -7,       /* stray row: a root row's parent isn't 65,535, or another's isn't below the
                                      parent table's rows */
    CAGBERIN_UNKNOWN_TABLE = -8,   /* unknown table: target not below the number of tables */
    CAGBERIN_UNKNOWN_COLUMN = -9,  /* unknown column: left has a bit at or above the target's visible columns */
    CAGBERIN_UNKNOWN_RIGHT = -10,  /* unknown right: neither an own column of the target nor 255 */
    CAGBERIN_SMALL_BENCH = -11,    /* small bench: under 16,384 work words */
    CAGBERIN_PAST_THE_END = -12,   /* past the end: place above the last */
    CAGBERIN_TRAY_FULL = -13,      /* tray full: budget above 0, place below the last, and the very next set has
                                      more entries than the run has records */
    CAGBERIN_NO_LIST = -14,        /* no list: under 8 bytes, distance isn't 4k + 8, or distance above the length */
    CAGBERIN_BAD_ENTRY = -15,      /* bad entry: target over 15, right neither below 16 nor 255, right in left, or
                                      not later in listing order than the one before */
    CAGBERIN_SHORT_SHEET = -16,    /* short sheet: output under 4k + 8 bytes */
    CAGBERIN_FALSE_RECORD = -17,   /* an evidence record is not true, or fewer than 8 bytes are left behind the last */
    CAGBERIN_UNSOUND_ENTRY = -18,  /* an entry has an unknown table, column or right (as in -8 to -10), isn't backed,
                                      fails, contains another left that is listed for its target and right, or has a
                                      column on the right and a left that is or contains a listed key of its target */
    CAGBERIN_UNCOVERED_SET = -19,  /* for some target and right of it, a backed set without that right contains neither
                                      a left listed for the two nor a listed key of the target, and doesn't lie inside
                                      the set of a record for the two */
    CAGBERIN_BAD_TEXT = -20,       /* the text isn't of the form, which takes in other names, wrong numerals, a value
                                      of 4,294,967,295 or more, an attribute twice in a tag, and more than 16 rows in
                                      each other */
    CAGBERIN_UNFIT_TEXT = -21,     /* a table or column number that the shape doesn't have, a row of a table other than
                                      the root that doesn't stand in a row of its parent table, a row of the root that
                                      doesn't stand in `catalogue`, or a shape with rows */
    CAGBERIN_NO_ROOM = -22         /* a table of the text has over 4,096 rows, or the output is too short */
};

/* ---- Dependencies and entries ---- */

/*
 * A dependency has a target, a left side and a right side. The target is a table, by number. The left side is a set
 * of its visible columns: bit k is visible column k. The right side is one own column of the target, by its visible
 * number, or CAGBERIN_ROW.
 *
 * Two rows of the target agree on a visible column if they reach, by their parent rows, the same row of that column's
 * table, or if both cells are present with equal codes. So a missing cell agrees only with itself. They agree on a
 * set if they agree on each member, and always agree on the empty set. They agree on CAGBERIN_ROW only if they are
 * one row.
 *
 * A dependency holds if all pairs of rows of the target that agree on the left agree on the right. It is minimal if
 * it holds, the right isn't in the left, and no left with a column less holds. If the right is CAGBERIN_ROW and it
 * holds, the left is a key of the target: it gives every column too.
 *
 * A left side, as any set of visible columns, is backed if some row of the target has all its cells: for each column
 * the cell of the row that it reaches in that column's table is present. The empty set is backed if the target has a
 * row. A dependency may hold though nothing backs its left side; then it is not listed.
 *
 * An entry names a dependency; those of a listing are the minimal ones whose left side is backed, without those with a
 * column on the right whose left is a key: a key stands for what it gives. Nothing is lost: a backed left side gives a
 * right that isn't in it exactly if it contains a left that is listed for the target and that right, or a listed key of
 * the target. So if a dependency whose right isn't in its left is absent from a listing, then it breaks (cagberin_pair
 * has the rows), or an entry whose left it contains, for its right or for CAGBERIN_ROW, stands for it, or nothing backs
 * its left side.
 *
 * The fields of an entry stand in the order target, right, left, as in a packed list; the arguments of the calls come
 * in the order target, left, right. The record has 4 bytes, is aligned to 2 and has no padding.
 */
struct cagberin_entry {
    uint8_t target;
    uint8_t right;
    uint16_t left;
};

/*
 * Listing order: by target; within a target left sides by size, then by number; within a left side rights by number,
 * 255 last. A target with n visible columns has 2^n sets. Place p means that the first p sets over all targets have
 * been passed; the last place is the number of sets over all targets.
 *
 * The packed list. k entries of 4 bytes: target (1 byte), right (1), left (2, little-endian). Then k (4 bytes), then
 * the distance from the end of the file back to the first entry (4), which is 4k + 8. Bytes in front, such as the
 * catalogue, belong to the caller.
 */

/* ---- Calls ---- */

/*
 * Checks a catalogue.
 *
 * Returns 0 if it is sound, with the number of tables in *tables and of sets over all targets in *sets.
 * Refusals: -1 to -7; *tables and *sets are unaltered.
 */
int32_t cagberin_check(const uint8_t *cat, size_t cat_len, uint32_t *tables, uint32_t *sets);

/*
 * Asks whether a dependency holds.
 *
 * Returns 1 if it holds and 0 if two rows break it; every work word is then 0.
 * Refusals: -1 to -11; the work words are unaltered.
 *
 * Compare with 1: a refusal is no yes, though a C condition takes it for one. cagberin_pair has its 1 and 0 the other
 * way round.
 */
int32_t cagberin_ask(const uint8_t *cat, size_t cat_len, uint32_t target, uint32_t left, uint32_t right,
                     uint32_t *work, size_t words);

/*
 * Looks for the first breaking pair. A breaking pair is two rows of the target, the lower row first, that agree on the
 * left and disagree on the right; the first is, of those with the lowest first row, the one with the lowest second row.
 *
 * Returns 1 if there is one, so the dependency doesn't hold, with its rows in *first and *second: always the same two
 * for the same catalogue and question. Returns 0 if there is none, so the dependency holds; *first and *second are then
 * unaltered. After 1 and 0 every work word is 0.
 * Refusals: -1 to -11; *first, *second and the work words are unaltered.
 *
 * Compare with 1: a refusal is no pair, though a C condition takes it for one. cagberin_ask has its 1 and 0 the other
 * way round.
 */
int32_t cagberin_pair(const uint8_t *cat, size_t cat_len, uint32_t target, uint32_t left, uint32_t right,
                      uint32_t *work, size_t words, uint32_t *first, uint32_t *second);

/*
 * Lists: passes sets from a place on, until as many as the budget are passed, the last place is reached, or the next
 * set's entries no longer all fit in the run.
 *
 * Returns the number of entries of these sets. They stand at the start of the run in listing order; the other records
 * are unaltered. *reached is the place reached, *passed the number of sets passed, and every work word is 0.
 * Refusals: -1 to -7, -11, -12, -13; the run, *reached and *passed are unaltered, and the work words too, save
 * that after -13 every one is 0.
 *
 * A whole listing begins at place 0, hands each call the place that the one before reached, and is whole when that is
 * the number of sets: the entries of all calls, one after the other, are then the full listing: every minimal key with
 * a backed left side, and every minimal dependency with a backed left side that is no key, once, in listing order.
 * Budgets, runs and work words may differ at each call. A return of 0 is not the end: sets may have no entries. Budget
 * 0 passes nothing, so a loop with it never ends. A run of CAGBERIN_SET_ENTRIES records or more never gets -13.
 *
 * With 2^n work words, CAGBERIN_MANY_WORDS for 16 columns, a target of n visible columns was mostly listed faster
 * where measured.
 */
int64_t cagberin_list(const uint8_t *cat, size_t cat_len, uint32_t place, uint32_t budget,
                      struct cagberin_entry *run, size_t records, uint32_t *work, size_t words,
                      uint32_t *reached, uint32_t *passed);

/*
 * Packs k entries, which must be in listing order, none twice.
 *
 * Returns the number of bytes written from the start of out, 4k + 8; the other bytes are unaltered.
 * Refusals: -15, then -16; out is unaltered.
 */
int64_t cagberin_pack(const struct cagberin_entry *entries, size_t k, uint8_t *out, size_t out_len);

/*
 * Opens the packed list that ends a file.
 *
 * Returns the number of its entries, with the number of bytes in front of the list in *front.
 * Refusals: -14, -15; *front is unaltered.
 */
int64_t cagberin_open(const uint8_t *file, size_t len, size_t *front);

/*
 * Reads entries of the packed list that ends a file into a run, from an index on: as many as the run has records, or as
 * are left. The first entry has index 0. Entries in a file may stand at odd addresses, so they are read by this call
 * and not through a struct cagberin_entry that points into the file.
 *
 * Returns how many were read: 0 if from is at or past the number of entries, or if the run has no records. They stand
 * at the start of the run; the other records are unaltered.
 * Refusals: -14, -15, whatever was called before; the run is unaltered.
 *
 * Every call checks the whole list first, so one call with a large run reads a list with less work than many with
 * small ones.
 */
int64_t cagberin_read(const uint8_t *file, size_t len, size_t from, struct cagberin_entry *run, size_t records);

/*
 * Checks by evidence that the packed list that ends a file is the full listing of a catalogue, whoever made it.
 *
 * Evidence is records of CAGBERIN_RECORD_BYTES bytes, in any order, repeats allowed: target (1 byte), right (1), a
 * column set (2), two rows of the target (2 each), little-endian. A record is true if -8 to -10 allow its target, set
 * and right, both rows exist, its right isn't in its set (CAGBERIN_ROW is in no set), and its two rows, in either
 * order, agree on the set and disagree on the right; it need not be backed. The list is accepted if all records are
 * true; each entry is allowed by -8 to -10, is backed, holds, contains no other left that is listed for its target and
 * right and, if its right is a column, contains no listed key of its target, itself included; and, for every target and
 * every right of it, each backed set without that right contains a left listed for the two or a listed key of the
 * target, or lies inside the set of a record for the two.
 *
 * Returns the number of entries of the list. Its entries are then the full listing of the catalogue, as a whole listing
 * by cagberin_list has it. And the full listing is accepted if all records are true and, for every target and every
 * right of it, each backed set without that right that doesn't give it lies inside the set of a record for the two: a
 * record for each such set that lies inside no other is enough.
 * Refusals: -1 to -7 for the catalogue, then -14, -15 for the list, then -17, -18, -19.
 *
 * Nothing is written. The three may overlap; bytes in front of the list, such as the catalogue, aren't looked at.
 */
int64_t cagberin_verify(const uint8_t *cat, size_t cat_len, const uint8_t *list, size_t list_len,
                        const uint8_t *evidence, size_t evidence_len);

/*
 * Converts a supplier's text into a catalogue, by a shape: a catalogue whose tables have no rows.
 *
 * The text is one XML element `catalogue` without attributes. An element `t` followed by a table number, as `t0`, is a
 * row of that table; its attributes `c0`, `c1` and on are its own columns, numbered within the table, with values
 * below 4,294,967,295, in any order, none twice. Numbers are decimal digits without leading zeros, of any length. Rows
 * of table 0 stand in `catalogue`, each other row in a row of its table's parent, at most 16 in each other. An element
 * without rows is closed by `/>` or by its end tag; values stand in either quotes. White space is space, tab, line
 * feed and carriage return; it is allowed before and after `catalogue`, between elements, inside tags behind the name,
 * around `=`, before `>` and `/>`, and is required before each attribute. Nothing else may stand there: no other text,
 * comment, entity, character data, prolog, declaration, byte order mark or namespace.
 *
 * In the catalogue rows are numbered in text order within their table, a row's parent row is the row that it stands in,
 * and a column without an attribute is a missing cell. Its tables, their columns and parents are the shape's.
 *
 * Returns the number of bytes written from the start of out, all of them a catalogue that cagberin_check accepts; the
 * other bytes are unaltered. A catalogue has 6 bytes and 2 + 4c for each row of each table of c columns, and 4t + 6
 * more for t tables, so 4,325,542 bytes of output are always enough.
 * Refusals: -1 to -7 for the shape, then -20, -21, -22; out is unaltered.
 *
 * The time is linear in the text for each table of the shape: the whole text is read twice for its form and its fit,
 * once to count rows, and once for each table. Only a text that is refused can take longer: one with many attributes
 * numbered 16 and up in one tag takes the square of how many these are.
 */
int64_t cagberin_convert(const uint8_t *shape, size_t shape_len, const uint8_t *text, size_t text_len, uint8_t *out,
                         size_t out_len);

#ifdef __cplusplus
}
#endif

#endif
