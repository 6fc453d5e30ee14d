/*
 * brooksaddle: a proved three-way merge of flight-procedure tables.
 *
 * The calls of libbrooksaddle.a, which is for 64-bit x86-64 of level v2 (SSE4.2 and popcnt) with the System V convention.
 * docs/document-01.md has the rules that every answer follows, docs/PROMISES.md what is proved of each call.
 *
 * Every call takes any bytes and always answers. What the proof takes for granted of a caller in C is this:
 *
 * - Each text is a pointer to so many bytes as its length says, which may be read; each buffer a pointer to so many bytes as its room
 *   says, which may be written. No pointer is NULL, not even one to no bytes. Bytes need no alignment.
 * - No buffer overlaps a text or the other buffer. Texts are only read, so they may overlap, or be one.
 * - Nobody else writes to them during the call. The library itself only reads the texts.
 * - The stack has room. A call on one table takes 167 KB of it, tidy up to 214 KB (for 512 records, each below the last), and merge 663
 *   to 712 KB. docs/PROMISES.md says how that was measured. A call that runs out of stack is stopped by the system, so a thread with a
 *   small one is no place for it.
 *
 * No call borrows other memory, keeps a pointer after it has answered, or holds anything from one call to the next: calls may be made
 * from several threads at once.
 */
#ifndef BROOKSADDLE_H
#define BROOKSADDLE_H

#include <stddef.h>
#include <stdint.h>

#if !defined(__x86_64__) || defined(_WIN32) || defined(__ILP32__)
#error "libbrooksaddle.a is for 64-bit x86-64 with the System V convention"
#endif

#ifdef __cplusplus
extern "C" {
#endif

/* Limits of a table, and how long a buffer is always long enough. */
enum {
    BROOKSADDLE_MOST_BYTES = 32768,        /* of a text; so much room is enough for any table, tidied or merged */
    BROOKSADDLE_MOST_LINES = 512,          /* of a table */
    BROOKSADDLE_LONGEST_CONTENT = 120,     /* in bytes */
    BROOKSADDLE_GREATEST_NUMBER = 65535,   /* of a record; the least is 1 */
    BROOKSADDLE_TOP = 0,                   /* the parent of records that have no record as parent */
    BROOKSADDLE_MOST_LEDGER_BYTES = 8192   /* so much room is enough for any ledger: none is over 6,160 bytes */
};

/* The codes, and the place each is told with. */
enum {
    BROOKSADDLE_ACCEPTED = 0,              /* place 0 */

    /* A table is refused. 1 and 2 are judged for the whole text, then the first faulty line is told with its lowest code. */
    BROOKSADDLE_TEXT_TOO_LONG = 1,         /* over 32,768 bytes; place 0 */
    BROOKSADDLE_UNENDED = 2,               /* the last byte is not LF; the unended line */
    BROOKSADDLE_TOO_MANY_LINES = 3,        /* the line is the 513th */
    BROOKSADDLE_BYTE_NOT_ALLOWED = 4,      /* a byte before its LF is neither 9 nor 32 to 126 */
    BROOKSADDLE_FEW_TABS = 5,              /* fewer than two tabs */
    BROOKSADDLE_BAD_NUMBER = 6,            /* malformed or outside 1 to 65,535 */
    BROOKSADDLE_BAD_PARENT = 7,            /* malformed or above 65,535 */
    BROOKSADDLE_BAD_CONTENT = 8,           /* empty, over 120 bytes or with an empty field */
    BROOKSADDLE_NUMBER_TWICE = 9,          /* the number stands on an earlier line */
    BROOKSADDLE_PARENT_MISSING = 10,       /* neither 0 nor on an earlier line */

    /* The tables do not merge. */
    BROOKSADDLE_CONTENT_CLASH = 21,        /* two edits give one record different contents; the least such record */
    BROOKSADDLE_PARENT_CLASH = 22,         /* two edits give one record different parents; the least such record */
    BROOKSADDLE_NEIGHBOUR_CLASH = 23,      /* two edits disagree on who follows or precedes; the least such parent */
    BROOKSADDLE_BROKEN_LIST = 24,          /* a list of the merged tree stops before its end; the least such parent */
    BROOKSADDLE_LOST_EDIT = 25,            /* an edit is not in the merged tree; the least record or parent of one */
    BROOKSADDLE_MERGED_TOO_LARGE = 26,     /* over 512 records or 32,768 bytes; place 0 */

    /* A buffer is too short: the lengths needed are told; place 0. */
    BROOKSADDLE_TABLE_TOO_SHORT = 31,
    BROOKSADDLE_LEDGER_TOO_SHORT = 32
};

/* Which table a merge was refused for. */
enum {
    BROOKSADDLE_NO_TABLE = 0,
    BROOKSADDLE_OLD = 1,
    BROOKSADDLE_FIRST = 2,
    BROOKSADDLE_SECOND = 3
};

/* The answer of check. */
struct brooksaddle_checked {
    uint32_t code;         /* 0, or 1 to 10 */
    uint32_t line;         /* that the code is told for, from 1 on; 0 with codes 0 and 1 */
    size_t count;          /* of records; 0 when refused */
    size_t depth;          /* of the deepest record, 1 at the top; 0 for an empty table and when refused */
};

/* The answer of tidy. */
struct brooksaddle_tidied {
    uint32_t code;         /* 0, 1 to 10, or 31 */
    uint32_t line;         /* as in check; 0 with code 31 */
    size_t length;         /* how many bytes were written; with 31 how many are needed; else 0 */
};

/* The answer of merge. */
struct brooksaddle_merged {
    uint32_t code;         /* 0, 1 to 10, 21 to 26, 31 or 32 */
    uint32_t table;        /* with 1 to 10 the first refused table: 1 old, 2 first, 3 second; else 0 */
    uint32_t place;        /* a line with 1 to 10, a record or a parent with 21 to 25 (parent 0 is the top); else 0 */
    size_t table_length;   /* how many bytes of the table were written; with 31 and 32 how many are needed; else 0 */
    size_t ledger_length;  /* the same of the ledger */
};

/* The answer of content: a part of the text. */
struct brooksaddle_part {
    size_t start;          /* the part begins at text + start */
    size_t length;         /* and has so many bytes */
};

/* Checks one table: is it one, how many records has it, and how deep is it? */
struct brooksaddle_checked brooksaddle_check(const uint8_t *text, size_t length);

/*
 * Writes one table in its written form: each record, then its children in order, each with all below it.
 *
 * Accepted, the form lies in the buffer from byte 0 on, and the bytes past its length stay as they were. Refused, the whole buffer
 * stays as it was. The form is as long as the text, so a buffer as long as the text is enough.
 */
struct brooksaddle_tidied brooksaddle_tidy(const uint8_t *text, size_t length, uint8_t *buffer, size_t room);

/*
 * Merges the edits that first and second make to old. Every edit of both desks is taken, or the merge is refused.
 *
 * Accepted, the merged table lies in the buffer `table` from byte 0 on and its ledger in `ledger`, and the bytes past their lengths
 * stay as they were. Refused, both buffers stay as they were. 32,768 bytes for the table and 8,192 for the ledger are always enough:
 * that is proved.
 */
struct brooksaddle_merged brooksaddle_merge(const uint8_t *old, size_t old_length, const uint8_t *first, size_t first_length,
                                            const uint8_t *second, size_t second_length, uint8_t *table, size_t table_room,
                                            uint8_t *ledger, size_t ledger_room);

/*
 * Tells which part of the text holds the content of a record. For a refused table or an absent number it is the empty part at the
 * start of the text; no content is empty.
 */
struct brooksaddle_part brooksaddle_content(const uint8_t *text, size_t length, uint32_t number);

#ifdef __cplusplus
}
#endif

#endif
