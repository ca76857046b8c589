/* Zoetelkorf: parity games, proved. Link with libzoetelkorf.a (rt lib, in crates/zoetelkorf).
 *
 * Every list is a pointer and its number of elements. A list of length 0 is passed with any pointer that is aligned for its
 * elements and not null. Lent lists do not overlap one another, and *value overlaps none of them.
 *
 * The result is 0 on success, else the number of the refusal; *value receives the refusal's place, or on success what is said below.
 * A refusal leaves every lent list unchanged, except that 11 to 14 leave the work space all zero; after success it is all zero.
 * Stack of a call that succeeds, in bytes, as bench/stack measures it: zoetelkorf_check 37,304, zoetelkorf_solve 50,981,
 * zoetelkorf_update 53,221, zoetelkorf_read 44,456, zoetelkorf_write 432. Nothing proves these figures.
 * A solve or an update ends on every game, but no bound on its time is proved: see README, 'How slow a small game can be'.
 * With n the length of owners: priorities n, starts n + 1, winners n, moves n, work 4 * n.
 */
#ifndef ZOETELKORF_H
#define ZOETELKORF_H

#include <stddef.h>
#include <stdint.h>

#ifdef __cplusplus
extern "C" {
#endif

/* The numbers of refusal; 0 is success. Beside each stands when it is given and, after the colon, what the place is; without a colon it is 0.
 * Of several that apply the first in the call's order is given, at its lowest place (docs/RULES.md). Let a switch over them have a default. */
enum zoetelkorf_refusal {
    /* the tables of a game, or of an update's first game */
    ZOETELKORF_SIZES = 1,    /* no vertex or over 2,048; over 16,384 targets; priorities or starts do not go with the owners */
    ZOETELKORF_OWNER = 2,    /* an owner is neither 0 nor 1: the vertex */
    ZOETELKORF_PRIORITY = 3, /* a priority is 255: the vertex */
    ZOETELKORF_START = 4,    /* the starts do not begin with 0, fall, or do not end with the number of targets: in starts */
    ZOETELKORF_STUCK = 5,    /* a vertex has no successor: the vertex */
    ZOETELKORF_TARGET = 6,   /* a target is no vertex: in targets */
    ZOETELKORF_ORDER = 7,    /* the successors of a vertex do not ascend: in targets, the later of the two */

    /* what else is lent */
    ZOETELKORF_BUFFER = 8,   /* winners, moves, work or a table of the reader has another length than it should */
    ZOETELKORF_VERTICES = 9, /* the two games of an update do not have equally many vertices */

    /* an answer that is judged: the work space is zero afterwards */
    ZOETELKORF_MARK = 11,   /* a winner is neither 0 nor 1: the vertex */
    ZOETELKORF_MOVE = 12,   /* where its winner owns, no move to a successor of his, or a move where he does not own: the vertex */
    ZOETELKORF_ESCAPE = 13, /* the loser can leave from a vertex of his for one with the other mark: the vertex */
    ZOETELKORF_CYCLE = 14,  /* the moves allow a cycle that its winner loses: the vertex with the highest priority on it */

    /* the tables of an update's second game */
    ZOETELKORF_SECOND_SIZES = 21,    /* as ZOETELKORF_SIZES */
    ZOETELKORF_SECOND_OWNER = 22,    /* as ZOETELKORF_OWNER */
    ZOETELKORF_SECOND_PRIORITY = 23, /* as ZOETELKORF_PRIORITY */
    ZOETELKORF_SECOND_START = 24,    /* as ZOETELKORF_START */
    ZOETELKORF_SECOND_STUCK = 25,    /* as ZOETELKORF_STUCK */
    ZOETELKORF_SECOND_TARGET = 26,   /* as ZOETELKORF_TARGET */
    ZOETELKORF_SECOND_ORDER = 27,    /* as ZOETELKORF_ORDER */

    /* a house game file */
    ZOETELKORF_FILE_SIZE = 41,   /* it is shorter than a block, or not as long as block 0 says: how many whole blocks there are */
    ZOETELKORF_FILE_CHECK = 42,  /* a block's check does not hold, so its bytes are damaged: the block */
    ZOETELKORF_FILE_KIND = 43,   /* a block's number or kind is not the one due there: the block */
    ZOETELKORF_FILE_BYTES = 44,  /* a block's used count, rule, or a byte that should be 0 is wrong: the block */
    ZOETELKORF_FILE_EDGES = 45,  /* the vertices' numbers of successors do not add up to the number of edges */
    ZOETELKORF_FILE_OUTPUT = 46  /* the output is not as long as the file that would be written: ZOETELKORF_FILE_LENGTH */
};

/* The exact length in bytes of the file of a game with n vertices and so many edges; 43,008 is the most. */
#define ZOETELKORF_FILE_LENGTH(n, edges) (512 * (1 + ((n) + 125) / 126 + ((edges) + 251) / 252))

/* Whether winners and moves are right for the game; *value 0 on acceptance. */
uint64_t zoetelkorf_check(const uint8_t *owners, size_t owners_len, const uint8_t *priorities, size_t priorities_len,
                          const uint16_t *starts, size_t starts_len, const uint16_t *targets, size_t targets_len,
                          const uint8_t *winners, size_t winners_len, const uint16_t *moves, size_t moves_len,
                          uint16_t *work, size_t work_len, uint64_t *value);

/* Writes winners and moves of the game; *value 0 on success. */
uint64_t zoetelkorf_solve(const uint8_t *owners, size_t owners_len, const uint8_t *priorities, size_t priorities_len,
                          const uint16_t *starts, size_t starts_len, const uint16_t *targets, size_t targets_len,
                          uint8_t *winners, size_t winners_len, uint16_t *moves, size_t moves_len,
                          uint16_t *work, size_t work_len, uint64_t *value);

/* Writes winners and moves of the second game from an answer to the first; *value is the number of vertices decided anew. */
uint64_t zoetelkorf_update(const uint8_t *owners, size_t owners_len, const uint8_t *priorities, size_t priorities_len,
                           const uint16_t *starts, size_t starts_len, const uint16_t *targets, size_t targets_len,
                           const uint8_t *owners2, size_t owners2_len, const uint8_t *priorities2, size_t priorities2_len,
                           const uint16_t *starts2, size_t starts2_len, const uint16_t *targets2, size_t targets2_len,
                           const uint8_t *old_winners, size_t old_winners_len, const uint16_t *old_moves, size_t old_moves_len,
                           uint8_t *winners, size_t winners_len, uint16_t *moves, size_t moves_len,
                           uint16_t *work, size_t work_len, uint64_t *value);

/* Reads a house game file into tables of 2,048 owners, 2,048 priorities, 2,049 starts and 16,384 targets;
 * *value is edges * 65,536 + n. */
uint64_t zoetelkorf_read(const uint8_t *file, size_t file_len, uint8_t *owners, size_t owners_len,
                         uint8_t *priorities, size_t priorities_len, uint16_t *starts, size_t starts_len,
                         uint16_t *targets, size_t targets_len, uint64_t *value);

/* Writes the house game file of the tables, by rule 0 (the highest priority counts), into an output of just ZOETELKORF_FILE_LENGTH(n, edges)
 * bytes; *value is that length. Of tables that zoetelkorf_read filled pass the used parts: n, n, n + 1 and edges elements. */
uint64_t zoetelkorf_write(const uint8_t *owners, size_t owners_len, const uint8_t *priorities, size_t priorities_len,
                          const uint16_t *starts, size_t starts_len, const uint16_t *targets, size_t targets_len,
                          uint8_t *file, size_t file_len, uint64_t *value);

#ifdef __cplusplus
}
#endif

#endif
