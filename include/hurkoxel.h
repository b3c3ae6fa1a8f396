/* Hurkoxel: a liquidity checker for BitML contracts, as a static library.
 *
 * Link target/staticlib/libchecker.a (made by tools/build, for x86-64 Linux). The library allocates nothing
 * and keeps nothing between calls; its tables stand on the caller's stack, for which 1 MiB is enough: a thread that
 * calls it must have as much.
 * Calls from several threads are independent as long as each lends buffers of its own. What is said here in words of
 * replies and buffers is proved of the code as equations (docs/PROOFS.md).
 */
#ifndef HURKOXEL_H
#define HURKOXEL_H

#include <stddef.h>
#include <stdint.h>

#ifdef __cplusplus
extern "C" {
#endif

/* The longest request that is read, and the shortest buffers that are enough for the answer to any request but a
 * `makeall`. */
#define HURKOXEL_REQUEST_BYTES 65536
#define HURKOXEL_ROWS 512
#define HURKOXEL_TEXT_BYTES 180224
/* The most participants of a sheet, and the shortest row buffer for a `makeall`, in which the rows of participant p begin
 * at HURKOXEL_ROWS * p. Any other word is served by HURKOXEL_ROWS. */
#define HURKOXEL_PARTICIPANTS 16
#define HURKOXEL_ALL_ROWS (HURKOXEL_ROWS * HURKOXEL_PARTICIPANTS)
/* Enough for the line of a refused request. */
#define HURKOXEL_LINE_BYTES 80
/* Enough for the text of any table. */
#define HURKOXEL_SHEET_BYTES 32768

/* A row: P leaves this node by this branch, with so many firings at most. */
typedef struct {
    size_t node, branch, rank;
} hurkoxel_row;

/* length not 0: answered; so many bytes of text were written (read, by hurkoxel_read_sheet), and number, line and field
 * are 0.
 * length 0: refused by this number (1 to 13, 20, 21), at this line and field (both from 1; field 0 from number 10 up;
 * line 0 and field 0 where the request is too long, a buffer too short or a table no sheet). docs/FORMAT.md has the
 * table. */
typedef struct {
    size_t number, line, field, length;
} hurkoxel_reply;

/* Answers one request.
 *
 * Lent are the bytes of the request, which are only read, and two buffers, which are written: `row_count` rows and
 * `text_length` bytes. They may hold anything before the call: the reply and every place of both buffers afterwards
 * depend on the bytes of the request and on the two lengths alone. So the same buffers serve for every request, and
 * nobody has to clear them.
 *
 * In this order:
 *   1. A request of more than 65,536 bytes gets number 1 at 0,0.
 *   2. A buffer of under 512 rows, or of under 180,224 bytes, gets number 7 at 0,0. Longer ones are fine.
 *   3. The request is read as a whole; its first bad field gets 2 to 9.
 *   4. It is judged. A `makeall` with under 8,192 rows lent gets number 7 at 0,0; rows given by `check` that are not
 *      accepted get 10 to 13, or 21 where their nodes fall.
 *
 * Answered: text[0] to text[length - 1] are what the program `judge` prints, with LF after each line and no zero at
 * the end; every byte from text[length] on is zero. After `make` of a liquid sheet the rows stand at rows[0] and on,
 * by rising node, as many as the `liquid` line says; after an accepted `check` they are the rows that were given, in
 * their order. Every row past them is zero. After `frozen`, after `why` and after a play all rows are zero. After
 * `makeall` the rows of participant p stand from rows[512 * p] on, as many as its `liquid` line says, and up to
 * rows[512 * p + 511] the others are zero; all 512 are zero where its line is `frozen`, and so are those past the last
 * participant's. An event of a play that is refused (14 to 19) has a line of its own in the text; the request is
 * answered all the same.
 *
 * Refused: every row and every byte of text is zero, whatever the lengths.
 *
 * The host's part: each pointer is valid for its length, `rows` is aligned as a size_t, no pointer is null (not even
 * with length 0), the three do not overlap, and nobody else writes to them during the call.
 */
hurkoxel_reply hurkoxel_judge(const uint8_t *request, size_t request_length,
                              hurkoxel_row *rows, size_t row_count,
                              uint8_t *text, size_t text_length);

/* Writes the line that `judge` prints for a refused request, `refused,number,line,field` and LF, to the first bytes of
 * text and answers its length. With fewer than 80 bytes lent it writes nothing and answers 0. */
size_t hurkoxel_refused_line(size_t number, size_t line, size_t field,
                             uint8_t *text, size_t text_length);

/* A sheet as a table: numbers in sections that begin at fixed places, entries in the order of the text. docs/FORMAT.md,
 * "A sheet as a table", says what each number is. */
typedef size_t hurkoxel_cell;

/* The header: how many participants, definitions, nodes, branches, listed numbers and cells of conditions there are. */
enum {
    HURKOXEL_COUNT_PARTICIPANTS,
    HURKOXEL_COUNT_DEFINITIONS,
    HURKOXEL_COUNT_NODES,
    HURKOXEL_COUNT_BRANCHES,
    HURKOXEL_COUNT_LISTED,
    HURKOXEL_COUNT_CONDITIONS
};

/* The cells of the header, the last two of which are not used, and of an entry; a listed number and a field of a condition
 * are one cell each. */
#define HURKOXEL_HEADER_CELLS 8
#define HURKOXEL_NODE_CELLS 4
#define HURKOXEL_BRANCH_CELLS 8
#define HURKOXEL_DEFINITION_CELLS 3

/* The most nodes, branches and definitions of a sheet, and the room for listed numbers and for cells of conditions. */
#define HURKOXEL_NODES 512
#define HURKOXEL_BRANCHES 1024
#define HURKOXEL_DEFINITIONS 32
#define HURKOXEL_LISTED 8960
#define HURKOXEL_CONDITIONS 32768

/* Where the sections begin, each behind the room of the one before it; and the shortest table that is enough for any
 * sheet, which has 52,072 cells. */
#define HURKOXEL_NODES_AT HURKOXEL_HEADER_CELLS
#define HURKOXEL_BRANCHES_AT (HURKOXEL_NODES_AT + HURKOXEL_NODE_CELLS * HURKOXEL_NODES)
#define HURKOXEL_DEFINITIONS_AT (HURKOXEL_BRANCHES_AT + HURKOXEL_BRANCH_CELLS * HURKOXEL_BRANCHES)
#define HURKOXEL_LISTED_AT (HURKOXEL_DEFINITIONS_AT + HURKOXEL_DEFINITION_CELLS * HURKOXEL_DEFINITIONS)
#define HURKOXEL_CONDITIONS_AT (HURKOXEL_LISTED_AT + HURKOXEL_LISTED)
#define HURKOXEL_SHEET_CELLS (HURKOXEL_CONDITIONS_AT + HURKOXEL_CONDITIONS)

/* The cells of a node: its definition, the branch that holds it (HURKOXEL_NO_BRANCH for a root), its weight there (0
 * unless it is a part of an `s`), its count of branches. */
enum { HURKOXEL_NODE_DEFINITION, HURKOXEL_NODE_PARENT, HURKOXEL_NODE_WEIGHT, HURKOXEL_NODE_COUNT };
#define HURKOXEL_NO_BRANCH HURKOXEL_BRANCHES

/* The cells of a branch: its node, signers, opening time, kind, and the kind's argument; then, for an `r` (else 0),
 * where its secrets are listed, how many they are, and where its condition stands. */
enum {
    HURKOXEL_BRANCH_NODE,
    HURKOXEL_BRANCH_SIGNERS,
    HURKOXEL_BRANCH_OPENS,
    HURKOXEL_BRANCH_KIND,
    HURKOXEL_BRANCH_ARGUMENT,
    HURKOXEL_BRANCH_FIRST,
    HURKOXEL_BRANCH_COUNT,
    HURKOXEL_BRANCH_CONDITION
};

/* The kinds `w`, `s`, `r` and `g`. The argument is whom it pays, how many parts it has, the node of its contract, or the
 * definition that it renews as. */
enum { HURKOXEL_WITHDRAW, HURKOXEL_SPLIT, HURKOXEL_REVEAL, HURKOXEL_RENEW };

/* The cells of a definition: its root, where its deposits and then its owners are listed, its count of secrets. */
enum { HURKOXEL_DEFINITION_ROOT, HURKOXEL_DEFINITION_FIRST, HURKOXEL_DEFINITION_SECRETS };

/* The words of conditions and of expressions; each field of a condition is one cell. */
enum { HURKOXEL_TRUE, HURKOXEL_AND, HURKOXEL_NOT, HURKOXEL_EQUAL, HURKOXEL_LESS };
enum { HURKOXEL_CONSTANT, HURKOXEL_SECRET, HURKOXEL_ADD, HURKOXEL_SUBTRACT };

/* Reads a text of line 1 and `def` lines, with nothing behind them, into a table.
 *
 * In this order:
 *   1. A text of more than 65,536 bytes gets number 1 at 0,0.
 *   2. A table of fewer cells than HURKOXEL_SHEET_CELLS gets number 7 at 0,0. Longer ones are fine.
 *   3. The text is read; its first bad field gets 2 to 9. A line behind the sheet gets 9 at its field 1.
 *
 * Read: `length` is `text_length`, and the table holds the sheet; every cell past what is held is zero, in each section
 * and behind the last. Refused: every cell is zero, whatever the length. It makes no difference what the table held.
 *
 * The host's part, here and below: each pointer is valid for its length and not null (not even with length 0), `cells`
 * is aligned as a size_t, the two do not overlap, and nobody else writes to them during the call.
 */
hurkoxel_reply hurkoxel_read_sheet(const uint8_t *text, size_t text_length,
                                   hurkoxel_cell *cells, size_t cell_count);

/* Writes the text that reads to what a table holds.
 *
 * In this order:
 *   1. A table that no text reads to gets number 3 at 0,0: some number is none that reading gives in its place, the text
 *      would pass 32,768 bytes, or there are fewer cells than HURKOXEL_SHEET_CELLS. Cells past what the header counts
 *      are not looked at.
 *   2. A buffer that is too short for the text gets number 20 at 0,0.
 *
 * Written: text[0] to text[length - 1] are the text, with LF after each line; every byte from text[length] on is as it
 * was. Refused: every byte is as it was. What was read is written as the same bytes, and what was written reads to the
 * same sheet.
 */
hurkoxel_reply hurkoxel_write_sheet(const hurkoxel_cell *cells, size_t cell_count,
                                    uint8_t *text, size_t text_length);

#ifdef __cplusplus
}
#endif

#endif
