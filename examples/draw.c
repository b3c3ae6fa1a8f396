/* A drawing tool in C: it fills a table by hand, writes its text and has it judged, loads the text again, moves the
 * deadline and writes it back.
 *
 *     tools/build library
 *     cc -O2 -std=c11 -Wall -Iinclude examples/draw.c target/staticlib/libchecker.a -o target/draw
 *     target/draw
 */
#include <stdio.h>
#include <string.h>

#include "hurkoxel.h"

static hurkoxel_cell table[HURKOXEL_SHEET_CELLS];
/* The text of a sheet, and room for the line of a request behind it. */
static uint8_t sheet[HURKOXEL_SHEET_BYTES + HURKOXEL_LINE_BYTES];
static hurkoxel_row rows[HURKOXEL_ROWS];
static uint8_t text[HURKOXEL_TEXT_BYTES];

/* Each of these adds an entry behind those of its section, in the order of the text: a branch comes before the contracts
 * that it holds. */

static size_t add_number(hurkoxel_cell number)
{
    size_t place = table[HURKOXEL_COUNT_LISTED]++;
    table[HURKOXEL_LISTED_AT + place] = number;
    return place;
}

static size_t add_field(hurkoxel_cell field)
{
    size_t place = table[HURKOXEL_COUNT_CONDITIONS]++;
    table[HURKOXEL_CONDITIONS_AT + place] = field;
    return place;
}

static size_t add_node(hurkoxel_cell definition, hurkoxel_cell parent, hurkoxel_cell weight, hurkoxel_cell count)
{
    size_t number = table[HURKOXEL_COUNT_NODES]++;
    hurkoxel_cell *node = table + HURKOXEL_NODES_AT + HURKOXEL_NODE_CELLS * number;
    node[HURKOXEL_NODE_DEFINITION] = definition;
    node[HURKOXEL_NODE_PARENT] = parent;
    node[HURKOXEL_NODE_WEIGHT] = weight;
    node[HURKOXEL_NODE_COUNT] = count;
    return number;
}

static hurkoxel_cell *branch_at(size_t number)
{
    return table + HURKOXEL_BRANCHES_AT + HURKOXEL_BRANCH_CELLS * number;
}

static size_t add_branch(hurkoxel_cell node, hurkoxel_cell opens, hurkoxel_cell kind, hurkoxel_cell argument)
{
    size_t number = table[HURKOXEL_COUNT_BRANCHES]++;
    hurkoxel_cell *branch = branch_at(number);
    branch[HURKOXEL_BRANCH_NODE] = node;
    branch[HURKOXEL_BRANCH_OPENS] = opens;
    branch[HURKOXEL_BRANCH_KIND] = kind;
    branch[HURKOXEL_BRANCH_ARGUMENT] = argument;
    return number;
}

/* A timed commitment: 0 deposits 100 and gets them back by revealing a secret; from time 500 on they may go to 1. The
 * branch of the deadline is handed back. */
static size_t draw(void)
{
    memset(table, 0, sizeof table);
    table[HURKOXEL_COUNT_PARTICIPANTS] = 2;
    table[HURKOXEL_COUNT_DEFINITIONS] = 1;
    hurkoxel_cell *definition = table + HURKOXEL_DEFINITIONS_AT;
    definition[HURKOXEL_DEFINITION_FIRST] = add_number(100);
    add_number(0);
    /* One secret, which 0 owns. */
    definition[HURKOXEL_DEFINITION_SECRETS] = 1;
    add_number(0);
    size_t root = add_node(0, HURKOXEL_NO_BRANCH, 0, 2);
    definition[HURKOXEL_DEFINITION_ROOT] = root;
    /* Secret 0 under the condition `t`; the contract behind it is the next node. */
    size_t reveal = add_branch(root, 0, HURKOXEL_REVEAL, table[HURKOXEL_COUNT_NODES]);
    branch_at(reveal)[HURKOXEL_BRANCH_FIRST] = add_number(0);
    branch_at(reveal)[HURKOXEL_BRANCH_COUNT] = 1;
    branch_at(reveal)[HURKOXEL_BRANCH_CONDITION] = add_field(HURKOXEL_TRUE);
    size_t revealed = add_node(0, reveal, 0, 1);
    add_branch(revealed, 0, HURKOXEL_WITHDRAW, 0);
    return add_branch(root, 500, HURKOXEL_WITHDRAW, 1);
}

/* Writes the table's text to the buffer and prints what came of it; its length, or 0. */
static size_t save(const char *what)
{
    hurkoxel_reply reply = hurkoxel_write_sheet(table, HURKOXEL_SHEET_CELLS, sheet, HURKOXEL_SHEET_BYTES);
    if (reply.number != 0)
        printf("%s: refused by %zu\n", what, reply.number);
    else
        printf("%s: %zu bytes\n%.*s", what, reply.length, (int)reply.length, (const char *)sheet);
    return reply.length;
}

/* Asks for a participant whether the sheet of so many bytes is liquid: the line of the request goes behind it. */
static void judge(size_t length, size_t participant)
{
    length += (size_t)sprintf((char *)sheet + length, "make,%zu\n", participant);
    hurkoxel_reply reply = hurkoxel_judge(sheet, length, rows, HURKOXEL_ROWS, text, sizeof text);
    printf("make,%zu\n%.*s", participant, (int)reply.length, (const char *)text);
}

int main(void)
{
    size_t deadline = draw();
    size_t length = save("drawn");
    for (size_t participant = 0; participant < 2; participant++)
        judge(length, participant);

    /* Loaded from its text, the table is the same; a number that no other depends on may be changed by itself. */
    hurkoxel_reply reply = hurkoxel_read_sheet(sheet, length, table, HURKOXEL_SHEET_CELLS);
    printf("loaded: %zu nodes, %zu branches from %zu bytes\n", table[HURKOXEL_COUNT_NODES],
           table[HURKOXEL_COUNT_BRANCHES], reply.length);
    branch_at(deadline)[HURKOXEL_BRANCH_OPENS] = 1000;
    save("changed");

    /* A table that no text reads to: the deadline's branch in another node than its place says. */
    branch_at(deadline)[HURKOXEL_BRANCH_NODE] = 1;
    save("spoilt");

    /* A buffer that is one byte short keeps what it held. */
    draw();
    reply = hurkoxel_write_sheet(table, HURKOXEL_SHEET_CELLS, sheet, length - 1);
    printf("a byte short: refused by %zu\n", reply.number);
    return 0;
}
