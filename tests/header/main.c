/* include/hurkoxel.h against the library. Places, widths, kinds, words and lengths come from the header's names alone, so
 * that a wrong number, two names in each other's place or a field out of order shows in a text, a cell or a reply.
 * tests/header/run compiles it, as C and as C++, with the header and with wrong ones.
 */
#include "hurkoxel.h"
/* Once more: the header may come by two ways. */
#include "hurkoxel.h"

#include <stdio.h>
#include <string.h>

/* A constant that is computed is one number wherever it stands, to the preprocessor too. */
#define ONE(number) (2 * number == number + number && number / number == 1)
#if !ONE(HURKOXEL_ALL_ROWS) || !ONE(HURKOXEL_BRANCHES_AT) || !ONE(HURKOXEL_DEFINITIONS_AT) || !ONE(HURKOXEL_LISTED_AT) \
    || !ONE(HURKOXEL_CONDITIONS_AT) || !ONE(HURKOXEL_SHEET_CELLS) || !ONE(HURKOXEL_NODES_AT) || !ONE(HURKOXEL_NO_BRANCH)
#error "not one number"
#endif

static hurkoxel_cell drawn[HURKOXEL_SHEET_CELLS];
static hurkoxel_cell table[HURKOXEL_SHEET_CELLS];
static hurkoxel_row rows[HURKOXEL_ALL_ROWS];
/* One byte more than the longest request. */
static uint8_t request[HURKOXEL_REQUEST_BYTES + 1];
static uint8_t text[HURKOXEL_TEXT_BYTES];

static int compared, failed;

static void same(const char *what, size_t due, size_t got)
{
    compared++;
    if (due == got)
        return;
    failed++;
    printf("%s: due %zu, got %zu\n", what, due, got);
}

static void same_bytes(const char *what, const char *due, const uint8_t *got)
{
    size_t place = 0;
    while (due[place] != 0 && (uint8_t)due[place] == got[place])
        place++;
    same(what, strlen(due), place);
}

static void answered(const char *what, size_t length, hurkoxel_reply reply)
{
    same(what, 0, reply.number);
    same(what, 0, reply.line);
    same(what, 0, reply.field);
    same(what, length, reply.length);
}

static void refused(const char *what, size_t number, size_t line, size_t field, hurkoxel_reply reply)
{
    same(what, number, reply.number);
    same(what, line, reply.line);
    same(what, field, reply.field);
    same(what, 0, reply.length);
}

/* A sheet as a table --------------------------------------------------------------------------------------------- */

/* Every kind, every word, two definitions; neighbouring cells of an entry differ, and so do neighbouring counts. */
static const char SHEET[] =
    "bitml,3,2\n"
    "def,101,102,103,2,1,2,c,3,5,77,w,2,0,8,s,2,700,c,1,4,0,g,1,9,c,0,"
    "3,500,r,2,1,0,and,t,not,eq,k,21,v,0,c,1,0,0,w,1\n"
    "def,0,201,0,3,0,2,1,c,2,6,900,r,3,2,0,1,lt,add,k,22,v,2,sub,v,1,k,1000000000,"
    "c,1,1,4294967295,s,1,31,c,0,7,0,w,0\n";

static const hurkoxel_cell LISTED[] = {101, 102, 103, 1, 2, 1, 0, 0, 201, 0, 0, 2, 1, 2, 0, 1};

static const hurkoxel_cell CONDITIONS[] = {
    HURKOXEL_AND, HURKOXEL_TRUE, HURKOXEL_NOT, HURKOXEL_EQUAL,
    HURKOXEL_CONSTANT, 21, HURKOXEL_SECRET, 0,
    HURKOXEL_LESS, HURKOXEL_ADD, HURKOXEL_CONSTANT, 22, HURKOXEL_SECRET, 2,
    HURKOXEL_SUBTRACT, HURKOXEL_SECRET, 1, HURKOXEL_CONSTANT, 1000000000
};

#define COUNT(list) (sizeof list / sizeof list[0])

static void draw_definition(size_t number, size_t root, size_t first, size_t secrets)
{
    hurkoxel_cell *definition = drawn + HURKOXEL_DEFINITIONS_AT + HURKOXEL_DEFINITION_CELLS * number;
    definition[HURKOXEL_DEFINITION_ROOT] = root;
    definition[HURKOXEL_DEFINITION_FIRST] = first;
    definition[HURKOXEL_DEFINITION_SECRETS] = secrets;
    drawn[HURKOXEL_COUNT_DEFINITIONS]++;
}

static void draw_node(size_t number, size_t definition, size_t parent, size_t weight, size_t count)
{
    hurkoxel_cell *node = drawn + HURKOXEL_NODES_AT + HURKOXEL_NODE_CELLS * number;
    node[HURKOXEL_NODE_DEFINITION] = definition;
    node[HURKOXEL_NODE_PARENT] = parent;
    node[HURKOXEL_NODE_WEIGHT] = weight;
    node[HURKOXEL_NODE_COUNT] = count;
    drawn[HURKOXEL_COUNT_NODES]++;
}

static hurkoxel_cell *draw_branch(size_t number, size_t node, size_t signers, size_t opens, size_t kind, size_t argument)
{
    hurkoxel_cell *branch = drawn + HURKOXEL_BRANCHES_AT + HURKOXEL_BRANCH_CELLS * number;
    branch[HURKOXEL_BRANCH_NODE] = node;
    branch[HURKOXEL_BRANCH_SIGNERS] = signers;
    branch[HURKOXEL_BRANCH_OPENS] = opens;
    branch[HURKOXEL_BRANCH_KIND] = kind;
    branch[HURKOXEL_BRANCH_ARGUMENT] = argument;
    drawn[HURKOXEL_COUNT_BRANCHES]++;
    return branch;
}

static void draw_secrets(hurkoxel_cell *branch, size_t first, size_t count, size_t condition)
{
    branch[HURKOXEL_BRANCH_FIRST] = first;
    branch[HURKOXEL_BRANCH_COUNT] = count;
    branch[HURKOXEL_BRANCH_CONDITION] = condition;
}

/* The table of SHEET, entry by entry. */
static void draw(void)
{
    drawn[HURKOXEL_COUNT_PARTICIPANTS] = 3;
    draw_definition(0, 0, 0, 2);
    draw_definition(1, 4, 7, 3);
    draw_node(0, 0, HURKOXEL_NO_BRANCH, 0, 3);
    draw_node(1, 0, 1, 700, 1);
    draw_node(2, 0, 1, 9, 0);
    draw_node(3, 0, 3, 0, 1);
    draw_node(4, 1, HURKOXEL_NO_BRANCH, 0, 2);
    draw_node(5, 1, 5, 0, 1);
    draw_node(6, 1, 6, 31, 0);
    draw_branch(0, 0, 5, 77, HURKOXEL_WITHDRAW, 2);
    draw_branch(1, 0, 0, 8, HURKOXEL_SPLIT, 2);
    draw_branch(2, 1, 4, 0, HURKOXEL_RENEW, 1);
    draw_secrets(draw_branch(3, 0, 3, 500, HURKOXEL_REVEAL, 3), 5, 2, 0);
    draw_branch(4, 3, 0, 0, HURKOXEL_WITHDRAW, 1);
    draw_secrets(draw_branch(5, 4, 6, 900, HURKOXEL_REVEAL, 5), 13, 3, 8);
    draw_branch(6, 5, 1, 4294967295, HURKOXEL_SPLIT, 1);
    draw_branch(7, 4, 7, 0, HURKOXEL_WITHDRAW, 0);
    drawn[HURKOXEL_COUNT_LISTED] = COUNT(LISTED);
    memcpy(drawn + HURKOXEL_LISTED_AT, LISTED, sizeof LISTED);
    drawn[HURKOXEL_COUNT_CONDITIONS] = COUNT(CONDITIONS);
    memcpy(drawn + HURKOXEL_CONDITIONS_AT, CONDITIONS, sizeof CONDITIONS);
}

/* What was drawn is written as SHEET, and SHEET is read to what was drawn, cell by cell. */
static void both_ways(void)
{
    size_t length = strlen(SHEET), place = 0;
    draw();
    memset(text, '?', sizeof text);
    answered("a table written", length, hurkoxel_write_sheet(drawn, HURKOXEL_SHEET_CELLS, text, length));
    same_bytes("the text of a table", SHEET, text);
    same("the byte behind a text", '?', text[length]);

    memset(table, '?', sizeof table);
    const uint8_t *sheet = (const uint8_t *)SHEET;
    answered("a text read", length, hurkoxel_read_sheet(sheet, length, table, HURKOXEL_SHEET_CELLS));
    while (place < COUNT(table) && table[place] == drawn[place])
        place++;
    same("the first cell that differs", COUNT(table), place);
    refused("a table one cell short", 7, 0, 0, hurkoxel_read_sheet(sheet, length, table, HURKOXEL_SHEET_CELLS - 1));
    refused("a table one cell short, written", 3, 0, 0,
            hurkoxel_write_sheet(drawn, HURKOXEL_SHEET_CELLS - 1, text, length));
}

/* Lengths of a sheet --------------------------------------------------------------------------------------------- */

static size_t put(size_t at, const char *word)
{
    memcpy(request + at, word, strlen(word));
    return at + strlen(word);
}

/* A sheet in `request`, so many digits longer than it is at least; its length. Each of its 112 conditions has 19 numbers
 * that may have up to nine digits more. */
static size_t padded_sheet(size_t digits)
{
    size_t at = put(0, "bitml,1,7\n");
    for (int definition = 0; definition < 7; definition++) {
        at = put(at, "def,1,1,0,c,16");
        for (int branch = 0; branch < 16; branch++) {
            at = put(at, ",0,0,r,1,0,not,not,eq,k,0");
            for (int sum = 0; sum < 19; sum++) {
                at = put(at, ",add,k,1");
                for (int digit = 0; digit < 9 && digits > 0; digit++, digits--)
                    at = put(at, "0");
            }
            at = put(at, ",k,1,c,0");
        }
        at = put(at, "\n");
    }
    return at;
}

/* A sheet of so many bytes. */
static size_t sheet_of(size_t bytes)
{
    return padded_sheet(bytes - padded_sheet(0));
}

/* A sheet of HURKOXEL_SHEET_BYTES can be read and written into as many bytes; one byte less is too short for it, and no
 * sheet is longer. */
static void longest_sheet(void)
{
    size_t length = sheet_of(HURKOXEL_SHEET_BYTES);
    same("bytes of the longest sheet", HURKOXEL_SHEET_BYTES, length);
    answered("the longest sheet read", length, hurkoxel_read_sheet(request, length, table, HURKOXEL_SHEET_CELLS));
    answered("the longest sheet written", length,
             hurkoxel_write_sheet(table, HURKOXEL_SHEET_CELLS, text, HURKOXEL_SHEET_BYTES));
    same("the longest sheet's text", 0, (size_t)(memcmp(request, text, length) != 0));
    refused("a byte short of the longest sheet", 20, 0, 0,
            hurkoxel_write_sheet(table, HURKOXEL_SHEET_CELLS, text, HURKOXEL_SHEET_BYTES - 1));

    /* The number behind the first `k`, which is 0, gets a second digit. */
    hurkoxel_cell *constant = table + HURKOXEL_CONDITIONS_AT + 4;
    same("the first number of the first condition", 0, *constant);
    *constant = 10;
    refused("a longer table", 3, 0, 0, hurkoxel_write_sheet(table, HURKOXEL_SHEET_CELLS, text, sizeof text));
    length = sheet_of(HURKOXEL_SHEET_BYTES + 1);
    same("a longer text", 7, hurkoxel_read_sheet(request, length, table, HURKOXEL_SHEET_CELLS).number);
}

/* Requests ------------------------------------------------------------------------------------------------------- */

/* Participant 1 signs the first branch of node 0 and the first two of node 1. */
#define TWO "bitml,2,2\ndef,1,0,0,c,2,2,0,w,1,0,0,s,1,1,c,3,2,0,w,1,2,0,w,1,0,0,w,0\ndef,0,0,0,c,0\n"

static hurkoxel_reply judge(const char *asked, size_t row_count, size_t text_length)
{
    return hurkoxel_judge((const uint8_t *)asked, strlen(asked), rows, row_count, text, text_length);
}

static void same_row(const char *what, size_t place, size_t node, size_t branch, size_t rank)
{
    same(what, node, rows[place].node);
    same(what, branch, rows[place].branch);
    same(what, rank, rows[place].rank);
}

static void buffers(void)
{
    const char *check = TWO "check,0\nrow,0,1,9\nrow,1,2,5\n";
    const char *checked = "liquid,0,2,9\n";
    answered("rows given", strlen(checked), judge(check, HURKOXEL_ROWS, HURKOXEL_TEXT_BYTES));
    same_bytes("the answer to rows", checked, text);
    same_row("the first row given", 0, 0, 1, 9);
    same_row("the second row given", 1, 1, 2, 5);
    same_row("the row behind them", 2, 0, 0, 0);
    refused("one row short", 7, 0, 0, judge(check, HURKOXEL_ROWS - 1, HURKOXEL_TEXT_BYTES));
    refused("a text one byte short", 7, 0, 0, judge(check, HURKOXEL_ROWS, HURKOXEL_TEXT_BYTES - 1));

    const char *all = TWO "makeall\n";
    const char *made = "row,0,1,2\nrow,1,2,1\nliquid,0,2,2\nrow,0,0,1\nrow,1,0,1\nliquid,1,2,1\n";
    answered("all parties", strlen(made), judge(all, HURKOXEL_ALL_ROWS, HURKOXEL_TEXT_BYTES));
    same_bytes("the answer for all parties", made, text);
    same_row("the first row of 0", 0, 0, 1, 2);
    same_row("the second row of 0", 1, 1, 2, 1);
    same_row("the last place of 0", HURKOXEL_ROWS - 1, 0, 0, 0);
    same_row("the first row of 1", HURKOXEL_ROWS, 0, 0, 1);
    same_row("the second row of 1", HURKOXEL_ROWS + 1, 1, 0, 1);
    refused("one row short for all parties", 7, 0, 0, judge(all, HURKOXEL_ALL_ROWS - 1, HURKOXEL_TEXT_BYTES));
}

/* A play in `request` of so many bytes: waits, of which the last has the digits that are left. */
static size_t play_of(size_t bytes)
{
    size_t at = put(0, "bitml,1,1\ndef,1,0,c,0\nplay\n");
    while (bytes - at >= 2 * strlen("wait,1\n"))
        at = put(at, "wait,1\n");
    at = put(at, "wait,");
    while (at + 1 < bytes)
        at = put(at, "1");
    return put(at, "\n");
}

static void longest_request(void)
{
    size_t length = play_of(HURKOXEL_REQUEST_BYTES);
    same("bytes of the longest request", HURKOXEL_REQUEST_BYTES, length);
    hurkoxel_reply reply = hurkoxel_judge(request, length, rows, HURKOXEL_ROWS, text, HURKOXEL_TEXT_BYTES);
    same("the longest request", 0, reply.number);
    same("its answer", 1, (size_t)(reply.length > 0));
    length = play_of(HURKOXEL_REQUEST_BYTES + 1);
    refused("a longer request", 1, 0, 0,
            hurkoxel_judge(request, length, rows, HURKOXEL_ROWS, text, HURKOXEL_TEXT_BYTES));
    /* Read as a sheet, a text of that length is looked at up to the line that is too many; a longer one is not. */
    refused("a text as long as a request", 9, 3, 1,
            hurkoxel_read_sheet(request, HURKOXEL_REQUEST_BYTES, table, HURKOXEL_SHEET_CELLS));
    refused("a longer text than any request", 1, 0, 0,
            hurkoxel_read_sheet(request, length, table, HURKOXEL_SHEET_CELLS));
}

static void refusals(void)
{
    /* Line 5, field 3: node 0 has no branch 7. */
    hurkoxel_reply reply = judge(TWO "check,0\nrow,0,7,1\n", HURKOXEL_ROWS, HURKOXEL_TEXT_BYTES);
    refused("a row by no branch", 6, 5, 3, reply);
    uint8_t line[HURKOXEL_LINE_BYTES];
    memset(line, '?', sizeof line);
    same("a line one byte short", 0,
         hurkoxel_refused_line(reply.number, reply.line, reply.field, line, HURKOXEL_LINE_BYTES - 1));
    same("what it leaves", '?', line[0]);
    const char *due = "refused,6,5,3\n";
    same("the line of a refusal", strlen(due),
         hurkoxel_refused_line(reply.number, reply.line, reply.field, line, HURKOXEL_LINE_BYTES));
    same_bytes("the bytes of that line", due, line);
}

int main(void)
{
    both_ways();
    longest_sheet();
    buffers();
    longest_request();
    refusals();
    printf("%d comparisons, %d failed\n", compared, failed);
    return failed > 0;
}
