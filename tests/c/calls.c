/* Makes every call of the library from C, on document 01's example and on bad input, and looks at every number of every
   answer, at the bytes that were lent and at the margins around both. Usage: calls LIST TRACE, the example as a list
   and as the trace of the list after one empty row. */
#include <inttypes.h>
#include <stdio.h>
#include <stdlib.h>
#include <string.h>

#include "mxp.h"

enum { MARGIN = 64, PATTERN = 0xa5 };

static unsigned long checks, failures;

static void check(int line, const char *what, int holds)
{
    checks++;
    if (!holds) {
        failures++;
        fprintf(stderr, "line %d: %s\n", line, what);
    }
}

static void *room_for(size_t bytes)
{
    void *room = malloc(bytes);
    if (room == NULL) {
        fprintf(stderr, "no room for %zu bytes\n", bytes);
        exit(2);
    }
    return room;
}

/* Bytes between two margins, and a copy of all three. */
struct lent {
    size_t length;
    uint8_t *room, *bytes, *kept;
};

static size_t room_length(const struct lent *lent) { return lent->length + 2 * MARGIN; }

/* Takes a copy of what is to be lent, to compare with afterwards. */
static void keep(struct lent *lent) { memcpy(lent->kept, lent->room, room_length(lent)); }

static struct lent patterned(size_t length)
{
    struct lent lent = {.length = length};
    lent.room = room_for(room_length(&lent));
    lent.kept = room_for(room_length(&lent));
    lent.bytes = lent.room + MARGIN;
    memset(lent.room, PATTERN, room_length(&lent));
    keep(&lent);
    return lent;
}

static struct lent lend(const void *bytes, size_t length)
{
    struct lent lent = patterned(length);
    memcpy(lent.bytes, bytes, length);
    keep(&lent);
    return lent;
}

static struct lent lend_text(const char *text) { return lend(text, strlen(text)); }

static struct lent lend_repeated(int byte, size_t length)
{
    struct lent lent = patterned(length);
    memset(lent.bytes, byte, length);
    keep(&lent);
    return lent;
}

static struct lent lend_file(const char *path)
{
    FILE *file = fopen(path, "rb");
    if (file == NULL || fseek(file, 0, SEEK_END) != 0) {
        perror(path);
        exit(2);
    }
    struct lent lent = patterned((size_t)ftell(file));
    rewind(file);
    check(__LINE__, "the file is not read whole", fread(lent.bytes, 1, lent.length, file) == lent.length);
    fclose(file);
    keep(&lent);
    return lent;
}

static void give_back(struct lent *lent)
{
    free(lent->room);
    free(lent->kept);
}

static void stays(int line, const struct lent *lent)
{
    check(line, "lent bytes or their margins changed", memcmp(lent->room, lent->kept, room_length(lent)) == 0);
}

/* The answer of the latest call, with a margin before it and at least one after it. */
static uint64_t answer[1 + MXP_CLAIM_NUMBERS + 1];

/* The room for the next answer, patterned. */
static uint64_t *out(void)
{
    memset(answer, PATTERN, sizeof answer);
    return answer + 1;
}

/* Looks at the answer's numbers, at its margins, and at what was lent for it, if anything was. */
static void answer_is(int line, const struct lent *lent, size_t count, const uint64_t *expected)
{
    uint64_t unwritten;
    memset(&unwritten, PATTERN, sizeof unwritten);
    for (size_t at = 0; at < sizeof answer / sizeof *answer; at++) {
        const int within = 1 <= at && at <= count;
        const uint64_t number = within ? expected[at - 1] : unwritten;
        check(line, within ? "another number" : "a number outside the answer changed", answer[at] == number);
        if (answer[at] != number)
            fprintf(stderr, "    number %zu: %" PRIu64 " for %" PRIu64 "\n", at - 1, answer[at], number);
    }
    if (lent != NULL)
        stays(line, lent);
}

/* What was lent, how many numbers the answer has, and those that are not 0. */
#define ANSWER_IS(lent, count, ...) answer_is(__LINE__, (lent), (count), (const uint64_t[count]){__VA_ARGS__})

static const uint64_t no_limit = UINT64_MAX;

/* Fills the example into a buffer that is longer than its trace. */
static void fills_the_example(const struct lent *list, const struct lent *trace)
{
    const size_t spare = 3 * MXP_ROW_BYTES + 1;
    struct lent buffer = patterned(trace->length + spare);
    mxp_fill(list->bytes, list->length, 1, buffer.bytes, buffer.length, out());
    ANSWER_IS(list, MXP_FILL_NUMBERS, [MXP_FILL_ROWS] = 33);
    memcpy(buffer.kept + MARGIN, trace->bytes, trace->length);
    stays(__LINE__, &buffer);
    give_back(&buffer);
}

static void checks_traces(const struct lent *trace, const struct lent *cheap)
{
    mxp_check(trace->bytes, trace->length, out());
    ANSWER_IS(trace, MXP_CHECK_NUMBERS, [MXP_CHECK_ACCEPTED] = 1, [MXP_CHECK_INSTRUCTIONS] = 6, [MXP_CHECK_OOB] = 1,
              [MXP_CHECK_EMPTY] = 1);
    mxp_check(cheap->bytes, cheap->length, out());
    ANSWER_IS(cheap, MXP_CHECK_NUMBERS, [MXP_CHECK_ROW] = 7, [MXP_CHECK_CONSTRAINT] = 17);
    struct lent ones = lend_repeated(0xff, 40 * MXP_ROW_BYTES);
    mxp_check(ones.bytes, ones.length, out());
    ANSWER_IS(&ones, MXP_CHECK_NUMBERS, [MXP_CHECK_ROW] = 0, [MXP_CHECK_CONSTRAINT] = 1);
    give_back(&ones);
}

/* Rows and claims of all six instructions. */
static void reads_instructions(const struct lent *trace)
{
    static const struct { uint64_t first_row, rows, cn, end1, end2; } of[] = {
        {1, 3, 1, 32, 0}, {4, 3, 2, 1, 0},   {7, 3, 1, 705, 0},
        {10, 3, 1, 0, 0}, {13, 3, 2, 0, 64}, {16, 17, 2, 16777216, 0},
    };
    for (uint64_t k = 1; k <= sizeof of / sizeof *of; k++) {
        mxp_rows(trace->bytes, trace->length, k, out());
        ANSWER_IS(trace, MXP_ROWS_NUMBERS, [MXP_ROWS_FIRST] = of[k - 1].first_row * MXP_ROW_BYTES,
                  [MXP_ROWS_LENGTH] = of[k - 1].rows * MXP_ROW_BYTES);
        mxp_claim(trace->bytes, trace->length, k, out());
        ANSWER_IS(trace, MXP_CLAIM_NUMBERS, [MXP_CLAIM_CN] = of[k - 1].cn, [MXP_CLAIM_END1_LO] = of[k - 1].end1,
                  [MXP_CLAIM_END2_LO] = of[k - 1].end2);
    }
}

/* The largest context, the largest end, 2^129 - 2, and one of two halves, 2^64 + 5, in either place. */
static void reads_wide_ends(void)
{
#define MOST "ffffffffffffffffffffffffffffffff"
    struct lent list = lend_text("cn=ffffffff op=f1 at1=" MOST " len1=" MOST " at2=10000000000000000 len2=5\n"
                                 "cn=ffffffff op=f1 at1=10000000000000000 len1=5 at2=" MOST " len2=" MOST "\n");
#undef MOST
    struct lent buffer = patterned(35 * MXP_ROW_BYTES);
    mxp_fill(list.bytes, list.length, 1, buffer.bytes, buffer.length, out());
    ANSWER_IS(&list, MXP_FILL_NUMBERS, [MXP_FILL_ROWS] = 35);
    keep(&buffer);
    mxp_claim(buffer.bytes, buffer.length, 1, out());
    ANSWER_IS(&buffer, MXP_CLAIM_NUMBERS, [MXP_CLAIM_CN] = UINT32_MAX, [MXP_CLAIM_END1_TOP] = 1,
              [MXP_CLAIM_END1_HI] = UINT64_MAX, [MXP_CLAIM_END1_LO] = UINT64_MAX - 1, [MXP_CLAIM_END2_HI] = 1,
              [MXP_CLAIM_END2_LO] = 5);
    mxp_claim(buffer.bytes, buffer.length, 2, out());
    ANSWER_IS(&buffer, MXP_CLAIM_NUMBERS, [MXP_CLAIM_CN] = UINT32_MAX, [MXP_CLAIM_END1_HI] = 1, [MXP_CLAIM_END1_LO] = 5,
              [MXP_CLAIM_END2_TOP] = 1, [MXP_CLAIM_END2_HI] = UINT64_MAX, [MXP_CLAIM_END2_LO] = UINT64_MAX - 1);
    give_back(&list);
    give_back(&buffer);
}

static void finds_last_states(const struct lent *trace)
{
    mxp_last_state(trace->bytes, trace->length, 1, 3, out());
    ANSWER_IS(trace, MXP_LAST_STATE_NUMBERS, [MXP_LAST_STATE_MEM] = 705, [MXP_LAST_STATE_COST] = 70,
              [MXP_LAST_STATE_LOOKED] = 3);
    mxp_last_state(trace->bytes, trace->length, 2, no_limit, out());
    ANSWER_IS(trace, MXP_LAST_STATE_NUMBERS, [MXP_LAST_STATE_MEM] = 64, [MXP_LAST_STATE_COST] = 6,
              [MXP_LAST_STATE_LOOKED] = 1);
    mxp_last_state(trace->bytes, trace->length, UINT32_MAX, 6, out());
    ANSWER_IS(trace, MXP_LAST_STATE_NUMBERS, [MXP_LAST_STATE_LOOKED] = 6);
}

/* The whole walk, and a step from its end. */
static void walks(const struct lent *trace)
{
    static const uint64_t next_rows[] = {4, 7, 10, 13, 16, 33};
    mxp_open(trace->bytes, trace->length, out());
    ANSWER_IS(trace, MXP_OPEN_NUMBERS, [MXP_OPEN_NEXT] = 1);
    uint64_t row = 1;
    for (size_t step = 0; step < sizeof next_rows / sizeof *next_rows; step++) {
        mxp_step(trace->bytes, trace->length, row, out());
        ANSWER_IS(trace, MXP_STEP_NUMBERS, [MXP_STEP_FIRST] = row * MXP_ROW_BYTES,
                  [MXP_STEP_LENGTH] = (next_rows[step] - row) * MXP_ROW_BYTES, [MXP_STEP_NEXT] = next_rows[step]);
        row = next_rows[step];
    }
    mxp_step(trace->bytes, trace->length, row, out());
    ANSWER_IS(trace, MXP_STEP_NUMBERS, [MXP_STEP_NEXT] = row);
}

/* Steps over bytes that are no trace, and from rows that are not there. */
static void steps_anywhere(void)
{
    struct lent ones = lend_repeated(1, 17 * MXP_ROW_BYTES);
    mxp_step(ones.bytes, ones.length, 0, out());
    ANSWER_IS(&ones, MXP_STEP_NUMBERS, [MXP_STEP_LENGTH] = ones.length, [MXP_STEP_NEXT] = 17);
    mxp_step(ones.bytes, ones.length - 1, 0, out());
    ANSWER_IS(&ones, MXP_STEP_NUMBERS, [MXP_STEP_NEXT] = 0);
    mxp_step(ones.bytes, ones.length, UINT64_MAX, out());
    ANSWER_IS(&ones, MXP_STEP_NUMBERS, [MXP_STEP_NEXT] = UINT64_MAX);
    give_back(&ones);
}

/* Slices of length 0 with no pointer. */
static void takes_empty_slices(void)
{
    struct lent row = patterned(MXP_ROW_BYTES);
    mxp_fill(NULL, 0, 1, row.bytes, row.length, out());
    ANSWER_IS(NULL, MXP_FILL_NUMBERS, [MXP_FILL_ROWS] = 1);
    memset(row.kept + MARGIN, 0, row.length);
    stays(__LINE__, &row);
    give_back(&row);
    mxp_fill(NULL, 0, 1, NULL, 0, out());
    ANSWER_IS(NULL, MXP_FILL_NUMBERS, MXP_BUFFER_SHORT);
    mxp_step(NULL, 0, 0, out());
    ANSWER_IS(NULL, MXP_STEP_NUMBERS, [MXP_STEP_NEXT] = 0);
}

/* The filler's refusals of short lists, which leave list and buffer as they were. */
static void refuses_lists(void)
{
#define LINE "cn=1 op=59 at1=0 len1=0 at2=0 len2=0\n"
    static const struct { const char *list; uint64_t empty, refused, line; } cases[] = {
        {"\n", 0, MXP_NO_EMPTY_ROW, 0},
        {LINE "cn=1 op=5A at1=0 len1=0 at2=0 len2=0\n", 1, MXP_NOT_OF_FORM, 2},
        {LINE LINE "cn=1 op=59 at1=0 len1=0 at2=0 len2=0", 1, MXP_NOT_OF_FORM, 3},
        {"cn=0 op=00 at1=1 len1=0 at2=0 len2=0\n\n", 1, MXP_CN_ZERO, 1},
        {LINE "cn=1 op=00 at1=1 len1=0 at2=0 len2=0\n", 1, MXP_OPCODE_NOT_LISTED, 2},
        {LINE "cn=1 op=59 at1=1 len1=0 at2=0 len2=0\n\n", 1, MXP_UNUSED_FIELD, 2},
        {"", MXP_MAX_ROWS + 1, MXP_FILL_TOO_LONG, 0},
        {LINE, UINT64_MAX, MXP_FILL_TOO_LONG, 0},
        {LINE, MXP_MAX_ROWS - 3, MXP_BUFFER_SHORT, 0},
        {LINE, 1, MXP_BUFFER_SHORT, 0},
    };
#undef LINE
    struct lent buffer = patterned(4 * MXP_ROW_BYTES - 1);
    for (size_t at = 0; at < sizeof cases / sizeof *cases; at++) {
        struct lent list = lend_text(cases[at].list);
        mxp_fill(list.bytes, list.length, cases[at].empty, buffer.bytes, buffer.length, out());
        ANSWER_IS(&list, MXP_FILL_NUMBERS, [MXP_REFUSED] = cases[at].refused, [MXP_LINE] = cases[at].line);
        stays(__LINE__, &buffer);
        give_back(&list);
    }
    give_back(&buffer);
}

/* The longest list, and one byte more. */
static void refuses_a_long_list(void)
{
    struct lent list = lend_repeated('\n', MXP_MAX_LIST_BYTES + 1);
    mxp_fill(list.bytes, list.length, 0, NULL, 0, out());
    ANSWER_IS(&list, MXP_FILL_NUMBERS, MXP_LIST_TOO_LONG);
    mxp_fill(list.bytes, list.length - 1, 1, NULL, 0, out());
    ANSWER_IS(&list, MXP_FILL_NUMBERS, MXP_NOT_OF_FORM, 1);
    give_back(&list);
}

/* Every call that looks at the whole trace refuses it by the same number, but for mxp_check where it has a verdict. */
static void refused_by_all(int line, const struct lent *lent, const uint8_t *trace, size_t length, uint64_t refused)
{
    const uint64_t expected[MXP_CLAIM_NUMBERS] = {refused};
    if (refused != MXP_NOT_ACCEPTED) {
        mxp_check(trace, length, out());
        answer_is(line, lent, MXP_CHECK_NUMBERS, expected);
    }
    mxp_rows(trace, length, 0, out());
    answer_is(line, lent, MXP_ROWS_NUMBERS, expected);
    mxp_claim(trace, length, 0, out());
    answer_is(line, lent, MXP_CLAIM_NUMBERS, expected);
    mxp_last_state(trace, length, 0, 0, out());
    answer_is(line, lent, MXP_LAST_STATE_NUMBERS, expected);
    mxp_open(trace, length, out());
    answer_is(line, lent, MXP_OPEN_NUMBERS, expected);
}

static void refuses_traces(const struct lent *trace, const struct lent *cheap)
{
    refused_by_all(__LINE__, NULL, NULL, 0, MXP_TRACE_LENGTH);
    refused_by_all(__LINE__, trace, trace->bytes, 0, MXP_TRACE_LENGTH);
    refused_by_all(__LINE__, trace, trace->bytes, trace->length - 1, MXP_TRACE_LENGTH);
    refused_by_all(__LINE__, trace, trace->bytes, trace->length - MXP_ROW_BYTES, MXP_NOT_ACCEPTED);
    refused_by_all(__LINE__, cheap, cheap->bytes, cheap->length, MXP_NOT_ACCEPTED);
    struct lent rows = lend_repeated(0, (size_t)(MXP_MAX_ROWS + 1) * MXP_ROW_BYTES);
    refused_by_all(__LINE__, &rows, rows.bytes, rows.length, MXP_TRACE_TOO_LONG);
    refused_by_all(__LINE__, &rows, rows.bytes, rows.length - 1, MXP_TRACE_LENGTH);
    mxp_check(rows.bytes, rows.length - MXP_ROW_BYTES, out());
    ANSWER_IS(&rows, MXP_CHECK_NUMBERS, [MXP_CHECK_ACCEPTED] = 1, [MXP_CHECK_EMPTY] = MXP_MAX_ROWS);
    give_back(&rows);
}

/* Questions that an accepted trace has no answer to. */
static void refuses_questions(const struct lent *trace)
{
    static const uint64_t no_instruction[] = {0, 7, UINT64_MAX};
    for (size_t at = 0; at < sizeof no_instruction / sizeof *no_instruction; at++) {
        mxp_rows(trace->bytes, trace->length, no_instruction[at], out());
        ANSWER_IS(trace, MXP_ROWS_NUMBERS, MXP_NO_INSTRUCTION);
        mxp_claim(trace->bytes, trace->length, no_instruction[at], out());
        ANSWER_IS(trace, MXP_CLAIM_NUMBERS, MXP_NO_INSTRUCTION);
    }
    mxp_last_state(trace->bytes, trace->length, 0, 0, out());
    ANSWER_IS(trace, MXP_LAST_STATE_NUMBERS, MXP_CONTEXT_ZERO);
    mxp_last_state(trace->bytes, trace->length, 1, 2, out());
    ANSWER_IS(trace, MXP_LAST_STATE_NUMBERS, MXP_LIMIT_TOO_LOW);
}

/* The example with one gas less for its third instruction: GAS, bytes 80 to 83 of rows 7 to 9. */
static struct lent cheapened(const struct lent *trace)
{
    struct lent cheap = lend(trace->bytes, trace->length);
    for (size_t row = 7; row <= 9; row++)
        cheap.bytes[row * MXP_ROW_BYTES + 83]--;
    keep(&cheap);
    return cheap;
}

int main(int count, char **arguments)
{
    if (count != 3) {
        fprintf(stderr, "usage: calls LIST TRACE\n");
        return 2;
    }
    struct lent list = lend_file(arguments[1]);
    struct lent trace = lend_file(arguments[2]);
    struct lent cheap = cheapened(&trace);
    fills_the_example(&list, &trace);
    checks_traces(&trace, &cheap);
    reads_instructions(&trace);
    reads_wide_ends();
    finds_last_states(&trace);
    walks(&trace);
    steps_anywhere();
    takes_empty_slices();
    refuses_lists();
    refuses_a_long_list();
    refuses_traces(&trace, &cheap);
    refuses_questions(&trace);
    give_back(&list);
    give_back(&trace);
    give_back(&cheap);
    if (failures != 0) {
        fprintf(stderr, "%lu of %lu checks failed\n", failures, checks);
        return 1;
    }
    printf("%lu checks passed\n", checks);
    return 0;
}
