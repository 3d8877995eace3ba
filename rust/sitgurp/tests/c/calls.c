/*
 * Every call of include/sitgurp.h on an accepted and on refused inputs: its answer, and every byte of every buffer.
 * Exit status 0 where all is as document 01 says; otherwise each line that does not hold is printed.
 */
#include "sitgurp.h"

#include <stdio.h>
#include <string.h>

/* what buffers hold before a call: no level, no mark, no byte of a sheet */
#define OTHER 0xa5
/* the bytes past what a call needs */
#define SPARE 5

static int failures = 0;

#define HOLDS(condition)                                                                                                     \
    do {                                                                                                                     \
        if (!(condition)) {                                                                                                  \
            printf("line %d: %s\n", __LINE__, #condition);                                                                   \
            failures++;                                                                                                      \
        }                                                                                                                    \
    } while (0)

#define TEXT(text) ((const uint8_t *)(text)), (sizeof(text) - 1)

/* 2 levels, a b c, the sum modulo 2, in a wiring that is not the settled one */
#define HEADER "levels inputs\n2 3\na b c\n"
#define NET HEADER "left right table\na b 0110\n1 c 0110\n"
#define SETTLED HEADER "left right table\nb c 0110\na 1 0110\n"
#define TABLE                                                                                                                \
    "levels inputs\n2 3\na b c ink\n0 0 0 0\n0 0 1 1\n0 1 0 1\n0 1 1 0\n1 0 0 1\n1 0 1 0\n1 1 0 0\n1 1 1 1\n"
/* the same laid loosely, its rows from the last to the first */
#define LOOSE                                                                                                                \
    "levels   inputs \n2 3\na b c   ink\n1 1 1   1\n1 1 0   0\n1 0 1   0\n1 0 0   1\n0 1 1   0\n0 1 0   1\n0 0 1   1\n"      \
    "0  0 0  0   \n"
/* the ink of index 6 is changed */
#define OTHER_TABLE                                                                                                          \
    "levels inputs\n2 3\na b c ink\n0 0 0 0\n0 0 1 1\n0 1 0 1\n0 1 1 0\n1 0 0 1\n1 0 1 0\n1 1 0 1\n1 1 1 1\n"
/* ink 1 when at least two of a b c are 1 */
#define MAJORITY                                                                                                             \
    "levels inputs\n2 3\na b c ink\n0 0 0 0\n0 0 1 0\n0 1 0 0\n0 1 1 1\n1 0 0 0\n1 0 1 1\n1 1 0 1\n1 1 1 1\n"
/* 2 levels, a b c d, the sum modulo 2: in three layers, in two, and its table */
#define HEADER4 "levels inputs\n2 4\na b c d\n"
#define CHAIN HEADER4 "left right table\nd c 0110\n1 b 0110\n2 a 0110\n"
#define SHALLOW HEADER4 "left right table\na b 0110\nc d 0110\n1 2 0110\n"
#define TABLE4                                                                                                               \
    "levels inputs\n2 4\na b c d ink\n0 0 0 0 0\n0 0 0 1 1\n0 0 1 0 1\n0 0 1 1 0\n0 1 0 0 1\n0 1 0 1 0\n0 1 1 0 0\n"          \
    "0 1 1 1 1\n1 0 0 0 1\n1 0 0 1 0\n1 0 1 0 0\n1 0 1 1 1\n1 1 0 0 0\n1 1 0 1 1\n1 1 1 0 1\n1 1 1 1 0\n"
/* the name b twice */
#define BAD_NAMES "levels inputs\n2 3\na b b ink\n"
/* input a twice */
#define BAD_NET HEADER "left right table\na a 0110\n"
/* the sum again, with the inks of index 2 and of index 5 left open; the same laid loosely */
#define OPEN                                                                                                                 \
    "levels inputs\n2 3\na b c ink\n0 0 0 0\n0 0 1 1\n0 1 0 -\n0 1 1 0\n1 0 0 1\n1 0 1 -\n1 1 0 0\n1 1 1 1\n"
#define LOOSE_OPEN                                                                                                           \
    "levels inputs\n2 3\na b c ink\n1 0 1   -\n0 0 0 0\n0 0 1 1\n0 1 0 -  \n0 1 1 0\n1 0 0 1\n1 1 0 0\n1 1 1 1\n"
/* 2 levels, a b c, the sum of b and c modulo 2: a and the second gate do nothing; as it settles; and its table */
#define IDLE HEADER "left right table\nc b 0110\na 1 0101\n"
#define PAIR HEADER "left right table\nb c 0110\n"
#define PAIR_TABLE                                                                                                           \
    "levels inputs\n2 3\na b c ink\n0 0 0 0\n0 0 1 1\n0 1 0 1\n0 1 1 0\n1 0 0 0\n1 0 1 1\n1 1 0 1\n1 1 1 0\n"
/* gate 1 is never used */
#define UNUSED_GATE HEADER4 "left right table\na b 0110\nc d 0110\n"

static const uint8_t sum_cells[8] = {0, 1, 1, 0, 1, 0, 0, 1};
/* four marks a byte: 0 2 2 2 and 2 2 2 2 */
static const uint8_t sum_marks[2] = {0xa8, 0xaa};
static const uint8_t majority_cells[8] = {0, 0, 0, 1, 0, 1, 1, 1};
/* 0 2 2 0 and 2 0 0 1 */
static const uint8_t majority_marks[2] = {0x28, 0x42};

static const uint8_t pair_cells[8] = {0, 1, 1, 0, 0, 1, 1, 0};
static const uint8_t open_cells[8] = {0, 1, 2, 0, 1, 2, 0, 1};

static const uint8_t sum4_cells[16] = {0, 1, 1, 0, 1, 0, 0, 1, 1, 0, 0, 1, 0, 1, 1, 0};
static const uint8_t sum4_marks[4] = {0xa8, 0xaa, 0xaa, 0xaa};

static uint8_t cells[16 + SPARE];
static uint8_t marks[4 + SPARE];
static uint8_t output[sizeof(TABLE) + SPARE];

static void fill(void) {
    memset(cells, OTHER, sizeof cells);
    memset(marks, OTHER, sizeof marks);
    memset(output, OTHER, sizeof output);
}

/* the buffer holds these bytes and then its own */
static int holds(const uint8_t *buffer, size_t length, const void *bytes, size_t count) {
    size_t k;
    for (k = count; k < length; k++) {
        if (buffer[k] != OTHER) {
            return 0;
        }
    }
    return memcmp(buffer, bytes, count) == 0;
}

static int cells_hold(const uint8_t *bytes, size_t count) { return holds(cells, sizeof cells, bytes, count); }
static int marks_hold(const uint8_t *bytes, size_t count) { return holds(marks, sizeof marks, bytes, count); }
static int output_holds(const char *text) { return holds(output, sizeof output, text, strlen(text)); }
static int untouched(void) { return cells_hold(cells, 0) && marks_hold(marks, 0) && output_holds(""); }

static int is(sitgurp_answer answer, size_t number, size_t value) { return answer.number == number && answer.value == value; }

static int settles(sitgurp_arrival_times times, double earliest, double latest) {
    return times.named == 0 && times.number == 0 && times.place == 0 && times.earliest == earliest && times.latest == latest;
}

static int turned_back(sitgurp_arrival_times times, size_t named, size_t number, size_t place) {
    return times.named == named && times.number == number && times.place == place && times.earliest == 0.0 && times.latest == 0.0;
}

static int has(sitgurp_shallow answer, size_t number, size_t value, size_t layers) {
    return answer.number == number && answer.value == value && answer.layers == layers;
}

static int is_part(sitgurp_which part, size_t which, size_t length) { return part.which == which && part.length == length; }

static int says(sitgurp_verdict verdict, size_t kind, size_t named, size_t number, size_t value) {
    return verdict.kind == kind && verdict.named == named && verdict.number == number && verdict.value == value;
}

static int is_kept(sitgurp_kept kept, size_t named, size_t number, size_t value, size_t changed) {
    return kept.named == named && kept.number == number && kept.value == value && kept.changed == changed;
}

static int turns(sitgurp_turn turn, size_t kind, size_t first, size_t second) {
    return turn.kind == kind && turn.first == first && turn.second == second;
}

static void multiplicity(void) {
    static const uint8_t high[8] = {0, 1, 0, 1, 2, 0, 3, 0};
    /* a where c is 0, b where c is 1 */
    static const uint8_t either[8] = {0, 0, 0, 1, 1, 0, 1, 1};
    HOLDS(is(sitgurp_multiplicity(2, 3, sum_cells, 8, 3), 0, 2));
    HOLDS(is(sitgurp_multiplicity(2, 3, majority_cells, 8, 3), 0, 3));
    HOLDS(is(sitgurp_multiplicity(2, 3, either, 8, 3), 0, 4));
    HOLDS(is(sitgurp_multiplicity(1, 3, sum_cells, 8, 3), 9, 0));
    HOLDS(is(sitgurp_multiplicity(2, 3, sum_cells, 7, 3), 9, 0));
    HOLDS(is(sitgurp_multiplicity(2, (size_t)-1, sum_cells, 8, 3), 9, 0));
    HOLDS(is(sitgurp_multiplicity(2, 3, high, 8, 0), 10, 6));
    HOLDS(is(sitgurp_multiplicity(2, 3, sum_cells, 8, 0), 11, 0));
    HOLDS(is(sitgurp_multiplicity(2, 3, sum_cells, 8, 8), 11, 0));
}

static void marking(void) {
    static const uint8_t high[8] = {0, 1, 0, 1, 0, 0, 0, 9};
    fill();
    HOLDS(is(sitgurp_marking(2, 3, sum_cells, 7, marks, sizeof marks), 9, 0));
    HOLDS(is(sitgurp_marking(2, 3, high, 8, marks, 0), 10, 7));
    HOLDS(is(sitgurp_marking(2, 3, sum_cells, 8, marks, 1), 14, 2));
    HOLDS(untouched());
    HOLDS(is(sitgurp_marking(2, 3, majority_cells, 8, marks, sizeof marks), 0, 1));
    HOLDS(marks_hold(majority_marks, 2));
    HOLDS(is(sitgurp_marking(2, 3, sum_cells, 8, marks, 2), 0, 2));
    HOLDS(marks_hold(sum_marks, 2));
}

static void settle(void) {
    const size_t length = sizeof(SETTLED) - 1;
    fill();
    HOLDS(is(sitgurp_settle(TEXT(BAD_NET), cells, 0, marks, 0, output, 0), 8, 43));
    HOLDS(is(sitgurp_settle(TEXT(""), cells, sizeof cells, marks, sizeof marks, output, sizeof output), 1, 0));
    HOLDS(is(sitgurp_settle(TEXT(NET), cells, 7, marks, 1, output, 0), 13, 8));
    HOLDS(is(sitgurp_settle(TEXT(NET), cells, 8, marks, 1, output, 0), 14, 2));
    HOLDS(untouched());
    HOLDS(is(sitgurp_settle(TEXT(NET), cells, 8, marks, 2, output, length - 1), 15, length));
    HOLDS(cells_hold(sum_cells, 8) && marks_hold(sum_marks, 2) && output_holds(""));
    fill();
    HOLDS(is(sitgurp_settle(TEXT(NET), cells, sizeof cells, marks, sizeof marks, output, sizeof output), 0, length));
    HOLDS(cells_hold(sum_cells, 8) && marks_hold(sum_marks, 2) && output_holds(SETTLED));
}

static void make(void) {
    const size_t length = sizeof(SETTLED) - 1;
    fill();
    HOLDS(is(sitgurp_make(TEXT(BAD_NAMES), cells, 0, marks, 0, output, 0), 4, 22));
    HOLDS(is(sitgurp_make(TEXT(NET), cells, 8, marks, 2, output, length), 1, 23));
    HOLDS(is(sitgurp_make(TEXT(MAJORITY), cells, 7, marks, 1, output, 0), 13, 8));
    HOLDS(is(sitgurp_make(TEXT(MAJORITY), cells, 8, marks, 1, output, 0), 14, 2));
    HOLDS(untouched());
    HOLDS(is(sitgurp_make(TEXT(MAJORITY), cells, 8, marks, 2, output, 0), 16, 7));
    HOLDS(cells_hold(majority_cells, 8) && marks_hold(majority_marks, 2) && output_holds(""));
    fill();
    HOLDS(is(sitgurp_make(TEXT(TABLE), cells, 8, marks, 2, output, length - 1), 15, length));
    HOLDS(cells_hold(sum_cells, 8) && marks_hold(sum_marks, 2) && output_holds(""));
    fill();
    HOLDS(is(sitgurp_make(TEXT(TABLE), cells, sizeof cells, marks, sizeof marks, output, length), 0, length));
    HOLDS(cells_hold(sum_cells, 8) && marks_hold(sum_marks, 2) && output_holds(SETTLED));
}

static void settle_shallow(void) {
    const size_t length = sizeof(SHALLOW) - 1;
    fill();
    HOLDS(has(sitgurp_settle_shallow(TEXT(BAD_NET), cells, 0, marks, 0, output, 0), 8, 43, 0));
    HOLDS(has(sitgurp_settle_shallow(TEXT(""), cells, sizeof cells, marks, sizeof marks, output, sizeof output), 1, 0, 0));
    HOLDS(has(sitgurp_settle_shallow(TEXT(CHAIN), cells, 15, marks, 3, output, 0), 13, 16, 0));
    HOLDS(has(sitgurp_settle_shallow(TEXT(CHAIN), cells, 16, marks, 3, output, 0), 14, 4, 0));
    HOLDS(untouched());
    HOLDS(has(sitgurp_settle_shallow(TEXT(CHAIN), cells, 16, marks, 4, output, length - 1), 15, length, 0));
    HOLDS(cells_hold(sum4_cells, 16) && marks_hold(sum4_marks, 4) && output_holds(""));
    fill();
    HOLDS(has(sitgurp_settle_shallow(TEXT(CHAIN), cells, sizeof cells, marks, sizeof marks, output, sizeof output), 0, length, 2));
    HOLDS(cells_hold(sum4_cells, 16) && marks_hold(sum4_marks, 4) && output_holds(SHALLOW));
}

static void make_shallow(void) {
    const size_t length = sizeof(SHALLOW) - 1;
    fill();
    HOLDS(has(sitgurp_make_shallow(TEXT(BAD_NAMES), cells, 0, marks, 0, output, 0), 4, 22, 0));
    HOLDS(has(sitgurp_make_shallow(TEXT(MAJORITY), cells, 7, marks, 1, output, 0), 13, 8, 0));
    HOLDS(has(sitgurp_make_shallow(TEXT(MAJORITY), cells, 8, marks, 1, output, 0), 14, 2, 0));
    HOLDS(untouched());
    HOLDS(has(sitgurp_make_shallow(TEXT(MAJORITY), cells, 8, marks, 2, output, 0), 16, 7, 0));
    HOLDS(cells_hold(majority_cells, 8) && marks_hold(majority_marks, 2) && output_holds(""));
    fill();
    HOLDS(has(sitgurp_make_shallow(TEXT(TABLE4), cells, 16, marks, 4, output, length - 1), 15, length, 0));
    HOLDS(cells_hold(sum4_cells, 16) && marks_hold(sum4_marks, 4) && output_holds(""));
    fill();
    HOLDS(has(sitgurp_make_shallow(TEXT(TABLE4), cells, sizeof cells, marks, sizeof marks, output, length), 0, length, 2));
    HOLDS(cells_hold(sum4_cells, 16) && marks_hold(sum4_marks, 4) && output_holds(SHALLOW));
}

static void shallower(void) {
    HOLDS(is_part(sitgurp_shallower(TEXT(SHALLOW), TEXT(CHAIN)), 1, sizeof(SHALLOW) - 1));
    HOLDS(is_part(sitgurp_shallower(TEXT(CHAIN), TEXT(SHALLOW)), 2, sizeof(SHALLOW) - 1));
    /* both have two layers */
    HOLDS(is_part(sitgurp_shallower(TEXT(SHALLOW), TEXT(NET)), 1, sizeof(SHALLOW) - 1));
    HOLDS(is_part(sitgurp_shallower(TEXT(NET), TEXT(SHALLOW)), 1, sizeof(NET) - 1));
    HOLDS(is_part(sitgurp_shallower(TEXT(CHAIN), TEXT(BAD_NET)), 1, sizeof(CHAIN) - 1));
    HOLDS(is_part(sitgurp_shallower(TEXT(BAD_NET), TEXT(CHAIN)), 2, sizeof(CHAIN) - 1));
    HOLDS(is_part(sitgurp_shallower(TEXT(BAD_NET), TEXT(TABLE)), 0, 0));
    HOLDS(is_part(sitgurp_shallower(TEXT(""), TEXT("")), 0, 0));
}

static void family_count(void) {
    fill();
    HOLDS(is(sitgurp_family_count(TEXT(BAD_NAMES), cells, 0, marks, 0), 4, 22));
    HOLDS(is(sitgurp_family_count(TEXT(NET), cells, 8, marks, 2), 1, 23));
    HOLDS(is(sitgurp_family_count(TEXT(TABLE), cells, 7, marks, 1), 13, 8));
    HOLDS(is(sitgurp_family_count(TEXT(TABLE), cells, 8, marks, 1), 14, 2));
    HOLDS(untouched());
    HOLDS(is(sitgurp_family_count(TEXT(TABLE), cells, 8, marks, 2), 0, 3));
    HOLDS(cells_hold(sum_cells, 8) && marks_hold(sum_marks, 2) && output_holds(""));
    fill();
    HOLDS(is(sitgurp_family_count(TEXT(TABLE4), cells, sizeof cells, marks, sizeof marks), 0, 15));
    HOLDS(cells_hold(sum4_cells, 16) && marks_hold(sum4_marks, 4) && output_holds(""));
    fill();
    /* no tree is no refusal here */
    HOLDS(is(sitgurp_family_count(TEXT(MAJORITY), cells, sizeof cells, marks, sizeof marks), 0, 0));
    HOLDS(cells_hold(majority_cells, 8) && marks_hold(majority_marks, 2) && output_holds(""));
}

static void family_tree(void) {
    const size_t length = sizeof(SETTLED) - 1;
    fill();
    HOLDS(is(sitgurp_family_tree(TEXT(BAD_NAMES), 0, cells, 0, marks, 0, output, 0), 4, 22));
    HOLDS(is(sitgurp_family_tree(TEXT(MAJORITY), 0, cells, 7, marks, 1, output, 0), 13, 8));
    HOLDS(is(sitgurp_family_tree(TEXT(MAJORITY), 0, cells, 8, marks, 1, output, 0), 14, 2));
    HOLDS(untouched());
    HOLDS(is(sitgurp_family_tree(TEXT(MAJORITY), 0, cells, 8, marks, 2, output, 0), 17, 0));
    HOLDS(cells_hold(majority_cells, 8) && marks_hold(majority_marks, 2) && output_holds(""));
    fill();
    HOLDS(is(sitgurp_family_tree(TEXT(TABLE), 3, cells, 8, marks, 2, output, 0), 17, 3));
    HOLDS(is(sitgurp_family_tree(TEXT(TABLE), UINT64_MAX, cells, 8, marks, 2, output, length), 17, (size_t)UINT64_MAX));
    HOLDS(is(sitgurp_family_tree(TEXT(TABLE), 2, cells, 8, marks, 2, output, length - 1), 15, length));
    HOLDS(cells_hold(sum_cells, 8) && marks_hold(sum_marks, 2) && output_holds(""));
    fill();
    HOLDS(is(sitgurp_family_tree(TEXT(TABLE), 0, cells, sizeof cells, marks, sizeof marks, output, length), 0, length));
    HOLDS(cells_hold(sum_cells, 8) && marks_hold(sum_marks, 2) && output_holds(SETTLED));
    fill();
    HOLDS(is(sitgurp_family_tree(TEXT(TABLE), 1, cells, 8, marks, 2, output, sizeof output), 0, length));
    HOLDS(output_holds(NET));
    fill();
    HOLDS(is(sitgurp_family_tree(TEXT(TABLE), 2, cells, 8, marks, 2, output, sizeof output), 0, length));
    HOLDS(output_holds(HEADER "left right table\na c 0110\n1 b 0110\n"));
    fill();
    HOLDS(is(sitgurp_family_tree(TEXT(TABLE4), 3, cells, 16, marks, 4, output, sizeof output), 0, sizeof(SHALLOW) - 1));
    HOLDS(cells_hold(sum4_cells, 16) && marks_hold(sum4_marks, 4) && output_holds(SHALLOW));
}

static void check(void) {
    fill();
    HOLDS(says(sitgurp_check(TEXT(BAD_NET), TEXT(BAD_NAMES), cells, 0), 2, 1, 8, 43));
    HOLDS(says(sitgurp_check(TEXT(NET), TEXT(BAD_NAMES), cells, 0), 2, 2, 4, 22));
    HOLDS(says(sitgurp_check(TEXT("levels inputs\n2 3\na c b\nleft right table\na b 0110\n1 c 0110\n"), TEXT(TABLE), cells, 0), 2, 0,
               12, 0));
    HOLDS(says(sitgurp_check(TEXT(NET), TEXT(TABLE), cells, 7), 2, 0, 13, 8));
    HOLDS(untouched());
    HOLDS(says(sitgurp_check(TEXT(NET), TEXT(OTHER_TABLE), cells, 8), 1, 0, 0, 6));
    HOLDS(cells[6] == 1 && cells[7] == 1);
    fill();
    HOLDS(says(sitgurp_check(TEXT(NET), TEXT(TABLE), cells, sizeof cells), 0, 0, 0, 0));
    HOLDS(cells_hold(sum_cells, 8));
    HOLDS(says(sitgurp_check(TEXT(SETTLED), TEXT(TABLE), cells, 8), 0, 0, 0, 0));
}

/* a wiring and sides that are not the settled net's, with other tables than the sum modulo 2 has */
static void keep(void) {
    static const char other[] = HEADER "left right table\nc b 0001\n1 a 0110\n";
    static const char kept[] = HEADER "left right table\nc b 0110\n1 a 0110\n";
    const size_t length = sizeof(kept) - 1;
    fill();
    HOLDS(is_kept(sitgurp_keep(TEXT(BAD_NET), TEXT(BAD_NAMES), cells, 0, output, 0), 1, 8, 43, 0));
    HOLDS(is_kept(sitgurp_keep(TEXT(NET), TEXT(BAD_NAMES), cells, 0, output, 0), 2, 4, 22, 0));
    HOLDS(is_kept(sitgurp_keep(TEXT(CHAIN), TEXT(TABLE), cells, 0, output, 0), 0, 12, 0, 0));
    HOLDS(is_kept(sitgurp_keep(TEXT(other), TEXT(MAJORITY), cells, 7, output, sizeof output), 0, 13, 8, 0));
    HOLDS(untouched());
    HOLDS(is_kept(sitgurp_keep(TEXT(other), TEXT(MAJORITY), cells, 8, output, 0), 0, 23, 1, 0));
    HOLDS(cells_hold(majority_cells, 8) && marks_hold(marks, 0) && output_holds(""));
    fill();
    HOLDS(is_kept(sitgurp_keep(TEXT(other), TEXT(TABLE), cells, sizeof cells, output, length - 1), 0, 15, length, 0));
    HOLDS(cells_hold(sum_cells, 8) && output_holds(""));
    HOLDS(is_kept(sitgurp_keep(TEXT(other), TEXT(TABLE), cells, 8, output, sizeof output), 0, 0, length, 2));
    HOLDS(cells_hold(sum_cells, 8) && marks_hold(marks, 0) && output_holds(kept));
    /* again: no gate changes */
    fill();
    HOLDS(is_kept(sitgurp_keep(TEXT(kept), TEXT(TABLE), cells, 8, output, length), 0, 0, length, 0));
    HOLDS(output_holds(kept));
    /* the settled net's wiring gives the settled net */
    fill();
    HOLDS(is_kept(sitgurp_keep(TEXT(HEADER "left right table\nb c 0000\na 1 0001\n"), TEXT(TABLE), cells, 8, output, length), 0, 0, length, 6));
    HOLDS(output_holds(SETTLED));
}

/* inputs that never matter stay unused in what is made, and may stay so in what is read; an earlier gate may not */
static void idle_inputs(void) {
    const size_t length = sizeof(PAIR) - 1;
    const size_t unused = sizeof(UNUSED_GATE) - 1;
    static const char kept[] = HEADER "left right table\nb c 0110\n1 a 0011\n";
    fill();
    HOLDS(is(sitgurp_settle(TEXT(IDLE), cells, 8, marks, 2, output, sizeof output), 0, length));
    HOLDS(cells_hold(pair_cells, 8) && marks_hold(sum_marks, 2) && output_holds(PAIR));
    fill();
    HOLDS(is(sitgurp_make(TEXT(PAIR_TABLE), cells, 8, marks, 2, output, length), 0, length));
    HOLDS(cells_hold(pair_cells, 8) && marks_hold(sum_marks, 2) && output_holds(PAIR));
    fill();
    HOLDS(has(sitgurp_settle_shallow(TEXT(IDLE), cells, 8, marks, 2, output, length), 0, length, 1) && output_holds(PAIR));
    HOLDS(is(sitgurp_family_count(TEXT(PAIR_TABLE), cells, 8, marks, 2), 0, 1));
    HOLDS(is(sitgurp_write_table(TEXT(PAIR), output, sizeof output), 0, sizeof(PAIR_TABLE) - 1) && output_holds(PAIR_TABLE));
    HOLDS(says(sitgurp_check(TEXT(PAIR), TEXT(PAIR_TABLE), cells, 8), 0, 0, 0, 0));
    HOLDS(turns(sitgurp_gate_line(TEXT(PAIR), 1), 0, 0, 0));
    HOLDS(is_part(sitgurp_shallower(TEXT(IDLE), TEXT(PAIR)), 2, length));
    /* a arrives last, and is not used */
    HOLDS(settles(sitgurp_arrivals(TEXT(PAIR), TEXT("name from to\na 99 99\nb 0 4\nc 2 2\n"), 4), 1.5, 2.0));
    /* a wiring may have an input that does not matter, and may not leave out one that does */
    fill();
    HOLDS(is_kept(sitgurp_keep(TEXT(HEADER "left right table\nb c 0001\n1 a 0001\n"), TEXT(PAIR_TABLE), cells, 8, output, sizeof output), 0, 0,
                  sizeof(kept) - 1, 6));
    HOLDS(output_holds(kept));
    fill();
    HOLDS(is_kept(sitgurp_keep(TEXT(PAIR), TEXT(MAJORITY), cells, 8, output, sizeof output), 0, 23, 0, 0));
    HOLDS(cells_hold(majority_cells, 8) && output_holds(""));
    fill();
    HOLDS(is(sitgurp_settle(TEXT(UNUSED_GATE), cells, 0, marks, 0, output, 0), 26, unused));
    HOLDS(is(sitgurp_settle(TEXT(HEADER "left right table\n"), cells, 0, marks, 0, output, 0), 1, sizeof(HEADER "left right table\n") - 1));
    HOLDS(says(sitgurp_check(TEXT(UNUSED_GATE), TEXT(""), cells, 0), 2, 1, 26, unused));
    HOLDS(turns(sitgurp_gate_line(TEXT(UNUSED_GATE), 0), 2, 26, unused));
    HOLDS(turned_back(sitgurp_arrivals(TEXT(UNUSED_GATE), TEXT(""), 4), 1, 26, unused));
    HOLDS(untouched());
}

/* open cells: a check passes over them, tidying carries them over, and what needs a full table is refused with 27 before any buffer is looked at */
static void open(void) {
    /* the level of c */
    static const char unlike[] = HEADER "left right table\na c 0101\n";
    static sitgurp_job job;
    fill();
    HOLDS(is(sitgurp_multiplicity(2, 3, open_cells, 8, 0), 27, 2));
    HOLDS(is(sitgurp_multiplicity(2, 3, open_cells, 8, 3), 27, 2));
    HOLDS(is(sitgurp_marking(2, 3, open_cells, 8, marks, 0), 27, 2));
    HOLDS(is(sitgurp_make(TEXT(OPEN), cells, 8, marks, 2, output, sizeof output), 27, 2));
    HOLDS(is(sitgurp_make(TEXT(OPEN), cells, 0, marks, 0, output, 0), 27, 2));
    HOLDS(has(sitgurp_make_shallow(TEXT(OPEN), cells, 0, marks, 0, output, 0), 27, 2, 0));
    HOLDS(is(sitgurp_family_count(TEXT(OPEN), cells, 0, marks, 0), 27, 2));
    HOLDS(is(sitgurp_family_tree(TEXT(OPEN), 99, cells, 0, marks, 0, output, 0), 27, 2));
    HOLDS(is(sitgurp_job_open(TEXT(OPEN), &job), 27, 2));
    HOLDS(is(sitgurp_job_step(&job), 21, 0));
    /* 27 names the table sheet, and 12 comes first */
    HOLDS(is_kept(sitgurp_keep(TEXT(NET), TEXT(OPEN), cells, 0, output, 0), 2, 27, 2, 0));
    HOLDS(is_kept(sitgurp_keep(TEXT(CHAIN), TEXT(OPEN), cells, 0, output, 0), 0, 12, 0, 0));
    HOLDS(untouched());
    HOLDS(says(sitgurp_check(TEXT(NET), TEXT(OPEN), cells, 7), 2, 0, 13, 8));
    HOLDS(untouched());
    HOLDS(says(sitgurp_check(TEXT(NET), TEXT(OPEN), cells, 8), 0, 0, 0, 0) && cells_hold(open_cells, 8));
    /* it differs at 2, which is open, and at 3 */
    HOLDS(says(sitgurp_check(TEXT(unlike), TEXT(OPEN), cells, 8), 1, 0, 0, 3) && cells_hold(open_cells, 8));
    fill();
    HOLDS(is(sitgurp_tidy(TEXT(LOOSE_OPEN), cells, 8, output, sizeof output), 0, sizeof(OPEN) - 1));
    HOLDS(cells_hold(open_cells, 8) && output_holds(OPEN));
}

/* two gates lie on the way from a and from b, one on the way from c */
static void arrivals(void) {
    HOLDS(settles(sitgurp_arrivals(TEXT(NET), TEXT("name from to\na 0 4\nb 2 2\nc 10 12\n"), 4), 3.5, 4.0));
    HOLDS(settles(sitgurp_arrivals(TEXT(NET), TEXT("name from to\na 0 0\nb 0 0\nc 0 0\n"), 0), 0.0, 0.0));
    HOLDS(settles(sitgurp_arrivals(TEXT(NET), TEXT("name from to\na 0 65535\nb 0 0\nc 0 0\n"), 255), 127.5, 16511.25));
    HOLDS(turned_back(sitgurp_arrivals(TEXT(BAD_NET), TEXT(""), 4), 1, 8, 43));
    HOLDS(turned_back(sitgurp_arrivals(TEXT(""), TEXT("name from to\nb"), 4), 1, 1, 0));
    HOLDS(turned_back(sitgurp_arrivals(TEXT(NET), TEXT(""), 4), 2, 1, 0));
    HOLDS(turned_back(sitgurp_arrivals(TEXT(NET), TEXT("name from to\na 0 0\nb 0 0\nc 0 0"), 4), 2, 1, 30));
    HOLDS(turned_back(sitgurp_arrivals(TEXT(NET), TEXT("name from to\na 0 0\nc 0 0\n"), 4), 2, 18, 19));
    HOLDS(turned_back(sitgurp_arrivals(TEXT(NET), TEXT("name from to\na 0 65536\n"), 4), 2, 19, 17));
    HOLDS(turned_back(sitgurp_arrivals(TEXT(NET), TEXT("name from to\na 4 3\n"), 4), 2, 19, 17));
}

/* the sum modulo 2 of a cell, the one to its left and the one above it */
static void glyph(void) {
    static const uint8_t old[6] = {1, 1, 0, 1, 0, 1};
    static const uint8_t new[6] = {1, 0, 1, 0, 0, 1};
    static const uint8_t high[6] = {1, 1, 0, 1, 0, 2};
    static const uint8_t none[1] = {0};
    static const int8_t offsets[6] = {0, 0, -1, 0, 0, -1};
    static const int8_t far[6] = {0, 0, -1, 0, 0, -3};
    fill();
    HOLDS(is(sitgurp_glyph(TEXT(BAD_NET), 0, 0, none, 0, far, 5, output, 0), 8, 43));
    HOLDS(is(sitgurp_glyph(TEXT(NET), 3, 3, old, 6, far, 5, output, 0), 24, 0));
    HOLDS(is(sitgurp_glyph(TEXT(NET), 0, 2, none, 0, offsets, 6, output, sizeof output), 24, 0));
    HOLDS(is(sitgurp_glyph(TEXT(NET), 65, 0, none, 0, offsets, 6, output, sizeof output), 24, 0));
    /* the product of the sides is 6 modulo 2 to the 64 */
    HOLDS(is(sitgurp_glyph(TEXT(NET), (size_t)-1, (size_t)-6, old, 6, offsets, 6, output, sizeof output), 24, 0));
    HOLDS(is(sitgurp_glyph(TEXT(NET), 3, 2, high, 6, far, 6, output, 0), 24, 0));
    HOLDS(is(sitgurp_glyph(TEXT(NET), 3, 2, old, 6, offsets, 5, output, 0), 25, 0));
    HOLDS(is(sitgurp_glyph(TEXT(NET), 3, 2, old, 6, far, 6, output, 0), 25, 0));
    HOLDS(is(sitgurp_glyph(TEXT(NET), 3, 2, old, 6, offsets, 6, output, 5), 15, 6));
    HOLDS(untouched());
    HOLDS(is(sitgurp_glyph(TEXT(NET), 3, 2, old, 6, offsets, 6, output, sizeof output), 0, 6));
    HOLDS(holds(output, sizeof output, new, 6));
}

static void write_table(void) {
    const size_t length = sizeof(TABLE) - 1;
    fill();
    HOLDS(is(sitgurp_write_table(TEXT(BAD_NET), output, 0), 8, 43));
    HOLDS(is(sitgurp_write_table(TEXT(NET), output, length - 1), 15, length));
    HOLDS(untouched());
    HOLDS(is(sitgurp_write_table(TEXT(NET), output, sizeof output), 0, length));
    HOLDS(output_holds(TABLE));
}

static void tidy(void) {
    const size_t length = sizeof(TABLE) - 1;
    fill();
    HOLDS(is(sitgurp_tidy(TEXT(BAD_NAMES), cells, 0, output, 0), 4, 22));
    HOLDS(is(sitgurp_tidy(TEXT("levels inputs\n2 3\n a b c ink\n"), cells, 0, output, 0), 1, 18));
    HOLDS(is(sitgurp_tidy(TEXT("levels inputs\n2 3\na b c ink\n1 1 1 1\n1 1 1  \n"), cells, 0, output, 0), 20, 36));
    HOLDS(is(sitgurp_tidy(TEXT(LOOSE), cells, 7, output, 0), 13, 8));
    HOLDS(untouched());
    HOLDS(is(sitgurp_tidy(TEXT(LOOSE), cells, 8, output, length - 1), 15, length));
    HOLDS(cells_hold(sum_cells, 8) && output_holds(""));
    fill();
    HOLDS(is(sitgurp_tidy(TEXT(LOOSE), cells, sizeof cells, output, sizeof output), 0, length));
    HOLDS(cells_hold(sum_cells, 8) && output_holds(TABLE));
    fill();
    HOLDS(is(sitgurp_tidy(TEXT(TABLE), cells, 8, output, length), 0, length));
    HOLDS(cells_hold(sum_cells, 8) && output_holds(TABLE));
}

static void gate_line(void) {
    static const char net[] = NET;
    const size_t first = sizeof(HEADER "left right table\n") - 1;
    HOLDS(turns(sitgurp_gate_line(TEXT(NET), 0), 1, first, 8) && memcmp(net + first, "a b 0110", 8) == 0);
    HOLDS(turns(sitgurp_gate_line(TEXT(NET), 1), 1, first + 9, 8) && memcmp(net + first + 9, "1 c 0110", 8) == 0);
    HOLDS(turns(sitgurp_gate_line(TEXT(NET), 2), 0, 0, 0));
    HOLDS(turns(sitgurp_gate_line(TEXT(NET), (size_t)-1), 0, 0, 0));
    HOLDS(turns(sitgurp_gate_line(TEXT(BAD_NET), 0), 2, 8, 43));
    HOLDS(turns(sitgurp_gate_line(TEXT(BAD_NET), 99), 2, 8, 43));
}

static int is_line(sitgurp_line line, size_t kind, size_t start, size_t length, size_t next) {
    return line.kind == kind && line.start == start && line.length == length && line.next == next;
}

/* the lister that its caller keeps the position of: opened, followed to the end and past it, and at positions that no turn gave */
static void lister(void) {
    const size_t first = sizeof(HEADER "left right table\n") - 1;
    const size_t end = sizeof(NET) - 1;
    static const uint8_t none[1] = {'\n'};
    HOLDS(is(sitgurp_lister_open(TEXT(BAD_NET)), 8, 43));
    HOLDS(is(sitgurp_lister_open(TEXT("")), 1, 0));
    HOLDS(is(sitgurp_lister_open(TEXT(UNUSED_GATE)), 26, sizeof(UNUSED_GATE) - 1));
    HOLDS(is(sitgurp_lister_open(TEXT(NET)), 0, first));
    HOLDS(is_line(sitgurp_lister_next(TEXT(NET), first), 1, first, 8, first + 9));
    HOLDS(is_line(sitgurp_lister_next(TEXT(NET), first + 9), 1, first + 9, 8, end));
    HOLDS(is_line(sitgurp_lister_next(TEXT(NET), end), 0, 0, 0, end));
    HOLDS(is_line(sitgurp_lister_next(TEXT(NET), end + 1), 0, 0, 0, end));
    HOLDS(is_line(sitgurp_lister_next(TEXT(NET), (size_t)-1), 0, 0, 0, end));
    /* inside a line, at a line feed, in bytes that are no sheet, in none at all */
    HOLDS(is_line(sitgurp_lister_next(TEXT(NET), first + 4), 1, first + 4, 4, first + 9));
    HOLDS(is_line(sitgurp_lister_next(TEXT(NET), first + 8), 1, first + 8, 0, first + 9));
    HOLDS(is_line(sitgurp_lister_next(TEXT("a\nb"), 2), 1, 2, 1, 3));
    HOLDS(is_line(sitgurp_lister_next(none, 0, 0), 0, 0, 0, 0));
}

static void version(void) {
    char text[32];
    snprintf(text, sizeof text, "%d.%d.%d", SITGURP_VERSION_MAJOR, SITGURP_VERSION_MINOR, SITGURP_VERSION_PATCH);
    HOLDS(strcmp(text, SITGURP_VERSION) == 0);
    HOLDS(sitgurp_version() == SITGURP_VERSION_NUMBER);
}

/* the sizes that the header says always suffice, on sheets of the largest size: 2 levels with 12 inputs, all names 8 bytes long */
static void largest(void) {
    static const char sheet[] = "levels inputs\n2 12\n"
                                "aaaaaaaa bbbbbbbb cccccccc dddddddd eeeeeeee ffffffff gggggggg hhhhhhhh iiiiiiii jjjjjjjj kkkkkkkk llllllll\n"
                                "left right table\n"
                                "aaaaaaaa bbbbbbbb 0110\n1 cccccccc 0110\n2 dddddddd 0110\n3 eeeeeeee 0110\n4 ffffffff 0110\n"
                                "5 gggggggg 0110\n6 hhhhhhhh 0110\n7 iiiiiiii 0110\n8 jjjjjjjj 0110\n9 kkkkkkkk 0110\n10 llllllll 0110\n";
    static const char settled[] = "levels inputs\n2 12\n"
                                  "aaaaaaaa bbbbbbbb cccccccc dddddddd eeeeeeee ffffffff gggggggg hhhhhhhh iiiiiiii jjjjjjjj kkkkkkkk llllllll\n"
                                  "left right table\n"
                                  "kkkkkkkk llllllll 0110\njjjjjjjj 1 0110\niiiiiiii 2 0110\nhhhhhhhh 3 0110\ngggggggg 4 0110\n"
                                  "ffffffff 5 0110\neeeeeeee 6 0110\ndddddddd 7 0110\ncccccccc 8 0110\nbbbbbbbb 9 0110\naaaaaaaa 10 0110\n";
    static uint8_t table[SITGURP_MOST_TABLE_SHEET];
    static uint8_t most_cells[SITGURP_MOST_CELLS];
    static uint8_t most_marks[SITGURP_MOST_MARKS];
    static uint8_t net[SITGURP_MOST_NET_SHEET];
    static uint8_t old[SITGURP_MOST_PICTURE];
    static uint8_t new[SITGURP_MOST_PICTURE];
    /* one input reads the cell two to the right and two below, and the other eleven their own */
    static const int8_t offsets[24] = {2, 2};
    sitgurp_answer made;
    HOLDS(is(sitgurp_write_table(TEXT(sheet), table, sizeof table), 0, sizeof table));
    made = sitgurp_make(table, sizeof table, most_cells, sizeof most_cells, most_marks, sizeof most_marks, net, sizeof net);
    HOLDS(made.number == 0 && made.value <= sizeof net);
    if (failures > 0) {
        return;
    }
    /* a sum's settled net takes the last two inputs first, then each earlier one */
    HOLDS(made.value == sizeof settled - 1 && memcmp(net, settled, made.value) == 0);
    HOLDS(says(sitgurp_check(net, made.value, table, sizeof table, most_cells, sizeof most_cells), 0, 0, 0, 0));
    /* every wiring computes a sum: the most trees that a table can have, and the last of them */
    HOLDS(is(sitgurp_family_count(table, sizeof table, most_cells, sizeof most_cells, most_marks, sizeof most_marks), 0, 13749310575));
    made = sitgurp_family_tree(table, sizeof table, 13749310574, most_cells, sizeof most_cells, most_marks, sizeof most_marks, net,
                               sizeof net);
    HOLDS(made.number == 0 && made.value == sizeof settled - 1);
    HOLDS(says(sitgurp_check(net, made.value, table, sizeof table, most_cells, sizeof most_cells), 0, 0, 0, 0));
    memset(old, 1, sizeof old);
    HOLDS(is(sitgurp_glyph(TEXT(sheet), 64, 64, old, sizeof old, offsets, sizeof offsets, new, sizeof new), 0, sizeof new));
    /* the sum of twelve ones is even, and that of eleven odd: so in the last two columns and the last two rows, whose cell is outside */
    HOLDS(new[0] == 0 && new[61] == 0 && new[62] == 1 && new[63] == 1 && new[61 * 64] == 0 && new[62 * 64] == 1 && new[64 * 64 - 1] == 1);
}

int main(void) {
    multiplicity();
    marking();
    settle();
    make();
    settle_shallow();
    make_shallow();
    shallower();
    family_count();
    family_tree();
    check();
    keep();
    arrivals();
    glyph();
    write_table();
    tidy();
    gate_line();
    lister();
    version();
    idle_inputs();
    open();
    largest();
    return failures == 0 ? 0 : 1;
}
