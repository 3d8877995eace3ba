/*
 * The calls of include/sitgurp.h on a job: their answers, every byte of the job and of every buffer. What finishing comes to is held against sitgurp_make.
 * Exit status 0 where all is as document 02 says; otherwise each line that does not hold is printed.
 */
#include "sitgurp.h"

#include <stdio.h>
#include <string.h>

/* what a job and the buffers hold before a call: no level, no mark, no byte of a sheet */
#define OTHER 0xa5
#define GROUPS 7

static int failures = 0;

#define HOLDS(condition)                                                                                                     \
    do {                                                                                                                     \
        if (!(condition)) {                                                                                                  \
            printf("line %d: %s\n", __LINE__, #condition);                                                                   \
            failures++;                                                                                                      \
        }                                                                                                                    \
    } while (0)

#define TEXT(text) ((const uint8_t *)(text)), (sizeof(text) - 1)

/* 2 levels, a b c: ink 1 when at least two of a b c are 1, which has no tree; and the sum modulo 2 */
#define LINES "levels inputs\n2 3\na b c "
#define MAJORITY LINES "ink\n0 0 0 0\n0 0 1 0\n0 1 0 0\n0 1 1 1\n1 0 0 0\n1 0 1 1\n1 1 0 1\n1 1 1 1\n"
#define SUM LINES "ink\n0 0 0 0\n0 0 1 1\n0 1 0 1\n0 1 1 0\n1 0 0 1\n1 0 1 0\n1 1 0 0\n1 1 1 1\n"
/* the name b twice */
#define BAD_NAMES "levels inputs\n2 3\na b b ink\n"

static const uint8_t majority_cells[8] = {0, 0, 0, 1, 0, 1, 1, 1};
static const uint8_t majority_marks[8] = {0, 2, 2, 0, 2, 0, 0, 1};

/* the three buffers, and how much of each is lent */
typedef struct buffers {
    uint8_t cells[9];
    uint8_t marks[9];
    uint8_t output[80];
} buffers;

typedef struct lent {
    size_t cells;
    size_t marks;
    size_t output;
} lent;

static const lent all_lent = {9, 9, 80};

static int is(sitgurp_answer answer, size_t number, size_t value) { return answer.number == number && answer.value == value; }
static int says(sitgurp_mark mark, size_t kind, size_t value) { return mark.kind == kind && mark.value == value; }

/* every byte of the job */
static int job_is(const sitgurp_job *job, const char *lines, const uint8_t *cells, const uint8_t *marks, size_t passed) {
    static sitgurp_job due;
    memset(&due, 0, sizeof due);
    memcpy(due.lines, lines, strlen(lines));
    memcpy(due.cells, cells, 8);
    memcpy(due.marks, marks, passed + 1);
    due.passed = passed;
    return memcmp(job, &due, sizeof due) == 0;
}

static int same(const sitgurp_job *job, const sitgurp_job *other) { return memcmp(job, other, sizeof *job) == 0; }

static sitgurp_answer finish(const sitgurp_job *job, buffers *into, lent so) {
    memset(into, OTHER, sizeof *into);
    return sitgurp_job_finish(job, into->cells, so.cells, into->marks, so.marks, into->output, so.output);
}

static int untouched(const buffers *into) {
    buffers due;
    memset(&due, OTHER, sizeof due);
    return memcmp(into, &due, sizeof due) == 0;
}

/* finishing answers and writes what making does on the sheet, and leaves the job as it was */
static int as_made(const sitgurp_job *job, const uint8_t *sheet, size_t length, lent so) {
    static sitgurp_job before;
    buffers finished, made;
    sitgurp_answer by_job, by_sheet;
    before = *job;
    by_job = finish(job, &finished, so);
    memset(&made, OTHER, sizeof made);
    by_sheet = sitgurp_make(sheet, length, made.cells, so.cells, made.marks, so.marks, made.output, so.output);
    return is(by_job, by_sheet.number, by_sheet.value) && memcmp(&finished, &made, sizeof made) == 0 && same(job, &before);
}

static void empty(void) {
    static const uint8_t nothing[8];
    static sitgurp_job job;
    buffers into;
    size_t group;
    memset(&job, OTHER, sizeof job);
    HOLDS(is(sitgurp_job_open(TEXT(BAD_NAMES), &job), 4, 22));
    HOLDS(job_is(&job, "", nothing, nothing, 0));
    HOLDS(is(sitgurp_job_step(&job), 21, 0));
    for (group = 0; group < 10; group++) {
        HOLDS(says(sitgurp_job_mark(&job, group), SITGURP_REFUSED_GROUP, 0));
    }
    HOLDS(is(finish(&job, &into, all_lent), 9, 0) && untouched(&into));
    HOLDS(job_is(&job, "", nothing, nothing, 0));
}

static void majority(void) {
    static sitgurp_job job, copy;
    buffers into;
    size_t group;
    memset(&job, OTHER, sizeof job);
    HOLDS(is(sitgurp_job_open(TEXT(MAJORITY), &job), 0, 0));
    for (group = 1; group <= GROUPS; group++) {
        HOLDS(job_is(&job, LINES, majority_cells, majority_marks, group - 1));
        HOLDS(says(sitgurp_job_mark(&job, group), 1, 0));
        HOLDS(is(finish(&job, &into, all_lent), 22, GROUPS + 1 - group) && untouched(&into));
        HOLDS(is(sitgurp_job_step(&job), 0, 0));
        HOLDS(says(sitgurp_job_mark(&job, group), 0, majority_marks[group]));
        HOLDS(says(sitgurp_job_mark(&job, 0), SITGURP_REFUSED_GROUP, 0));
        HOLDS(says(sitgurp_job_mark(&job, GROUPS + 1), SITGURP_REFUSED_GROUP, 0));
    }
    HOLDS(job_is(&job, LINES, majority_cells, majority_marks, GROUPS));
    copy = job;
    HOLDS(is(sitgurp_job_step(&job), 21, 0));
    HOLDS(same(&job, &copy));
    HOLDS(is(finish(&job, &into, all_lent), 16, 7));
    HOLDS(as_made(&job, TEXT(MAJORITY), all_lent));
}

static void sum(void) {
    static sitgurp_job job;
    buffers into;
    lent so;
    size_t steps = 0;
    HOLDS(is(sitgurp_job_open(TEXT(SUM), &job), 0, 0));
    while (sitgurp_job_step(&job).number == 0) {
        steps++;
    }
    HOLDS(steps == GROUPS);
    HOLDS(finish(&job, &into, all_lent).number == 0);
    /* every length of every buffer, and a second time */
    for (so.cells = 7; so.cells <= 9; so.cells++) {
        for (so.marks = 0; so.marks <= 9; so.marks++) {
            for (so.output = 0; so.output <= 80; so.output++) {
                HOLDS(as_made(&job, TEXT(SUM), so));
                HOLDS(as_made(&job, TEXT(SUM), so));
            }
        }
    }
}

/* jobs that were never opened */
static void not_opened(void) {
    static sitgurp_job job, copy;
    buffers into;
    memset(&job, OTHER, sizeof job);
    copy = job;
    HOLDS(is(sitgurp_job_step(&job), 21, 0));
    HOLDS(says(sitgurp_job_mark(&job, 1), SITGURP_REFUSED_GROUP, 0));
    HOLDS(is(finish(&job, &into, all_lent), 9, 0) && untouched(&into));
    HOLDS(same(&job, &copy));
    HOLDS(is(sitgurp_job_open(TEXT(SUM), &job), 0, 0));
    /* more groups passed than there are, a mark that no group has, an open cell, a cell above m */
    job.passed = (size_t)-1;
    job.marks[5] = 77;
    HOLDS(is(sitgurp_job_step(&job), 21, 0));
    HOLDS(says(sitgurp_job_mark(&job, 5), 0, 77));
    HOLDS(as_made(&job, TEXT(SUM), all_lent));
    job.cells[6] = 2;
    HOLDS(is(finish(&job, &into, all_lent), 27, 6) && untouched(&into));
    job.cells[7] = 3;
    HOLDS(is(finish(&job, &into, all_lent), 10, 7) && untouched(&into));
}

int main(void) {
    empty();
    majority();
    sum();
    not_opened();
    return failures != 0;
}
