/*
 * The calls of Sitgurp for C99 and C++11, for Linux on x86-64, in libsitgurp.a and libsitgurp.so (`./install PREFIX`; in the repository the archive is
 * crates/capi/out/libcapi.a, which `rt lib` writes in crates/capi). Each is proved to meet an equation with the definitions in crates/rules/specs for every
 * argument: see crates/capi/src/lib.rt. `./install --aarch64 PREFIX` adds an archive for Linux on aarch64, compiled from the same proved code.
 *
 * Each call depends on its arguments alone and writes to nothing but the buffers lent to it. It keeps nothing from one call to the next, so any
 * number of threads may call at once, each with buffers of its own; it allocates nothing, opens nothing and waits for nothing.
 * Stack: 96 KB suffice for every call. The most is 87,344 bytes (sitgurp_family_tree at m 2, n 12), as
 * `(cd rust && cargo run --offline --release -q -p bench --bin stack)` measures it, by painting, at the largest n of each m.
 *
 * Bytes are lent as a pointer and a length. A pointer must be good for that many bytes, and must not be null even where the
 * length is 0. Two buffers lent to one call must not overlap, and a buffer must not overlap a sheet.
 *
 * A sheet is any bytes. Levels are written m and inputs n below. A refusal of a sheet (1 to 8, 18 to 20, 26) has a place in it, a byte from 0;
 * docs/REFUSALS.md says what each number means. Refusals are listed in the order in which they are judged. Where a buffer is
 * longer than needed, its further bytes are kept.
 *
 * A table sheet may leave cells open, for assignments that cannot occur: `-` is their ink, and a cell holds m for it, a bare cell too. sitgurp_check passes
 * over them and sitgurp_tidy carries them over. What counts classes, marks groups or fills gates needs a full table, and refuses others with 27 (the value is
 * the lowest index of an open cell), which changes no byte.
 */
#ifndef SITGURP_H
#define SITGURP_H

#include <stddef.h>
#include <stdint.h>

#ifdef __cplusplus
extern "C" {
#endif

/* The version of this header. SITGURP_VERSION_NUMBER has two digits each for minor and patch: 203 is 0.2.3. sitgurp_version() gives the library's. */
#define SITGURP_VERSION "0.1.0"
#define SITGURP_VERSION_MAJOR 0
#define SITGURP_VERSION_MINOR 1
#define SITGURP_VERSION_PATCH 0
#define SITGURP_VERSION_NUMBER (SITGURP_VERSION_MAJOR * 10000 + SITGURP_VERSION_MINOR * 100 + SITGURP_VERSION_PATCH)

/* What each refusal's number stands for. Later versions may add numbers. */
enum sitgurp_refusal {
    SITGURP_REFUSED_LAYOUT = 1,             /* a fixed word, a separator, a missing end, or bytes after the last line */
    SITGURP_REFUSED_LEVELS = 2,             /* levels */
    SITGURP_REFUSED_INPUTS = 3,             /* inputs, or too many cells */
    SITGURP_REFUSED_NAME = 4,               /* a name that is malformed, `ink`, or repeated */
    SITGURP_REFUSED_ROW = 5,                /* a row's input level is not the next in the count */
    SITGURP_REFUSED_DIGITS = 6,             /* an ink field, or a gate's table field */
    SITGURP_REFUSED_UNKNOWN_REFERENCE = 7,  /* a reference to no input and no earlier gate */
    SITGURP_REFUSED_USED_REFERENCE = 8,     /* a reference used before */
    SITGURP_REFUSED_BARE_SIZE = 9,          /* bare cells: m, n or the number of cells */
    SITGURP_REFUSED_BARE_CELL = 10,         /* a bare cell above m; the place is its index */
    SITGURP_REFUSED_GROUP = 11,             /* no such group */
    SITGURP_REFUSED_HEADERS_DIFFER = 12,    /* two sheets differ in m, n or names */
    SITGURP_REFUSED_CELLS_SHORT = 13,       /* the cells buffer is short; the place is the length needed */
    SITGURP_REFUSED_MARKS_SHORT = 14,       /* the marks buffer is short; the place is the length needed */
    SITGURP_REFUSED_OUTPUT_SHORT = 15,      /* the output is short; the place is the length needed */
    SITGURP_REFUSED_NO_TREE = 16,           /* no tree computes the table; the place is a group */
    SITGURP_REFUSED_NO_SUCH_TREE = 17,      /* no tree of this number; the place is the number */
    SITGURP_REFUSED_ARRIVAL_NAME = 18,      /* a name is not the next input's */
    SITGURP_REFUSED_ARRIVAL_TIME = 19,      /* a time, or `to` below `from` */
    SITGURP_REFUSED_REPEATED_ROW = 20,      /* a loose sheet's row names the assignment of an earlier row */
    SITGURP_REFUSED_JOB_DONE = 21,          /* a step of a job that is done */
    SITGURP_REFUSED_JOB_UNFINISHED = 22,    /* finishing a job that is not done; the place is the groups still to go */
    SITGURP_REFUSED_WIRING = 23,            /* no gate tables give the wiring the table; the place is a gate's number, or 0 */
    SITGURP_REFUSED_PICTURE = 24,           /* a picture's side, the number of its cells, or a cell's level */
    SITGURP_REFUSED_OFFSETS = 25,           /* an offset missing, one too many, or one too far */
    SITGURP_REFUSED_UNUSED_GATE = 26,       /* a net sheet's earlier gate is never used; the place is the sheet's length */
    SITGURP_REFUSED_OPEN_CELL = 27          /* an open cell where a full table is needed; the place is the lowest index of one */
};

/* Buffers that always suffice: cells, marks, a net sheet, a table sheet, a picture. */
#define SITGURP_MOST_CELLS 4096
#define SITGURP_MOST_MARKS 1024
#define SITGURP_MOST_NET_SHEET 512
#define SITGURP_MOST_TABLE_SHEET 106627
#define SITGURP_MOST_PICTURE 4096

/* The parts of a job: its own first lines, and its own marks, one byte a group. */
#define SITGURP_JOB_LINES 128
#define SITGURP_JOB_MARKS 4096

/* number 0: accepted, and value is the answer; otherwise number is the refusal's, and value its place */
typedef struct sitgurp_answer {
    size_t number;
    size_t value;
} sitgurp_answer;

/*
 * number 0: accepted, value is the sheet's length, and layers the layers of its net; otherwise number is the refusal's, value its place,
 * and layers 0
 */
typedef struct sitgurp_shallow {
    size_t number;
    size_t value;
    size_t layers;
} sitgurp_shallow;

/* which 1: the first sheet; 2: the second; 0: an empty part of the first. length is the length of what is handed back. */
typedef struct sitgurp_which {
    size_t which;
    size_t length;
} sitgurp_which;

/*
 * kind 0: the sheets agree; 1: they differ, and value is the lowest index that does; 2: refused, with number at place value.
 * A refusal names the net sheet (named 1), the table sheet (2) or neither (0). What a kind does not use is 0.
 */
typedef struct sitgurp_verdict {
    size_t kind;
    size_t named;
    size_t number;
    size_t value;
} sitgurp_verdict;

/*
 * number 0: accepted, value is the sheet's length, and changed the set of the gates whose tables changed, as the sum of 2 to the power of each one's number,
 * from 1; named is 0. Otherwise number is the refusal's, value its place, and changed 0; a refusal names the net sheet (named 1), the table sheet (2) or
 * neither (0).
 */
typedef struct sitgurp_kept {
    size_t named;
    size_t number;
    size_t value;
    size_t changed;
} sitgurp_kept;

/*
 * kind 0: none is left, and first and second are 0; 1: a gate line, the second bytes of the sheet from byte first on, without its
 * line feed; 2: refused, with number first at place second
 */
typedef struct sitgurp_turn {
    size_t kind;
    size_t first;
    size_t second;
} sitgurp_turn;

/*
 * kind 0: none is left, and start and length are 0; 1: a gate line, length bytes of the sheet from byte start on, without its line feed. next is the
 * position of the next line, or the sheet's length.
 */
typedef struct sitgurp_line {
    size_t kind;
    size_t start;
    size_t length;
    size_t next;
} sitgurp_line;

/*
 * number 0: accepted, and the net's output settles between earliest and latest, in microseconds; named and place are 0. Otherwise number is the
 * refusal's and place its place, in the net sheet (named 1) or in the arrival sheet (2), and earliest and latest are 0.0.
 */
typedef struct sitgurp_arrival_times {
    size_t named;
    size_t number;
    size_t place;
    double earliest;
    double latest;
} sitgurp_arrival_times;

/*
 * A job: marking that goes one group a step. The caller owns it, sitgurp_job_open fills it, and a copy of it is a job too. lines has the sheet's first
 * lines up to the last name, cells the inks, one byte a cell, and marks every group's mark at its number, one byte each, 0 where the group has not been
 * passed; passed is how many groups have been passed, in the order of their numbers from 1. Any bytes are a job: where lines are no table sheet's first
 * lines it has no inputs, and its other calls take the cells, the marks and passed as they stand.
 */
typedef struct sitgurp_job {
    uint8_t lines[SITGURP_JOB_LINES];
    uint8_t cells[SITGURP_MOST_CELLS];
    uint8_t marks[SITGURP_JOB_MARKS];
    size_t passed;
} sitgurp_job;

/* kind 0: value is the group's mark; 1: the group is not reached, and value is 0; otherwise kind is SITGURP_REFUSED_GROUP (11), and value its place */
typedef struct sitgurp_mark {
    size_t kind;
    size_t value;
} sitgurp_mark;

/* Returns the version of the library, as SITGURP_VERSION_NUMBER has it of this header. */
uint32_t sitgurp_version(void);

/*
 * The number of classes of a group, however large; within the sizes of a sheet it is at most 625.
 * Bare cells: m levels, n inputs, and one byte a cell in index order. A group is the sum of 2 to the power i over its members.
 * Refusals: 9 (m, n or the number of cells), 10 (a cell above m; value is its index), 27 (an open cell), 11 (the group).
 */
sitgurp_answer sitgurp_multiplicity(size_t m, size_t n, const uint8_t *cells, size_t cells_length, size_t group);

/*
 * Writes every group's mark and answers the whole group's. Marks are packed four to a byte: that of group g is
 * marks[g / 4] >> (g % 4 * 2) & 3. Needs 2 to the power n, divided by 4, bytes; further bytes are kept. A refusal changes no byte.
 * Refusals: 9, 10, 27, and 14 (marks too short; value is the length needed).
 */
sitgurp_answer sitgurp_marking(size_t m, size_t n, const uint8_t *cells, size_t cells_length, uint8_t *marks, size_t marks_length);

/*
 * Settles a net sheet: writes its table into cells, one byte a cell, every group's mark into marks, and the settled net sheet into
 * output, and answers that sheet's length. The settled net uses just the inputs that matter; where fewer than two do, the first-listed others make
 * up two. Needs m to the power n bytes, 2 to the power n, divided by 4, and the settled sheet's length.
 * Refusals: 1 to 4, 6 to 8 and 26 (the sheet), 13 (cells too short), 14 (marks too short), 15 (output too short); the value of 13 to 15 is the
 * length needed. 15 leaves cells and marks written and output as it was; every other refusal changes no byte.
 */
sitgurp_answer sitgurp_settle(const uint8_t *sheet, size_t sheet_length, uint8_t *cells, size_t cells_length, uint8_t *marks,
                              size_t marks_length, uint8_t *output, size_t output_length);

/*
 * Makes the settled net sheet of a table sheet, with the buffers of sitgurp_settle: the table's inks into cells, the marks into
 * marks, the settled net sheet into output. Answers that sheet's length.
 * Refusals: 1 to 6 (the sheet), 27 (an open cell), 13, 14, 16 (no tree computes the table; value is the group of fewest members, then lowest number,
 * with mark 1), 15. 16 and 15 leave cells and marks written and output as it was; every other refusal changes no byte.
 */
sitgurp_answer sitgurp_make(const uint8_t *sheet, size_t sheet_length, uint8_t *cells, size_t cells_length, uint8_t *marks,
                            size_t marks_length, uint8_t *output, size_t output_length);

/*
 * Settles a net sheet to its shallow net sheet, with the buffers and the refusals of sitgurp_settle. The layers of a net are the most gates on
 * a way from an input to the output, and no net with that table has fewer than the one that is written. Answers the sheet's length, and the
 * layers.
 */
sitgurp_shallow sitgurp_settle_shallow(const uint8_t *sheet, size_t sheet_length, uint8_t *cells, size_t cells_length, uint8_t *marks,
                                       size_t marks_length, uint8_t *output, size_t output_length);

/*
 * Makes the shallow net sheet of a table sheet, with the buffers and the refusals of sitgurp_make. Answers the sheet's length, and the layers
 * of its net.
 */
sitgurp_shallow sitgurp_make_shallow(const uint8_t *sheet, size_t sheet_length, uint8_t *cells, size_t cells_length, uint8_t *marks,
                                     size_t marks_length, uint8_t *output, size_t output_length);

/*
 * How many trees compute the table of a table sheet, with the cells and the marks of sitgurp_make and no output. Counted are the trees on the inputs
 * that the settled net uses. Trees that differ only in which side is left, in gate numbers or in gate tables count once. A table with no tree has
 * count 0, and is not refused. The count is 64 bits wide; within the sizes of a sheet it is at most 13,749,310,575.
 * Refusals: 1 to 6 (the sheet), 27 (an open cell), 13 (cells too short), 14 (marks too short); the value of 13 and 14 is the length needed. A refusal changes
 * no byte.
 */
sitgurp_answer sitgurp_family_count(const uint8_t *sheet, size_t sheet_length, uint8_t *cells, size_t cells_length, uint8_t *marks,
                                    size_t marks_length);

/*
 * Makes the net sheet of the tree of that number, from 0, with the buffers of sitgurp_make. Number 0 is the settled net. Answers the sheet's length.
 * The number is 64 bits wide, and so is the value of 17.
 * Refusals: 1 to 6 (the sheet), 27 (an open cell), 13, 14, 17 (the number is not below the count of trees; value is the number), 15. 17 and 15 leave cells
 * and marks written and output as it was; every other refusal changes no byte.
 */
sitgurp_answer sitgurp_family_tree(const uint8_t *sheet, size_t sheet_length, uint64_t number, uint8_t *cells, size_t cells_length,
                                   uint8_t *marks, size_t marks_length, uint8_t *output, size_t output_length);

/*
 * Which of two net sheets has the net of fewer layers, as the two are wired and whatever their levels, inputs and names: the first when
 * level. A sheet that is refused loses to one that is accepted; where both are refused, an empty part of the first. Writes nothing.
 */
sitgurp_which sitgurp_shallower(const uint8_t *first, size_t first_length, const uint8_t *second, size_t second_length);

/*
 * Checks a net sheet against a table sheet, and writes the table sheet's inks into cells, whether they agree or not. Open cells are passed over: the
 * sheets agree where they agree at all others, and the lowest index that differs is that of no open cell. Needs m to the power n bytes.
 * Refusals: 1 to 4, 6 to 8 and 26 (the net sheet), 1 to 6 (the table sheet), 12 (the sheets differ in m, n or names; value 0), 13 (cells too short;
 * value is the length needed). A refusal changes no byte. 12 and 13 name neither sheet.
 */
sitgurp_verdict sitgurp_check(const uint8_t *net_sheet, size_t net_sheet_length, const uint8_t *table_sheet,
                              size_t table_sheet_length, uint8_t *cells, size_t cells_length);

/*
 * Keeps the wiring of a net sheet, and fills its gates anew so that the net has the table of a table sheet: writes that sheet's inks into cells and the net
 * sheet into output. Left and right of every gate line stay as they are, and so do the lines' order and the header; gate tables follow the rule of the settled
 * net. Needs m to the power n bytes, and the net sheet's length.
 * Refusals: 1 to 4, 6 to 8 and 26 (the net sheet), 1 to 6 (the table sheet), 12 (the sheets differ in m, n or names; value 0), 27 (an open cell), 13 (cells too
 * short), 23 (no gate tables give this wiring that table; value is 0 where it leaves out an input that matters, otherwise the number of the first gate whose
 * group has more than m classes), 15 (output too short); the value of 13 and 15 is the length needed. 23 and 15 leave cells written and output as it was;
 * every other refusal changes no byte. 27 names the table sheet; 12, 13, 15 and 23 name neither.
 */
sitgurp_kept sitgurp_keep(const uint8_t *net_sheet, size_t net_sheet_length, const uint8_t *table_sheet, size_t table_sheet_length,
                          uint8_t *cells, size_t cells_length, uint8_t *output, size_t output_length);

/*
 * Writes the table sheet of a net sheet into output, and answers its length, which is what it needs.
 * Refusals: 1 to 4, 6 to 8 and 26 (the sheet), 15 (output too short; value is the length needed). A refusal changes no byte.
 */
sitgurp_answer sitgurp_write_table(const uint8_t *sheet, size_t sheet_length, uint8_t *output, size_t output_length);

/*
 * Tidies a loose table sheet, in which fields are parted by one or more spaces, spaces may stand before a line feed, and rows stand in any order: writes
 * its inks into cells, in index order, and its table sheet into output, with the sign of open cells as it is, and answers that sheet's length. Needs m to the
 * power n bytes, and the table sheet's length.
 * Refusals: 1 to 6 and 20 (the sheet; 5 is an input field that is no digit below m, 20 a row whose assignment an earlier row gave), 13 (cells too short),
 * 15 (output too short); the value of 13 and 15 is the length needed. 15 leaves cells written and output as it was; every other refusal changes no byte.
 */
sitgurp_answer sitgurp_tidy(const uint8_t *sheet, size_t sheet_length, uint8_t *cells, size_t cells_length, uint8_t *output,
                            size_t output_length);

/*
 * Opens the gate lister on a net sheet: reads the whole sheet and answers the position of its first gate line, for sitgurp_lister_next. Writes nothing.
 * Refusals: 1 to 4, 6 to 8 and 26 (the sheet).
 */
sitgurp_answer sitgurp_lister_open(const uint8_t *sheet, size_t sheet_length);

/*
 * Returns the line that starts at byte `at` of a sheet and the position of the line after it, or that none is left. Writes nothing and refuses nothing: it
 * reads that one line and judges nothing, so it is meant for positions that sitgurp_lister_open and earlier turns gave. From there, the turns are those of
 * sitgurp_gate_line:
 *
 *     sitgurp_answer opened = sitgurp_lister_open(sheet, sheet_length);
 *     sitgurp_line line = sitgurp_lister_next(sheet, sheet_length, opened.value);   (if opened.number is 0)
 *     for (; line.kind == 1; line = sitgurp_lister_next(sheet, sheet_length, line.next)) use(sheet + line.start, line.length);
 *
 * At any other position below the sheet's length, the line is what lies between there and the next line feed or the sheet's end.
 */
sitgurp_line sitgurp_lister_next(const uint8_t *sheet, size_t sheet_length, size_t at);

/*
 * Turn k of the gate lister, from 0: the gate line of gate k + 1 of a net sheet, and after the last line that none is left.
 * Writes nothing. Reads the sheet again at each turn; to list all lines, use sitgurp_lister_open and sitgurp_lister_next.
 * Refusals: 1 to 4, 6 to 8 and 26 (the sheet), the same at every turn.
 */
sitgurp_turn sitgurp_gate_line(const uint8_t *sheet, size_t sheet_length, size_t k);

/*
 * When the output of a net settles: a net sheet, an arrival sheet for its inputs, and the delay of every gate in quarters of a microsecond. The
 * settling time is the largest, over the inputs that the net uses, of arrival plus delay times gates on the way; earliest is that of the earliest
 * arrivals, latest that of the latest. Both are exact, and whatever the arrivals inside their ranges, the output settles between them. Writes nothing.
 * Refusals: 1 to 4, 6 to 8 and 26 (the net sheet), 1, 18 and 19 (the arrival sheet).
 */
sitgurp_arrival_times sitgurp_arrivals(const uint8_t *net_sheet, size_t net_sheet_length, const uint8_t *arrival_sheet,
                                       size_t arrival_sheet_length, uint8_t delay);

/*
 * The calls on a job as the library has them, by the job's parts: lines of SITGURP_JOB_LINES bytes, cells (own) of SITGURP_MOST_CELLS, marks of
 * SITGURP_JOB_MARKS, and passed. The functions after them take the whole job.
 */
sitgurp_answer sitgurp_job_open_parts(const uint8_t *sheet, size_t sheet_length, uint8_t *lines, uint8_t *cells, uint8_t *marks,
                                      size_t *passed);
sitgurp_answer sitgurp_job_step_parts(const uint8_t *lines, const uint8_t *cells, uint8_t *marks, size_t *passed);
sitgurp_mark sitgurp_job_mark_parts(const uint8_t *lines, const uint8_t *marks, size_t passed, size_t group);
sitgurp_answer sitgurp_job_finish_parts(const uint8_t *lines, const uint8_t *own, size_t passed, uint8_t *cells, size_t cells_length,
                                        uint8_t *marks, size_t marks_length, uint8_t *output, size_t output_length);

/*
 * Opens a job on a table sheet, and writes every byte of it. Answers 0. A sheet that is refused opens the empty job: no inputs, no groups, already done.
 * Refusals: 1 to 6 (the sheet), 27 (an open cell).
 */
static inline sitgurp_answer sitgurp_job_open(const uint8_t *sheet, size_t sheet_length, sitgurp_job *job) {
    return sitgurp_job_open_parts(sheet, sheet_length, job->lines, job->cells, job->marks, &job->passed);
}

/*
 * Marks the next group: one more is passed. Answers 0. After 2 to the power n, less 1, steps the job is done.
 * Refusals: 21 (the job is done; value 0), which changes no byte.
 */
static inline sitgurp_answer sitgurp_job_step(sitgurp_job *job) {
    return sitgurp_job_step_parts(job->lines, job->cells, job->marks, &job->passed);
}

/*
 * The mark of a group: the final one where the group has been passed, otherwise that it is not reached. Writes nothing.
 * Refusals: 11 (the group is 0, or not below 2 to the power n).
 */
static inline sitgurp_mark sitgurp_job_mark(const sitgurp_job *job, size_t group) {
    return sitgurp_job_mark_parts(job->lines, job->marks, job->passed, group);
}

/*
 * What sitgurp_make comes to on the sheet that the job was opened on, from the job's own names and cells, with the same buffers. The job stays as it was,
 * and may be finished again.
 * Refusals: 9 (an empty job; value 0), 10 and 27 (a cell above m, and an open one, which no job that was opened has), 22 (the job is not done; value is the
 * groups still to go), and then sitgurp_make's 13, 14, 16, 15. 9, 10, 27 and 22 change no byte.
 */
static inline sitgurp_answer sitgurp_job_finish(const sitgurp_job *job, uint8_t *cells, size_t cells_length, uint8_t *marks,
                                                size_t marks_length, uint8_t *output, size_t output_length) {
    return sitgurp_job_finish_parts(job->lines, job->cells, job->passed, cells, cells_length, marks, marks_length, output,
                                    output_length);
}

/*
 * Writes the glyph that a net prints from a picture into output, and answers the number of its cells, width times height, which is what it needs.
 * A picture has one byte a cell, a level below m, row by row, and 1 to 64 cells a side. For each input there are two offsets, across and down,
 * -2 to 2 each, in the order of the inputs. Each cell of the new picture is the net's value with every input read from the old cell so many cells to
 * the right and so many below; outside the picture the level is 0.
 * Refusals: 1 to 4, 6 to 8 and 26 (the net sheet), 24 (a side, the number of cells or a cell's level), 25 (an offset missing, one too many or one too far), 15
 * (output too short; value is the length needed). The value of 24 and 25 is 0. A refusal changes no byte.
 */
sitgurp_answer sitgurp_glyph(const uint8_t *net_sheet, size_t net_sheet_length, size_t width, size_t height, const uint8_t *picture,
                             size_t picture_length, const int8_t *offsets, size_t offsets_length, uint8_t *output,
                             size_t output_length);

#ifdef __cplusplus
}
#endif

#endif
