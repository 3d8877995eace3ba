/*
 * Makes calls of every kind on sheets that a seed fixes, good and damaged ones, and prints one number for each kind: a hash of all answers and of all
 * bytes of all buffers. Two builds of the library that print the same numbers gave the same answers and wrote the same bytes.
 *
 *     digest CALLS
 */
#include "sitgurp.h"

#include <stdio.h>
#include <stdlib.h>
#include <string.h>

static uint64_t state = 2187;

/* Returns a random number below the bound. */
static size_t below(size_t bound) {
    state = state * 6364136223846793005u + 1442695040888963407u;
    return (size_t)((state >> 33) % bound);
}

static uint64_t hash;

/* Adds bytes to the hash (FNV-1a). */
static void add_bytes(const uint8_t *bytes, size_t length) {
    size_t i;
    for (i = 0; i < length; i++) {
        hash = (hash ^ bytes[i]) * 1099511628211u;
    }
}

static void add(size_t value) {
    uint8_t bytes[8];
    int i;
    for (i = 0; i < 8; i++) {
        bytes[i] = (uint8_t)((uint64_t)value >> (8 * i) & 255);
    }
    add_bytes(bytes, sizeof bytes);
}

static void add_double(double value) {
    uint64_t bits;
    memcpy(&bits, &value, sizeof bits);
    add((size_t)bits);
}

static void add_answer(sitgurp_answer answer) {
    add(answer.number);
    add(answer.value);
}

static void add_shallow(sitgurp_shallow answer) {
    add(answer.number);
    add(answer.value);
    add(answer.layers);
}

static uint8_t net[SITGURP_MOST_NET_SHEET + 8];
static uint8_t other[SITGURP_MOST_NET_SHEET + 8];
static uint8_t table[SITGURP_MOST_TABLE_SHEET + 8];
static uint8_t loose[SITGURP_MOST_TABLE_SHEET + 8];
static uint8_t arrivals[256];
static size_t net_length, other_length, table_length, arrivals_length;

static uint8_t cells[SITGURP_MOST_CELLS + 8];
static uint8_t marks[SITGURP_MOST_MARKS + 8];
static uint8_t output[SITGURP_MOST_TABLE_SHEET + 8];
static uint8_t picture[SITGURP_MOST_PICTURE];
static int8_t offsets[24];
static sitgurp_job job;
static size_t m, n;

/* Writes a random net sheet of m levels and n inputs, called a and so on, and returns its length. */
static size_t write_net(uint8_t *sheet) {
    char *at = (char *)sheet;
    char wires[12][4];
    size_t count = n, gate, i;
    at += sprintf(at, "levels inputs\n%d %d\n", (int)m, (int)n);
    for (i = 0; i < n; i++) {
        sprintf(wires[i], "%c", (int)('a' + i));
        at += sprintf(at, "%s%c", wires[i], i + 1 < n ? ' ' : '\n');
    }
    at += sprintf(at, "left right table\n");
    for (gate = 1; gate < n; gate++) {
        size_t left = below(count), right;
        char name[4];
        strcpy(name, wires[left]);
        memmove(wires[left], wires[--count], sizeof name);
        right = below(count);
        at += sprintf(at, "%s %s ", name, wires[right]);
        sprintf(wires[right], "%d", (int)gate);
        for (i = 0; i < m * m; i++) {
            *at++ = (char)('0' + below(m));
        }
        *at++ = '\n';
    }
    return (size_t)(at - (char *)sheet);
}

/* Changes one byte, one time in four. */
static void damage(uint8_t *sheet, size_t length) {
    static const uint8_t bytes[] = " \n019a-x";
    if (length > 0 && below(4) == 0) {
        sheet[below(length)] = bytes[below(sizeof bytes - 1)];
    }
}

/* Draws the sheets and the rest of what calls are given, and clears the buffers. */
static void draw(void) {
    size_t size, i;
    sitgurp_answer written;
    do {
        m = 2 + below(8);
        n = 2 + below(11);
        for (size = 1, i = 0; i < n && size <= SITGURP_MOST_CELLS; i++) {
            size *= m;
        }
    } while (size > SITGURP_MOST_CELLS);
    net_length = write_net(net);
    other_length = write_net(other);
    written = sitgurp_write_table(below(3) ? net : other, net_length, table, sizeof table);
    table_length = written.number == 0 ? written.value : 0;
    if (table_length > 0 && below(3) == 0) {
        table[table_length - 2] = (uint8_t)('0' + below(m));
    }
    arrivals_length = (size_t)sprintf((char *)arrivals, "name from to\n");
    for (i = 0; i < n; i++) {
        size_t from = below(60000);
        arrivals_length += (size_t)sprintf((char *)arrivals + arrivals_length, "%c %d %d\n", (int)('a' + i), (int)from, (int)(from + below(5000)));
    }
    damage(net, net_length);
    damage(other, other_length);
    damage(table, table_length);
    damage(arrivals, arrivals_length);
    memcpy(loose, table, table_length);
    for (i = 0; i < sizeof picture; i++) {
        picture[i] = (uint8_t)below(m);
    }
    for (i = 0; i < sizeof offsets; i++) {
        offsets[i] = (int8_t)((int)below(5) - 2);
    }
    memset(cells, 7, sizeof cells);
    memset(marks, 7, sizeof marks);
    memset(output, 7, sizeof output);
}

/* A buffer's length: enough, or one time in eight any. */
static size_t lent(size_t enough) {
    return below(8) == 0 ? below(enough + 1) : enough;
}

static void call(size_t kind) {
    const size_t c = lent(sizeof cells), k = lent(sizeof marks), o = lent(sizeof output);
    sitgurp_verdict verdict;
    sitgurp_kept kept;
    sitgurp_which which;
    sitgurp_turn turn;
    sitgurp_line line;
    sitgurp_arrival_times times;
    sitgurp_answer answer;
    sitgurp_mark mark;
    size_t i;
    switch (kind) {
    case 0: add_answer(sitgurp_settle(net, net_length, cells, c, marks, k, output, o)); break;
    case 1: add_answer(sitgurp_make(table, table_length, cells, c, marks, k, output, o)); break;
    case 2: add_shallow(sitgurp_settle_shallow(net, net_length, cells, c, marks, k, output, o)); break;
    case 3: add_shallow(sitgurp_make_shallow(table, table_length, cells, c, marks, k, output, o)); break;
    case 4: add_answer(sitgurp_family_count(table, table_length, cells, c, marks, k)); break;
    case 5: add_answer(sitgurp_family_tree(table, table_length, below(4), cells, c, marks, k, output, o)); break;
    case 6: add_answer(sitgurp_write_table(net, net_length, output, o)); break;
    case 7: add_answer(sitgurp_tidy(loose, table_length, cells, c, output, o)); break;
    case 8:
        verdict = sitgurp_check(net, net_length, table, table_length, cells, c);
        add(verdict.kind);
        add(verdict.named);
        add(verdict.number);
        add(verdict.value);
        break;
    case 9:
        kept = sitgurp_keep(other, other_length, table, table_length, cells, c, output, o);
        add(kept.named);
        add(kept.number);
        add(kept.value);
        add(kept.changed);
        break;
    case 10:
        which = sitgurp_shallower(net, net_length, other, other_length);
        add(which.which);
        add(which.length);
        break;
    case 11:
        turn = sitgurp_gate_line(net, net_length, below(13));
        add(turn.kind);
        add(turn.first);
        add(turn.second);
        break;
    case 12:
        answer = sitgurp_lister_open(net, net_length);
        add_answer(answer);
        for (i = 0, line.next = answer.value; i < 13; i++) {
            line = sitgurp_lister_next(net, net_length, line.next);
            add(line.kind);
            add(line.start);
            add(line.length);
            add(line.next);
        }
        break;
    case 13:
        times = sitgurp_arrivals(net, net_length, arrivals, arrivals_length, (uint8_t)below(256));
        add(times.named);
        add(times.number);
        add(times.place);
        add_double(times.earliest);
        add_double(times.latest);
        break;
    case 14: {
        size_t width = 1 + below(64), height = 1 + below(64);
        add_answer(sitgurp_glyph(net, net_length, width, height, picture, width * height, offsets, 2 * n, output, o));
        break;
    }
    case 15:
        sitgurp_settle(net, net_length, cells, sizeof cells, marks, sizeof marks, output, sizeof output);
        for (answer.value = 1, i = 0; i < n; i++) {
            answer.value *= m;
        }
        add_answer(sitgurp_multiplicity(m, n, cells, answer.value, below((size_t)1 << n)));
        add_answer(sitgurp_marking(m, n, cells, answer.value, marks, k));
        break;
    case 16:
        add_answer(sitgurp_job_open(table, table_length, &job));
        for (i = below(3) ? 5000 : below(20); i > 0; i--) {
            answer = sitgurp_job_step(&job);
            if (answer.number != 0) {
                break;
            }
        }
        add_answer(answer);
        mark = sitgurp_job_mark(&job, below(64));
        add(mark.kind);
        add(mark.value);
        add_answer(sitgurp_job_finish(&job, cells, c, marks, k, output, o));
        add_bytes(job.marks, sizeof job.marks);
        add(job.passed);
        break;
    default: add(sitgurp_version());
    }
    add_bytes(cells, sizeof cells);
    add_bytes(marks, sizeof marks);
    add_bytes(output, kind == 6 || kind == 7 ? sizeof output : SITGURP_MOST_CELLS);
}

int main(int count, char **words) {
    const int calls = count == 2 ? atoi(words[1]) : 0;
    size_t kind;
    int i;
    if (calls <= 0) {
        fprintf(stderr, "usage: digest CALLS\n");
        return 2;
    }
    for (kind = 0; kind < 18; kind++) {
        hash = 14695981039346656037u;
        for (i = 0; i < calls; i++) {
            draw();
            call(kind);
        }
        printf("%2d %016llx\n", (int)kind, (unsigned long long)hash);
    }
    return 0;
}
