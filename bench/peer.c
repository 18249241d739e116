/* The jobs of include/carmuspeno.h in plain C, as one would write them by hand: what ours is measured
 * against. It gives the same reply to every call; `bench/run --check` holds it to the stored vectors.
 *
 * An answer's two bits say "bury is said" and "keep is said": contained-in is subset, meet is and, join is or.
 *
 * GROWTH_BY_PLANES makes the growth check and the table back keep 64 situations to a word; without it, they evaluate once per
 * situation. NODE_BY_NODE beside it makes them do each node in all words before the next one; without it, they go word by word.
 * EVALUATE_FASTER makes the evaluator the fastest one in C that we know (it takes labels as values, as gcc and clang have
 * them); without it, it is a switch over an array.
 * LOOK_UP_BY_HALVES makes voices find a fact by halves; without it, they go through the facts one by one. */
#include <string.h>

#include "carmuspeno.h"

enum {
    SHORT = 1, START, TAG, LEN, VALUE, ROWS, OVERLAP, ROOM, NODE, COLUMN, UNDER, DEEP, END, SITUATION,
    CODE = 16, CUT, NEST, TAIL, RISE, FACTS, WEEK = 28
};

enum { NEGATE = 4, TURN = 5, MEET = 6, JOIN = 7, COLUMN_0 = 16, STACK = 16 };

enum { MOST_ROWS = 64, MOST_FACTS = 32, FACT_FIELD = 9, MOST_LEVELS = 16, MOST_SITUATIONS = 4096 };

enum { MOST_NOTICES = 1000000, LONGEST_NOTICE = 288 };

static inline unsigned negated(unsigned p) { return (p >> 1) | (p & 1) << 1; }
static inline unsigned turned(unsigned p) { return (p + 1) & 3; }
static inline unsigned floored(unsigned p) { return p == 0 || p == 3 ? 1 : p; }
static inline unsigned ceiled(unsigned p) { return p == 0 || p == 3 ? 2 : p; }

/* in the truth order bury is least: a meet says keep where both do and bury where one does, a join the reverse */
static inline unsigned truth_met(unsigned p, unsigned q) { return (p & q & 2) | ((p | q) & 1); }
static inline unsigned truth_joined(unsigned p, unsigned q) { return ((p | q) & 2) | (p & q & 1); }

static inline int holds(unsigned p) { return p & 2; }

/* ---- operators ---- */

static carm_answer refused(uint64_t number, uint64_t place) { return (carm_answer){ number, place, 0, 0 }; }
static carm_answer answered(uint64_t answer) { return (carm_answer){ 0, 0, 0, answer }; }

#define ONE(name, value) \
    carm_answer carm_##name(uint8_t p) \
    { \
        if (p > 3) return refused(VALUE, 0); \
        return answered(value); \
    }

#define TWO(name, value) \
    carm_answer carm_##name(uint8_t p, uint8_t q) \
    { \
        if (p > 3) return refused(VALUE, 0); \
        if (q > 3) return refused(VALUE, 1); \
        return answered(value); \
    }

ONE(negate, negated(p))
ONE(turn, turned(p))
ONE(floor, floored(p))
ONE(ceiling, ceiled(p))
TWO(meet, p &q)
TWO(join, p | q)
TWO(truth_meet, truth_met(p, q))
TWO(truth_join, truth_joined(p, q))
TWO(implication, holds(p) ? q : 2)
TWO(guard, holds(p) ? q : 0)
TWO(priority, p ? p : q)
TWO(contained, (p & ~q) == 0)

carm_answer carm_replace(uint8_t x, uint8_t p, uint8_t q)
{
    if (x > 3) return refused(VALUE, 0);
    if (p > 3) return refused(VALUE, 1);
    if (q > 3) return refused(VALUE, 2);
    return answered(p == x ? q : p);
}

/* ---- compiling ---- */

static carm_compiled table_refused(uint64_t number, uint64_t place, uint64_t second)
{
    return (carm_compiled){ number, place, second, 0, 0, 0 };
}

static int disagree(const uint8_t *a, const uint8_t *b, unsigned columns)
{
    if (a[columns] == b[columns]) return 0;
    for (unsigned i = 0; i < columns; i++)
        if (a[i] != b[i] && a[i] != 4 && b[i] != 4) return 0;
    return 1;
}

static size_t row_size(const uint8_t *row, unsigned columns)
{
    size_t size = 0, selectors = 0;
    for (unsigned i = 0; i < columns; i++) {
        if (row[i] == 4) continue;
        unsigned k = 3u - row[i];
        size += row[columns] == 3 ? 4 + 2 * k : 3 + k + ((k + 3) & 3) + (row[columns] == 1);
        selectors++;
    }
    return selectors ? size + selectors - 1 : 1;
}

static uint8_t *write_turned(uint8_t *to, unsigned column, unsigned turns)
{
    *to++ = (uint8_t)(COLUMN_0 + column);
    while (turns--) *to++ = TURN;
    return to;
}

/* a row, joined to those before it */
static uint8_t *write_row(uint8_t *to, const uint8_t *row, unsigned columns, int further)
{
    unsigned outcome = row[columns];
    int first = 1;
    for (unsigned i = 0; i < columns; i++) {
        if (row[i] == 4) continue;
        unsigned k = 3u - row[i];
        to = write_turned(to, i, k);
        to = write_turned(to, i, outcome == 3 ? k : (k + 3) & 3);
        if (outcome == 3) *to++ = NEGATE;
        *to++ = MEET;
        if (outcome == 1) *to++ = NEGATE;
        if (!first) *to++ = MEET;
        first = 0;
    }
    if (first) *to++ = (uint8_t)outcome;
    if (further) *to++ = JOIN;
    return to;
}

/* whether one of the rows matches this situation */
static int matched(const uint8_t *first, size_t rows, const uint8_t *situation, unsigned columns)
{
    for (size_t row = 0; row < rows; row++) {
        const uint8_t *cells = first + row * (columns + 4);
        unsigned i = 0;
        while (i < columns && (cells[i] == 4 || cells[i] == situation[i])) i++;
        if (i == columns) return 1;
    }
    return 0;
}

/* the next situation in base 4, 0 where there is none */
static int next(uint8_t *situation, unsigned columns)
{
    for (unsigned i = columns; i-- > 0; situation[i] = 0)
        if (++situation[i] < 4) return 1;
    return 0;
}

carm_compiled carm_compile(const uint8_t *table, size_t table_len, uint8_t *nodes, size_t nodes_len)
{
    if (table_len == 0) return table_refused(START, 0, 0);
    if (table_len < 3) return table_refused(SHORT, 0, 0);
    if (table[0] != 1) return table_refused(START, 0, 0);
    if (table[1] != 0 || table[2] != 1) return table_refused(LEN, 0, 0);
    if (table_len < 4) return table_refused(SHORT, 0, 0);
    unsigned columns = table[3];
    if (columns < 1 || columns > 6) return table_refused(VALUE, 3, 0);

    /* the default, and the situation that it answers as a row of its own */
    uint8_t other[7] = { 0 };
    size_t rows = 0, field = columns + 4, start = 4, at;
    if (table_len >= 7 && table[4] == 3) {
        if (table[5] != 0 || table[6] != 1) return table_refused(LEN, 4, 0);
        if (table_len < 8) return table_refused(SHORT, 4, 0);
        if (table[7] > 3) return table_refused(VALUE, 7, 0);
        other[columns] = table[7];
        start = 8;
    }
    for (at = start; at < table_len; at += field, rows++) {
        const uint8_t *f = table + at;
        if (table_len - at < 3) return table_refused(SHORT, at, 0);
        if (f[0] != 2) return table_refused(TAG, at, 0);
        if (rows == MOST_ROWS) return table_refused(ROWS, at, 0);
        if (f[1] != 0 || f[2] != columns + 1) return table_refused(LEN, at, 0);
        if (table_len - at < field) return table_refused(SHORT, at, 0);
        for (unsigned i = 0; i <= columns; i++)
            if (f[3 + i] > (i < columns ? 4 : 3)) return table_refused(VALUE, at + 3 + i, 0);
    }

    const uint8_t *first = table + start + 3;
    for (size_t later = 1; later < rows; later++)
        for (size_t earlier = 0; earlier < later; earlier++)
            if (disagree(first + later * field, first + earlier * field, columns))
                return table_refused(OVERLAP, later, earlier);

    size_t size = 0, left = 0;
    for (size_t row = 0; row < rows; row++) {
        if (first[row * field + columns] == 0) continue;
        size += row_size(first + row * field, columns);
        left++;
    }
    if (other[columns]) {
        do {
            if (matched(first, rows, other, columns)) continue;
            size += row_size(other, columns);
            left++;
        } while (next(other, columns));
    }
    size = left ? size + left - 1 : 1;
    if (size > nodes_len) return table_refused(ROOM, size, 0);

    uint8_t *to = nodes;
    for (size_t row = 0; row < rows; row++) {
        if (first[row * field + columns] == 0) continue;
        to = write_row(to, first + row * field, columns, to != nodes);
    }
    if (other[columns]) {
        do {
            if (!matched(first, rows, other, columns)) to = write_row(to, other, columns, to != nodes);
        } while (next(other, columns));
    }
    if (left == 0) *to = 0;
    return (carm_compiled){ 0, 0, 0, columns, rows, size };
}

/* ---- evaluating ---- */

#ifdef EVALUATE_FASTER

/* the stack's top is a local, the turns behind a column are done with it, and each node jumps to the next one's code */
static carm_answer run(const uint8_t *nodes, size_t nodes_len, const uint8_t *situation, size_t columns)
{
    static const void *const codes[22] = {
        &&constant, &&constant, &&constant, &&constant, &&negate, &&turn, &&meet, &&join, &&other, &&other, &&other,
        &&other, &&other, &&other, &&other, &&other, &&column, &&column, &&column, &&column, &&column, &&column
    };
    uint8_t stack[STACK + 1];
    size_t height = 0, at = 0;
    unsigned top = 0, node;
#define NEXT \
    do { \
        if (at == nodes_len) goto end; \
        node = nodes[at]; \
        if (node > 21) goto other; \
        goto *codes[node]; \
    } while (0)
    NEXT;
constant:
    if (height == STACK) return refused(DEEP, at);
    stack[height++] = (uint8_t)top;
    top = node;
    at++;
    NEXT;
column:
    if (node - COLUMN_0 >= columns) return refused(COLUMN, at);
    if (height == STACK) return refused(DEEP, at);
    stack[height++] = (uint8_t)top;
    top = situation[node - COLUMN_0];
    at++;
    while (at < nodes_len && nodes[at] == TURN) {
        top++;
        at++;
    }
    top &= 3;
    NEXT;
negate:
    if (height < 1) return refused(UNDER, at);
    top = negated(top);
    at++;
    NEXT;
turn:
    if (height < 1) return refused(UNDER, at);
    top = turned(top);
    at++;
    NEXT;
meet:
    if (height < 2) return refused(UNDER, at);
    top &= stack[--height];
    at++;
    NEXT;
join:
    if (height < 2) return refused(UNDER, at);
    top |= stack[--height];
    at++;
    NEXT;
other:
    return refused(NODE, at);
end:
    if (height != 1) return refused(END, nodes_len);
    return answered(top);
#undef NEXT
}

#else

static carm_answer run(const uint8_t *nodes, size_t nodes_len, const uint8_t *situation, size_t columns)
{
    uint8_t stack[STACK];
    size_t height = 0;
    for (size_t at = 0; at < nodes_len; at++) {
        unsigned node = nodes[at];
        switch (node) {
        case 0: case 1: case 2: case 3:
            if (height == STACK) return refused(DEEP, at);
            stack[height++] = (uint8_t)node;
            break;
        case NEGATE:
            if (height < 1) return refused(UNDER, at);
            stack[height - 1] = (uint8_t)negated(stack[height - 1]);
            break;
        case TURN:
            if (height < 1) return refused(UNDER, at);
            stack[height - 1] = (uint8_t)turned(stack[height - 1]);
            break;
        case MEET:
            if (height < 2) return refused(UNDER, at);
            height--;
            stack[height - 1] &= stack[height];
            break;
        case JOIN:
            if (height < 2) return refused(UNDER, at);
            height--;
            stack[height - 1] |= stack[height];
            break;
        case 16: case 17: case 18: case 19: case 20: case 21:
            if (node - COLUMN_0 >= columns) return refused(COLUMN, at);
            if (height == STACK) return refused(DEEP, at);
            stack[height++] = situation[node - COLUMN_0];
            break;
        default:
            return refused(NODE, at);
        }
    }
    if (height != 1) return refused(END, nodes_len);
    return answered(stack[0]);
}

#endif

carm_answer carm_evaluate(const uint8_t *nodes, size_t nodes_len, const uint8_t *situation, size_t situation_len)
{
    if (situation_len < 1 || situation_len > 6) return refused(SITUATION, situation_len);
    for (size_t i = 0; i < situation_len; i++)
        if (situation[i] > 3) return refused(SITUATION, i);
    return run(nodes, nodes_len, situation, situation_len);
}

/* ---- merging ---- */

/* 1 and the place where the situation is refused */
static int situation_refused(const carm_situation *s, uint64_t *place)
{
    if (s->length < 1 || s->length > 6) {
        *place = s->length;
        return 1;
    }
    for (unsigned i = 0; i < s->length; i++)
        if (s->answers[i] > 3) {
            *place = i;
            return 1;
        }
    return 0;
}

carm_merged carm_merge(carm_situation first, carm_situation second)
{
    uint64_t place;
    if (situation_refused(&first, &place) || situation_refused(&second, &place))
        return (carm_merged){ SITUATION, place, 0, first };
    if (first.length != second.length) return (carm_merged){ SITUATION, second.length, 0, first };
    for (unsigned i = 0; i < first.length; i++) first.answers[i] |= second.answers[i];
    return (carm_merged){ 0, 0, 0, first };
}

/* ---- growth, and tables given back ---- */

static carm_growth growth_refused(uint64_t number, uint64_t place)
{
    return (carm_growth){ number, place, 0, 0, { 0, { 0 } }, 0, 0 };
}

/* the reply for the first failing step */
static carm_growth fails(unsigned situation, unsigned columns, unsigned column, unsigned answer)
{
    carm_growth reply = { 0, 0, 0, 2, { columns, { 0 } }, column, answer };
    for (unsigned i = 0; i < columns; i++) reply.situation.answers[i] = situation >> 2 * (columns - 1 - i) & 3;
    return reply;
}

static const carm_growth grows = { 0, 0, 0, 1, { 0, { 0 } }, 0, 0 };

/* a table of so many rows to be written: its length, or why it is refused */
static carm_written back_fits(unsigned rows, unsigned columns, size_t room)
{
    size_t needed = 4 + (size_t)rows * (columns + 4);
    if (rows > MOST_ROWS) return (carm_written){ ROWS, rows, 0, 0 };
    if (needed > room) return (carm_written){ ROOM, needed, 0, 0 };
    return (carm_written){ 0, 0, 0, needed };
}

static inline uint8_t *put_columns(uint8_t *to, unsigned columns)
{
    const uint8_t head[] = { 1, 0, 1, (uint8_t)columns };
    memcpy(to, head, sizeof head);
    return to + sizeof head;
}

static inline uint8_t *put_row(uint8_t *to, unsigned situation, unsigned columns, unsigned outcome)
{
    *to++ = 2;
    *to++ = 0;
    *to++ = (uint8_t)(columns + 1);
    for (unsigned i = columns; i-- > 0;) *to++ = situation >> 2 * i & 3;
    *to++ = (uint8_t)outcome;
    return to;
}

/* the steps from an answer: two from silent, one from bury and from keep, none from clash */
static const struct { unsigned count, to[2]; } steps[4] = { { 2, { 1, 2 } }, { 1, { 3 } }, { 1, { 3 } }, { 0, { 0 } } };

#ifndef GROWTH_BY_PLANES

/* the answers of all situations, or a refusal */
static carm_answer fill(const uint8_t *nodes, size_t nodes_len, unsigned n, uint8_t *answers)
{
    carm_answer reply = answered(0);
    for (unsigned s = 0; s < 1u << 2 * n && !reply.number; s++) {
        uint8_t situation[6];
        for (unsigned i = 0; i < n; i++) situation[i] = s >> 2 * (n - 1 - i) & 3;
        reply = run(nodes, nodes_len, situation, n);
        answers[s] = (uint8_t)reply.answer;
    }
    return reply;
}

carm_growth carm_check_growth(const uint8_t *nodes, size_t nodes_len, uint64_t columns)
{
    if (columns < 1 || columns > 6) return growth_refused(SITUATION, columns);
    uint8_t answers[MOST_SITUATIONS];
    unsigned n = (unsigned)columns, count = 1u << 2 * n;
    carm_answer reply = fill(nodes, nodes_len, n, answers);
    if (reply.number) return growth_refused(reply.number, reply.place);
    for (unsigned s = 0; s < count; s++)
        for (unsigned i = 0; i < n; i++) {
            unsigned shift = 2 * (n - 1 - i), digit = s >> shift & 3;
            for (unsigned t = 0; t < steps[digit].count; t++) {
                unsigned to = steps[digit].to[t];
                if (answers[s] & ~answers[s + ((to - digit) << shift)]) return fails(s, n, i, to);
            }
        }
    return grows;
}

carm_written carm_untable(const uint8_t *nodes, size_t nodes_len, uint64_t columns, uint8_t *table, size_t table_len)
{
    if (columns < 1 || columns > 6) return (carm_written){ SITUATION, columns, 0, 0 };
    uint8_t answers[MOST_SITUATIONS], *to = table;
    unsigned n = (unsigned)columns, count = 1u << 2 * n, rows = 0;
    carm_answer reply = fill(nodes, nodes_len, n, answers);
    if (reply.number) return (carm_written){ reply.number, reply.place, 0, 0 };
    for (unsigned s = 0; s < count; s++) rows += answers[s] != 0;
    carm_written written = back_fits(rows, n, table_len);
    if (written.number) return written;
    to = put_columns(to, n);
    for (unsigned s = 0; s < count; s++)
        if (answers[s]) to = put_row(to, s, n, answers[s]);
    return written;
}

#else

typedef struct { uint64_t bury, keep; } plane;

/* the answers of the six lowest binary digits of a situation's number, a bit per situation of a word */
static const plane low_columns[3] = {
    { 0xaaaaaaaaaaaaaaaa, 0xcccccccccccccccc },
    { 0xf0f0f0f0f0f0f0f0, 0xff00ff00ff00ff00 },
    { 0xffff0000ffff0000, 0xffffffff00000000 },
};

static plane constant(unsigned answer) { return (plane){ answer & 1 ? ~0ull : 0, answer & 2 ? ~0ull : 0 }; }

/* the column's answers in this word; places are counted from the last column */
static plane column_plane(unsigned word, unsigned place)
{
    if (place < 3) return low_columns[place];
    return constant(word >> 2 * (place - 3) & 3);
}

#ifdef NODE_BY_NODE

/* lawful nodes only: each node is done in all words before the next one, bury and keep apart so that the loops can be vectors */
typedef struct { uint64_t bury[MOST_SITUATIONS / 64], keep[MOST_SITUATIONS / 64]; } planes;

/* a column's answers turned so many times */
static void put_turned(planes *to, const planes *column, unsigned words, unsigned turns)
{
    for (unsigned w = 0; w < words; w++) {
        uint64_t bury = column->bury[w], keep = column->keep[w];
        to->bury[w] = turns & 1 ? ~bury : bury;
        to->keep[w] = turns == 1 ? keep ^ bury : turns == 2 ? ~keep : turns == 3 ? ~(keep ^ bury) : keep;
    }
}

static void fill(const uint8_t *nodes, size_t nodes_len, unsigned n, unsigned words, plane *answers)
{
    planes stack[STACK + 1], *top = stack, columns[6];
    for (unsigned i = 0; i < n; i++)
        for (unsigned w = 0; w < words; w++) {
            plane column = column_plane(w, n - 1 - i);
            columns[i].bury[w] = column.bury;
            columns[i].keep[w] = column.keep;
        }
    for (size_t at = 0; at < nodes_len; at++) {
        unsigned node = nodes[at], turns = 0;
        switch (node) {
        case NEGATE:
            for (unsigned w = 0; w < words; w++) {
                uint64_t bury = top->bury[w];
                top->bury[w] = top->keep[w];
                top->keep[w] = bury;
            }
            break;
        case TURN:
            for (unsigned w = 0; w < words; w++) {
                top->keep[w] ^= top->bury[w];
                top->bury[w] = ~top->bury[w];
            }
            break;
        case MEET:
            top--;
            for (unsigned w = 0; w < words; w++) {
                top->bury[w] &= top[1].bury[w];
                top->keep[w] &= top[1].keep[w];
            }
            break;
        case JOIN:
            top--;
            for (unsigned w = 0; w < words; w++) {
                top->bury[w] |= top[1].bury[w];
                top->keep[w] |= top[1].keep[w];
            }
            break;
        default:
            top++;
            if (node < 4) {
                for (unsigned w = 0; w < words; w++) {
                    top->bury[w] = constant(node).bury;
                    top->keep[w] = constant(node).keep;
                }
                break;
            }
            /* the turns behind a column are done with it */
            while (at + 1 < nodes_len && nodes[at + 1] == TURN) at++, turns++;
            put_turned(top, &columns[node - COLUMN_0], words, turns & 3);
        }
    }
    for (unsigned w = 0; w < words; w++) answers[w] = (plane){ top->bury[w], top->keep[w] };
}

#else

/* lawful nodes only */
static plane run_plane(const uint8_t *nodes, size_t nodes_len, const plane *columns)
{
    plane stack[STACK + 1], *top = stack;
    *top = (plane){ 0, 0 };
    for (size_t at = 0; at < nodes_len; at++) {
        unsigned node = nodes[at];
        uint64_t bury = top->bury;
        switch (node) {
        case NEGATE:
            top->bury = top->keep;
            top->keep = bury;
            break;
        case TURN:
            top->keep ^= bury;
            top->bury = ~bury;
            break;
        case MEET:
            top--;
            top->bury &= top[1].bury;
            top->keep &= top[1].keep;
            break;
        case JOIN:
            top--;
            top->bury |= top[1].bury;
            top->keep |= top[1].keep;
            break;
        default:
            *++top = node < 4 ? constant(node) : columns[node - COLUMN_0];
        }
    }
    return *top;
}

static void fill(const uint8_t *nodes, size_t nodes_len, unsigned n, unsigned words, plane *answers)
{
    for (unsigned word = 0; word < words; word++) {
        plane columns[6];
        for (unsigned i = 0; i < n; i++) columns[i] = column_plane(word, n - 1 - i);
        answers[word] = run_plane(nodes, nodes_len, columns);
    }
}

#endif

/* the answers of the situations that lie so many numbers further on */
static plane further(const plane *answers, unsigned word, unsigned by)
{
    if (by >= 64) return answers[word + by / 64];
    return (plane){ answers[word].bury >> by, answers[word].keep >> by };
}

static uint64_t lost(plane before, plane after) { return (before.bury & ~after.bury) | (before.keep & ~after.keep); }

/* the situations of a word from which some step in this column fails */
static uint64_t failing(const plane *answers, unsigned word, unsigned place)
{
    unsigned one = 1u << 2 * place;
    plane column = column_plane(word, place);
    uint64_t no_bury = ~column.bury, no_keep = ~column.keep, fail = 0;
    /* raising by one: 0 to 1 and 2 to 3; by two: 0 to 2 and 1 to 3 */
    if (no_bury) fail |= lost(answers[word], further(answers, word, one)) & no_bury;
    if (no_keep) fail |= lost(answers[word], further(answers, word, 2 * one)) & no_keep;
    return fail;
}

static unsigned answer_at(const plane *answers, unsigned s)
{
    plane word = answers[s / 64];
    return (word.bury >> s % 64 & 1) | (word.keep >> s % 64 & 1) << 1;
}

static carm_growth first_step(const plane *answers, unsigned s, unsigned n)
{
    for (unsigned i = 0; i < n; i++) {
        unsigned shift = 2 * (n - 1 - i), digit = s >> shift & 3;
        for (unsigned t = 0; t < steps[digit].count; t++) {
            unsigned to = steps[digit].to[t];
            if (answer_at(answers, s) & ~answer_at(answers, s + ((to - digit) << shift))) return fails(s, n, i, to);
        }
    }
    return grows;
}

static inline unsigned words_of(unsigned n) { return n <= 3 ? 1 : 1u << 2 * (n - 3); }
/* the bits of a word that are situations */
static inline uint64_t used_of(unsigned n) { return n >= 3 ? ~0ull : (1ull << (1u << 2 * n)) - 1; }

static const uint8_t silent[6];

carm_growth carm_check_growth(const uint8_t *nodes, size_t nodes_len, uint64_t columns)
{
    if (columns < 1 || columns > 6) return growth_refused(SITUATION, columns);
    unsigned n = (unsigned)columns, words = words_of(n);
    uint64_t used = used_of(n);
    /* refusals do not depend on the answers */
    carm_answer reply = run(nodes, nodes_len, silent, n);
    if (reply.number) return growth_refused(reply.number, reply.place);
    plane answers[MOST_SITUATIONS / 64];
    fill(nodes, nodes_len, n, words, answers);
    for (unsigned word = 0; word < words; word++) {
        uint64_t fail = 0;
        for (unsigned i = 0; i < n; i++) fail |= failing(answers, word, n - 1 - i);
        fail &= used;
        if (fail) return first_step(answers, word * 64 + (unsigned)__builtin_ctzll(fail), n);
    }
    return grows;
}

carm_written carm_untable(const uint8_t *nodes, size_t nodes_len, uint64_t columns, uint8_t *table, size_t table_len)
{
    if (columns < 1 || columns > 6) return (carm_written){ SITUATION, columns, 0, 0 };
    unsigned n = (unsigned)columns, words = words_of(n), rows = 0;
    uint64_t used = used_of(n);
    carm_answer reply = run(nodes, nodes_len, silent, n);
    if (reply.number) return (carm_written){ reply.number, reply.place, 0, 0 };
    plane answers[MOST_SITUATIONS / 64];
    fill(nodes, nodes_len, n, words, answers);
    for (unsigned word = 0; word < words; word++)
        rows += (unsigned)__builtin_popcountll((answers[word].bury | answers[word].keep) & used);
    carm_written written = back_fits(rows, n, table_len);
    if (written.number) return written;
    uint8_t *to = put_columns(table, n);
    for (unsigned word = 0; word < words; word++)
        for (uint64_t left = (answers[word].bury | answers[word].keep) & used; left; left &= left - 1) {
            unsigned s = word * 64 + (unsigned)__builtin_ctzll(left);
            to = put_row(to, s, n, answer_at(answers, s));
        }
    return written;
}

#endif

/* ---- notices ---- */

static unsigned two_bytes(const uint8_t *b) { return (unsigned)b[0] << 8 | b[1]; }
static uint32_t four_bytes(const uint8_t *b) { return (uint32_t)two_bytes(b) << 16 | two_bytes(b + 2); }

carm_noticed carm_read_notice(const uint8_t *notice, size_t notice_len)
{
    int last = -1;
    uint64_t facts = 0;
    for (size_t at = 0; at < notice_len; at += FACT_FIELD, facts++) {
        const uint8_t *f = notice + at;
        if (notice_len - at < 3) return (carm_noticed){ SHORT, at, 0, 0 };
        if (f[0] != 16) return (carm_noticed){ TAG, at, 0, 0 };
        if (facts == MOST_FACTS) return (carm_noticed){ FACTS, at, 0, 0 };
        if (f[1] != 0 || f[2] != 6) return (carm_noticed){ LEN, at, 0, 0 };
        if (notice_len - at < FACT_FIELD) return (carm_noticed){ SHORT, at, 0, 0 };
        int number = (int)two_bytes(f + 3);
        if (number <= last) return (carm_noticed){ RISE, at, 0, 0 };
        last = number;
    }
    return (carm_noticed){ 0, 0, 0, facts };
}

/* ---- voices ---- */

typedef struct {
    const uint8_t *notice, *voice;
    size_t notice_len, voice_len, at, place;
    unsigned number; /* of the refusal, 0 while there is none */
} speaker;

static unsigned refuse(speaker *s, unsigned number, size_t place)
{
    s->number = number;
    s->place = place;
    return 0;
}

#ifdef LOOK_UP_BY_HALVES

static const uint8_t *look_up(const speaker *s, unsigned number)
{
    const uint8_t *fact = s->notice;
    size_t left = s->notice_len / FACT_FIELD;
    if (!left) return NULL;
    while (left > 1) {
        size_t half = left / 2;
        if (two_bytes(fact + FACT_FIELD * half + 3) <= number) fact += FACT_FIELD * half;
        left -= half;
    }
    return two_bytes(fact + 3) == number ? fact + 5 : NULL;
}

#else

static const uint8_t *look_up(const speaker *s, unsigned number)
{
    for (size_t at = 0; at < s->notice_len; at += FACT_FIELD)
        if (two_bytes(s->notice + at + 3) == number) return s->notice + at + 5;
    return NULL;
}

#endif

/* What a policy may answer: the answer itself where only one is possible, else OPEN and a bit for each possible answer. */
enum { OPEN = 16 };

static inline unsigned set_of(unsigned p) { return p < OPEN ? 1u << p : p - OPEN; }
static inline unsigned of_set(unsigned set) { return set & (set - 1) ? OPEN | set : (unsigned)__builtin_ctz(set); }

/* bury is said by all where neither silent nor keep is possible, keep where neither silent nor bury is */
static inline unsigned met(unsigned p) { return p < OPEN ? p : (unsigned)!(p & 5) | (unsigned)!(p & 3) << 1; }

static inline unsigned one(unsigned code, unsigned p)
{
    return code == 8 ? negated(p) : code == 9 ? floored(p) : ceiled(p);
}

static inline unsigned two(unsigned code, unsigned p, unsigned q)
{
    switch (code) {
    case 12: return truth_met(p, q);
    case 13: return truth_joined(p, q);
    case 14: return p & q;
    case 15: return p | q;
    case 16: return holds(p) ? q : 2;
    case 17: return holds(p) ? q : 0;
    case 18: return p ? p : q;
    default: return p == code - 20 ? q : p;
    }
}

/* an operator on each possible operand; out of line, as the next one, since policy is shorter without them */
static __attribute__((noinline)) unsigned each(unsigned code, unsigned p)
{
    unsigned set = 0;
    for (unsigned left = set_of(p); left; left &= left - 1) set |= 1u << one(code, (unsigned)__builtin_ctz(left));
    return of_set(set);
}

/* an operator on every pair of possible operands */
static __attribute__((noinline)) unsigned every_pair(unsigned code, unsigned p, unsigned q)
{
    unsigned set = 0, second = set_of(q);
    for (unsigned left = set_of(p); left; left &= left - 1)
        for (unsigned right = second; right; right &= right - 1)
            set |= 1u << two(code, (unsigned)__builtin_ctz(left), (unsigned)__builtin_ctz(right));
    return of_set(set);
}

/* What a test may be: the bit 1 for false, 2 for true; 3 for either. So not, and, or are the operators of the truth order. */
enum { FALSE = 1, TRUE = 2, EITHER = 3 };

static inline unsigned sure(int truth) { return truth ? TRUE : FALSE; }

static inline unsigned when(unsigned truth, unsigned p)
{
    return truth == TRUE ? p : truth == FALSE ? 0 : of_set(set_of(p) | 1);
}

static unsigned test(speaker *s, unsigned level);

/* each operand is read, also where the answer is known; after a refusal the rest is not */
static unsigned policy(speaker *s, unsigned level)
{
    size_t at = s->at;
    if (level > MOST_LEVELS) return refuse(s, NEST, at);
    if (at == s->voice_len) return refuse(s, CUT, at);
    unsigned code = s->voice[at], p, q;
    s->at++;
    if (code <= 3) return code;
    if (code < 8 || code > 24 || code == 11 || code == 19) return refuse(s, CODE, at);
    p = code == 24 ? test(s, level + 1) : policy(s, level + 1);
    if (s->number) return 0;
    if (code <= 10) return p < OPEN ? one(code, p) : each(code, p);
    q = policy(s, level + 1);
    if (s->number) return 0;
    if (code == 24) return when(p, q);
    return (p | q) < OPEN ? two(code, p, q) : every_pair(code, p, q);
}

static unsigned compare(speaker *s, unsigned code, size_t at)
{
    if (s->voice_len - s->at < 6) return refuse(s, CUT, at);
    const uint8_t *fact = look_up(s, two_bytes(s->voice + s->at));
    uint32_t value = four_bytes(s->voice + s->at + 2);
    s->at += 6;
    if (!fact) return EITHER;
    if (code == 43) return sure(four_bytes(fact) == value);
    return sure((four_bytes(fact) >= value) == (code == 44));
}

static unsigned test(speaker *s, unsigned level)
{
    size_t at = s->at;
    if (level > MOST_LEVELS) return refuse(s, NEST, at);
    if (at == s->voice_len) return refuse(s, CUT, at);
    unsigned code = s->voice[at], p, q, asked;
    s->at++;
    switch (code) {
    case 40:
        return negated(test(s, level + 1));
    case 41: case 42:
        p = test(s, level + 1);
        if (s->number) return 0;
        q = test(s, level + 1);
        return code == 41 ? truth_met(p, q) : truth_joined(p, q);
    case 43: case 44: case 45:
        return compare(s, code, at);
    case 46:
        if (s->voice_len - s->at < 2) return refuse(s, CUT, at);
        s->at += 2;
        return sure(look_up(s, two_bytes(s->voice + s->at - 2)) != NULL);
    case 48: case 49: case 50: case 51:
        p = set_of(policy(s, level + 1));
        asked = 1u << (code - 48);
        return (p & asked ? TRUE : 0) | (p & ~asked ? FALSE : 0);
    default:
        return refuse(s, CODE, at);
    }
}

carm_heard carm_speak_set(const uint8_t *notice, size_t notice_len, const uint8_t *voice, size_t voice_len)
{
    carm_noticed noticed = carm_read_notice(notice, notice_len);
    if (noticed.number) return (carm_heard){ noticed.number, noticed.place, 0, 0, 0 };
    speaker s = { .notice = notice, .notice_len = notice_len, .voice = voice, .voice_len = voice_len };
    unsigned p = policy(&s, 1);
    if (!s.number && s.at < voice_len) refuse(&s, TAIL, s.at);
    if (s.number) return (carm_heard){ s.number, s.place, 0, 0, 0 };
    return (carm_heard){ 0, 0, 0, set_of(p), met(p) };
}

carm_answer carm_speak(const uint8_t *notice, size_t notice_len, const uint8_t *voice, size_t voice_len)
{
    carm_heard heard = carm_speak_set(notice, notice_len, voice, voice_len);
    return (carm_answer){ heard.number, heard.place, 0, heard.answer };
}

/* ---- weeks ---- */

carm_week carm_count_week(const uint8_t *batch, size_t batch_len, const uint8_t *voice, size_t voice_len)
{
    carm_week week = { 0 };
    uint64_t answers[4] = { 0 };
    size_t read = 0, length;
    for (size_t at = 0; at < batch_len; at += 3 + length, read++) {
        const uint8_t *f = batch + at;
        week.place = at;
        week.number = batch_len - at < 3 ? SHORT : f[0] != 17 ? TAG : read == MOST_NOTICES ? WEEK : 0;
        if (week.number) break;
        length = two_bytes(f + 1);
        week.number = length > LONGEST_NOTICE ? LEN : batch_len - at - 3 < length ? SHORT : 0;
        if (week.number) break;
        carm_heard heard = carm_speak_set(f + 3, length, voice, voice_len);
        if (heard.number) {
            week.by_number[heard.number]++;
            week.refused++;
        } else {
            answers[heard.answer]++;
        }
    }
    if (!week.number) week.place = 0;
    week.silent = answers[0];
    week.bury = answers[1];
    week.keep = answers[2];
    week.clash = answers[3];
    return week;
}
