/* Carmuspeno: four answers, tables compiled to nodes and given back, notices, voices, weekly counts, and the growth check.
 *
 * Link with libcarmuspeno.a (x86-64, System V calling convention; its code uses SSE registers and the red zone, and calls
 * memcpy and memset). No function allocates, blocks, keeps a pointer after it returns, or has state of its own, so threads may
 * call at once. How many bytes of stack a call takes: bench/run --stack.
 *
 * Bytes are given as a pointer and a length; where the length is 0 the pointer may be NULL. Memory that is lent to be
 * written must not overlap what is read in the same call: a table compiled into itself gets number 0 and wrong nodes.
 *
 * Every reply starts with the same three numbers. `number` is 0 for success and else says what was refused,
 * `place` says where (mostly an offset or an index), `second` is the earlier row of OVERLAP and else 0.
 * In a refusal every result below is 0 unless its comment says otherwise, and no lent byte is changed. */
#ifndef CARMUSPENO_H
#define CARMUSPENO_H

#include <stddef.h>
#include <stdint.h>

#ifdef __cplusplus
extern "C" {
#endif

/* Answers are numbers. */
enum { CARM_SILENT = 0, CARM_BURY = 1, CARM_KEEP = 2, CARM_CLASH = 3 };

/* A cell of a table may also be any. */
enum { CARM_ANY = 4 };

/* What the growth check says: neither in a refusal. */
enum { CARM_NEITHER = 0, CARM_YES = 1, CARM_NO = 2 };

/* Room that is enough for the nodes of every lawful table. Where no table has a default other than silent, 4,223 bytes are. */
#define CARM_NODES_MAX 200771

/* Room that is enough for every table that carm_untable can write: 4 bytes and 64 rows of 10. */
#define CARM_BACK_MAX 644

/* Refusals, and what `place` is. Numbers 15 and 22 to 27 are unused. */
enum {
    CARM_SHORT = 1,      /* a field is cut short; its offset */
    CARM_START = 2,      /* a table does not start with its number of columns; 0 */
    CARM_TAG = 3,        /* a field of another tag, or a default that is not directly behind the columns; its offset */
    CARM_LEN = 4,        /* a field of another length; its offset */
    CARM_VALUE = 5,      /* a byte out of range; its offset in a table, its index among an operator's operands */
    CARM_ROWS = 6,       /* a 65th row; its offset. Of a table to be written: how many rows it needs */
    CARM_OVERLAP = 7,    /* two rows disagree; the later one, and `second` the earlier one, counted from 0 */
    CARM_ROOM = 8,       /* the lent buffer is too small; the number of nodes, or bytes of a table, needed */
    CARM_NODE = 9,       /* a byte that is no node; its index */
    CARM_COLUMN = 10,    /* a column that the situation does not have; the node's index */
    CARM_UNDER = 11,     /* too few operands; the node's index */
    CARM_DEEP = 12,      /* a 17th operand on the stack; the node's index */
    CARM_END = 13,       /* not exactly one answer is left; the array's length */
    CARM_SITUATION = 14, /* a length outside 1 to 6, or unlike the first one's; the length. An answer above 3; its index */
    CARM_CODE = 16,      /* a byte of a voice that is no code of the kind wanted; its offset */
    CARM_CUT = 17,       /* a voice that ends too soon; where the code would stand, or the code whose number is incomplete */
    CARM_NEST = 18,      /* a 17th level; where its code would stand */
    CARM_TAIL = 19,      /* bytes after the voice; the first of them */
    CARM_RISE = 20,      /* a fact whose number does not pass the one before; its field's offset */
    CARM_FACTS = 21,     /* a 33rd fact; its field's offset */
    CARM_WEEK = 28       /* a 1,000,001st notice of a batch; its field's offset */
};

typedef struct { uint64_t number, place, second, answer; } carm_answer;

/* The table's columns, the rows read (silent ones too, but not those that a default stands for) and the nodes written. */
typedef struct { uint64_t number, place, second, columns, rows, nodes; } carm_compiled;

/* One answer per column; the bytes from `length` on carry none. */
typedef struct { uint64_t length; uint8_t answers[6]; } carm_situation;

typedef struct { uint64_t number, place, second; carm_situation situation; } carm_merged;

/* `verdict` is CARM_NEITHER, CARM_YES or CARM_NO. Only on a no are the rest other than 0: in
 * `situation`, raising `column` to `answer` loses something; it is the first step that does. */
typedef struct {
    uint64_t number, place, second, verdict;
    carm_situation situation;
    uint64_t column, answer;
} carm_growth;

/* The number of facts read. */
typedef struct { uint64_t number, place, second, facts; } carm_noticed;

/* What a voice may answer: `set` has bit a (1, 2, 4, 8) for each possible answer a, so 1 to 15; `answer` is the meet of these,
 * which is what the voice's column receives. */
typedef struct { uint64_t number, place, second, set, answer; } carm_heard;

/* A voice's record over a batch: how many notices gave each answer, how many were refused, and in `by_number` at each number how
 * many were refused with it. The first five add up to the notices read, `by_number` adds up to `refused`. In a refusal, which
 * is that of a field of the batch, they are the counts of the notices before that field. */
typedef struct { uint64_t number, place, second, silent, bury, keep, clash, refused, by_number[32]; } carm_week;

/* How many bytes were written to the front of the lent buffer. */
typedef struct { uint64_t number, place, second, length; } carm_written;

/* The operators. An operand above 3 is VALUE. */
carm_answer carm_negate(uint8_t p);
carm_answer carm_turn(uint8_t p);
carm_answer carm_floor(uint8_t p);
carm_answer carm_ceiling(uint8_t p);
carm_answer carm_meet(uint8_t p, uint8_t q);
carm_answer carm_join(uint8_t p, uint8_t q);
carm_answer carm_truth_meet(uint8_t p, uint8_t q);
carm_answer carm_truth_join(uint8_t p, uint8_t q);
carm_answer carm_implication(uint8_t p, uint8_t q);
carm_answer carm_guard(uint8_t p, uint8_t q);
carm_answer carm_priority(uint8_t p, uint8_t q);

/* q where p is x, else p. */
carm_answer carm_replace(uint8_t x, uint8_t p, uint8_t q);

/* 1 if p is contained in q, else 0. */
carm_answer carm_contained(uint8_t p, uint8_t q);

/* Judges a table and writes its nodes to the front of the lent buffer; the bytes behind them stay. A table is its number of
 * columns, then a default if it has one (tag 3, length 1, an answer), then up to 64 rows; the longest has 648 bytes. With a
 * default other than silent, each situation that no row matches counts as a row whose outcome is the default. */
carm_compiled carm_compile(const uint8_t *table, size_t table_len, uint8_t *nodes, size_t nodes_len);

/* The answer of an array of nodes in a situation of `situation_len` columns. Any array may be given. */
carm_answer carm_evaluate(const uint8_t *nodes, size_t nodes_len, const uint8_t *situation, size_t situation_len);

/* The join of two situations column by column; bytes from the length on are the first one's.
 * In a refusal `situation` is the first one as it came. */
carm_merged carm_merge(carm_situation first, carm_situation second);

/* Whether the array's answer only grows as the situation grows. */
carm_growth carm_check_growth(const uint8_t *nodes, size_t nodes_len, uint64_t columns);

/* Writes a table that says what the array answers to the front of the lent buffer; the bytes behind it stay. It has one row for
 * every situation of so many columns with an answer other than silent, in base-4 order, column 0 the highest digit; no cell is
 * any, and there is no default. A column count outside 1 to 6 is SITUATION, with the count; then come the refusals of
 * carm_evaluate, then ROWS where more than 64 rows are needed (never up to three columns), then ROOM. */
carm_written carm_untable(const uint8_t *nodes, size_t nodes_len, uint64_t columns, uint8_t *table, size_t table_len);

carm_noticed carm_read_notice(const uint8_t *notice, size_t notice_len);

/* What a voice's column receives for the facts of a notice. The notice is judged first. A comparison on a fact that the notice
 * does not have may be true or false; the answer is then the meet of all that the voice may answer. */
carm_answer carm_speak(const uint8_t *notice, size_t notice_len, const uint8_t *voice, size_t voice_len);

/* The same, with the set of all that the voice may answer. */
carm_heard carm_speak_set(const uint8_t *notice, size_t notice_len, const uint8_t *voice, size_t voice_len);

/* What carm_speak says of each notice of a batch, counted. A batch is fields of tag 17, each with one notice of at most 288 bytes
 * as its value, at most 1,000,000 of them; no bytes are a batch too. A refused voice does not refuse the call: every notice is
 * counted as refused, with its own number where it is refused itself and else with the voice's. A batch cut between two fields
 * may be counted in parts: the counts of the parts add up, and places are those in the part. */
carm_week carm_count_week(const uint8_t *batch, size_t batch_len, const uint8_t *voice, size_t voice_len);

#ifdef __cplusplus
}
#endif

#endif
