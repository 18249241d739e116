/* bench list             the names of the jobs, with how often each is best repeated
 * bench JOB REPETITIONS  does the job so often and prints its last reply
 * bench stack JOB        the bytes of stack that the job done once takes, some 200 of them its caller's
 *
 * Linked once with the archive and once with each peer; the calls are the same, and no call can be inlined. */
#include <inttypes.h>
#include <stdio.h>
#include <stdlib.h>
#include <string.h>
#include <ucontext.h>

#include "carmuspeno.h"

enum { NOTICES = 64 };

static uint8_t table[1024], back[CARM_BACK_MAX], nodes[CARM_NODES_MAX], notice[32 * 9], voice[200];
static uint8_t batch[NOTICES * (3 + sizeof notice)];
static size_t table_len, nodes_len, notice_len, voice_len, batch_len;

/* a reply printed, but not on the stack that is measured */
static int quiet;
#define SAY(...) do { if (!quiet) printf(__VA_ARGS__); } while (0)

/* ---- inputs ---- */

static void start_table(uint8_t columns)
{
    const uint8_t head[] = { 1, 0, 1, columns };
    memcpy(table, head, sizeof head);
    table_len = sizeof head;
}

/* directly after the columns */
static void add_default(uint8_t answer)
{
    const uint8_t field[] = { 3, 0, 1, answer };
    memcpy(table + table_len, field, sizeof field);
    table_len += sizeof field;
}

static void add_row(const uint8_t *row)
{
    uint8_t size = table[3] + 1;
    const uint8_t head[] = { 2, 0, size };
    memcpy(table + table_len, head, sizeof head);
    memcpy(table + table_len + sizeof head, row, size);
    table_len += sizeof head + size;
}

static void laptop(void)
{
    static const uint8_t rows[6][3] = { { 1, 4, 1 }, { 2, 4, 2 }, { 3, 4, 3 }, { 0, 1, 1 }, { 0, 2, 2 }, { 0, 3, 3 } };
    start_table(2);
    for (int row = 0; row < 6; row++) add_row(rows[row]);
}

static void add_largest_rows(void)
{
    for (int row = 0; row < 64; row++) add_row((const uint8_t[]){ 0, 0, 0, 0, 0, 0, 3 });
}

/* 64 equal rows: every pair is looked at, and no table without a default has more nodes */
static void largest(void)
{
    start_table(6);
    add_largest_rows();
}

/* the same rows, and bury in the 4,095 other situations: no table has more nodes */
static void largest_default(void)
{
    start_table(6);
    add_default(1);
    add_largest_rows();
}

static void default_only(void)
{
    start_table(6);
    add_default(3);
}

/* grows, in six columns: keep where a column clashes, bury nowhere */
static void growing(void)
{
    start_table(6);
    for (int column = 0; column < 6; column++) {
        uint8_t row[7] = { 4, 4, 4, 4, 4, 4, 2 };
        row[column] = 3;
        add_row(row);
    }
}

/* 64 rows of one situation each, outcome clash, chosen for the most nodes: a cell takes the more the lower it is, so all situations
 * whose cells add up to 2 or less and the first 36 of those with 3, in base-4 order */
static void largest_given_back(void)
{
    int threes = 0;
    start_table(6);
    for (int situation = 0; situation < 4096; situation++) {
        uint8_t row[7] = { 0, 0, 0, 0, 0, 0, 3 };
        int sum = 0;
        for (int column = 0; column < 6; column++) sum += row[column] = situation >> 2 * (5 - column) & 3;
        if (sum < 3 || (sum == 3 && threes++ < 36)) add_row(row);
    }
}

static void compiled(void (*make)(void))
{
    make();
    nodes_len = carm_compile(table, table_len, nodes, sizeof nodes).nodes;
}

/* 32 facts, numbers 0, 3, 6 and so on */
static void full_notice(void)
{
    for (int fact = 0; fact < 32; fact++) {
        const uint8_t field[] = { 16, 0, 6, 0, (uint8_t)(3 * fact), 0, 0, 0, (uint8_t)fact };
        memcpy(notice + notice_len, field, sizeof field);
        notice_len += sizeof field;
    }
}

/* sixteen levels: a keep under fifteen times `when`, each asking for another fact, all of them true */
static void nested_whens(void)
{
    full_notice();
    for (int level = 0; level < 15; level++) {
        uint8_t fact = (uint8_t)(2 * level);
        const uint8_t when[] = { 24, 44, 0, (uint8_t)(3 * fact), 0, 0, 0, fact };
        memcpy(voice + voice_len, when, sizeof when);
        voice_len += sizeof when;
    }
    voice[voice_len++] = 2;
}

/* the same with other facts, none of which the notice has */
static void absent_whens(void)
{
    nested_whens();
    for (int level = 0; level < 15; level++) voice[8 * level + 3]++;
}

/* sixteen levels of operators over constants, and no notice */
static void nested_operators(void)
{
    static const uint8_t codes[] = { 15, 18, 12, 14, 13 };
    for (int level = 0; level < 15; level++) {
        voice[voice_len++] = codes[level % 5];
        voice[voice_len++] = (uint8_t)(level % 4);
    }
    voice[voice_len++] = 2;
}

/* sixteen levels of the same operators over constants, each under a `when` whose fact the notice does not have */
static void absent_operators(void)
{
    static const uint8_t codes[] = { 15, 18, 12, 14, 13 };
    full_notice();
    for (int level = 0; level < 14; level++) {
        const uint8_t operator[] = { codes[level % 5], 24, 44, 0, (uint8_t)(6 * level + 1), 0, 0, 0, 0, (uint8_t)(level % 3 + 1) };
        memcpy(voice + voice_len, operator, sizeof operator);
        voice_len += sizeof operator;
    }
    voice[voice_len++] = 2;
}

/* a batch of equal notices of 32 facts, and the voice of sixteen levels of `when` */
static void week_of_whens(void)
{
    nested_whens();
    for (int field = 0; field < NOTICES; field++) {
        const uint8_t head[] = { 17, (uint8_t)(notice_len >> 8), (uint8_t)notice_len };
        memcpy(batch + batch_len, head, sizeof head);
        memcpy(batch + batch_len + sizeof head, notice, notice_len);
        batch_len += sizeof head + notice_len;
    }
}

/* ---- jobs ---- */

static void make_laptop_nodes(void) { compiled(laptop); }
static void make_largest_nodes(void) { compiled(largest); }
static void make_growing_nodes(void) { compiled(growing); }
static void make_largest_back_nodes(void) { compiled(largest_given_back); }

static void print_growth(carm_growth r)
{
    SAY("%" PRIu64 " %" PRIu64 " %" PRIu64 " %" PRIu64 " %" PRIu64 "\n", r.number, r.place, r.verdict, r.column, r.answer);
}

static void do_compile(long repetitions)
{
    carm_compiled r = { 0 };
    while (repetitions--) r = carm_compile(table, table_len, nodes, sizeof nodes);
    SAY("%" PRIu64 " %" PRIu64 " %" PRIu64 " %d\n", r.number, r.place, r.nodes, nodes[r.nodes - 1]);
}

static void evaluate(long repetitions, const uint8_t *situation, size_t situation_len)
{
    carm_answer r = { 0 };
    while (repetitions--) r = carm_evaluate(nodes, nodes_len, situation, situation_len);
    SAY("%" PRIu64 " %" PRIu64 " %" PRIu64 "\n", r.number, r.place, r.answer);
}

static void evaluate_two(long repetitions) { evaluate(repetitions, (const uint8_t[]){ 2, 1 }, 2); }
static void evaluate_six(long repetitions) { evaluate(repetitions, (const uint8_t[]){ 0, 0, 0, 0, 0, 0 }, 6); }

static void growth(long repetitions, uint64_t columns)
{
    carm_growth r = { 0 };
    while (repetitions--) r = carm_check_growth(nodes, nodes_len, columns);
    print_growth(r);
}

static void growth_two(long repetitions) { growth(repetitions, 2); }
static void growth_six(long repetitions) { growth(repetitions, 6); }

static void untable(long repetitions, uint64_t columns)
{
    carm_written r = { 0 };
    while (repetitions--) r = carm_untable(nodes, nodes_len, columns, back, sizeof back);
    SAY("%" PRIu64 " %" PRIu64 " %" PRIu64 " %d\n", r.number, r.place, r.length, back[r.length - 2]);
}

static void untable_two(long repetitions) { untable(repetitions, 2); }
static void untable_six(long repetitions) { untable(repetitions, 6); }

static void do_notice(long repetitions)
{
    carm_noticed r = { 0 };
    while (repetitions--) r = carm_read_notice(notice, notice_len);
    SAY("%" PRIu64 " %" PRIu64 " %" PRIu64 "\n", r.number, r.place, r.facts);
}

static void do_speak(long repetitions)
{
    carm_answer r = { 0 };
    while (repetitions--) r = carm_speak(notice, notice_len, voice, voice_len);
    SAY("%" PRIu64 " %" PRIu64 " %" PRIu64 "\n", r.number, r.place, r.answer);
}

static void do_speak_set(long repetitions)
{
    carm_heard r = { 0 };
    while (repetitions--) r = carm_speak_set(notice, notice_len, voice, voice_len);
    SAY("%" PRIu64 " %" PRIu64 " %" PRIu64 " %" PRIu64 "\n", r.number, r.place, r.set, r.answer);
}

/* repetitions are notices here, so that the count is that of one notice */
static void do_count_week(long repetitions)
{
    carm_week r = { 0 };
    for (; repetitions > 0; repetitions -= NOTICES) r = carm_count_week(batch, batch_len, voice, voice_len);
    SAY("%" PRIu64 " %" PRIu64 " %" PRIu64 " %" PRIu64 "\n", r.number, r.place, r.keep, r.refused);
}

static void nothing(void) {}

static void do_merge(long repetitions)
{
    carm_situation second = { 6, { 0, 1, 2, 3, 1, 2 } };
    carm_merged r = { 0, 0, 0, { 6, { 0, 0, 1, 1, 2, 2 } } };
    while (repetitions--) r = carm_merge(r.situation, second);
    SAY("%" PRIu64 " %d%d%d\n", r.number, r.situation.answers[0], r.situation.answers[4], r.situation.answers[5]);
}

static const struct {
    const char *name, *call, *input;
    long repetitions;
    void (*make)(void);
    void (*work)(long);
} jobs[] = {
    { "compile-laptop", "compile", "L, 65 nodes", 200, laptop, do_compile },
    { "compile-largest", "compile", "largest table, 4,223 nodes", 10, largest, do_compile },
    { "compile-default", "compile", "worst table with a default, 200,771 nodes", 1, largest_default, do_compile },
    { "compile-default-only", "compile", "no rows, default clash, six columns, 196,607 nodes", 1, default_only, do_compile },
    { "evaluate-laptop", "evaluate", "L at (2, 1)", 1000, make_laptop_nodes, evaluate_two },
    { "evaluate-largest", "evaluate", "largest table, all silent", 20, make_largest_nodes, evaluate_six },
    { "growth-laptop", "check_growth", "L: no", 100, make_laptop_nodes, growth_two },
    { "growth-growing", "check_growth", "six columns: yes, all steps", 2, make_growing_nodes, growth_six },
    { "growth-largest", "check_growth", "largest table: no", 1, make_largest_nodes, growth_six },
    { "untable-laptop", "untable", "L: 15 rows", 100, make_laptop_nodes, untable_two },
    { "untable-largest", "untable", "largest table that is given back, 3,911 nodes, 64 rows", 1, make_largest_back_nodes, untable_six },
    { "notice-full", "read_notice", "32 facts", 500, full_notice, do_notice },
    { "speak-whens", "speak", "16 levels of when, 32 facts", 200, nested_whens, do_speak },
    { "speak-absent-whens", "speak", "the same, every compared fact absent", 200, absent_whens, do_speak },
    { "speak-operators", "speak", "16 levels of operators, no fact", 500, nested_operators, do_speak },
    { "speak-absent-operators", "speak", "16 levels of operators, 32 facts, every compared fact absent", 200, absent_operators, do_speak },
    { "speak-set-whens", "speak_set", "16 levels of when, 32 facts", 200, nested_whens, do_speak_set },
    { "week-whens", "count_week", "one notice of 64: 16 levels of when, 32 facts", 4 * NOTICES, week_of_whens, do_count_week },
    { "merge-six", "merge", "six columns", 5000, nothing, do_merge },
};

enum { JOBS = sizeof jobs / sizeof jobs[0] };

/* ---- stack ---- */

enum { PAINTED = 65536, PAINT = 0xa5 };

static ucontext_t here, there;
static void (*measured)(long);

static void measure(void) { measured(1); }

/* how many bytes of a painted stack a job done once has written over */
static size_t stack_bytes(void (*work)(long))
{
    static uint8_t stack[PAINTED];
    size_t untouched = 0;
    memset(stack, PAINT, sizeof stack);
    measured = work;
    quiet = 1;
    getcontext(&there);
    there.uc_stack.ss_sp = stack;
    there.uc_stack.ss_size = sizeof stack;
    there.uc_link = &here;
    makecontext(&there, measure, 0);
    swapcontext(&here, &there);
    while (untouched < sizeof stack && stack[untouched] == PAINT) untouched++;
    return sizeof stack - untouched;
}

int main(int argc, char **argv)
{
    if (argc == 2 && strcmp(argv[1], "list") == 0) {
        for (int i = 0; i < JOBS; i++) printf("%s|%ld|%s|%s\n", jobs[i].name, jobs[i].repetitions, jobs[i].call, jobs[i].input);
        return 0;
    }
    for (int i = 0; argc == 3 && strcmp(argv[1], "stack") == 0 && i < JOBS; i++)
        if (strcmp(argv[2], jobs[i].name) == 0) {
            jobs[i].make();
            printf("%zu\n", stack_bytes(jobs[i].work));
            return 0;
        }
    for (int i = 0; argc == 3 && i < JOBS; i++)
        if (strcmp(argv[1], jobs[i].name) == 0) {
            jobs[i].make();
            jobs[i].work(atol(argv[2]));
            return 0;
        }
    fprintf(stderr, "bench list | bench JOB REPETITIONS | bench stack JOB\n");
    return 2;
}
