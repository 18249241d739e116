/* Answers lines of calls through the C face, in the form that outside/README.md describes.
 *
 * Bytes are handed over in blocks of exactly their length, none as NULL, with a marked strip behind the lent buffer;
 * a call that changes an input or writes past its buffer ends the run. */
#include <inttypes.h>
#include <stdio.h>
#include <stdlib.h>
#include <string.h>

#include "carmuspeno.h"

enum { LONGEST_LINE = 20000, LENT = 170, STRIP = 64, STRIP_MARK = 0x5c };

typedef struct {
    uint8_t *bytes; /* NULL where there is none */
    uint8_t *copy;
    size_t length;
} argument;

static void fail(const char *what, const char *line)
{
    fprintf(stderr, "face: %s: %s\n", what, line);
    exit(1);
}

static const char *line_now;

static char *next_word(void)
{
    char *word = strtok(NULL, " ");
    if (!word) fail("a word is missing", line_now);
    return word;
}

static uint64_t next_number(void)
{
    return strtoull(next_word(), NULL, 10);
}

static unsigned digit(char c)
{
    if (c >= '0' && c <= '9') return (unsigned)(c - '0');
    if (c >= 'a' && c <= 'f') return (unsigned)(c - 'a' + 10);
    fail("not a hex digit", line_now);
    return 0;
}

/* the bytes of a word; those of WORDxN are repeated N times, those of WORD+WORD stand one behind the other */
static argument next_bytes(void)
{
    char *word = next_word(), *end;
    argument a = { NULL, NULL, 0 };
    if (strcmp(word, "-") == 0) return a;
    for (;; word = end + 1) {
        size_t once = strcspn(word, "x+") / 2, times = 1, before = a.length;
        end = word + 2 * once;
        if (*end == 'x') times = strtoull(end + 1, &end, 10);
        a.length += once * times;
        a.bytes = realloc(a.bytes, a.length);
        if (!a.bytes) fail("no memory", line_now);
        for (size_t i = 0; i < once * times; i++)
            a.bytes[before + i] = (uint8_t)(digit(word[i % once * 2]) * 16 + digit(word[i % once * 2 + 1]));
        if (*end != '+') break;
    }
    a.copy = malloc(a.length);
    if (!a.copy) fail("no memory", line_now);
    memcpy(a.copy, a.bytes, a.length);
    return a;
}

static void done(argument a)
{
    if (a.length && memcmp(a.bytes, a.copy, a.length) != 0) fail("an input was changed", line_now);
    free(a.bytes);
    free(a.copy);
}

static carm_situation next_situation(void)
{
    carm_situation s;
    memset(&s, 0, sizeof s);
    s.length = next_number();
    argument six = next_bytes();
    if (six.length != 6) fail("a situation has six bytes", line_now);
    memcpy(s.answers, six.bytes, 6);
    done(six);
    return s;
}

static void print_three(uint64_t number, uint64_t place, uint64_t second)
{
    printf("%" PRIu64 " %" PRIu64 " %" PRIu64, number, place, second);
}

static void print_situation(carm_situation s)
{
    printf(" %" PRIu64 " ", s.length);
    for (int i = 0; i < 6; i++) printf("%02x", s.answers[i]);
}

static void print_answer(carm_answer r)
{
    print_three(r.number, r.place, r.second);
    printf(" %" PRIu64 "\n", r.answer);
}

/* a buffer to be lent, and a marked strip behind it */
typedef struct {
    uint8_t *bytes; /* NULL where there is none */
    uint8_t *block;
    size_t room;
} lent;

static lent next_lent(void)
{
    lent l = { NULL, NULL, (size_t)next_number() };
    l.block = malloc(l.room + STRIP);
    if (!l.block) fail("no memory", line_now);
    memset(l.block, LENT, l.room);
    memset(l.block + l.room, STRIP_MARK, STRIP);
    if (l.room) l.bytes = l.block;
    return l;
}

/* the number that stands for all its bytes */
static unsigned long sum_of(lent l)
{
    unsigned long sum = 7;
    for (size_t i = 0; i < l.room; i++) sum = (sum * 31 + l.block[i]) % 1000003;
    for (size_t i = l.room; i < l.room + STRIP; i++)
        if (l.block[i] != STRIP_MARK) fail("written past the lent buffer", line_now);
    free(l.block);
    return sum;
}

static void compile(void)
{
    argument table = next_bytes();
    lent nodes = next_lent();
    carm_compiled r = carm_compile(table.bytes, table.length, nodes.bytes, nodes.room);
    done(table);
    print_three(r.number, r.place, r.second);
    printf(" %" PRIu64 " %" PRIu64 " %" PRIu64 " %lu\n", r.columns, r.rows, r.nodes, sum_of(nodes));
}

static void untable(void)
{
    argument nodes = next_bytes();
    uint64_t columns = next_number();
    lent table = next_lent();
    carm_written r = carm_untable(nodes.bytes, nodes.length, columns, table.bytes, table.room);
    done(nodes);
    print_three(r.number, r.place, r.second);
    printf(" %" PRIu64 " %lu\n", r.length, sum_of(table));
}

static void evaluate(void)
{
    argument nodes = next_bytes(), situation = next_bytes();
    print_answer(carm_evaluate(nodes.bytes, nodes.length, situation.bytes, situation.length));
    done(nodes);
    done(situation);
}

static void merge(void)
{
    carm_situation first = next_situation(), second = next_situation();
    carm_merged r = carm_merge(first, second);
    print_three(r.number, r.place, r.second);
    print_situation(r.situation);
    printf("\n");
}

static void growth(void)
{
    argument nodes = next_bytes();
    uint64_t columns = next_number();
    carm_growth r = carm_check_growth(nodes.bytes, nodes.length, columns);
    done(nodes);
    print_three(r.number, r.place, r.second);
    printf(" %" PRIu64, r.verdict);
    print_situation(r.situation);
    printf(" %" PRIu64 " %" PRIu64 "\n", r.column, r.answer);
}

static void notice(void)
{
    argument bytes = next_bytes();
    carm_noticed r = carm_read_notice(bytes.bytes, bytes.length);
    done(bytes);
    print_three(r.number, r.place, r.second);
    printf(" %" PRIu64 "\n", r.facts);
}

static void speak(void)
{
    argument facts = next_bytes(), voice = next_bytes();
    print_answer(carm_speak(facts.bytes, facts.length, voice.bytes, voice.length));
    done(facts);
    done(voice);
}

static void speak_set(void)
{
    argument facts = next_bytes(), voice = next_bytes();
    carm_heard r = carm_speak_set(facts.bytes, facts.length, voice.bytes, voice.length);
    done(facts);
    done(voice);
    print_three(r.number, r.place, r.second);
    printf(" %" PRIu64 " %" PRIu64 "\n", r.set, r.answer);
}

static void count_week(void)
{
    argument batch = next_bytes(), voice = next_bytes();
    carm_week r = carm_count_week(batch.bytes, batch.length, voice.bytes, voice.length);
    done(batch);
    done(voice);
    print_three(r.number, r.place, r.second);
    printf(" %" PRIu64 " %" PRIu64 " %" PRIu64 " %" PRIu64 " %" PRIu64, r.silent, r.bury, r.keep, r.clash, r.refused);
    for (int number = 0; number < 32; number++) printf(" %" PRIu64, r.by_number[number]);
    printf("\n");
}

static const struct { const char *name; void (*call)(void); } calls[] = {
    { "compile", compile }, { "evaluate", evaluate }, { "merge", merge },         { "growth", growth },         { "untable", untable },
    { "notice", notice },   { "speak", speak },       { "speak_set", speak_set }, { "count_week", count_week },
};

static const struct { const char *name; carm_answer (*call)(uint8_t); } ones[] = {
    { "negate", carm_negate }, { "turn", carm_turn }, { "floor", carm_floor }, { "ceiling", carm_ceiling },
};

static const struct { const char *name; carm_answer (*call)(uint8_t, uint8_t); } twos[] = {
    { "meet", carm_meet },
    { "join", carm_join },
    { "truth_meet", carm_truth_meet },
    { "truth_join", carm_truth_join },
    { "implication", carm_implication },
    { "guard", carm_guard },
    { "priority", carm_priority },
    { "contained", carm_contained },
};

#define COUNT(a) (sizeof(a) / sizeof((a)[0]))

static void answer(const char *name)
{
    for (size_t i = 0; i < COUNT(calls); i++)
        if (strcmp(name, calls[i].name) == 0) {
            calls[i].call();
            return;
        }
    uint8_t p = (uint8_t)next_number();
    for (size_t i = 0; i < COUNT(ones); i++)
        if (strcmp(name, ones[i].name) == 0) {
            print_answer(ones[i].call(p));
            return;
        }
    uint8_t q = (uint8_t)next_number();
    for (size_t i = 0; i < COUNT(twos); i++)
        if (strcmp(name, twos[i].name) == 0) {
            print_answer(twos[i].call(p, q));
            return;
        }
    if (strcmp(name, "replace") != 0) fail("no such call", line_now);
    print_answer(carm_replace(p, q, (uint8_t)next_number()));
}

int main(void)
{
    static char line[LONGEST_LINE], words[LONGEST_LINE];
    while (fgets(line, sizeof line, stdin)) {
        size_t length = strcspn(line, "\n");
        if (line[length] != '\n') fail("a line is too long or has no end", line);
        line[length] = 0;
        line_now = line;
        strcpy(words, line);
        const char *name = strtok(words, " ");
        if (!name) fail("an empty line", line);
        answer(name);
    }
    return 0;
}
