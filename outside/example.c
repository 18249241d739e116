/* A small use of the C face: compile a table, ask what it answers, see whether it grows, get a table back from its nodes, let a voice
 * speak, count a week. */
#include <inttypes.h>
#include <stdio.h>

#include "carmuspeno.h"

/* Two columns, laptop and library; each row is 02 00 03, two cells, an outcome. 4 is any. */
static const uint8_t table[] = {
    1, 0, 1, 2,        /* two columns */
    2, 0, 3, 1, 4, 1,  /* laptop buries: bury */
    2, 0, 3, 2, 4, 2,  /* laptop keeps: keep */
    2, 0, 3, 3, 4, 3,  /* laptop clashes: clash */
    2, 0, 3, 0, 1, 1,  /* laptop is silent: as the library says */
    2, 0, 3, 0, 2, 2,
    2, 0, 3, 0, 3, 3,
};

static const char *const words[] = { "silent", "bury", "keep", "clash" };

int main(void)
{
    static uint8_t nodes[CARM_NODES_MAX]; /* room for every lawful table; too much for a small stack */
    carm_compiled made = carm_compile(table, sizeof table, nodes, sizeof nodes);
    if (made.number != 0) {
        printf("refused %" PRIu64 " at %" PRIu64 "\n", made.number, made.place);
        return 1;
    }
    printf("compiled: %" PRIu64 " columns, %" PRIu64 " rows, %" PRIu64 " nodes\n", made.columns, made.rows, made.nodes);

    const uint8_t situation[] = { 0, 1 };
    carm_answer said = carm_evaluate(nodes, made.nodes, situation, sizeof situation);
    printf("laptop silent, library bury: %s\n", words[said.answer]);

    carm_growth growth = carm_check_growth(nodes, made.nodes, made.columns);
    if (growth.verdict == CARM_YES) {
        printf("growth: yes\n");
    } else {
        printf("growth: no, from");
        for (uint64_t column = 0; column < growth.situation.length; column++)
            printf(" %s", words[growth.situation.answers[column]]);
        printf(" with column %" PRIu64 " raised to %s\n", growth.column, words[growth.answer]);
    }

    /* a table from the nodes alone: a row for each situation that they answer */
    uint8_t back[CARM_BACK_MAX];
    carm_written written = carm_untable(nodes, made.nodes, made.columns, back, sizeof back);
    printf("given back: %" PRIu64 " bytes, %" PRIu64 " rows\n", written.length, (written.length - 4) / (made.columns + 4));

    /* keep, when fact 7 is not 1; an old device's notice has no fact 7 */
    const uint8_t voice[] = { 24, 40, 43, 0, 7, 0, 0, 0, 1, 2 };
    printf("voice: %s\n", words[carm_speak(NULL, 0, voice, sizeof voice).answer]);
    carm_heard heard = carm_speak_set(NULL, 0, voice, sizeof voice);
    printf("it may answer:");
    for (int answer = 0; answer < 4; answer++)
        if (heard.set >> answer & 1) printf(" %s", words[answer]);
    printf("\n");

    /* a batch: fact 7 is 0, fact 7 is 1, no facts, and a notice that is cut short */
    const uint8_t batch[] = {
        17, 0, 9, 16, 0, 6, 0, 7, 0, 0, 0, 0,
        17, 0, 9, 16, 0, 6, 0, 7, 0, 0, 0, 1,
        17, 0, 0,
        17, 0, 1, 16,
    };
    carm_week week = carm_count_week(batch, sizeof batch, voice, sizeof voice);
    printf("week: silent %" PRIu64 ", bury %" PRIu64 ", keep %" PRIu64 ", clash %" PRIu64, week.silent, week.bury, week.keep, week.clash);
    printf(", refused %" PRIu64 ", cut short %" PRIu64 "\n", week.refused, week.by_number[CARM_SHORT]);

    /* the laptop's report merged with the library's */
    carm_situation laptop = { 2, { CARM_KEEP, CARM_SILENT } }, library = { 2, { CARM_SILENT, CARM_BURY } };
    carm_merged both = carm_merge(laptop, library);
    said = carm_evaluate(nodes, made.nodes, both.situation.answers, both.situation.length);
    const uint8_t *merged = both.situation.answers;
    printf("merged: %s %s, and the table says %s\n", words[merged[0]], words[merged[1]], words[said.answer]);

    /* one byte of room too few */
    carm_compiled refused = carm_compile(table, sizeof table, nodes, made.nodes - 1);
    printf("with a byte less: refused %" PRIu64 " (ROOM), %" PRIu64 " nodes needed\n", refused.number, refused.place);
    return 0;
}
