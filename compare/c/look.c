/* Searches the example of document 01. It needs this file, sakthveim.h and libexport.a, and in a folder with the three:
 * cc -o look look.c libexport.a && ./look */
#include <inttypes.h>
#include <stdio.h>

#include "sakthveim.h"

static const char text[] = "010101000000000c\n"
                           "0301000112000008010000010000\n"
                           "0301010112000005010000010000\n"
                           "070200\n";

/* Prints the English sentence of a refusal. No 0 closes it, so that its length is said. */
static void say(uint8_t number, uint16_t line) {
    uint8_t sentence[SAKTHVEIM_SENTENCE];
    size_t length =
        sakthveim_sentence(number, line, SAKTHVEIM_ENGLISH, sentence, SAKTHVEIM_SENTENCE);
    printf("%.*s\n", (int)length, (const char *)sentence);
}

int main(void) {
    static int32_t work[SAKTHVEIM_WORK];
    int16_t cells[1];
    /* The text is handed over without its closing 0. */
    uint64_t r = sakthveim_look((const uint8_t *)text, sizeof text - 1, 0, UINT64_MAX, work,
                                SAKTHVEIM_WORK, cells, 1);
    switch (SAKTHVEIM_ANSWER(r)) {
    case SAKTHVEIM_CASE:
        printf("case %" PRIu64 ", cells [%d]\n", SAKTHVEIM_VALUE(r), cells[0]);
        return 0;
    case SAKTHVEIM_NO_CASE:
        puts("no case");
        return 0;
    case SAKTHVEIM_SPENT:
        printf("spent, next %" PRIu64 "\n", SAKTHVEIM_VALUE(r));
        return 0;
    default:
        printf("refusal %" PRIu32 ", line %" PRIu32 "\n", SAKTHVEIM_NUMBER(r), SAKTHVEIM_LINE(r));
        say((uint8_t)SAKTHVEIM_NUMBER(r), (uint16_t)SAKTHVEIM_LINE(r));
        return 1;
    }
}
