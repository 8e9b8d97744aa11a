/* Says in English and in French why a text is refused: its only line is a goal, which names no view before it. It needs this file,
 * sakthveim.h and libexport.a, and in a folder with the three: cc -o sentence sentence.c libexport.a && ./sentence */
#include <stdio.h>

#include "sakthveim.h"

static const char text[] = "070000\n";

/* Prints a sentence. No 0 closes it, so that its length is said. */
static void say(uint8_t number, uint16_t line, uint8_t language) {
    uint8_t sentence[SAKTHVEIM_SENTENCE];
    size_t length = sakthveim_sentence(number, line, language, sentence, SAKTHVEIM_SENTENCE);
    printf("%.*s\n", (int)length, (const char *)sentence);
}

int main(void) {
    /* The text is handed over without its closing 0. */
    uint32_t r = sakthveim_check((const uint8_t *)text, sizeof text - 1);
    uint8_t number = (uint8_t)SAKTHVEIM_NUMBER(r);
    uint16_t line = (uint16_t)SAKTHVEIM_LINE(r);
    if (r == 0) {
        puts("accepted");
        return 1;
    }
    say(number, line, SAKTHVEIM_ENGLISH);
    say(number, line, SAKTHVEIM_FRENCH);
    return 0;
}
