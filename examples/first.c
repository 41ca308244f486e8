#include "anaqsiro.h"
#include <stdio.h>

enum { ANNA = 1, FITTERS = 2, LINE_2 = 9 }; /* names: numbers below 1,024; 0 is the group of all resources */

static uint8_t block[ANAQSIRO_BLOCK_MAX];

static void state(uint64_t kind, uint64_t key, uint64_t id, const char *letters) {
    const struct anaqsiro_half half = {key, id, anaqsiro_mask(letters)};
    uint8_t message[ANAQSIRO_MESSAGE];
    anaqsiro_put_message(message, kind, NULL, &half);
    uint64_t answer = anaqsiro_message(block, sizeof block, message, sizeof message);
    printf("%s\n", anaqsiro_refusal_text(anaqsiro_number(answer)));
}

int main(void) {
    anaqsiro_make(block, sizeof block);
    state(ANAQSIRO_MEMBERSHIP, ANNA, FITTERS, "MRUP"); /* Anna is a fitter, with all that fitters may do */
    state(ANAQSIRO_PERMISSION, LINE_2, FITTERS, "RU"); /* fitters may read and update line 2 */
    uint64_t answer = anaqsiro_may(block, sizeof block, ANNA, LINE_2, anaqsiro_mask("U"), ANAQSIRO_ORDINARY);
    printf("May Anna update line 2? %s\n", anaqsiro_value(answer) ? "yes" : "no");
}
