/* A planner grants rights on several orders at a time: one wide message stands for every pair of an order and a person. Its
 * statement is changed to fewer orders and ends, and a right that a plain statement gives too is still held then. Each message
 * is sent to two blocks, to one of them by its directory. */
#include "anaqsiro.h"

#include <stdio.h>
#include <string.h>

enum { ROOM = 10, ANNA = 1, BEN = 2, FIRST_ORDER = 20, ORDERS = 4 };

static uint8_t block[ANAQSIRO_BLOCK_MIN + ROOM * ANAQSIRO_RECORD], twin[sizeof block];
static uint16_t directory[ANAQSIRO_DIRECTORY_LENGTH]; /* the twin's */

/* Says what came of a message; the twin has to answer and to become the same. */
static void say(const char *what, uint64_t answer, uint64_t by_directory) {
    printf("%s: %s\n", what, anaqsiro_refusal_text(anaqsiro_number(answer)));
    if (answer != by_directory || memcmp(block, twin, sizeof block) != 0) {
        printf("  by the directory it is not the same\n");
    }
}

/* Applies a message about one order and one person. */
static void state(const char *what, const struct anaqsiro_half *before, const struct anaqsiro_half *now) {
    uint8_t message[ANAQSIRO_MESSAGE];
    anaqsiro_put_message(message, ANAQSIRO_PERMISSION, before, now);
    const uint64_t answer = anaqsiro_message(block, sizeof block, message, sizeof message);
    say(what, answer,
        anaqsiro_message_by(twin, sizeof twin, directory, ANAQSIRO_DIRECTORY_LENGTH, message, sizeof message));
}

/* Applies a wide message: what the statement said before, and what it says now. */
static void state_wide(const char *what, const struct anaqsiro_wide_half *before, const struct anaqsiro_wide_half *now) {
    uint8_t message[ANAQSIRO_WIDE_MAX];
    const size_t length = anaqsiro_put_wide(message, ANAQSIRO_PERMISSION, before, now);
    const uint64_t answer = anaqsiro_wide(block, sizeof block, message, length);
    say(what, answer, anaqsiro_wide_by(twin, sizeof twin, directory, ANAQSIRO_DIRECTORY_LENGTH, message, length));
}

/* Prints which orders a name may release. */
static void print_orders(const char *who, uint64_t name) {
    unsigned orders = 0;
    printf("  %s may release", who);
    for (uint64_t order = FIRST_ORDER; order < FIRST_ORDER + ORDERS; order++) {
        if (anaqsiro_value(anaqsiro_may(block, sizeof block, name, order, ANAQSIRO_UPDATE, ANAQSIRO_ORDINARY))) {
            printf(" %u", (unsigned)order);
            orders++;
        }
    }
    printf(orders == 0 ? " none\n" : "\n");
}

static void print_both(void) {
    print_orders("Anna", ANNA);
    print_orders("Ben", BEN);
}

/* Prints who has rights on an order as text. */
static void print_order(uint64_t order) {
    uint8_t text[64];
    const uint64_t answer = anaqsiro_write(block, sizeof block, ANAQSIRO_PERMISSION, order, text, sizeof text);
    printf("  order %u: %.*s\n", (unsigned)order, (int)anaqsiro_value(answer), (const char *)text);
}

int main(void) {
    const struct anaqsiro_wide_half all_four = {{20, 21, 22, 23}, 4, {ANNA, BEN}, 2, ANAQSIRO_UPDATE};
    const struct anaqsiro_wide_half two = {{20, 21}, 2, {ANNA, BEN}, 2, ANAQSIRO_UPDATE};
    const struct anaqsiro_wide_half two_and_one = {{20, 21, 22}, 3, {ANNA, BEN}, 2, ANAQSIRO_UPDATE};
    const struct anaqsiro_wide_half too_many = {{24, 25, 26, 27}, 4, {ANNA, BEN}, 2, ANAQSIRO_UPDATE};
    const struct anaqsiro_wide_half falling = {{21, 20}, 2, {ANNA}, 1, ANAQSIRO_UPDATE};
    const struct anaqsiro_half one = {22, BEN, ANAQSIRO_UPDATE};
    anaqsiro_make(block, sizeof block);
    anaqsiro_make(twin, sizeof twin);
    anaqsiro_directory(twin, sizeof twin, directory, ANAQSIRO_DIRECTORY_LENGTH);

    state_wide("Anna and Ben may release four orders", NULL, &all_four);
    print_both();
    state("a plain statement lets Ben release order 22 too", NULL, &one);
    print_order(22);

    state_wide("the wide statement is for two orders now", &all_four, &two);
    print_both();
    print_order(22);

    state_wide("one that quotes order 22 besides", &two_and_one, NULL);
    state_wide("eight more pairs, with room for five", NULL, &too_many);
    state_wide("orders that do not rise", NULL, &falling);
    print_both();

    state_wide("the wide statement ends", &two, NULL);
    print_both();
    state("the plain one too", &one, NULL);
    print_both();
    return 0;
}
