/* The desk follows the planner's question with a finger: what may she do with the order if no chain has more than so many memberships?
 * The plain engine answers up to limit 8, and the walk held to the same limit answers the same. A fitter is bound to another firm over
 * two memberships, so that limit 1 shows more than limit 2: a limit is for looking, and the full question decides. At the end is what
 * is refused with 14. */
#include "anaqsiro.h"

#include <stdio.h>

enum { ROOM = 80, FITTER_5 = 5, PLANNER_7 = 7, PLANNERS = 10, MAINTENANCE, HIRED, CRANES, LINE_2 = 20, HALL_1, MILL, SHIFT };
enum { VISITOR = 500, ORDER_4711 = 711 };

static uint8_t block[ANAQSIRO_BLOCK_MIN + ROOM * ANAQSIRO_RECORD];

/* A statement begins. */
static void state(uint64_t kind, uint64_t key, uint64_t id, const char *letters) {
    const struct anaqsiro_half half = {key, id, anaqsiro_mask(letters)};
    uint8_t message[ANAQSIRO_MESSAGE];
    anaqsiro_put_message(message, kind, NULL, &half);
    const uint32_t number = anaqsiro_number(anaqsiro_message(block, sizeof block, message, sizeof message));
    if (number != ANAQSIRO_ACCEPTED) {
        printf("a statement was refused: %s\n", anaqsiro_refusal_text(number));
    }
}

/* The same, said aloud. */
static void say(const char *what, uint64_t kind, uint64_t key, uint64_t id, const char *letters) {
    printf("%s\n", what);
    state(kind, key, id, letters);
}

/* Prints the rights of an answer of either engine or of the full question, or its number where it was refused. */
static void print_held(const char *by, uint64_t answer) {
    char letters[ANAQSIRO_LETTERS + 1];
    const uint32_t number = anaqsiro_number(answer);
    if (number != ANAQSIRO_ACCEPTED) {
        printf("%s refused with %u", by, number);
    } else {
        printf("%s %s", by, anaqsiro_held(answer) == 0 ? "nothing" : anaqsiro_put_letters(letters, anaqsiro_held(answer)));
    }
}

/* Asks both engines at a limit. */
static void ask_at(uint64_t user, uint64_t limit) {
    printf("  limit %u: ", (unsigned)limit);
    print_held("plain", anaqsiro_plain(block, sizeof block, user, ORDER_4711, ANAQSIRO_ALL, limit));
    print_held(", walk", anaqsiro_rights_to(block, sizeof block, user, ORDER_4711, ANAQSIRO_ALL, limit));
    printf("\n");
}

/* Asks them at every limit that the plain engine takes, and then the full question, which decides. */
static void ask(const char *who, uint64_t user) {
    printf("What may %s do with order-4711?\n", who);
    for (uint64_t limit = 0; limit <= ANAQSIRO_PLAIN_LIMIT_MAX; limit++) {
        ask_at(user, limit);
    }
    print_held("  the full question:", anaqsiro_rights(block, sizeof block, user, ORDER_4711, ANAQSIRO_ALL, ANAQSIRO_ORDINARY));
    printf("\n");
}

/* The mill: the order is of a line, the line of a hall, the hall of the mill. Something is granted near and far. */
static void load(void) {
    anaqsiro_make(block, sizeof block);
    say("order-4711 is of line-2", ANAQSIRO_MEMBERSHIP, ORDER_4711, LINE_2, "MRUP");
    say("line-2 is of hall-1", ANAQSIRO_MEMBERSHIP, LINE_2, HALL_1, "MRUP");
    say("hall-1 is of the mill", ANAQSIRO_MEMBERSHIP, HALL_1, MILL, "MRUP");
    say("planner-7 is one of the planners", ANAQSIRO_MEMBERSHIP, PLANNER_7, PLANNERS, "MRUP");
    say("planners do maintenance", ANAQSIRO_MEMBERSHIP, PLANNERS, MAINTENANCE, "MRUP");
    say("maintenance is of the mill alone", ANAQSIRO_MEMBERSHIP, MAINTENANCE, MILL, "MRUPX");
    say("planner-7 may read and delete order-4711", ANAQSIRO_PERMISSION, ORDER_4711, PLANNER_7, "RP");
    say("planners may update what is of line-2", ANAQSIRO_PERMISSION, LINE_2, PLANNERS, "U");
    say("maintenance may create what is of the mill", ANAQSIRO_PERMISSION, MILL, MAINTENANCE, "M");
    say("the shift lets no deleting through on line-2", ANAQSIRO_FILTER, LINE_2, SHIFT, "MRU");
}

/* A fitter of another firm: who is hired is of the cranes alone, and the order is not of the cranes. */
static void hire(void) {
    say("fitter-5 is hired", ANAQSIRO_MEMBERSHIP, FITTER_5, HIRED, "MRUP");
    say("who is hired is of the cranes alone", ANAQSIRO_MEMBERSHIP, HIRED, CRANES, "MRUPX");
    say("who is hired may read what is of line-2", ANAQSIRO_PERMISSION, LINE_2, HIRED, "R");
}

/* Visitors come in until the block has so many memberships. */
static void fill(uint32_t memberships) {
    uint32_t there = anaqsiro_value(anaqsiro_size(block, sizeof block, ANAQSIRO_MEMBERSHIP));
    for (; there < memberships; there++) {
        state(ANAQSIRO_MEMBERSHIP, VISITOR + there, HIRED, "R");
    }
    printf("The block has %u memberships\n", anaqsiro_value(anaqsiro_size(block, sizeof block, ANAQSIRO_MEMBERSHIP)));
}

int main(void) {
    load();
    ask("planner-7", PLANNER_7);
    hire();
    ask("fitter-5", FITTER_5);
    printf("14 is: %s\n", anaqsiro_refusal_text(ANAQSIRO_LIMIT));
    ask_at(PLANNER_7, ANAQSIRO_PLAIN_LIMIT_MAX + 1);
    ask_at(PLANNER_7, ANAQSIRO_LIMIT_MAX + 1);
    fill(ANAQSIRO_PLAIN_RECORDS_MAX);
    ask_at(PLANNER_7, ANAQSIRO_PLAIN_LIMIT_MAX);
    fill(ANAQSIRO_PLAIN_RECORDS_MAX + 1);
    ask_at(PLANNER_7, ANAQSIRO_PLAIN_LIMIT_MAX);
    return 0;
}
