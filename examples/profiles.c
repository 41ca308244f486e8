/* The desk asks the same questions in both profiles. In the ordinary one a denial stays in its record; in the strict one it wins over
 * every grant, if it is reached for the right from both sides, as a grant would be. Denials are counted as grants are: a right that
 * two statements deny is barred until both have ended. */
#include "anaqsiro.h"

#include <stdio.h>

enum { ROOM = 24, ANNA = 1, BEN, CLARA, PLANNERS = 10, HIRED, LINE_2 = 20, AUDITED, ORDER_30 = 30, ORDER_31, GATE = 40 };

static uint8_t block[ANAQSIRO_BLOCK_MIN + ROOM * ANAQSIRO_RECORD];

/* Says what was refused. */
static void told(const char *what, uint64_t answer) {
    const uint32_t number = anaqsiro_number(answer);
    if (number != ANAQSIRO_ACCEPTED) {
        printf("%s: refused with %u, %s\n", what, number, anaqsiro_refusal_text(number));
    } else {
        printf("%s\n", what);
    }
}

/* A statement of one kind begins. */
static void begin(const char *what, uint64_t kind, uint64_t key, uint64_t id, const char *letters) {
    const struct anaqsiro_half half = {key, id, anaqsiro_mask(letters)};
    uint8_t message[ANAQSIRO_MESSAGE];
    anaqsiro_put_message(message, kind, NULL, &half);
    told(what, anaqsiro_message(block, sizeof block, message, sizeof message));
}

/* One that grants or denies ends. */
static void end(const char *what, uint64_t key, uint64_t id, const char *letters) {
    const struct anaqsiro_half half = {key, id, anaqsiro_mask(letters)};
    uint8_t message[ANAQSIRO_MESSAGE];
    anaqsiro_put_message(message, ANAQSIRO_PERMISSION, &half, NULL);
    told(what, anaqsiro_message(block, sizeof block, message, sizeof message));
}

/* The rights that a name holds on another in a profile, as letters. The short question has to say yes just where the full one has
 * all that is requested. */
static const char *held(uint64_t user, uint64_t object, uint64_t profile) {
    static char letters[ANAQSIRO_LETTERS + 1];
    const uint32_t rights = anaqsiro_held(anaqsiro_rights(block, sizeof block, user, object, ANAQSIRO_ALL, profile));
    for (uint32_t request = 1; request <= ANAQSIRO_ALL; request++) {
        const uint64_t answer = anaqsiro_may(block, sizeof block, user, object, request, profile);
        if (anaqsiro_value(answer) != ((rights & request) == request)) {
            return "the short question says something else";
        }
    }
    return rights == 0 ? "nothing" : anaqsiro_put_letters(letters, rights);
}

/* Prints what somebody may do with something in each profile. */
static void ask(const char *who, uint64_t user, const char *with, uint64_t object) {
    printf("  %s, %s: ordinary %s", who, with, held(user, object, ANAQSIRO_ORDINARY));
    printf(", strict %s\n", held(user, object, ANAQSIRO_STRICT));
}

/* Two orders of line 2, and planners who may read and update what is of the line. */
static void load(void) {
    anaqsiro_make(block, sizeof block);
    begin("order 30 is of line 2", ANAQSIRO_MEMBERSHIP, ORDER_30, LINE_2, "MRUP");
    begin("order 31 is of line 2", ANAQSIRO_MEMBERSHIP, ORDER_31, LINE_2, "MRUP");
    begin("planners may read and update what is of line 2", ANAQSIRO_PERMISSION, LINE_2, PLANNERS, "RU");
    begin("Anna is a planner", ANAQSIRO_MEMBERSHIP, ANNA, PLANNERS, "MRUP");
    begin("Ben is a planner", ANAQSIRO_MEMBERSHIP, BEN, PLANNERS, "MRUP");
    ask("Anna", ANNA, "order 30", ORDER_30);
    ask("Ben", BEN, "order 30", ORDER_30);
}

/* A denial that comes to Anna by another group of hers, and one that comes to Ben by a group of the order. */
static void deny_by_groups(void) {
    begin("hired staff may not update what is of line 2", ANAQSIRO_PERMISSION, LINE_2, HIRED, "u");
    begin("Anna is hired", ANAQSIRO_MEMBERSHIP, ANNA, HIRED, "MRUP");
    begin("Ben is hired, which carries reading alone", ANAQSIRO_MEMBERSHIP, BEN, HIRED, "R");
    ask("Anna", ANNA, "order 30", ORDER_30);
    ask("Ben", BEN, "order 30", ORDER_30);
    begin("planners may not read what is audited", ANAQSIRO_PERMISSION, AUDITED, PLANNERS, "r");
    begin("order 31 is audited", ANAQSIRO_MEMBERSHIP, ORDER_31, AUDITED, "MRUP");
    ask("Ben", BEN, "order 30", ORDER_30);
    ask("Ben", BEN, "order 31", ORDER_31);
}

/* A denial on 0, and one in the record that grants. */
static void deny_elsewhere(void) {
    begin("planners may delete everything", ANAQSIRO_PERMISSION, 0, PLANNERS, "P");
    begin("Anna may not delete anything", ANAQSIRO_PERMISSION, 0, ANNA, "p");
    ask("Anna", ANNA, "order 30", ORDER_30);
    ask("Anna", ANNA, "the gate", GATE);
    ask("Ben", BEN, "the gate", GATE);
    begin("Clara may read and update the gate", ANAQSIRO_PERMISSION, GATE, CLARA, "RU");
    ask("Clara", CLARA, "the gate", GATE);
    begin("Clara may not update the gate", ANAQSIRO_PERMISSION, GATE, CLARA, "u");
    ask("Clara", CLARA, "the gate", GATE);
}

/* A second statement denies the same, and then both end. */
static void end_denials(void) {
    begin("hired staff may not update what is of line 2, says the foreman too", ANAQSIRO_PERMISSION, LINE_2, HIRED, "u");
    ask("Anna", ANNA, "order 30", ORDER_30);
    end("the foreman takes it back", LINE_2, HIRED, "u");
    ask("Anna", ANNA, "order 30", ORDER_30);
    end("the other denial ends", LINE_2, HIRED, "u");
    ask("Anna", ANNA, "order 30", ORDER_30);
}

/* What is no profile is refused, after everything else that can be wrong with a question. */
static void ask_wrongly(void) {
    const uint64_t none = ANAQSIRO_STRICT + 1;
    told("profile 2", anaqsiro_may(block, sizeof block, ANNA, ORDER_30, ANAQSIRO_READ, none));
    told("and no right requested", anaqsiro_may(block, sizeof block, ANNA, ORDER_30, 0, none));
    told("and no such name", anaqsiro_may(block, sizeof block, ANAQSIRO_NAMES, ORDER_30, 0, none));
}

int main(void) {
    load();
    deny_by_groups();
    deny_elsewhere();
    end_denials();
    ask_wrongly();
    return 0;
}
