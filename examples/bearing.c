/* The paint shop plans changes, and Anna, who plans for line 2, asks which of them can touch what she may do with order 30. Then each
 * is sent in its turn. One that does not bear leaves every answer as it was: both questions, in both profiles, whatever is requested,
 * with the memberships examined. One that bears may change an answer, or leave all as they were. And after one that bears another
 * may bear that did not before. */
#include "anaqsiro.h"

#include <stdio.h>
#include <string.h>

/* people, groups of people, what orders are of, orders, filters; 0 is the group of all resources */
enum { ANNA = 1, BEN, CARLA, PLANNERS = 10, MECHANICS, PAINTERS, LINE_2 = 20, HALL_1, BOOTH, ORDER_30 = 30, ORDER_40 = 40 };
enum { ALL_RESOURCES = 0, CLEANING = 50, PAINTING, PROFILES = 2, ROOM = 32 };
enum { CREATE = ANAQSIRO_CREATE, READ = ANAQSIRO_READ, UPDATE = ANAQSIRO_UPDATE, DELETE = ANAQSIRO_DELETE, ALL = ANAQSIRO_ALL };
enum { MEMBERSHIP = ANAQSIRO_MEMBERSHIP, PERMISSION = ANAQSIRO_PERMISSION, FILTER = ANAQSIRO_FILTER };

static uint8_t block[ANAQSIRO_BLOCK_MIN + ROOM * ANAQSIRO_RECORD];

/* A change: what a statement said before, and what it says now. A half whose mask is 0 is absent. */
struct change {
    const char *what;
    uint64_t kind;
    struct anaqsiro_half before, now;
};

static const struct change loaded[] = {
    {"Anna is a planner", MEMBERSHIP, {0, 0, 0}, {ANNA, PLANNERS, ALL}},
    {"planners are mechanics", MEMBERSHIP, {0, 0, 0}, {PLANNERS, MECHANICS, ALL}},
    {"order 30 is of line 2", MEMBERSHIP, {0, 0, 0}, {ORDER_30, LINE_2, ALL}},
    {"line 2 is of hall 1", MEMBERSHIP, {0, 0, 0}, {LINE_2, HALL_1, ALL}},
    {"planners may update what is of line 2", PERMISSION, {0, 0, 0}, {LINE_2, PLANNERS, UPDATE}},
    {"mechanics may read what is of hall 1", PERMISSION, {0, 0, 0}, {HALL_1, MECHANICS, READ}},
    {"Ben is a painter", MEMBERSHIP, {0, 0, 0}, {BEN, PAINTERS, ALL}},
    {"order 40 is of the paint booth", MEMBERSHIP, {0, 0, 0}, {ORDER_40, BOOTH, ALL}},
    {"painters may update what is of the booth", PERMISSION, {0, 0, 0}, {BOOTH, PAINTERS, UPDATE}},
};

static const struct change planned[] = {
    {"Carla becomes a painter", MEMBERSHIP, {0, 0, 0}, {CARLA, PAINTERS, ALL}},
    {"order 40 moves from the booth to line 2", MEMBERSHIP, {ORDER_40, BOOTH, ALL}, {ORDER_40, LINE_2, ALL}},
    {"painters may read what is of hall 1", PERMISSION, {0, 0, 0}, {HALL_1, PAINTERS, READ}},
    {"mechanics may delete what is of the booth", PERMISSION, {0, 0, 0}, {BOOTH, MECHANICS, DELETE}},
    {"while it is cleaned, the booth is only read", FILTER, {0, 0, 0}, {BOOTH, CLEANING, READ}},
    {"mechanics may read everything", PERMISSION, {0, 0, 0}, {ALL_RESOURCES, MECHANICS, READ}},
    {"line 2 is of the booth, too", MEMBERSHIP, {0, 0, 0}, {LINE_2, BOOTH, ALL}},
    {"mechanics may create what is of the booth", PERMISSION, {0, 0, 0}, {BOOTH, MECHANICS, CREATE}},
    {"while it is painted, line 2 is only read", FILTER, {0, 0, 0}, {LINE_2, PAINTING, READ}},
};

enum { LOADED = sizeof loaded / sizeof *loaded, PLANNED = sizeof planned / sizeof *planned };

/* Whether the record of a half bears on what Anna may do with order 30. That of an absent half does not. A refusal is not taken for
 * a no. */
static int half_bears(uint64_t kind, const struct anaqsiro_half *half) {
    if (half->mask == 0) {
        return 0;
    }
    const uint64_t answer = anaqsiro_bears(block, sizeof block, ANNA, ORDER_30, kind, half->key, half->id);
    return anaqsiro_number(answer) != ANAQSIRO_ACCEPTED || anaqsiro_value(answer) == 1;
}

/* Whether a change bears: one of the records that it names does. */
static int bears(const struct change *one) { return half_bears(one->kind, &one->before) || half_bears(one->kind, &one->now); }

/* Sends a change. */
static void send(const struct change *one) {
    uint8_t message[ANAQSIRO_MESSAGE];
    anaqsiro_put_message(message, one->kind, one->before.mask == 0 ? NULL : &one->before, one->now.mask == 0 ? NULL : &one->now);
    const uint32_t number = anaqsiro_number(anaqsiro_message(block, sizeof block, message, sizeof message));
    if (number != ANAQSIRO_ACCEPTED) {
        printf("%s: refused with %u, %s\n", one->what, number, anaqsiro_refusal_text(number));
    }
}

/* All that can be asked about Anna and order 30. */
struct answers {
    uint64_t rights[PROFILES][ALL], may[PROFILES][ALL];
};

static struct answers ask(void) {
    struct answers all;
    for (uint64_t profile = 0; profile < PROFILES; profile++) {
        for (uint64_t request = 1; request <= ALL; request++) {
            all.rights[profile][request - 1] = anaqsiro_rights(block, sizeof block, ANNA, ORDER_30, request, profile);
            all.may[profile][request - 1] = anaqsiro_may(block, sizeof block, ANNA, ORDER_30, request, profile);
        }
    }
    return all;
}

/* The rights among the answers, as letters. (Nothing is denied in this story, so that they are the same in both profiles.) */
static char *rights_of(char *letters, const struct answers *all) {
    return anaqsiro_put_letters(letters, anaqsiro_held(all->rights[ANAQSIRO_ORDINARY][ALL - 1]));
}

/* Prints what a change did. The first words are never printed: that is what is proved. */
static void print_outcome(int bore, const struct answers *before, const struct answers *after) {
    char were[ANAQSIRO_LETTERS + 1], are[ANAQSIRO_LETTERS + 1];
    const int same = memcmp(before, after, sizeof *before) == 0;
    rights_of(were, before);
    rights_of(are, after);
    if (!bore && !same) {
        printf(", and yet an answer is another: rights were %s, are %s\n", were, are);
    } else if (strcmp(were, are) != 0) {
        printf(": rights were %s, are %s\n", were, are);
    } else if (!same) {
        printf(", and changes another answer: %s, as before\n", are);
    } else {
        printf("%s: %s, as before\n", bore ? ", and changes nothing" : "", are);
    }
}

/* Sends a change, and asks before and after. Whether it bears is asked again: since the list was gone through, others were sent. */
static void send_and_ask(const struct change *one, int bore_at_first) {
    const int bore = bears(one);
    const struct answers before = ask();
    send(one);
    const struct answers after = ask();
    printf("  %s\n    %s%s", one->what, bore ? "bears" : "does not bear", bore == bore_at_first ? "" : " by now");
    print_outcome(bore, &before, &after);
}

int main(void) {
    char letters[ANAQSIRO_LETTERS + 1];
    int bore[PLANNED];
    anaqsiro_make(block, sizeof block);
    for (size_t i = 0; i < LOADED; i++) {
        send(&loaded[i]);
        printf("%s\n", loaded[i].what);
    }
    const struct answers first = ask();
    printf("What may Anna do with order 30? %s\n", rights_of(letters, &first));
    printf("The paint shop plans this. Can it touch what she may do?\n");
    for (size_t i = 0; i < PLANNED; i++) {
        bore[i] = bears(&planned[i]);
        printf("  %s: %s\n", planned[i].what, bore[i] ? "bears" : "does not bear");
    }
    printf("Now each is sent in its turn:\n");
    for (size_t i = 0; i < PLANNED; i++) {
        send_and_ask(&planned[i], bore[i]);
    }
    return 0;
}
