/* Why may planner-7 update the order? A slip says it. The program finds one, reads it out with the records that each step rests on,
 * and checks it. Then it forges it, and checks it after messages: a slip is of the block as it was. At the end are a right by 0,
 * the group of all resources, one that is barred in the strict profile, and one that is not held. */
#include "anaqsiro.h"

#include <stdio.h>

enum { ROOM = 16, AUDITOR_3 = 3, PLANNER_7 = 7, PLANNERS = 10, MAINTENANCE, AUDITORS, LINE_2 = 20, MILL, SHIFT, ORDER_4711 = 711 };

static uint8_t block[ANAQSIRO_BLOCK_MIN + ROOM * ANAQSIRO_RECORD];

/* What each right lets somebody do, by the number of its letter. */
static const char *const verbs[] = {"create", "read", "update", "delete"};

/* What the host calls each number: its table of names. */
static const char *const called[ANAQSIRO_NAMES] = {
    [0] = "0",
    [AUDITOR_3] = "auditor-3",
    [PLANNER_7] = "planner-7",
    [PLANNERS] = "planners",
    [MAINTENANCE] = "maintenance",
    [AUDITORS] = "auditors",
    [LINE_2] = "line-2",
    [MILL] = "mill",
    [SHIFT] = "shift",
    [ORDER_4711] = "order-4711",
};

/* One list of a slip. */
struct chain {
    uint16_t names[ANAQSIRO_CHAIN_MAX];
    size_t length;
};

/* A question about one right, and the slip that was found for it. */
struct slip {
    uint64_t user, object;
    char right;
    struct chain of_user, of_object;
};

/* Sends what a statement about two names said before and says now. A word that is null stands for an absent half. */
static void say(const char *what, uint64_t kind, uint64_t key, uint64_t id, const char *before, const char *now) {
    const struct anaqsiro_half previous = {key, id, anaqsiro_mask(before == NULL ? "" : before)};
    const struct anaqsiro_half next = {key, id, anaqsiro_mask(now == NULL ? "" : now)};
    uint8_t message[ANAQSIRO_MESSAGE];
    anaqsiro_put_message(message, kind, before == NULL ? NULL : &previous, now == NULL ? NULL : &next);
    const uint32_t number = anaqsiro_number(anaqsiro_message(block, sizeof block, message, sizeof message));
    printf("%s%s\n", what, number == ANAQSIRO_ACCEPTED ? "" : ": refused");
}

/* The number of the first record of a kind; of the kind after the last it is how many records there are. */
static uint32_t first_of(uint64_t kind) {
    uint32_t first = 0;
    for (uint64_t before = ANAQSIRO_MEMBERSHIP; before < kind; before++) {
        first += anaqsiro_value(anaqsiro_size(block, sizeof block, before));
    }
    return first;
}

/* How many statements stand with a letter in the record of a kind, a key and an id. */
static uint32_t counted(uint64_t kind, uint64_t key, uint64_t id, uint32_t letter) {
    for (uint32_t number = first_of(kind); number < first_of(kind + 1); number++) {
        const uint64_t record = anaqsiro_record(block, sizeof block, number);
        if (anaqsiro_key(record) == key && anaqsiro_id(record) == id) {
            return anaqsiro_value(anaqsiro_count(block, sizeof block, number, letter));
        }
    }
    return 0;
}

/* Prints the names of a chain. */
static void print_names(const struct chain *chain) {
    for (size_t i = 0; i < chain->length; i++) {
        printf("%s%s", i == 0 ? "" : ", ", called[chain->names[i]]);
    }
}

/* Prints the memberships that a chain rests on: one from each name to the next. */
static void print_steps(const struct chain *chain, char right) {
    for (size_t i = 1; i < chain->length; i++) {
        const uint16_t key = chain->names[i - 1], id = chain->names[i];
        printf("    %s is in %s: the membership carries %c, counted %u\n", called[key], called[id], right,
               counted(ANAQSIRO_MEMBERSHIP, key, id, anaqsiro_letter_number(right)));
    }
}

/* Prints the permission that both chains end at. The letter of a denial has a number that is four above that of its right. */
static void print_grant(const struct slip *slip) {
    const uint16_t id = slip->of_user.names[slip->of_user.length - 1], key = slip->of_object.names[slip->of_object.length - 1];
    const uint32_t letter = anaqsiro_letter_number(slip->right);
    printf("    %s has a permission on %s: it grants %c, counted %u, and denied %u\n", called[id], called[key], slip->right,
           counted(ANAQSIRO_PERMISSION, key, id, letter), counted(ANAQSIRO_PERMISSION, key, id, letter + 4));
}

/* Whether a membership record makes the key a member of the group: one with markers alone does not. */
static int is_in(uint64_t key, uint64_t group) {
    uint32_t letters = 0;
    for (uint32_t letter = 0; letter < ANAQSIRO_LETTERS_OF_PERMISSION; letter++) {
        letters += counted(ANAQSIRO_MEMBERSHIP, key, group, letter);
    }
    return letters > 0;
}

/* Prints the filters of the object and of each group that it is in. */
static void print_filters(const struct slip *slip) {
    for (uint32_t number = first_of(ANAQSIRO_FILTER); number < first_of(ANAQSIRO_FILTER + 1); number++) {
        const uint64_t record = anaqsiro_record(block, sizeof block, number);
        const uint32_t key = anaqsiro_key(record);
        if (key == slip->object || is_in(slip->object, key)) {
            printf("    %s is filtered by %s: that lets %c through, counted %u\n", called[key], called[anaqsiro_id(record)],
                   slip->right, counted(ANAQSIRO_FILTER, key, anaqsiro_id(record), anaqsiro_letter_number(slip->right)));
        }
    }
}

/* Reads a slip out, with what it rests on. The last line is true of every slip that is right. */
static void read_out(const struct slip *slip) {
    printf("  ");
    print_names(&slip->of_user);
    printf(" | ");
    print_names(&slip->of_object);
    printf("\n");
    print_steps(&slip->of_user, slip->right);
    print_steps(&slip->of_object, slip->right);
    print_grant(slip);
    print_filters(slip);
    printf("    the exclusive groups leave %s open to %s\n", called[slip->object], called[slip->user]);
}

/* The mask of the one right. */
static uint64_t mask_of(char right) {
    const char word[] = {right, 0};
    return anaqsiro_mask(word);
}

/* Finds a slip for a user, an object and a right, and reads it out. */
static struct slip find(uint64_t user, uint64_t object, char right) {
    struct slip slip = {user, object, right, {{0}, 0}, {{0}, 0}};
    const uint64_t answer = anaqsiro_find_slip(block, sizeof block, user, object, mask_of(right), slip.of_user.names,
                                               ANAQSIRO_CHAIN_MAX, slip.of_object.names, ANAQSIRO_CHAIN_MAX);
    slip.of_user.length = anaqsiro_user_names(answer);
    slip.of_object.length = anaqsiro_object_names(answer);
    printf("Why may %s %s %s?\n", called[user], verbs[anaqsiro_letter_number(right)], called[object]);
    if (anaqsiro_number(answer) != ANAQSIRO_ACCEPTED) {
        printf("  refused: %s\n", anaqsiro_refusal_text(anaqsiro_number(answer)));
    } else if (anaqsiro_value(answer) == 0) {
        printf("  there is no slip, as the right is not held\n");
    } else {
        read_out(&slip);
    }
    return slip;
}

/* Checks a slip, wherever it comes from. */
static void check(const char *what, const struct slip *slip) {
    const struct chain *users = &slip->of_user, *objects = &slip->of_object;
    const uint64_t answer = anaqsiro_check_slip(block, sizeof block, slip->user, slip->object, mask_of(slip->right), users->names,
                                                users->length, objects->names, objects->length);
    const uint32_t number = anaqsiro_number(answer);
    if (number != ANAQSIRO_ACCEPTED) {
        printf("  %s: refused with %u, %s\n", what, number, anaqsiro_refusal_text(number));
    } else {
        printf("  %s: %s\n", what, anaqsiro_value(answer) ? "yes" : "no");
    }
}

/* The planner, the order, and the mill that both belong to. */
static void load(void) {
    anaqsiro_make(block, sizeof block);
    say("planner-7 is of the mill alone", ANAQSIRO_MEMBERSHIP, PLANNER_7, MILL, NULL, "MRUPX");
    say("planner-7 is one of the planners", ANAQSIRO_MEMBERSHIP, PLANNER_7, PLANNERS, NULL, "MRUP");
    say("planners do maintenance, as far as reading and updating go", ANAQSIRO_MEMBERSHIP, PLANNERS, MAINTENANCE, NULL, "RU");
    say("order-4711 is of line-2", ANAQSIRO_MEMBERSHIP, ORDER_4711, LINE_2, NULL, "MRUP");
    say("line-2 is of the mill", ANAQSIRO_MEMBERSHIP, LINE_2, MILL, NULL, "MRUP");
    say("maintenance may update what is of line-2", ANAQSIRO_PERMISSION, LINE_2, MAINTENANCE, NULL, "U");
    say("the shift lets reading and updating through on line-2", ANAQSIRO_FILTER, LINE_2, SHIFT, NULL, "RU");
}

/* What somebody might make of a slip. */
static void forge(const struct slip *slip) {
    struct slip forged = *slip;
    forged.right = 'R';
    check("for another right", &forged);
    forged = *slip;
    forged.user = AUDITOR_3;
    check("for another user", &forged);
    forged.of_user.names[0] = AUDITOR_3;
    check("and with her name on it", &forged);
    forged = *slip;
    forged.of_user.names[1] = AUDITORS;
    check("with another group", &forged);
    forged.of_user.names[1] = ANAQSIRO_NAMES;
    check("with a name that there is not", &forged);
    forged = *slip;
    forged.of_object.length = 0;
    check("without the object's list", &forged);
}

/* Messages that end a slip, though those of the first two change no record between the names on it, and one that brings a shorter
 * slip. */
static void go_on(const struct slip *yesterday) {
    say("the shift lets reading alone through", ANAQSIRO_FILTER, LINE_2, SHIFT, "RU", "R");
    check("yesterday's slip", yesterday);
    say("and updating again", ANAQSIRO_FILTER, LINE_2, SHIFT, "R", "RU");
    say("line-2 leaves the mill", ANAQSIRO_MEMBERSHIP, LINE_2, MILL, "MRUP", NULL);
    check("yesterday's slip", yesterday);
    say("line-2 is of the mill again", ANAQSIRO_MEMBERSHIP, LINE_2, MILL, NULL, "MRUP");
    say("planner-7 does maintenance on her own account", ANAQSIRO_MEMBERSHIP, PLANNER_7, MAINTENANCE, NULL, "U");
    find(PLANNER_7, ORDER_4711, 'U');
    check("yesterday's slip, which has more names", yesterday);
    say("maintenance may no longer update what is of line-2", ANAQSIRO_PERMISSION, LINE_2, MAINTENANCE, "U", NULL);
    check("yesterday's slip", yesterday);
    find(PLANNER_7, ORDER_4711, 'U');
}

/* A right by the group of all resources, which the object's list has by itself. */
static void find_by_0(void) {
    say("auditor-3 is one of the auditors", ANAQSIRO_MEMBERSHIP, AUDITOR_3, AUDITORS, NULL, "MRUP");
    say("auditors may read everything", ANAQSIRO_PERMISSION, 0, AUDITORS, NULL, "R");
    const struct slip slip = find(AUDITOR_3, ORDER_4711, 'R');
    check("checked", &slip);
    struct slip forged = slip;
    forged.of_object = (struct chain){{ORDER_4711, 0}, 2};
    check("with order-4711 before 0, of which it is no member", &forged);
    say("auditor-3 may not read line-2", ANAQSIRO_PERMISSION, LINE_2, AUDITOR_3, NULL, "r");
    check("checked again, since slips belong to the ordinary profile", &slip);
    const uint64_t strict = anaqsiro_may(block, sizeof block, AUDITOR_3, ORDER_4711, ANAQSIRO_READ, ANAQSIRO_STRICT);
    printf("  may she read it in the strict profile? %s\n", anaqsiro_value(strict) ? "yes" : "no");
}

int main(void) {
    load();
    const struct slip slip = find(PLANNER_7, ORDER_4711, 'U');
    check("checked", &slip);
    forge(&slip);
    go_on(&slip);
    find_by_0();
    find(AUDITOR_3, ORDER_4711, 'P');
    return 0;
}
