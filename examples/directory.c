/* A directory beside a block. The records are loaded without it, and it is made once after them. Then the mill opens its
 * morning due list, many questions that go by the directory and search for no name. A message by it keeps it true, and so does
 * a text. A message without it puts a record in and leaves it behind: the next call by it is refused, and it is made again. */
#include "anaqsiro.h"

#include <stdio.h>
#include <string.h>

enum { PLANNER = 1, PLANNERS = 2, FITTERS = 3, LINES = 9, ORDERS = 100, HOW_MANY = 500 };

static uint8_t block[ANAQSIRO_BLOCK_MAX];
static uint16_t directory[ANAQSIRO_DIRECTORY_LENGTH]; /* it goes with this block, and with no other */

/* Says what was refused, and gives the value of an accepted call; 0 of a refused one. */
static uint32_t told(const char *what, uint64_t answer) {
    const uint32_t number = anaqsiro_number(answer);
    if (number != ANAQSIRO_ACCEPTED) {
        printf("%s: refused with %u, %s\n", what, number, anaqsiro_refusal_text(number));
        return 0;
    }
    return anaqsiro_value(answer);
}

/* A message that gives letters. */
static const uint8_t *giving(uint64_t kind, uint64_t key, uint64_t id, uint64_t mask) {
    static uint8_t message[ANAQSIRO_MESSAGE];
    const struct anaqsiro_half half = {key, id, mask};
    anaqsiro_put_message(message, kind, NULL, &half);
    return message;
}

/* Applies a message without the directory. */
static void apply(const uint8_t *message) {
    told("a message", anaqsiro_message(block, sizeof block, message, ANAQSIRO_MESSAGE));
}

/* Applies a message by the directory, which is then that of the changed block. */
static void apply_by(const uint8_t *message) {
    told("a message by it",
         anaqsiro_message_by(block, sizeof block, directory, ANAQSIRO_DIRECTORY_LENGTH, message, ANAQSIRO_MESSAGE));
}

/* Makes the directory, or makes it again. */
static void make_directory(void) {
    told("directory", anaqsiro_directory(block, sizeof block, directory, ANAQSIRO_DIRECTORY_LENGTH));
}

/* Loads the mill: a planner, orders on ten lines, and what planners may do on one of these. No message has a directory to keep,
 * since it is made once at the end. */
static void load(void) {
    told("make", anaqsiro_make(block, sizeof block));
    apply(giving(ANAQSIRO_MEMBERSHIP, PLANNER, PLANNERS, ANAQSIRO_ALL));
    for (uint64_t order = 0; order < HOW_MANY; order++) {
        apply(giving(ANAQSIRO_MEMBERSHIP, ORDERS + order, LINES + order % 10, ANAQSIRO_ALL));
    }
    apply(giving(ANAQSIRO_PERMISSION, LINES + 3, PLANNERS, ANAQSIRO_READ | ANAQSIRO_UPDATE));
    make_directory();
}

/* How many of the orders a name may release. The first refusal ends the list. */
static void due_list(const char *who, uint64_t name) {
    uint32_t may = 0;
    for (uint64_t order = 0; order < HOW_MANY; order++) {
        const uint64_t answer = anaqsiro_may_by(block, sizeof block, directory, ANAQSIRO_DIRECTORY_LENGTH, name, ORDERS + order,
                                                ANAQSIRO_UPDATE, ANAQSIRO_ORDINARY);
        may += told("the due list", answer);
        if (anaqsiro_number(answer) != ANAQSIRO_ACCEPTED) {
            return;
        }
    }
    printf("%s may release %u of %d orders\n", who, may, HOW_MANY);
}

/* Where the directory says that the permissions on a line are. */
static void print_place(uint64_t line) {
    const uint16_t *permissions = directory + ANAQSIRO_DIRECTORY_PART;
    printf("permissions on %lu: bytes %u to %u\n", (unsigned long)line, permissions[line], permissions[line + 1]);
}

int main(void) {
    static const char text[] = "2;RU;3;R";
    uint8_t out[64];

    load();
    print_place(LINES + 3);
    due_list("the planner", PLANNER);

    apply_by(giving(ANAQSIRO_PERMISSION, LINES + 1, PLANNERS, ANAQSIRO_UPDATE));
    print_place(LINES + 3);
    due_list("with line 10 she", PLANNER);

    printf("read by it: %u records\n",
           told("read", anaqsiro_read_by(block, sizeof block, directory, ANAQSIRO_DIRECTORY_LENGTH, ANAQSIRO_PERMISSION,
                                         LINES + 5, (const uint8_t *)text, strlen(text))));
    const uint32_t length = told("write", anaqsiro_write_by(block, sizeof block, directory, ANAQSIRO_DIRECTORY_LENGTH,
                                                            ANAQSIRO_PERMISSION, LINES + 5, out, sizeof out));
    printf("written by it: %.*s\n", (int)length, (const char *)out);

    apply(giving(ANAQSIRO_MEMBERSHIP, PLANNER, FITTERS, ANAQSIRO_ALL));
    due_list("after a message without it", PLANNER);
    make_directory();
    due_list("with all three lines she", PLANNER);
    const uint64_t answer = anaqsiro_rights_by(block, sizeof block, directory, ANAQSIRO_DIRECTORY_LENGTH, PLANNER, ORDERS + 5,
                                               ANAQSIRO_ALL, ANAQSIRO_ORDINARY);
    printf("memberships examined: %u for her, %u for an order\n", anaqsiro_user_examined(answer),
           anaqsiro_object_examined(answer));
    return 0;
}
