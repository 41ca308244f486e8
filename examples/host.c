/* The mill's story, told by a host program: two appointments give a right, one ends, and the right stands. A tablet's maker is
 * told how many memberships the question examined. Then the desk reads in texts that are wrong, and is shown where. */
#include "anaqsiro.h"

#include <stdio.h>
#include <string.h>

enum { ROOM = 8, PLANNER = 1, PLANNERS = 2, STAFF = 3, PAPERS = 8, REQUESTS = 9, COPY = 10 };

static uint8_t block[ANAQSIRO_BLOCK_MIN + ROOM * ANAQSIRO_RECORD];

/* Says what was refused, and gives the value of an accepted call; 0 of a refused one. */
static uint32_t told(const char *what, uint64_t answer) {
    const uint32_t number = anaqsiro_number(answer);
    if (number != ANAQSIRO_ACCEPTED) {
        printf("%s: refused with %u, %s\n", what, number, anaqsiro_refusal_text(number));
        return 0;
    }
    return anaqsiro_value(answer);
}

/* Applies a message to the block. */
static void apply(const char *what, uint64_t kind, const struct anaqsiro_half *previous, const struct anaqsiro_half *new_half) {
    uint8_t message[ANAQSIRO_MESSAGE];
    anaqsiro_put_message(message, kind, previous, new_half);
    told(what, anaqsiro_message(block, sizeof block, message, sizeof message));
}

/* Makes a name a member of a group, with all that the group may do. */
static void join(uint64_t name, uint64_t group) {
    const struct anaqsiro_half member = {name, group, ANAQSIRO_ALL};
    apply("a membership", ANAQSIRO_MEMBERSHIP, NULL, &member);
}

/* Asks what the planner may do with the purchase requests, and says how many memberships were examined for it. */
static void ask_all(void) {
    char letters[ANAQSIRO_LETTERS + 1];
    const uint64_t answer = anaqsiro_rights(block, sizeof block, PLANNER, REQUESTS, ANAQSIRO_ALL, ANAQSIRO_ORDINARY);
    told("rights", answer);
    printf("rights on the requests: %s\n", anaqsiro_put_letters(letters, anaqsiro_held(answer)));
    printf("memberships examined: %u for the planner, %u for the requests\n", anaqsiro_user_examined(answer),
           anaqsiro_object_examined(answer));
}

/* Asks whether the planner may release the purchase requests. */
static void ask(void) {
    const uint64_t answer = anaqsiro_may(block, sizeof block, PLANNER, REQUESTS, ANAQSIRO_UPDATE, ANAQSIRO_ORDINARY);
    printf("may release: %s\n", told("may", answer) ? "yes" : "no");
}

/* Prints a record by its number: the kind, the key, the id, and the count of each letter that has one. */
static void print_record(char kind, uint32_t number) {
    const uint64_t record = anaqsiro_record(block, sizeof block, number);
    printf("record %u: %c, key %u, id %u:", number, kind, anaqsiro_key(record), anaqsiro_id(record));
    for (uint32_t letter = 0; letter < ANAQSIRO_LETTERS; letter++) {
        const uint32_t count = anaqsiro_value(anaqsiro_count(block, sizeof block, number, letter));
        if (count > 0) {
            printf(" %c %u", ANAQSIRO_SPELLED[letter], count);
        }
    }
    printf("\n");
}

/* Prints every record of a good block. */
static void print_records(void) {
    told("tested", anaqsiro_tested(block, sizeof block));
    uint32_t number = 0;
    for (int kind = ANAQSIRO_MEMBERSHIP; kind <= ANAQSIRO_FILTER; kind++) {
        for (uint32_t left = told("size", anaqsiro_size(block, sizeof block, kind)); left > 0; left--) {
            print_record(" MPF"[kind], number++);
        }
    }
}

/* Prints a text up to the end of its line, and a caret under the byte at the place: the first wrong one, or the end of a text
 * that ends too early. No place is behind the end of the line, which stands in no text of a set. */
static void print_place(const char *text, uint32_t place) {
    printf("  %.*s\n  %*s^\n", (int)strcspn(text, "\n"), text, (int)place, "");
}

/* Reads in a set as the desk has written it, and shows where it is wrong. */
static void read_in(const char *what, const char *text) {
    const uint64_t answer =
        anaqsiro_read(block, sizeof block, ANAQSIRO_PERMISSION, COPY, (const uint8_t *)text, strlen(text));
    const uint32_t records = told(what, answer);
    if (anaqsiro_number(answer) == ANAQSIRO_ACCEPTED) {
        printf("%s: %u records\n", what, records);
    } else if (anaqsiro_number(answer) == ANAQSIRO_TEXT) {
        print_place(text, anaqsiro_value(answer));
    }
}

int main(void) {
    const struct anaqsiro_half may_release = {REQUESTS, PLANNER, ANAQSIRO_UPDATE};

    told("make", anaqsiro_make(block, sizeof block));
    join(PLANNER, PLANNERS);
    join(PLANNERS, STAFF);
    join(REQUESTS, PAPERS);
    apply("first appointment", ANAQSIRO_PERMISSION, NULL, &may_release);
    apply("second appointment", ANAQSIRO_PERMISSION, NULL, &may_release);
    print_records();
    apply("the first ends", ANAQSIRO_PERMISSION, &may_release, NULL);
    ask_all();
    ask();

    uint8_t text[64];
    const uint32_t length =
        told("write", anaqsiro_write(block, sizeof block, ANAQSIRO_PERMISSION, REQUESTS, text, sizeof text));
    printf("the set: %.*s\n", (int)length, (const char *)text);
    printf("read back under %d: %u record\n", COPY,
           told("read", anaqsiro_read(block, sizeof block, ANAQSIRO_PERMISSION, COPY, text, length)));
    print_records();

    apply("the second ends", ANAQSIRO_PERMISSION, &may_release, NULL);
    apply("a third would end", ANAQSIRO_PERMISSION, &may_release, NULL);
    ask();
    told("a name past 16 bits",
         anaqsiro_rights(block, sizeof block, (1u << 16) + PLANNER, REQUESTS, ANAQSIRO_ALL, ANAQSIRO_ORDINARY));

    read_in("letters in another order", "1;U;4;UR2;12;R;30;M");
    read_in("an id that was there before", "1;U;4;RU2;12;R;4;M");
    read_in("a count of 1", "1;U;4;RU2;12;R;30;M1");
    read_in("a line end", "1;U;4;RU2;12;R;30;M\n");
    read_in("as it should be", "1;U;4;RU2;12;R;30;M");
    return 0;
}
