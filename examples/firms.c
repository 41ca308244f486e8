/* Two firms share one installation: a mill, and the firm that keeps its cranes. The marker X on a membership in a firm binds who
 * has it to what that firm has and to what is nobody's; N on it lets an inspector see all. A marker is part of what a statement
 * said, so the message that ends the statement quotes it. */
#include "anaqsiro.h"

#include <stdio.h>

enum { ROOM = 24, ANNA = 1, BEN, CLARA, DORA, EVERYBODY = 10, MILL, CRANES, SHARED, LINE_2 = 20, CRANE_4, CANTEEN, GATE };

static uint8_t block[ANAQSIRO_BLOCK_MIN + ROOM * ANAQSIRO_RECORD];

struct named {
    uint64_t name;
    const char *words;
};

static const struct named people[] = {{ANNA, "Anna of the mill"}, {BEN, "Ben of the cranes"}, {CLARA, "Clara, inspector"},
                                      {DORA, "Dora of neither"}};
static const struct named objects[] = {{LINE_2, "line 2"}, {CRANE_4, "crane 4"}, {CANTEEN, "canteen"}, {GATE, "gate"}};

/* Applies a message about a membership, and says what came of it. A word that is null stands for an absent half. */
static void state(const char *what, uint64_t name, uint64_t group, const char *before, const char *now) {
    const struct anaqsiro_half previous = {name, group, before == NULL ? 0 : anaqsiro_mask(before)};
    const struct anaqsiro_half said = {name, group, now == NULL ? 0 : anaqsiro_mask(now)};
    uint8_t message[ANAQSIRO_MESSAGE];
    anaqsiro_put_message(message, ANAQSIRO_MEMBERSHIP, before == NULL ? NULL : &previous, now == NULL ? NULL : &said);
    const uint64_t answer = anaqsiro_message(block, sizeof block, message, sizeof message);
    printf("%s: %s\n", what, anaqsiro_refusal_text(anaqsiro_number(answer)));
}

/* Prints what each may read. */
static void print_table(void) {
    for (size_t person = 0; person < sizeof people / sizeof *people; person++) {
        printf("  %s:", people[person].words);
        for (size_t object = 0; object < sizeof objects / sizeof *objects; object++) {
            const uint64_t answer = anaqsiro_may(block, sizeof block, people[person].name, objects[object].name, ANAQSIRO_READ,
                                                 ANAQSIRO_ORDINARY);
            printf(" %s %s%s", objects[object].words, anaqsiro_value(answer) ? "yes" : "no",
                   object + 1 < sizeof objects / sizeof *objects ? "," : "\n");
        }
    }
}

/* Prints the groups of a name as text. */
static void print_groups(uint64_t name) {
    uint8_t text[64];
    const uint64_t answer = anaqsiro_write(block, sizeof block, ANAQSIRO_MEMBERSHIP, name, text, sizeof text);
    printf("  groups of %u: %.*s\n", (unsigned)name, (int)anaqsiro_value(answer), (const char *)text);
}

int main(void) {
    static const uint8_t read_all[] = "10;R";
    anaqsiro_make(block, sizeof block);
    anaqsiro_read(block, sizeof block, ANAQSIRO_PERMISSION, 0, read_all, sizeof read_all - 1);
    for (size_t person = 0; person < sizeof people / sizeof *people; person++) {
        state("one of those who may read everything", people[person].name, EVERYBODY, NULL, "R");
    }
    state("line 2 is the mill's", LINE_2, MILL, NULL, "MRUP");
    state("crane 4 is of the cranes", CRANE_4, CRANES, NULL, "MRUP");
    state("the canteen is shared", CANTEEN, SHARED, NULL, "MRUP");
    print_table();

    state("Anna is of the mill alone", ANNA, MILL, NULL, "MRUPX");
    state("Ben is of the cranes alone", BEN, CRANES, NULL, "MRUPX");
    state("Clara too", CLARA, MILL, NULL, "MRUPX");
    print_table();

    state("but Clara is to see all", CLARA, MILL, "MRUPX", "MRUPN");
    state("the canteen is the mill's too", SHARED, MILL, NULL, "R");
    print_table();

    print_groups(ANNA);
    state("Anna leaves, and the message quotes N", ANNA, MILL, "MRUPN", NULL);
    state("it quotes what was said", ANNA, MILL, "MRUPX", NULL);
    print_groups(ANNA);
    print_table();

    state("both markers at once", BEN, MILL, NULL, "RXN");
    state("a marker without a letter", BEN, MILL, NULL, "X");
    return 0;
}
