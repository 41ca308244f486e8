/* What a host does with a block beside asking: it gives it more room, sees whether a name's number may be used again, and takes
 * it over as texts. Last, why it stores a checksum with it. */
#include "anaqsiro.h"

#include <stdio.h>
#include <stdlib.h>
#include <string.h>

enum { PLANNER = 1, PLANNERS = 2, FITTERS = 3, REQUESTS = 9 };
enum { SMALL = ANAQSIRO_BLOCK_MIN + 2 * ANAQSIRO_RECORD, LARGE = ANAQSIRO_BLOCK_MIN + 4 * ANAQSIRO_RECORD };

/* The letters of the kinds, by their number. */
static const char kinds[] = " MPF";

/* Applies a message, and gives its number. */
static uint32_t apply(uint8_t *block, size_t len, uint64_t kind, const struct anaqsiro_half *previous,
                      const struct anaqsiro_half *new_half) {
    uint8_t message[ANAQSIRO_MESSAGE];
    anaqsiro_put_message(message, kind, previous, new_half);
    return anaqsiro_number(anaqsiro_message(block, len, message, sizeof message));
}

/* How many records a block has. */
static uint32_t records(const uint8_t *block, size_t len) {
    uint32_t all = 0;
    for (int kind = ANAQSIRO_MEMBERSHIP; kind <= ANAQSIRO_FILTER; kind++) {
        all += anaqsiro_value(anaqsiro_size(block, len, kind));
    }
    return all;
}

/* Copies a good block into a buffer of another length: a longer one for more room, or a shorter one that its records still fit
 * into. What a block has behind its records is zero, and nothing in it says how long it is. Gives the number 0, 1, 2 or 8. */
static uint32_t copy_into(uint8_t *other, size_t other_len, const uint8_t *block, size_t len) {
    const uint32_t number = anaqsiro_number(anaqsiro_tested(block, len));
    if (number != ANAQSIRO_ACCEPTED) {
        return number;
    }
    const size_t used = ANAQSIRO_BLOCK_MIN + ANAQSIRO_RECORD * records(block, len);
    if (used > other_len) {
        return ANAQSIRO_NO_ROOM;
    }
    memcpy(other, block, used);
    memset(other + used, 0, other_len - used);
    return anaqsiro_number(anaqsiro_tested(other, other_len));
}

/* Whether a good block names a name, as the key or the id of a record. */
static int names(const uint8_t *block, size_t len, uint64_t name) {
    const uint32_t all = records(block, len);
    for (uint32_t number = 0; number < all; number++) {
        const uint64_t record = anaqsiro_record(block, len, number);
        if (anaqsiro_key(record) == name || anaqsiro_id(record) == name) {
            return 1;
        }
    }
    return 0;
}

/* Writes every set of a good block that is not empty as a line: the kind's letter, the key, a space, the text. Gives the
 * block's number, 0, 1 or 2. */
static uint32_t write_sets(FILE *lines, const uint8_t *block, size_t len) {
    static uint8_t text[ANAQSIRO_TEXT_MAX];
    for (int kind = ANAQSIRO_MEMBERSHIP; kind <= ANAQSIRO_FILTER; kind++) {
        for (uint32_t key = 0; key < ANAQSIRO_NAMES; key++) {
            const uint32_t length = anaqsiro_value(anaqsiro_write(block, len, kind, key, text, sizeof text));
            if (length > 0) {
                fprintf(lines, "%c%u %.*s\n", kinds[kind], key, (int)length, (const char *)text);
            }
        }
    }
    return anaqsiro_number(anaqsiro_tested(block, len));
}

/* Reads one such line into a block, and gives the number: 9 for a line that is none. */
static uint32_t read_line(char *line, uint8_t *block, size_t len) {
    const char *kind = line[0] == 0 ? NULL : strchr(kinds, line[0]);
    char *text = line;
    const unsigned long key = kind == NULL ? 0 : strtoul(line + 1, &text, 10);
    if (kind == NULL || *text != ' ') {
        return ANAQSIRO_TEXT;
    }
    text++;
    text[strcspn(text, "\n")] = 0;
    return anaqsiro_number(anaqsiro_read(block, len, kind - kinds, key, (const uint8_t *)text, strlen(text)));
}

/* Reads such lines into a block, up to the first that is refused, and gives its number. */
static uint32_t read_sets(FILE *lines, uint8_t *block, size_t len) {
    static char line[ANAQSIRO_TEXT_MAX + 16];
    uint32_t number = ANAQSIRO_ACCEPTED;
    while (number == ANAQSIRO_ACCEPTED && fgets(line, sizeof line, lines) != NULL) {
        number = read_line(line, block, len);
    }
    return number;
}

/* Turns each bit of the header and the records over, one at a time, and counts how often the block is good all the same. */
static void count_faults(uint8_t *block, size_t len) {
    unsigned faults = 0, unseen = 0;
    const size_t used = ANAQSIRO_BLOCK_MIN + ANAQSIRO_RECORD * records(block, len);
    for (size_t at = 0; at < used; at++) {
        for (unsigned bit = 1; bit < 256; bit *= 2) {
            block[at] ^= (uint8_t)bit;
            faults++;
            unseen += anaqsiro_number(anaqsiro_tested(block, len)) == ANAQSIRO_ACCEPTED;
            block[at] ^= (uint8_t)bit;
        }
    }
    printf("one bit of it wrong: after %u of %u such faults it is another good block\n", unseen, faults);
}

/* Prints what a call or a function above gave. */
static void say(const char *what, uint32_t number) { printf("%s: %s\n", what, anaqsiro_refusal_text(number)); }

int main(void) {
    const struct anaqsiro_half planner = {PLANNER, PLANNERS, ANAQSIRO_ALL};
    const struct anaqsiro_half planners = {REQUESTS, PLANNERS, ANAQSIRO_UPDATE};
    const struct anaqsiro_half fitters = {REQUESTS, FITTERS, ANAQSIRO_READ};
    static uint8_t small[SMALL], large[LARGE], other[LARGE];

    anaqsiro_make(small, sizeof small);
    apply(small, sizeof small, ANAQSIRO_MEMBERSHIP, NULL, &planner);
    apply(small, sizeof small, ANAQSIRO_PERMISSION, NULL, &planners);
    say("a third record in room for two", apply(small, sizeof small, ANAQSIRO_PERMISSION, NULL, &fitters));
    say("the block copied into a longer one", copy_into(large, sizeof large, small, sizeof small));
    say("the third record there", apply(large, sizeof large, ANAQSIRO_PERMISSION, NULL, &fitters));
    say("all three copied back", copy_into(small, sizeof small, large, sizeof large));

    printf("a record names the fitters: %s\n", names(large, sizeof large, FITTERS) ? "yes" : "no");
    say("their permission is withdrawn", apply(large, sizeof large, ANAQSIRO_PERMISSION, &fitters, NULL));
    printf("a record names the fitters: %s\n", names(large, sizeof large, FITTERS) ? "yes" : "no");
    say("the two that are left copied back", copy_into(small, sizeof small, large, sizeof large));

    say("the block as texts", write_sets(stdout, large, sizeof large));
    FILE *lines = tmpfile();
    if (lines == NULL || write_sets(lines, large, sizeof large) != ANAQSIRO_ACCEPTED) {
        return 1;
    }
    rewind(lines);
    anaqsiro_make(other, sizeof other);
    say("the texts read into an empty block", read_sets(lines, other, sizeof other));
    printf("both blocks are the same: %s\n", memcmp(large, other, sizeof large) == 0 ? "yes" : "no");
    fclose(lines);
    count_faults(other, sizeof other);
    return 0;
}
