/* One block, byte by byte: three messages make two records, and every number of the block is printed with the bytes that it is
 * made of. All that is printed is read from the block's bytes. docs/READING.md shows it. */
#include "anaqsiro.h"

#include <stdio.h>

enum { ROOM = 2, P_OFFSET = 10, KEY = 0, ID = 2, COUNTS = 4 };

static uint8_t block[ANAQSIRO_BLOCK_MIN + ROOM * ANAQSIRO_RECORD];

/* The numbers of the header, in their order. */
static const char *const header[] = {"how many M records there are",      "how many P records there are",
                                     "how many F records there are",      "always 0",
                                     "the byte where the M part begins",  "the byte where the P part begins",
                                     "the byte where the F part begins",  "the byte where the records end"};

/* What a record of each part says. */
static const char *const parts[] = {"M part: the key is a member of the group id",
                                    "P part: id is granted or denied rights on key",
                                    "F part: the filter named id bounds the object or group key"};

/* A message that adds letters to a record. */
static void add(uint64_t kind, uint64_t key, uint64_t id, const char *letters) {
    const struct anaqsiro_half half = {key, id, anaqsiro_mask(letters)};
    uint8_t message[ANAQSIRO_MESSAGE];
    anaqsiro_put_message(message, kind, NULL, &half);
    anaqsiro_message(block, sizeof block, message, sizeof message);
}

/* The number of two bytes, the low one first. */
static unsigned number_at(unsigned at) { return block[at] + 256u * block[at + 1]; }

/* How to read a number, by the one that says where the P part begins. */
static void print_key(void) {
    const unsigned low = block[P_OFFSET], high = block[P_OFFSET + 1];
    printf("A block of %zu bytes. Each number in it takes two bytes, the low one first.\n", sizeof block);
    printf("A byte is written as two digits, each 0 to 9 or a to f, which are 10 to 15.\n");
    printf("So %02x is %u * 16 + %u = %u, ", low, low / 16, low % 16, low);
    printf("and %02x %02x is %u + %u * 256 = %u.\n", low, high, low, high, number_at(P_OFFSET));
    printf("\nbyte  bytes  number  what it is\n");
}

/* One number on a line: the byte where it stands, its bytes, the number, and what it is. */
static void print_number(unsigned at, const char *what) {
    printf("%4u  %02x %02x  %6u  %s\n", at, block[at], block[at + 1], number_at(at), what);
}

static void print_header(void) {
    for (unsigned at = 0; at < ANAQSIRO_BLOCK_MIN; at += 2) {
        print_number(at, header[at / 2]);
    }
}

/* The counts of a record in three lines: the letters, under each the two bytes of its count, and the count. */
static void print_counts(unsigned at) {
    printf("%4u  counts: how many statements give each letter\n    ", at);
    for (unsigned k = 0; k < ANAQSIRO_LETTERS; k++) {
        printf("  %5c", ANAQSIRO_SPELLED[k]);
    }
    printf("\n    ");
    for (unsigned k = 0; k < ANAQSIRO_LETTERS; k++) {
        printf("  %02x %02x", block[at + 2 * k], block[at + 2 * k + 1]);
    }
    printf("\n    ");
    for (unsigned k = 0; k < ANAQSIRO_LETTERS; k++) {
        printf("  %5u", number_at(at + 2 * k));
    }
    printf("\n");
}

static void print_record(unsigned part, unsigned at) {
    printf("\nA record of the %s\n", parts[part]);
    print_number(at + KEY, "key");
    print_number(at + ID, "id");
    print_counts(at + COUNTS);
}

/* The records of the parts, one part after the other. */
static void print_records(void) {
    unsigned at = ANAQSIRO_BLOCK_MIN;
    for (unsigned part = 0; part < sizeof parts / sizeof *parts; part++) {
        for (unsigned left = number_at(2 * part); left > 0; left--) {
            print_record(part, at);
            at += ANAQSIRO_RECORD;
        }
    }
}

int main(void) {
    anaqsiro_make(block, sizeof block);
    add(ANAQSIRO_MEMBERSHIP, 1, 2, "MRUP");
    add(ANAQSIRO_PERMISSION, 9, 1, "R");
    add(ANAQSIRO_PERMISSION, 9, 1, "R");
    print_key();
    print_header();
    print_records();
    return 0;
}
