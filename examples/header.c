/* Tests what the header gives beside the calls of the rules, as C99 and as C++11: the inline functions, messages and wide messages, the
 * longest text, the places of wrong texts, the parts of a full question's answer, both profiles, the calls that go through a block
 * record by record, a directory, dates, and appointments, slips, limits and what bears on rights, with each number of each call for
 * them. */
#include "anaqsiro.h"

#include <stdio.h>
#include <string.h>

#ifdef __cplusplus
#define LANGUAGE "C++"
#else
#define LANGUAGE "C"
#endif

enum { KEY = 7, ROOM = 4, MEMBERSHIPS = 8, DENYING = 13, GRANTING = 10, START = 100, END = 133, PLACES = 1000 };

static unsigned tests, failures;

/* One test: what was tested, what came out, and what should have. */
static void same(const char *what, uint64_t got, uint64_t wanted) {
    tests++;
    if (got != wanted) {
        failures++;
        printf("%s: %lu, not %lu\n", what, (unsigned long)got, (unsigned long)wanted);
    }
}

/* The same of words. */
static void same_words(const char *what, const char *got, const char *wanted) {
    tests++;
    if (strcmp(got, wanted) != 0) {
        failures++;
        printf("%s: \"%s\", not \"%s\"\n", what, got, wanted);
    }
}

static void test_version(void) {
    char numbers[32];
    snprintf(numbers, sizeof numbers, "%d.%d.%d", ANAQSIRO_VERSION_MAJOR, ANAQSIRO_VERSION_MINOR, ANAQSIRO_VERSION_PATCH);
    same_words("version", numbers, ANAQSIRO_VERSION);
}

/* The names have the numbers of the rules. */
static void test_lengths(void) {
    same("the shortest block", ANAQSIRO_BLOCK_MIN, 16);
    same("a record", ANAQSIRO_RECORD, 24);
    same("a block with room for one", ANAQSIRO_BLOCK_MIN + ANAQSIRO_RECORD, 40);
    same("the longest block", ANAQSIRO_BLOCK_MAX, 49168);
    same("a message", ANAQSIRO_MESSAGE, 12);
    same("the longest list", ANAQSIRO_LIST_MAX, 8);
    same("the longest wide message", ANAQSIRO_WIDE_MAX, 80);
    same("the longest text", ANAQSIRO_TEXT_MAX, 54185);
    same("a part", ANAQSIRO_DIRECTORY_PART, 1025);
    same("a directory", ANAQSIRO_DIRECTORY_LENGTH, 3075);
    same("an appointment", ANAQSIRO_APPOINTMENT, 12);
    same("the longest list of appointments", ANAQSIRO_APPOINTMENTS_MAX, 3072);
    same("the first day", anaqsiro_day(ANAQSIRO_FIRST_YEAR, 1, 1), 0);
    same("the last day", anaqsiro_day(ANAQSIRO_LAST_YEAR, 12, 31), ANAQSIRO_LAST_DAY);
    same("the longest chain", ANAQSIRO_CHAIN_MAX, 33);
    same("the greatest limit of the plain engine", ANAQSIRO_PLAIN_LIMIT_MAX, 8);
    same("its memberships", ANAQSIRO_PLAIN_RECORDS_MAX, 64);
    same("the greatest limit", ANAQSIRO_LIMIT_MAX, 32);
    same("a limit's number", ANAQSIRO_LIMIT, 14);
}

/* Each mask as letters and back, and words that are not in order, empty, or of other bytes. */
static void test_letters(void) {
    const uint32_t masks = (uint32_t)1 << ANAQSIRO_LETTERS;
    char word[ANAQSIRO_LETTERS + 1];
    for (uint32_t mask = 0; mask < masks; mask++) {
        same("mask", anaqsiro_mask(anaqsiro_put_letters(word, mask)), mask);
    }
    same_words("7", anaqsiro_put_letters(word, 7), "MRU");
    same_words("the greatest mask", anaqsiro_put_letters(word, masks - 1), ANAQSIRO_SPELLED);
    same_words("a greater one", anaqsiro_put_letters(word, masks + ANAQSIRO_READ), "R");
    same("UMp", anaqsiro_mask("UMp"), ANAQSIRO_CREATE | ANAQSIRO_UPDATE | ANAQSIRO_NO_DELETE);
    same("MQR", anaqsiro_mask("MQR"), 0);
    same("MRUX", anaqsiro_mask("MRUX"), 7 + ANAQSIRO_X);
    same("N", anaqsiro_mask("N"), ANAQSIRO_N);
    same("letter r", anaqsiro_letter_number('r'), 5);
    same("letter N", anaqsiro_letter_number('N'), 9);
    same("letter x", anaqsiro_letter_number('x'), ANAQSIRO_LETTERS);
    same("letter 0", anaqsiro_letter_number(0), ANAQSIRO_LETTERS);
}

/* Each number of the table has words of its own; later ones have none. The words of 1 have the lengths. */
static void test_refusals(void) {
    char lengths[64];
    snprintf(lengths, sizeof lengths, "block length not %u to %u,%03u", ANAQSIRO_BLOCK_MIN, ANAQSIRO_BLOCK_MAX / 1000,
             ANAQSIRO_BLOCK_MAX % 1000);
    same_words("0", anaqsiro_refusal_text(0), "accepted");
    same_words("1", anaqsiro_refusal_text(1), lengths);
    for (uint64_t number = 0; number <= ANAQSIRO_PROFILE; number++) {
        same("known", strcmp(anaqsiro_refusal_text(number), "unknown") != 0, 1);
        for (uint64_t before = 0; before < number; before++) {
            same("own words", strcmp(anaqsiro_refusal_text(number), anaqsiro_refusal_text(before)) == 0, 0);
        }
    }
    same_words("10", anaqsiro_refusal_text(10),
               "text longer than the output buffer; a list lent for a slip has fewer than 33 places");
    same_words("11", anaqsiro_refusal_text(11), "a checked chain has 0 or more than 33 names");
    same_words("12", anaqsiro_refusal_text(12),
               "a 257th appointment, a date that is none, or a day, date, term or anniversary outside the range");
    same_words("13", anaqsiro_refusal_text(13), "the lent directory has the wrong length or is not the block's own");
    same_words("14", anaqsiro_refusal_text(14),
               "for the plain engine a limit above 8 or more than 64 membership records; for the walk a limit above 32");
    same_words("15", anaqsiro_refusal_text(15), "a profile other than ordinary or strict");
    same_words("16", anaqsiro_refusal_text(ANAQSIRO_PROFILE + 1), "unknown");
    same_words("2^32", anaqsiro_refusal_text((uint64_t)1 << 32), "unknown");
}

/* The bytes of a message with both halves, and with one. */
static void test_bytes(void) {
    const struct anaqsiro_half before = {0x102, 0x304, 5}, now = {6, 7, 0x88};
    const uint8_t both[] = {2, 3, 0x02, 0x01, 0x04, 0x03, 5, 6, 0, 7, 0, 0x88};
    const uint8_t first[] = {2, 2, 0, 0, 0, 0, 0, 6, 0, 7, 0, 0x88};
    const uint8_t last[] = {2, 1, 0x02, 0x01, 0x04, 0x03, 5, 0, 0, 0, 0, 0};
    uint8_t message[ANAQSIRO_MESSAGE];
    same("message", sizeof message, sizeof both);
    anaqsiro_put_message(message, ANAQSIRO_PERMISSION, &before, &now);
    same("both halves", memcmp(message, both, sizeof both) == 0, 1);
    anaqsiro_put_message(message, ANAQSIRO_PERMISSION, NULL, &now);
    same("a new half", memcmp(message, first, sizeof first) == 0, 1);
    anaqsiro_put_message(message, ANAQSIRO_PERMISSION, &before, NULL);
    same("a previous half", memcmp(message, last, sizeof last) == 0, 1);
}

/* The half is what the message was made of. */
static void same_half(const char *what, const uint8_t *message, size_t at, const struct anaqsiro_half *wanted) {
    const struct anaqsiro_half got = anaqsiro_get_half(message, at);
    same(what, got.key, wanted->key);
    same(what, got.id, wanted->id);
    same(what, got.mask, wanted->mask);
}

/* Each marker in each half, and none: the byte of the kind, and what is read from the message. */
static void test_markers(void) {
    static const uint64_t masks[] = {5, 5 + ANAQSIRO_X, 5 + ANAQSIRO_N, 5 + ANAQSIRO_X + ANAQSIRO_N};
    static const unsigned previous_bits[] = {0, ANAQSIRO_X_PREVIOUS, ANAQSIRO_N_PREVIOUS, 0xC0};
    static const unsigned new_bits[] = {0, ANAQSIRO_X_NEW, ANAQSIRO_N_NEW, 0x30};
    const struct anaqsiro_half absent = {0, 0, 0};
    uint8_t message[ANAQSIRO_MESSAGE];
    for (unsigned pair = 0; pair < 16; pair++) {
        const struct anaqsiro_half before = {0x102, 0x304, masks[pair / 4]}, now = {6, 7, masks[pair % 4]};
        anaqsiro_put_message(message, ANAQSIRO_MEMBERSHIP, &before, &now);
        same("bits of both", message[0], 1u + previous_bits[pair / 4] + new_bits[pair % 4]);
        same("mask bytes", message[6] + 256u * message[11], 5 + 256 * 5);
        same("kind", anaqsiro_get_kind(message), ANAQSIRO_MEMBERSHIP);
        same_half("previous half", message, ANAQSIRO_PREVIOUS_AT, &before);
        same_half("new half", message, ANAQSIRO_NEW_AT, &now);
        anaqsiro_put_message(message, ANAQSIRO_FILTER, NULL, &now);
        same("bits of one", message[0], 3u + new_bits[pair % 4]);
        same_half("no previous half", message, ANAQSIRO_PREVIOUS_AT, &absent);
    }
}

/* The number that an empty block gives for a message with this new half. */
static uint32_t number_of(uint64_t kind, uint64_t key, uint64_t id, uint64_t mask) {
    const struct anaqsiro_half half = {key, id, mask};
    uint8_t block[ANAQSIRO_BLOCK_MIN + ANAQSIRO_RECORD], message[ANAQSIRO_MESSAGE];
    anaqsiro_make(block, sizeof block);
    anaqsiro_put_message(message, kind, NULL, &half);
    return anaqsiro_number(anaqsiro_message(block, sizeof block, message, sizeof message));
}

/* A number that is too large for its bytes is refused, and never taken for another. */
static void test_wide_numbers(void) {
    static const uint64_t wide[] = {256, 257, 65536, 65537, ((uint64_t)1 << 32) + 1, UINT64_MAX};
    for (size_t i = 0; i < sizeof wide / sizeof *wide; i++) {
        const uint32_t name = wide[i] < ANAQSIRO_NAMES ? ANAQSIRO_ACCEPTED : ANAQSIRO_NAME;
        same("wide key", number_of(ANAQSIRO_PERMISSION, wide[i], 1, 1), name);
        same("wide id", number_of(ANAQSIRO_PERMISSION, 1, wide[i], 1), name);
        same("wide mask", number_of(ANAQSIRO_PERMISSION, 1, 1, wide[i] << 2), ANAQSIRO_MASK);
        same("wide kind", number_of(wide[i], 1, 1, 1), ANAQSIRO_FORM);
    }
    same("no letters", number_of(ANAQSIRO_PERMISSION, 1, 1, anaqsiro_mask("Q")), ANAQSIRO_MASK);
    same("all letters", number_of(ANAQSIRO_PERMISSION, 1, 1, anaqsiro_mask("MRUPmrup")), ANAQSIRO_ACCEPTED);
    same("a kind with a marker", number_of(ANAQSIRO_MEMBERSHIP + ANAQSIRO_X_NEW, 1, 1, 1), ANAQSIRO_FORM);
}

/* What a marker is refused with. */
static void test_wrong_markers(void) {
    for (unsigned marker = ANAQSIRO_X; marker <= ANAQSIRO_N; marker *= 2) {
        same("a marker", number_of(ANAQSIRO_MEMBERSHIP, 1, 1, ANAQSIRO_ALL + marker), ANAQSIRO_ACCEPTED);
        same("no letters", number_of(ANAQSIRO_MEMBERSHIP, 1, 1, marker), ANAQSIRO_MASK);
        same("a denial", number_of(ANAQSIRO_MEMBERSHIP, 1, 1, ANAQSIRO_NO_READ + marker), ANAQSIRO_MASK);
        same("of a permission", number_of(ANAQSIRO_PERMISSION, 1, 1, ANAQSIRO_ALL + marker), ANAQSIRO_FORM);
        same("of a filter", number_of(ANAQSIRO_FILTER, 1, 1, ANAQSIRO_ALL + marker), ANAQSIRO_FORM);
    }
    same("both", number_of(ANAQSIRO_MEMBERSHIP, 1, 1, anaqsiro_mask("RXN")), ANAQSIRO_FORM);
}

/* The bytes of a wide message with both halves, and with one: the lists of an absent half begin where they would be. */
static void test_wide_bytes(void) {
    const struct anaqsiro_wide_half before = {{0x102, 0x304}, 2, {5}, 1, 6}, now = {{7}, 1, {8, 9, 0x3FF}, 3, 0x88};
    const uint8_t both[] = {2, 3, 2, 1, 1, 3, 6, 0x88, 16, 0, 20, 0, 22, 0, 24, 0, 2, 1, 4, 3, 5, 0, 7, 0, 8, 0, 9, 0, 0xFF, 3};
    const uint8_t first[] = {2, 2, 0, 0, 1, 3, 0, 0x88, 16, 0, 16, 0, 16, 0, 18, 0, 7, 0, 8, 0, 9, 0, 0xFF, 3};
    const uint8_t last[] = {2, 1, 2, 1, 0, 0, 6, 0, 16, 0, 20, 0, 22, 0, 22, 0, 2, 1, 4, 3, 5, 0};
    uint8_t message[ANAQSIRO_WIDE_MAX];
    same("both halves", anaqsiro_put_wide(message, ANAQSIRO_PERMISSION, &before, &now), sizeof both);
    same("their bytes", memcmp(message, both, sizeof both) == 0, 1);
    same("a new half", anaqsiro_put_wide(message, ANAQSIRO_PERMISSION, NULL, &now), sizeof first);
    same("its bytes", memcmp(message, first, sizeof first) == 0, 1);
    same("a previous half", anaqsiro_put_wide(message, ANAQSIRO_PERMISSION, &before, NULL), sizeof last);
    same("its bytes", memcmp(message, last, sizeof last) == 0, 1);
}

/* A half with so many keys and ids, up to the greatest names. */
static struct anaqsiro_wide_half wide_half(uint64_t keys, uint64_t ids, uint64_t mask) {
    struct anaqsiro_wide_half half = {{0}, 0, {0}, 0, 0};
    half.how_many_keys = keys;
    half.how_many_ids = ids;
    half.mask = mask;
    for (uint64_t i = 0; i < ANAQSIRO_LIST_MAX; i++) {
        half.keys[i] = i < keys ? ANAQSIRO_NAMES - keys + i : 0;
        half.ids[i] = i < ids ? 2 * i : 0;
    }
    return half;
}

/* Each length of each list, and each marker: what is read from the message is what it was made of. */
static void test_wide_halves(void) {
    static const uint64_t masks[] = {5, 5 + ANAQSIRO_X, 5 + ANAQSIRO_N, 5 + ANAQSIRO_X + ANAQSIRO_N};
    static const unsigned bits[] = {0, ANAQSIRO_X_NEW, ANAQSIRO_N_NEW, 0x30};
    const struct anaqsiro_wide_half absent = {{0}, 0, {0}, 0, 0};
    uint8_t message[ANAQSIRO_WIDE_MAX];
    for (uint64_t keys = 1; keys <= ANAQSIRO_LIST_MAX; keys++) {
        for (uint64_t ids = 1; ids <= ANAQSIRO_LIST_MAX; ids++) {
            const uint64_t before_marked = keys % 4, now_marked = ids % 4;
            const struct anaqsiro_wide_half before = wide_half(keys, ids, masks[before_marked]),
                                            now = wide_half(ids, keys, masks[now_marked]);
            const size_t length = anaqsiro_put_wide(message, ANAQSIRO_MEMBERSHIP, &before, &now);
            struct anaqsiro_wide_half got = anaqsiro_get_wide_half(message, length, ANAQSIRO_WIDE_PREVIOUS);
            same("length", length, ANAQSIRO_WIDE_HEADER + 4 * (keys + ids));
            same("previous half", memcmp(&got, &before, sizeof got) == 0, 1);
            got = anaqsiro_get_wide_half(message, length, ANAQSIRO_WIDE_NEW);
            same("new half", memcmp(&got, &now, sizeof got) == 0, 1);
            same("first byte", message[0], 1u + 4u * bits[before_marked] + bits[now_marked]);
            got = anaqsiro_get_wide_half(message, length - 1, ANAQSIRO_WIDE_NEW);
            same("cut short", got.how_many_ids, 0);
            anaqsiro_put_wide(message, ANAQSIRO_MEMBERSHIP, &before, NULL);
            got = anaqsiro_get_wide_half(message, length, ANAQSIRO_WIDE_NEW);
            same("no new half", memcmp(&got, &absent, sizeof got) == 0, 1);
        }
    }
    const struct anaqsiro_wide_half got = anaqsiro_get_wide_half(message, ANAQSIRO_MESSAGE, ANAQSIRO_WIDE_PREVIOUS);
    same("too few bytes", memcmp(&got, &absent, sizeof got) == 0, 1);
}

/* A half of a message, and that of a wide one with the same key and id, are the same. */
static void test_widened(void) {
    const struct anaqsiro_half half = {0x102, 0x304, 5 + ANAQSIRO_N};
    const struct anaqsiro_wide_half wide = {{0x102}, 1, {0x304}, 1, 5 + ANAQSIRO_N}, absent = {{0}, 0, {0}, 0, 0};
    uint8_t message[ANAQSIRO_MESSAGE], wide_message[ANAQSIRO_WIDE_MAX];
    anaqsiro_put_message(message, ANAQSIRO_MEMBERSHIP, &half, NULL);
    const size_t length = anaqsiro_put_wide(wide_message, ANAQSIRO_MEMBERSHIP, &wide, NULL);
    const struct anaqsiro_wide_half previous = anaqsiro_widened(anaqsiro_get_half(message, ANAQSIRO_PREVIOUS_AT)),
                                    none_new = anaqsiro_widened(anaqsiro_get_half(message, ANAQSIRO_NEW_AT)),
                                    got = anaqsiro_get_wide_half(wide_message, length, ANAQSIRO_WIDE_PREVIOUS);
    same("widened", memcmp(&previous, &got, sizeof got) == 0, 1);
    same("what it was made of", memcmp(&wide, &got, sizeof got) == 0, 1);
    same("an absent half", memcmp(&none_new, &absent, sizeof absent) == 0, 1);
}

/* The number that a block with room for one record gives for a wide message with this new half. No byte is written behind it. */
static uint32_t wide_number_of(uint64_t kind, const struct anaqsiro_wide_half *half) {
    uint8_t block[ANAQSIRO_BLOCK_MIN + ANAQSIRO_RECORD], message[ANAQSIRO_WIDE_MAX + 1];
    memset(message, 0xA5, sizeof message);
    anaqsiro_make(block, sizeof block);
    const size_t length = anaqsiro_put_wide(message, kind, half, half);
    same("not longer", length <= ANAQSIRO_WIDE_MAX, 1);
    same("behind the longest", message[ANAQSIRO_WIDE_MAX], 0xA5);
    const size_t one_half = anaqsiro_put_wide(message, kind, NULL, half);
    return anaqsiro_number(anaqsiro_wide(block, sizeof block, message, one_half));
}

/* The same of one key and one id. */
static uint32_t wide_number_of_pair(uint64_t kind, uint64_t key, uint64_t id, uint64_t mask) {
    const struct anaqsiro_wide_half half = {{key}, 1, {id}, 1, mask};
    return wide_number_of(kind, &half);
}

/* Lists of each length that there can be, and of some that there can not; and names that do not rise. */
static void test_wrong_lists(void) {
    static const uint64_t lengths[] = {0, 1, 2, 8, 9, 255, 256, 257, ((uint64_t)1 << 32) + 1, UINT64_MAX};
    const size_t how_many = sizeof lengths / sizeof *lengths;
    for (size_t pair = 0; pair < how_many * how_many; pair++) {
        const uint64_t keys = lengths[pair / how_many], ids = lengths[pair % how_many];
        const int good = keys >= 1 && keys <= ANAQSIRO_LIST_MAX && ids >= 1 && ids <= ANAQSIRO_LIST_MAX;
        const uint32_t room = keys * ids == 1 ? ANAQSIRO_ACCEPTED : ANAQSIRO_NO_ROOM;
        const struct anaqsiro_wide_half half = {{1, 2, 3, 4, 5, 6, 7, 8}, keys, {0, 2, 4, 6, 8, 10, 12, 1023}, ids, 1};
        same("a list", wide_number_of(ANAQSIRO_PERMISSION, &half), good ? room : (uint32_t)ANAQSIRO_FORM);
    }
    const struct anaqsiro_wide_half falling = {{2, 1}, 2, {1}, 1, 1}, twice = {{1}, 1, {3, 3}, 2, 1};
    const struct anaqsiro_wide_half last = {{1, 2, 3, 5, 4}, 5, {1}, 1, 1}, above = {{1, 1024}, 2, {1}, 1, 1};
    same("falling", wide_number_of(ANAQSIRO_PERMISSION, &falling), ANAQSIRO_FORM);
    same("twice", wide_number_of(ANAQSIRO_PERMISSION, &twice), ANAQSIRO_FORM);
    same("the last two", wide_number_of(ANAQSIRO_PERMISSION, &last), ANAQSIRO_FORM);
    same("no name", wide_number_of(ANAQSIRO_PERMISSION, &above), ANAQSIRO_NAME);
}

/* A wide message of one pair is refused with what the plain one is refused with, whatever its numbers. */
static void test_one_pair(void) {
    static const uint64_t numbers[] = {0, 1, 2, 3, 4, 15, 16, 17, 255, 256, 257, 511, 512, 768, 1023, 1024, 65536, UINT64_MAX};
    const size_t how_many = sizeof numbers / sizeof *numbers;
    for (size_t pair = 0; pair < how_many * how_many; pair++) {
        const uint64_t one = numbers[pair / how_many], other = numbers[pair % how_many];
        same("key and id", wide_number_of_pair(ANAQSIRO_FILTER, one, other, 1), number_of(ANAQSIRO_FILTER, one, other, 1));
        same("kind and mask", wide_number_of_pair(one, 1, 2, other), number_of(one, 1, 2, other));
    }
}

/* A plain message is no wide one, and a wide one is no plain one. */
static void test_other_call(void) {
    const struct anaqsiro_half half = {1, 2, 1};
    const struct anaqsiro_wide_half wide = {{1}, 1, {2}, 1, 1};
    uint8_t block[ANAQSIRO_BLOCK_MIN + ANAQSIRO_RECORD], message[ANAQSIRO_WIDE_MAX];
    anaqsiro_make(block, sizeof block);
    anaqsiro_put_message(message, ANAQSIRO_PERMISSION, NULL, &half);
    same("a plain one", anaqsiro_number(anaqsiro_wide(block, sizeof block, message, ANAQSIRO_MESSAGE)), ANAQSIRO_FORM);
    const size_t length = anaqsiro_put_wide(message, ANAQSIRO_PERMISSION, NULL, &wide);
    same("a wide one", anaqsiro_number(anaqsiro_message(block, sizeof block, message, length)), ANAQSIRO_FORM);
    same("no bytes", anaqsiro_number(anaqsiro_wide(block, sizeof block, NULL, 0)), ANAQSIRO_FORM);
    same("neither was applied", anaqsiro_size(block, sizeof block, ANAQSIRO_PERMISSION), 0);
}

/* The longest set, a record for each name and each letter at a count of five digits, is read from its text and written out. */
static void test_longest_text(void) {
    static uint8_t block[ANAQSIRO_BLOCK_MAX];
    static char text[ANAQSIRO_TEXT_MAX + 1];
    static uint8_t out[ANAQSIRO_TEXT_MAX];
    size_t length = 0;
    for (unsigned id = 0; id < ANAQSIRO_NAMES; id++) {
        length += (size_t)snprintf(text + length, sizeof text - length, "%s%u;", id == 0 ? "" : ";", id);
        for (unsigned k = 0; k < ANAQSIRO_LETTERS_OF_PERMISSION; k++) {
            length += (size_t)snprintf(text + length, sizeof text - length, "%c%u", ANAQSIRO_SPELLED[k], ANAQSIRO_COUNT_MAX);
        }
    }
    same("longest text", length, ANAQSIRO_TEXT_MAX);
    same("make", anaqsiro_make(block, sizeof block), 0);
    same("read", anaqsiro_read(block, sizeof block, ANAQSIRO_PERMISSION, KEY, (const uint8_t *)text, length), ANAQSIRO_NAMES);
    same("write", anaqsiro_write(block, sizeof block, ANAQSIRO_PERMISSION, KEY, out, sizeof out), ANAQSIRO_TEXT_MAX);
    same("the same text", memcmp(text, out, sizeof out) == 0, 1);
    same("a byte less", anaqsiro_number(anaqsiro_write(block, sizeof block, ANAQSIRO_PERMISSION, KEY, out, sizeof out - 1)),
         ANAQSIRO_TEXT_LONG);
}

/* A text that is of no set, and its place among memberships and among permissions. */
struct wrong {
    const char *text;
    uint64_t membership, permission;
};

static const struct wrong wrong[] = {
    {";", 0, 0},       {"03;M", 1, 1},    {"3;", 2, 2},      {"1024;M", 3, 3},   {"3;RM", 3, 3}, {"3;M0", 3, 3},
    {"3;M1", 4, 4},    {"3;M;", 4, 4},    {"1;M;1;M", 5, 5}, {"399;M;3", 6, 6},  {"3;mM", 2, 3}, {"3;M;4;Mp1", 7, 9},
    {"1023;M;", 6, 6}, {"3;M65536", 7, 7}, {"3;NX", 3, 2},  {"3;RX1", 5, 3},    {"3;XM", 3, 2}, {"3;M;4;N0", 7, 6},
};

/* What a text that is refused with 9 comes back with: that number and the place, whatever the room. The block is as it was. */
static void test_places(void) {
    const uint64_t refused = (uint64_t)ANAQSIRO_TEXT << 32;
    const size_t no_room = ANAQSIRO_BLOCK_MIN;
    uint8_t block[ANAQSIRO_BLOCK_MIN + ANAQSIRO_RECORD], before[sizeof block];
    anaqsiro_make(block, sizeof block);
    memcpy(before, block, sizeof block);
    for (const struct wrong *one = wrong; one < wrong + sizeof wrong / sizeof *wrong; one++) {
        const uint8_t *text = (const uint8_t *)one->text;
        const size_t length = strlen(one->text);
        same(one->text, anaqsiro_read(block, sizeof block, ANAQSIRO_MEMBERSHIP, KEY, text, length), refused + one->membership);
        same(one->text, anaqsiro_read(block, no_room, ANAQSIRO_PERMISSION, KEY, text, length), refused + one->permission);
    }
    same("the number beside a place", anaqsiro_number(refused + 3), ANAQSIRO_TEXT);
    same("the place", anaqsiro_value(refused + 3), 3);
    same("no room", anaqsiro_read(block, no_room, ANAQSIRO_PERMISSION, KEY, (const uint8_t *)"3;M", 3),
         (uint64_t)ANAQSIRO_NO_ROOM << 32);
    same("the block as it was", memcmp(block, before, sizeof block) == 0, 1);
}

/* The same of the parts of an answer of anaqsiro_rights. */
static void same_parts(const char *what, uint64_t answer, uint64_t held, uint64_t user, uint64_t object) {
    same(what, anaqsiro_held(answer), held);
    same(what, anaqsiro_user_examined(answer), user);
    same(what, anaqsiro_object_examined(answer), object);
}

/* Each mask of rights beside numbers up to the greatest: no part runs into another. All parts of a refusal are 0. */
static void test_parts(void) {
    static const uint64_t numbers[] = {0, 1, 20, ANAQSIRO_EXAMINED_MAX - 1, ANAQSIRO_EXAMINED_MAX};
    const size_t how_many = sizeof numbers / sizeof *numbers;
    for (uint64_t held = 0; held <= ANAQSIRO_ALL; held++) {
        for (size_t pair = 0; pair < how_many * how_many; pair++) {
            const uint64_t user = numbers[pair / how_many], object = numbers[pair % how_many];
            same_parts("parts", held + 16 * user + 262144 * object, held, user, object);
        }
    }
    same_parts("the greatest", 2147614735u, 15, 8192, 8192);
    for (uint64_t number = 1; number <= ANAQSIRO_PROFILE; number++) {
        same_parts("a refusal", number << 32, 0, 0, 0);
    }
}

/* The groups of the names 1 to 5. Each right comes to 2, 3, 4 and 5 in a round of its own, so that their records are examined
 * four times each, and those of 1 once. */
static const char *const groups[] = {"2;M;3;R;4;U;5;P", "3;MRUP", "4;MRUP", "5;MRUP", "2;MRUP"};

/* What questions about them report, as the user's groups and as the object's, whatever is requested or held, in either profile. A
 * refused one reports 0. */
static void test_examined(uint64_t profile) {
    uint8_t block[ANAQSIRO_BLOCK_MIN + (MEMBERSHIPS + 1) * ANAQSIRO_RECORD];
    anaqsiro_make(block, sizeof block);
    for (size_t i = 0; i < sizeof groups / sizeof *groups; i++) {
        anaqsiro_read(block, sizeof block, ANAQSIRO_MEMBERSHIP, i + 1, (const uint8_t *)groups[i], strlen(groups[i]));
    }
    same("memberships", anaqsiro_size(block, sizeof block, ANAQSIRO_MEMBERSHIP), MEMBERSHIPS);
    const uint64_t nothing_held = anaqsiro_rights(block, sizeof block, 1, KEY, ANAQSIRO_ALL, profile);
    same_parts("nothing held", nothing_held, 0, 20, 0);
    same("a value all the same", anaqsiro_value(nothing_held), 320);
    same("no", anaqsiro_may(block, sizeof block, 1, KEY, ANAQSIRO_ALL, profile), 0);

    same("a grant", anaqsiro_read(block, sizeof block, ANAQSIRO_PERMISSION, KEY, (const uint8_t *)"4;RU", 4), 1);
    same_parts("all requested", anaqsiro_rights(block, sizeof block, 1, KEY, ANAQSIRO_ALL, profile), 6, 20, 0);
    same_parts("one requested", anaqsiro_rights(block, sizeof block, 1, KEY, ANAQSIRO_UPDATE, profile), 4, 20, 0);
    same_parts("the object's side", anaqsiro_rights(block, sizeof block, KEY, 1, ANAQSIRO_ALL, profile), 0, 0, 20);
    same_parts("both sides", anaqsiro_rights(block, sizeof block, 2, 1, ANAQSIRO_ALL, profile), 0, 4, 20);

    const uint64_t refused = anaqsiro_rights(block, sizeof block, 1, ANAQSIRO_NAMES, ANAQSIRO_ALL, profile);
    same("refused", anaqsiro_number(refused), ANAQSIRO_NAME);
    same_parts("refused", refused, 0, 0, 0);
}

/* The calls that go through a block, on a good block of three records, on numbers past it, and on one that is not good. */
static void test_records(void) {
    uint8_t block[ANAQSIRO_BLOCK_MIN + ROOM * ANAQSIRO_RECORD];
    static const uint8_t two[] = "3;MRU;1023;MRU2p65535", one[] = "20;RUX3";
    const uint64_t letter_u = anaqsiro_letter_number('U');
    anaqsiro_make(block, sizeof block);
    same("two", anaqsiro_read(block, sizeof block, ANAQSIRO_PERMISSION, KEY, two, sizeof two - 1), 2);
    same("one", anaqsiro_read(block, sizeof block, ANAQSIRO_MEMBERSHIP, 1023, one, sizeof one - 1), 1);

    same("good", anaqsiro_tested(block, sizeof block), 0);
    same("too short", anaqsiro_number(anaqsiro_tested(block, ANAQSIRO_BLOCK_MIN - 1)), ANAQSIRO_BLOCK_LENGTH);
    same("no bytes", anaqsiro_number(anaqsiro_tested(NULL, 0)), ANAQSIRO_BLOCK_LENGTH);

    same("memberships", anaqsiro_size(block, sizeof block, ANAQSIRO_MEMBERSHIP), 1);
    same("permissions", anaqsiro_size(block, sizeof block, ANAQSIRO_PERMISSION), 2);
    same("filters", anaqsiro_size(block, sizeof block, ANAQSIRO_FILTER), 0);
    same("kind 0", anaqsiro_number(anaqsiro_size(block, sizeof block, 0)), ANAQSIRO_FORM);
    same("kind 4", anaqsiro_number(anaqsiro_size(block, sizeof block, 4)), ANAQSIRO_FORM);

    same("record 0: key", anaqsiro_key(anaqsiro_record(block, sizeof block, 0)), 1023);
    same("record 0: id", anaqsiro_id(anaqsiro_record(block, sizeof block, 0)), 20);
    same("record 2: key", anaqsiro_key(anaqsiro_record(block, sizeof block, 2)), KEY);
    same("record 2: id", anaqsiro_id(anaqsiro_record(block, sizeof block, 2)), 1023);
    same("record 3", anaqsiro_record(block, sizeof block, 3), 0);
    same("record past the bytes", anaqsiro_record(block, sizeof block, ROOM), 0);
    same("record 65,536", anaqsiro_record(block, sizeof block, 65536), 0);

    same("record 2: U", anaqsiro_count(block, sizeof block, 2, letter_u), 2);
    same("record 2: p", anaqsiro_count(block, sizeof block, 2, 7), ANAQSIRO_COUNT_MAX);
    same("record 2: m", anaqsiro_count(block, sizeof block, 2, 4), 0);
    same("record 0: X", anaqsiro_count(block, sizeof block, 0, anaqsiro_letter_number('X')), 3);
    same("record 0: N", anaqsiro_count(block, sizeof block, 0, anaqsiro_letter_number('N')), 0);
    same("no letter", anaqsiro_count(block, sizeof block, 1, ANAQSIRO_LETTERS), 0);
    same("a count past the bytes", anaqsiro_count(block, sizeof block, ROOM, 0), 0);

    block[6] = 1; /* this number is to be zero */
    same("not good", anaqsiro_number(anaqsiro_tested(block, sizeof block)), ANAQSIRO_BLOCK_NOT_GOOD);
    same("record 0 of it", anaqsiro_id(anaqsiro_record(block, sizeof block, 0)), 20);
}

/* A block with its directory, and a buffer for a text. */
struct directed {
    uint8_t block[ANAQSIRO_BLOCK_MIN + ROOM * ANAQSIRO_RECORD];
    uint8_t out[16];
    uint16_t directory[ANAQSIRO_DIRECTORY_LENGTH];
};

/* Three records: two permissions on KEY, and a membership of the greatest name. */
static void make_directed(struct directed *one) {
    static const uint8_t two[] = "3;MRU;1023;R", last[] = "3;RU";
    memset(one->out, '.', sizeof one->out);
    anaqsiro_make(one->block, sizeof one->block);
    anaqsiro_read(one->block, sizeof one->block, ANAQSIRO_PERMISSION, KEY, two, sizeof two - 1);
    anaqsiro_read(one->block, sizeof one->block, ANAQSIRO_MEMBERSHIP, ANAQSIRO_NAMES - 1, last, sizeof last - 1);
    anaqsiro_directory(one->block, sizeof one->block, one->directory, ANAQSIRO_DIRECTORY_LENGTH);
}

static const uint8_t set[] = "1;U2;4;P";

/* It stands for no directory at all, so that a null pointer can be lent for one. */
static uint16_t none[1];

/* The calls on the lengths given, each without a directory where none is lent, and else by it. */
static uint64_t call_message(struct directed *one, uint16_t *by, size_t len, size_t by_len) {
    const struct anaqsiro_half taken = {KEY, 3, 7}, given = {KEY + 1, 3, 7};
    uint8_t message[ANAQSIRO_MESSAGE];
    anaqsiro_put_message(message, ANAQSIRO_PERMISSION, &taken, &given);
    return by == none ? anaqsiro_message(one->block, len, message, sizeof message)
                      : anaqsiro_message_by(one->block, len, by, by_len, message, sizeof message);
}

/* A wide message that takes a letter of both permissions away, after which one record is gone, and adds so many pairs. */
static uint64_t call_pairs(struct directed *one, uint16_t *by, size_t len, size_t by_len, uint64_t pairs) {
    const struct anaqsiro_wide_half taken = {{KEY}, 1, {3, 1023}, 2, ANAQSIRO_READ}, given = {{4, 5, 6}, pairs, {8}, 1, 7};
    uint8_t message[ANAQSIRO_WIDE_MAX];
    const size_t length = anaqsiro_put_wide(message, ANAQSIRO_PERMISSION, &taken, &given);
    return by == none ? anaqsiro_wide(one->block, len, message, length)
                      : anaqsiro_wide_by(one->block, len, by, by_len, message, length);
}

static uint64_t call_wide(struct directed *one, uint16_t *by, size_t len, size_t by_len) {
    return call_pairs(one, by, len, by_len, 2);
}

static uint64_t call_one_pair_too_many(struct directed *one, uint16_t *by, size_t len, size_t by_len) {
    return call_pairs(one, by, len, by_len, 3);
}

static uint64_t call_no_pairs(struct directed *one, uint16_t *by, size_t len, size_t by_len) {
    return call_pairs(one, by, len, by_len, 0);
}

static uint64_t call_read(struct directed *one, uint16_t *by, size_t len, size_t by_len) {
    return by == none ? anaqsiro_read(one->block, len, ANAQSIRO_FILTER, KEY, set, 4)
                      : anaqsiro_read_by(one->block, len, by, by_len, ANAQSIRO_FILTER, KEY, set, 4);
}

static uint64_t call_too_much(struct directed *one, uint16_t *by, size_t len, size_t by_len) {
    return by == none ? anaqsiro_read(one->block, len, ANAQSIRO_MEMBERSHIP, KEY, set, sizeof set - 1)
                      : anaqsiro_read_by(one->block, len, by, by_len, ANAQSIRO_MEMBERSHIP, KEY, set, sizeof set - 1);
}

static uint64_t call_wrong_text(struct directed *one, uint16_t *by, size_t len, size_t by_len) {
    return by == none ? anaqsiro_read(one->block, len, ANAQSIRO_FILTER, KEY, set, 5)
                      : anaqsiro_read_by(one->block, len, by, by_len, ANAQSIRO_FILTER, KEY, set, 5);
}

static uint64_t call_write(struct directed *one, uint16_t *by, size_t len, size_t by_len) {
    return by == none ? anaqsiro_write(one->block, len, ANAQSIRO_PERMISSION, KEY, one->out, sizeof one->out)
                      : anaqsiro_write_by(one->block, len, by, by_len, ANAQSIRO_PERMISSION, KEY, one->out, sizeof one->out);
}

/* The two questions, in a profile. */
static uint64_t ask_rights(struct directed *one, uint16_t *by, size_t len, size_t by_len, uint64_t profile) {
    return by == none ? anaqsiro_rights(one->block, len, ANAQSIRO_NAMES - 1, KEY, ANAQSIRO_ALL, profile)
                      : anaqsiro_rights_by(one->block, len, by, by_len, ANAQSIRO_NAMES - 1, KEY, ANAQSIRO_ALL, profile);
}

static uint64_t ask_may(struct directed *one, uint16_t *by, size_t len, size_t by_len, uint64_t user, uint64_t request,
                        uint64_t profile) {
    return by == none ? anaqsiro_may(one->block, len, user, KEY, request, profile)
                      : anaqsiro_may_by(one->block, len, by, by_len, user, KEY, request, profile);
}

static uint64_t call_rights(struct directed *one, uint16_t *by, size_t len, size_t by_len) {
    return ask_rights(one, by, len, by_len, ANAQSIRO_ORDINARY);
}

static uint64_t call_rights_strict(struct directed *one, uint16_t *by, size_t len, size_t by_len) {
    return ask_rights(one, by, len, by_len, ANAQSIRO_STRICT);
}

static uint64_t call_rights_other(struct directed *one, uint16_t *by, size_t len, size_t by_len) {
    return ask_rights(one, by, len, by_len, ANAQSIRO_STRICT + 1);
}

static uint64_t call_may(struct directed *one, uint16_t *by, size_t len, size_t by_len) {
    return ask_may(one, by, len, by_len, ANAQSIRO_NAMES - 1, ANAQSIRO_UPDATE, ANAQSIRO_ORDINARY);
}

static uint64_t call_may_strict(struct directed *one, uint16_t *by, size_t len, size_t by_len) {
    return ask_may(one, by, len, by_len, ANAQSIRO_NAMES - 1, ANAQSIRO_UPDATE, ANAQSIRO_STRICT);
}

static uint64_t call_may_other(struct directed *one, uint16_t *by, size_t len, size_t by_len) {
    return ask_may(one, by, len, by_len, ANAQSIRO_NAMES - 1, ANAQSIRO_UPDATE, UINT64_MAX);
}

static uint64_t call_no_request(struct directed *one, uint16_t *by, size_t len, size_t by_len) {
    return ask_may(one, by, len, by_len, ANAQSIRO_NAMES - 1, 0, ANAQSIRO_STRICT + 1);
}

static uint64_t call_no_name(struct directed *one, uint16_t *by, size_t len, size_t by_len) {
    return ask_may(one, by, len, by_len, ANAQSIRO_NAMES, 0, ANAQSIRO_STRICT + 1);
}

/* A call, and what it answers on the block of three records. */
struct called {
    const char *what;
    uint64_t (*call)(struct directed *one, uint16_t *by, size_t len, size_t by_len);
    uint64_t answer;
};

static const struct called calls[] = {
    {"a message", call_message, 0},
    {"a wide message", call_wide, 0},
    {"a wide message without room", call_one_pair_too_many, (uint64_t)ANAQSIRO_NO_ROOM << 32},
    {"an empty list", call_no_pairs, (uint64_t)ANAQSIRO_FORM << 32},
    {"a read", call_read, 1},
    {"a read without room", call_too_much, (uint64_t)ANAQSIRO_NO_ROOM << 32},
    {"a wrong text", call_wrong_text, ((uint64_t)ANAQSIRO_TEXT << 32) + 5},
    {"a write", call_write, 12},
    {"the full question", call_rights, 6 + 16 * 1},
    {"the full question, strict", call_rights_strict, 6 + 16 * 1},
    {"the full question in another profile", call_rights_other, (uint64_t)ANAQSIRO_PROFILE << 32},
    {"the short question", call_may, 1},
    {"the short question, strict", call_may_strict, 1},
    {"the short question in another profile", call_may_other, (uint64_t)ANAQSIRO_PROFILE << 32},
    {"a request of nothing", call_no_request, (uint64_t)ANAQSIRO_MASK << 32},
    {"a name above all", call_no_name, (uint64_t)ANAQSIRO_NAME << 32},
};

enum { HOW_MANY_CALLS = sizeof calls / sizeof *calls };

/* Every call is refused with the number on these lengths, and no lent byte changes. */
static void all_refused(const char *what, struct directed *one, size_t len, uint16_t *by, size_t by_len, uint32_t number) {
    const struct directed before = *one;
    for (size_t i = 0; i < HOW_MANY_CALLS; i++) {
        same(what, calls[i].call(one, by, len, by_len), (uint64_t)number << 32);
        same(calls[i].what, memcmp(one, &before, sizeof before) == 0, 1);
    }
}

/* The entries of the directory: where the records of each key begin or would, and the end of each part. */
static void test_directory(void) {
    const uint64_t first = ANAQSIRO_BLOCK_MIN, next = first + ANAQSIRO_RECORD, end = next + 2 * ANAQSIRO_RECORD;
    struct directed one;
    make_directed(&one);
    for (size_t x = 0; x < ANAQSIRO_DIRECTORY_PART; x++) {
        same("memberships", one.directory[x], x < ANAQSIRO_NAMES ? first : next);
        same("permissions", one.directory[ANAQSIRO_DIRECTORY_PART + x], x <= KEY ? next : end);
        same("filters", one.directory[2 * ANAQSIRO_DIRECTORY_PART + x], end);
    }
}

/* Each call by the directory answers and leaves the block as the one without it, and leaves the directory that is then made. */
static void test_by(void) {
    for (size_t i = 0; i < HOW_MANY_CALLS; i++) {
        struct directed without, by;
        make_directed(&without);
        make_directed(&by);
        same(calls[i].what, calls[i].call(&without, none, sizeof without.block, 0), calls[i].answer);
        same(calls[i].what, calls[i].call(&by, by.directory, sizeof by.block, ANAQSIRO_DIRECTORY_LENGTH), calls[i].answer);
        anaqsiro_directory(without.block, sizeof without.block, without.directory, ANAQSIRO_DIRECTORY_LENGTH);
        same(calls[i].what, memcmp(&without, &by, sizeof by) == 0, 1);
    }
}

/* What is tested before anything else: the block's length, the block, the directory's length, each of its entries. */
static void test_not_own(void) {
    struct directed one;
    uint16_t longer[ANAQSIRO_DIRECTORY_LENGTH + 1] = {0};
    make_directed(&one);
    memcpy(longer, one.directory, sizeof one.directory);
    all_refused("short block", &one, ANAQSIRO_BLOCK_MIN - 1, longer, 0, ANAQSIRO_BLOCK_LENGTH);
    all_refused("no entries", &one, sizeof one.block, longer, 0, ANAQSIRO_DIRECTORY_NOT_OWN);
    all_refused("a null pointer", &one, sizeof one.block, NULL, 0, ANAQSIRO_DIRECTORY_NOT_OWN);
    all_refused("one less", &one, sizeof one.block, longer, ANAQSIRO_DIRECTORY_LENGTH - 1, ANAQSIRO_DIRECTORY_NOT_OWN);
    all_refused("one more", &one, sizeof one.block, longer, ANAQSIRO_DIRECTORY_LENGTH + 1, ANAQSIRO_DIRECTORY_NOT_OWN);
    for (size_t at = 0; at < ANAQSIRO_DIRECTORY_LENGTH; at++) {
        one.directory[at] ^= 4;
        all_refused("an entry", &one, sizeof one.block, one.directory, ANAQSIRO_DIRECTORY_LENGTH, ANAQSIRO_DIRECTORY_NOT_OWN);
        one.directory[at] ^= 4;
    }
    one.block[6] = 1; /* this number is to be zero */
    all_refused("not good", &one, sizeof one.block, longer, 0, ANAQSIRO_BLOCK_NOT_GOOD);
    same("made of it", anaqsiro_number(anaqsiro_directory(one.block, sizeof one.block, NULL, 0)), ANAQSIRO_BLOCK_NOT_GOOD);
    make_directed(&one);
    same("no place to make it", anaqsiro_number(anaqsiro_directory(one.block, sizeof one.block, NULL, 0)),
         ANAQSIRO_DIRECTORY_NOT_OWN);
}

/* A message without the directory leaves it behind, but one that changes a count alone does not. */
static void test_left_behind(void) {
    const struct anaqsiro_half counted = {KEY, 3, 1}, inserted = {KEY, 5, 1};
    const struct anaqsiro_half *halves[] = {&counted, &inserted};
    uint8_t message[ANAQSIRO_MESSAGE];
    struct directed one;
    make_directed(&one);
    for (size_t i = 0; i < 2; i++) {
        anaqsiro_put_message(message, ANAQSIRO_PERMISSION, NULL, halves[i]);
        same("a plain message", anaqsiro_message(one.block, sizeof one.block, message, sizeof message), 0);
        same("then by it", anaqsiro_number(call_may(&one, one.directory, sizeof one.block, ANAQSIRO_DIRECTORY_LENGTH)),
             i == 0 ? ANAQSIRO_ACCEPTED : ANAQSIRO_DIRECTORY_NOT_OWN);
    }
    same("made again", anaqsiro_directory(one.block, sizeof one.block, one.directory, ANAQSIRO_DIRECTORY_LENGTH), 0);
    same("by it again", call_may(&one, one.directory, sizeof one.block, ANAQSIRO_DIRECTORY_LENGTH), 1);
}

/* A set as text. */
struct keyed {
    uint64_t kind, key;
    const char *text;
};

/* Makes a block of these sets, and gives how many records they have. */
static uint64_t make_of(uint8_t *block, size_t len, const struct keyed *sets, size_t how_many) {
    uint64_t records = 0;
    anaqsiro_make(block, len);
    for (const struct keyed *one = sets; one < sets + how_many; one++) {
        records += anaqsiro_read(block, len, one->kind, one->key, (const uint8_t *)one->text, strlen(one->text));
    }
    return records;
}

/* Sets with denials, DENYING records in all. 1 and 4 are in group 2, and in 3 for reading alone; KEY is in group 8, and in 9 for
 * reading alone. */
static const struct keyed denying[] = {
    {ANAQSIRO_MEMBERSHIP, 1, "2;MRUP;3;R"},
    {ANAQSIRO_MEMBERSHIP, 4, "2;MRUP;3;R"},
    {ANAQSIRO_MEMBERSHIP, KEY, "8;MRUP;9;R"},
    {ANAQSIRO_PERMISSION, 0, "6;m"},
    {ANAQSIRO_PERMISSION, KEY, "2;MRU;3;ru;5;RUu;6;MR"},
    {ANAQSIRO_PERMISSION, 8, "1;Uu2"},
    {ANAQSIRO_PERMISSION, 9, "2;mup"},
};

/* A block of them, and its directory. */
struct asked {
    uint8_t block[ANAQSIRO_BLOCK_MIN + DENYING * ANAQSIRO_RECORD];
    uint16_t directory[ANAQSIRO_DIRECTORY_LENGTH];
};

static void make_asked(struct asked *one) {
    same("records", make_of(one->block, sizeof one->block, denying, sizeof denying / sizeof *denying), DENYING);
    anaqsiro_directory(one->block, sizeof one->block, one->directory, ANAQSIRO_DIRECTORY_LENGTH);
}

/* What a user holds on KEY in the ordinary profile and in the strict one, and how many memberships of hers are examined. */
struct denied {
    const char *what;
    uint64_t user;
    uint32_t held[2], examined;
};

static const struct denied denied[] = {
    {"others by a group that the object is in for reading alone", 2, {7, 7}, 0},
    {"read by a group of hers, update by one of the object's", 1, {7, 1}, 2},
    {"update by a group that she is in for reading alone", 4, {7, 5}, 2},
    {"nothing granted", 3, {0, 0}, 0},
    {"update in the granting record", 5, {2, 2}, 0},
    {"create by 0", 6, {3, 2}, 0},
};

/* Both questions about KEY, without a directory and by one, give the same in a profile, whatever is requested. */
static void same_answers(const struct asked *one, const struct denied *wanted, uint64_t profile) {
    const size_t len = sizeof one->block, by_len = ANAQSIRO_DIRECTORY_LENGTH;
    const uint64_t user = wanted->user;
    for (uint64_t request = 1; request <= ANAQSIRO_ALL; request++) {
        const uint64_t held = wanted->held[profile] & request;
        const uint64_t answer = anaqsiro_rights(one->block, len, user, KEY, request, profile);
        same_parts(wanted->what, answer, held, wanted->examined, 2);
        same(wanted->what, anaqsiro_rights_by(one->block, len, one->directory, by_len, user, KEY, request, profile), answer);
        same(wanted->what, anaqsiro_may(one->block, len, user, KEY, request, profile), held == request);
        same(wanted->what, anaqsiro_may_by(one->block, len, one->directory, by_len, user, KEY, request, profile),
             held == request);
    }
}

/* No question is answered in this profile, without a directory or by one. */
static void no_profile(const struct asked *one, uint64_t profile) {
    const size_t len = sizeof one->block, by_len = ANAQSIRO_DIRECTORY_LENGTH;
    const uint64_t refused = (uint64_t)ANAQSIRO_PROFILE << 32;
    same("rights", anaqsiro_rights(one->block, len, 2, KEY, 1, profile), refused);
    same("may", anaqsiro_may(one->block, len, 2, KEY, 1, profile), refused);
    same("rights by", anaqsiro_rights_by(one->block, len, one->directory, by_len, 2, KEY, 1, profile), refused);
    same("may by", anaqsiro_may_by(one->block, len, one->directory, by_len, 2, KEY, 1, profile), refused);
}

/* Each profile that there is, and some that there are not. */
static void test_profiles(void) {
    struct asked one;
    make_asked(&one);
    same("ordinary", ANAQSIRO_ORDINARY, 0);
    same("strict", ANAQSIRO_STRICT, 1);
    for (const struct denied *wanted = denied; wanted < denied + sizeof denied / sizeof *denied; wanted++) {
        same_answers(&one, wanted, ANAQSIRO_ORDINARY);
        same_answers(&one, wanted, ANAQSIRO_STRICT);
    }
    for (unsigned bit = 1; bit < 64; bit++) {
        no_profile(&one, (uint64_t)1 << bit);
        no_profile(&one, ((uint64_t)1 << bit) + ANAQSIRO_STRICT);
    }
    no_profile(&one, UINT64_MAX);
}

/* A date, and its day; a refused one has no parts. */
static void test_dates(void) {
    static const uint64_t dates[][4] = {
        {1970, 1, 1, 0},      {1970, 12, 31, 364},  {1972, 2, 29, 789},  {2000, 2, 29, 11016},   {2024, 2, 29, 19782},
        {2025, 2, 28, 20147}, {2100, 2, 28, 47540}, {2100, 3, 1, 47541}, {2399, 12, 31, 157053},
    };
    static const uint64_t none[][3] = {
        {1969, 12, 31}, {2400, 1, 1},  {2400, 2, 29}, {2025, 2, 29}, {2100, 2, 29},  {2024, 4, 31},
        {2024, 0, 1},   {2024, 13, 1}, {2024, 1, 0},  {2024, 1, 32}, {2024, 257, 1}, {67560, 1, 1},
    };
    const uint64_t refused = (uint64_t)ANAQSIRO_OUTSIDE_RANGE << 32;
    for (size_t i = 0; i < sizeof dates / sizeof *dates; i++) {
        const uint64_t *date = dates[i], answer = anaqsiro_date(date[3]);
        same("day", anaqsiro_day(date[0], date[1], date[2]), date[3]);
        same("date", answer, date[2] + 32 * date[1] + 512 * date[0]);
        same("year", anaqsiro_date_year(answer), date[0]);
        same("month", anaqsiro_date_month(answer), date[1]);
        same("day of the month", anaqsiro_date_day(answer), date[2]);
    }
    for (size_t i = 0; i < sizeof none / sizeof *none; i++) {
        same("no date", anaqsiro_day(none[i][0], none[i][1], none[i][2]), refused);
    }
    same("after the last day", anaqsiro_date(ANAQSIRO_LAST_DAY + 1), refused);
    same("far after it", anaqsiro_date((uint64_t)1 << 32), refused);
    same("parts of none", anaqsiro_date_year(refused) + anaqsiro_date_month(refused) + anaqsiro_date_day(refused), 0);
}

/* The bytes of an appointment with each marker and without, and what is read from them. */
static void test_appointment_bytes(void) {
    static const uint64_t masks[] = {5, 5 + ANAQSIRO_X, 5 + ANAQSIRO_N, 5 + ANAQSIRO_X + ANAQSIRO_N};
    for (uint64_t marker = 0; marker < 4; marker++) {
        const struct anaqsiro_appointment one = {{0x102, 0x304, masks[marker]}, 2024, 2, 29, 12};
        const uint8_t wanted[] = {0x02, 0x01, 0x04, 0x03, 5, (uint8_t)marker, 0xE8, 0x07, 2, 29, 12, 0};
        uint8_t bytes[ANAQSIRO_APPOINTMENT + 1];
        memset(bytes, 0xA5, sizeof bytes);
        anaqsiro_put_appointment(bytes, &one);
        same("an appointment", memcmp(bytes, wanted, sizeof wanted) == 0, 1);
        same("behind it", bytes[ANAQSIRO_APPOINTMENT], 0xA5);
        const struct anaqsiro_appointment got = anaqsiro_get_appointment(bytes);
        same("what it was made of", memcmp(&got, &one, sizeof one) == 0, 1);
    }
}

/* Which number of an appointment is another. */
enum part { AS_IT_IS, A_KEY, AN_ID, A_MASK, A_YEAR, A_MONTH, A_DAY, A_TERM };

/* An appointment that is right but for one number: 1 is in group 2 with R for twelve months from 29 February 2024. */
static void put_other(uint8_t *at, enum part part, uint64_t number) {
    struct anaqsiro_appointment one = {{1, 2, ANAQSIRO_READ}, 2024, 2, 29, 12};
    uint64_t *const parts[] = {NULL,      &one.membership.key, &one.membership.id, &one.membership.mask,
                               &one.year, &one.month,          &one.day,           &one.term};
    if (part != AS_IT_IS) {
        *parts[part] = number;
    }
    anaqsiro_put_appointment(at, &one);
}

/* Every call for appointments gives the number for a list, and that before the 6 of a move. */
static void all_give(const char *what, const uint8_t *list, size_t length, uint32_t number) {
    const uint64_t refused = (uint64_t)number << 32;
    uint8_t block[ANAQSIRO_BLOCK_MIN], before[sizeof block];
    anaqsiro_make(block, sizeof block);
    memcpy(before, block, sizeof block);
    same(what, anaqsiro_move(block, sizeof block, list, length, 0, 1), refused);
    same(what, anaqsiro_move(block, sizeof block, list, length, 20146, 20147),
         number == ANAQSIRO_ACCEPTED ? (uint64_t)ANAQSIRO_NOTHING_TO_TAKE << 32 : refused);
    same(what, memcmp(block, before, sizeof block) == 0, 1);
    same(what, anaqsiro_next_change(list, length, 20146), number == ANAQSIRO_ACCEPTED ? 20147 : refused);
    if (length == ANAQSIRO_APPOINTMENT) {
        same(what, anaqsiro_stands(list, length, 20146), number == ANAQSIRO_ACCEPTED ? 1 : refused);
    }
}

/* One appointment with another number in one place, and the same behind one that is right. */
static void test_one_other(const char *what, enum part part, uint64_t number, uint32_t refusal) {
    uint8_t list[2 * ANAQSIRO_APPOINTMENT];
    put_other(list, AS_IT_IS, 0);
    put_other(list + ANAQSIRO_APPOINTMENT, part, number);
    all_give(what, list, sizeof list, refusal);
    all_give(what, list + ANAQSIRO_APPOINTMENT, ANAQSIRO_APPOINTMENT, refusal);
}

/* Each number of an appointment at its limits, above them, and too great for its bytes. */
static void test_appointment_numbers(void) {
    const uint32_t range = ANAQSIRO_OUTSIDE_RANGE;
    test_one_other("as it is", AS_IT_IS, 0, ANAQSIRO_ACCEPTED);
    test_one_other("the greatest name", A_KEY, ANAQSIRO_NAMES - 1, ANAQSIRO_ACCEPTED);
    test_one_other("a key above it", A_KEY, ANAQSIRO_NAMES, ANAQSIRO_NAME);
    test_one_other("an id above it", AN_ID, ANAQSIRO_NAMES, ANAQSIRO_NAME);
    test_one_other("all rights", A_MASK, ANAQSIRO_ALL + ANAQSIRO_X, ANAQSIRO_ACCEPTED);
    test_one_other("no letter", A_MASK, 0, ANAQSIRO_MASK);
    test_one_other("a marker alone", A_MASK, ANAQSIRO_N, ANAQSIRO_MASK);
    test_one_other("a denial", A_MASK, ANAQSIRO_NO_CREATE, ANAQSIRO_MASK);
    test_one_other("bits of no letter", A_MASK, 1025, ANAQSIRO_MASK);
    test_one_other("both markers", A_MASK, anaqsiro_mask("RXN"), ANAQSIRO_FORM);
    test_one_other("no leap year", A_YEAR, 2023, range);
    test_one_other("too early", A_YEAR, 1968, range);
    test_one_other("too late", A_YEAR, 2400, range);
    test_one_other("month 0", A_MONTH, 0, range);
    test_one_other("month 13", A_MONTH, 13, range);
    test_one_other("day 0", A_DAY, 0, range);
    test_one_other("day 30 of February", A_DAY, 30, range);
    test_one_other("a term of 0", A_TERM, 0, range);
    test_one_other("a term of 121", A_TERM, ANAQSIRO_TERM_MAX + 1, range);
    for (unsigned bit = 8; bit < 64; bit++) {
        const uint64_t more = (uint64_t)1 << bit;
        test_one_other("a wide key", A_KEY, 1 + more, bit < 10 ? (uint32_t)ANAQSIRO_ACCEPTED : (uint32_t)ANAQSIRO_NAME);
        test_one_other("a wide id", AN_ID, 2 + more, bit < 10 ? (uint32_t)ANAQSIRO_ACCEPTED : (uint32_t)ANAQSIRO_NAME);
        test_one_other("a wide mask", A_MASK, 2 + more, bit < 10 ? (uint32_t)ANAQSIRO_ACCEPTED : (uint32_t)ANAQSIRO_MASK);
        test_one_other("a wide year", A_YEAR, 2400 + more, range);
        test_one_other("a wide month", A_MONTH, 2 + more, range);
        test_one_other("a wide day", A_DAY, 29 + more, range);
        test_one_other("a wide term", A_TERM, 12 + more, range);
    }
}

/* What is wrong with the form of a list: its length, a marker, a last byte. 3 comes before 4, 4 before 5, 5 before 12, wherever
 * they stand; and 12 is for a 257th appointment, too. */
static void test_lists(void) {
    static uint8_t list[ANAQSIRO_APPOINTMENTS_MAX + ANAQSIRO_APPOINTMENT];
    const size_t one = ANAQSIRO_APPOINTMENT, last = sizeof list - one;
    uint8_t byte_more[ANAQSIRO_APPOINTMENT + 1] = {0};
    for (size_t at = 0; at < sizeof list; at += one) {
        put_other(list + at, AS_IT_IS, 0);
    }
    all_give("256 appointments", list, last, ANAQSIRO_ACCEPTED);
    all_give("257 appointments", list, sizeof list, ANAQSIRO_OUTSIDE_RANGE);
    put_other(list + last, A_MASK, 0);
    all_give("5 in the 257th", list, sizeof list, ANAQSIRO_MASK);
    put_other(list, A_KEY, ANAQSIRO_NAMES);
    all_give("4 before it", list, sizeof list, ANAQSIRO_NAME);
    list[last + ANAQSIRO_APPOINTMENT_MARKER_AT] = 3;
    all_give("3 behind it", list, sizeof list, ANAQSIRO_FORM);
    for (unsigned value = 0; value < 256; value++) {
        put_other(list, AS_IT_IS, 0);
        list[ANAQSIRO_APPOINTMENT_MARKER_AT] = (uint8_t)value;
        all_give("a marker", list, one, value <= 2 ? (uint32_t)ANAQSIRO_ACCEPTED : (uint32_t)ANAQSIRO_FORM);
        put_other(list, AS_IT_IS, 0);
        list[one - 1] = (uint8_t)value;
        all_give("a last byte", list, one, value == 0 ? (uint32_t)ANAQSIRO_ACCEPTED : (uint32_t)ANAQSIRO_FORM);
    }
    memcpy(byte_more, list + one, one);
    for (size_t length = 1; length < one; length++) {
        all_give("a short list", byte_more, length, ANAQSIRO_FORM);
        same("a short appointment", anaqsiro_number(anaqsiro_stands(byte_more, length, 0)), ANAQSIRO_FORM);
    }
    all_give("a byte more", byte_more, sizeof byte_more, ANAQSIRO_FORM);
    same("an appointment of 13 bytes", anaqsiro_number(anaqsiro_stands(byte_more, sizeof byte_more, 0)), ANAQSIRO_FORM);
    same("two appointments", anaqsiro_number(anaqsiro_stands(list + one, 2 * one, 0)), ANAQSIRO_FORM);
    same("no appointment", anaqsiro_number(anaqsiro_stands(NULL, 0, 0)), ANAQSIRO_FORM);
    same("an empty list", anaqsiro_next_change(NULL, 0, 0), 0);
}

/* A first date and a term, and the day on which it stands no more; 0 for one that is outside the range. */
struct term {
    uint64_t year, month, day, term, anniversary;
};

static const struct term terms[] = {
    {2024, 2, 29, 12, 20147},    {2024, 2, 29, 48, 21243},  {2024, 1, 31, 1, 19782},   {2023, 1, 31, 1, 19416},
    {2024, 8, 31, 1, 19996},     {2024, 8, 31, 6, 20147},   {2024, 12, 31, 2, 20147},  {1970, 1, 1, 1, 31},
    {1970, 1, 1, 120, 3652},     {2100, 2, 28, 120, 51192}, {2399, 11, 30, 1, 157052}, {2399, 11, 29, 1, 157051},
    {2389, 12, 31, 120, 157053}, {2390, 1, 1, 120, 0},      {2399, 12, 1, 1, 0},       {2399, 12, 31, 1, 0},
};

/* It stands from its first day up to the day before the anniversary, and the next changes are just these two days. */
static void test_terms(void) {
    for (const struct term *one = terms; one < terms + sizeof terms / sizeof *terms; one++) {
        const struct anaqsiro_appointment appointment = {{1, 2, 1}, one->year, one->month, one->day, one->term};
        const uint64_t first = anaqsiro_day(one->year, one->month, one->day), end = one->anniversary;
        const uint64_t refused = (uint64_t)ANAQSIRO_OUTSIDE_RANGE << 32;
        uint8_t list[ANAQSIRO_APPOINTMENT];
        anaqsiro_put_appointment(list, &appointment);
        same("the first day", anaqsiro_stands(list, sizeof list, first), end == 0 ? refused : 1);
        same("the next change", anaqsiro_next_change(list, sizeof list, first), end == 0 ? refused : end);
        if (end != 0) {
            same("before it", first == 0 ? 0 : anaqsiro_stands(list, sizeof list, first - 1), 0);
            same("the first change", first == 0 ? 0 : anaqsiro_next_change(list, sizeof list, 0), first);
            same("the day before the anniversary", anaqsiro_stands(list, sizeof list, end - 1), 1);
            same("the anniversary", anaqsiro_stands(list, sizeof list, end), 0);
            same("the change on the day before", anaqsiro_next_change(list, sizeof list, end - 1), end);
            same("no change after it", anaqsiro_next_change(list, sizeof list, end), 0);
            same("the last day", anaqsiro_stands(list, sizeof list, ANAQSIRO_LAST_DAY), 0);
            same("after the last day", anaqsiro_stands(list, sizeof list, ANAQSIRO_LAST_DAY + 1), refused);
            same("a change after it", anaqsiro_next_change(list, sizeof list, ANAQSIRO_LAST_DAY + 1), refused);
        }
    }
}

/* The records of the groups of 1 are as this text has them. */
static void same_groups(const char *what, const uint8_t *block, size_t len, const char *wanted) {
    char text[64] = {0};
    anaqsiro_write(block, len, ANAQSIRO_MEMBERSHIP, 1, (uint8_t *)text, sizeof text - 1);
    same_words(what, text, wanted);
}

/* A move is refused with the number, and the block is as it was. */
static void move_refused(const char *what, uint8_t *block, size_t len, const uint8_t *list, size_t list_len, uint64_t old_day,
                         uint64_t new_day, uint32_t number) {
    uint8_t before[ANAQSIRO_BLOCK_MIN + 2 * ANAQSIRO_RECORD];
    memcpy(before, block, len);
    same(what, anaqsiro_move(block, len, list, list_len, old_day, new_day), (uint64_t)number << 32);
    same(what, memcmp(before, block, len) == 0, 1);
}

/* Three appointments of 1 on a block with room for two records: moves to each day and back, and what refuses one. Each of them
 * stands from the first of a month up to the first of the next but one: from day 19,723, 19,754 and 19,783 on. */
static void test_moves(void) {
    const struct anaqsiro_appointment made[] = {{{1, 2, anaqsiro_mask("RX")}, 2024, 1, 1, 2},
                                                {{1, 2, anaqsiro_mask("RUN")}, 2024, 2, 1, 2},
                                                {{1, 3, 1}, 2024, 3, 1, 2}};
    static const struct {
        uint64_t day;
        const char *groups;
    } days[] = {{0, ""}, {19722, ""}, {19723, "2;RX"}, {19754, "2;R2UXN"}, {19783, "2;RUN;3;M"}, {19814, "3;M"}, {19844, ""}};
    const size_t how_many = sizeof days / sizeof *days;
    uint8_t block[ANAQSIRO_BLOCK_MIN + 2 * ANAQSIRO_RECORD], list[3 * ANAQSIRO_APPOINTMENT];
    for (size_t i = 0; i < 3; i++) {
        anaqsiro_put_appointment(list + i * ANAQSIRO_APPOINTMENT, &made[i]);
    }
    anaqsiro_make(block, sizeof block);
    for (size_t pair = 0; pair < how_many * how_many; pair++) {
        const size_t from = pair / how_many, to = pair % how_many;
        anaqsiro_make(block, sizeof block);
        same("there", anaqsiro_move(block, sizeof block, list, sizeof list, ANAQSIRO_LAST_DAY, days[from].day), 0);
        same_groups("from", block, sizeof block, days[from].groups);
        same("a move", anaqsiro_move(block, sizeof block, list, sizeof list, days[from].day, days[to].day), 0);
        same_groups("to", block, sizeof block, days[to].groups);
    }
    move_refused("nothing to take", block, sizeof block, list, sizeof list, 19783, 19754, ANAQSIRO_NOTHING_TO_TAKE);
    move_refused("no room", block, sizeof block - ANAQSIRO_RECORD, list, sizeof list, 0, 19783, ANAQSIRO_NO_ROOM);
    anaqsiro_read(block, sizeof block, ANAQSIRO_MEMBERSHIP, 1, (const uint8_t *)"2;R65535X", 9);
    move_refused("a full count", block, sizeof block, list, sizeof list, 0, 19754, ANAQSIRO_COUNT_FULL);
    same("one taken before", anaqsiro_move(block, sizeof block, list, sizeof list, 19723, 19783), 0);
    same_groups("and one added", block, sizeof block, "2;R65535UN;3;M");
    move_refused("a day after the last", block, sizeof block, list, sizeof list, 19783, ANAQSIRO_LAST_DAY + 1,
                 ANAQSIRO_OUTSIDE_RANGE);
    move_refused("from such a day", block, sizeof block, list, sizeof list, UINT64_MAX, 0, ANAQSIRO_OUTSIDE_RANGE);
    move_refused("a wrong list on the same day", block, sizeof block, list, 1, 0, 0, ANAQSIRO_FORM);
    same("the same day", anaqsiro_move(block, sizeof block, list, sizeof list, 19783, 19783), 0);
    same("an empty list", anaqsiro_move(block, sizeof block, NULL, 0, 0, 1), 0);
    move_refused("a short block", block, ANAQSIRO_BLOCK_MIN - 1, list, 1, 0, 0, ANAQSIRO_BLOCK_LENGTH);
    block[6] = 1; /* this number is to be zero */
    move_refused("not good", block, sizeof block, list, 1, 0, 0, ANAQSIRO_BLOCK_NOT_GOOD);
}

/* The parts of each answer that a finder can give, and of one that says none or was refused. */
static void test_names_of_slips(void) {
    for (uint64_t pair = 0; pair < ANAQSIRO_CHAIN_MAX * ANAQSIRO_CHAIN_MAX; pair++) {
        const uint64_t user = 1 + pair / ANAQSIRO_CHAIN_MAX, object = 1 + pair % ANAQSIRO_CHAIN_MAX;
        same("names on the user's chain", anaqsiro_user_names(user + 256 * object), user);
        same("names on the object's chain", anaqsiro_object_names(user + 256 * object), object);
    }
    for (uint64_t number = 0; number <= ANAQSIRO_PROFILE; number++) {
        same("no names", anaqsiro_user_names(number << 32) + anaqsiro_object_names(number << 32), 0);
    }
}

/* Sets with grants, GRANTING records in all. 1 is in group 2, which is in 3 for reading and updating; KEY is in group 8. 5 is bound
 * to group 6, and may update everything that is open to it. Over 12, which 3 leads to in two steps, 1 may update KEY by a slip with
 * one name more. */
static const struct keyed granting[] = {
    {ANAQSIRO_MEMBERSHIP, 1, "2;MRUP"},  {ANAQSIRO_MEMBERSHIP, 2, "3;RU"},     {ANAQSIRO_MEMBERSHIP, 3, "11;U"},
    {ANAQSIRO_MEMBERSHIP, 5, "6;MRUPX"}, {ANAQSIRO_MEMBERSHIP, KEY, "8;MRUP"}, {ANAQSIRO_MEMBERSHIP, 11, "12;U"},
    {ANAQSIRO_PERMISSION, 0, "5;U"},     {ANAQSIRO_PERMISSION, KEY, "12;U"},   {ANAQSIRO_PERMISSION, 8, "3;MRU"},
    {ANAQSIRO_FILTER, 8, "20;MU"},
};

/* A block of them with a chain of memberships from START to END besides, one more than a chain may have. END is granted updating on
 * 9, and what stands before it reading; 1 is granted the same on these two. */
struct slipped {
    uint8_t block[ANAQSIRO_BLOCK_MIN + (GRANTING + END - START + 4) * ANAQSIRO_RECORD];
    uint16_t user_chain[PLACES], object_chain[PLACES];
};

/* Adds a record to it. */
static void add(struct slipped *one, uint64_t kind, uint64_t key, uint64_t id, uint64_t mask) {
    const struct anaqsiro_half half = {key, id, mask};
    uint8_t message[ANAQSIRO_MESSAGE];
    anaqsiro_put_message(message, kind, NULL, &half);
    same("a record more", anaqsiro_message(one->block, sizeof one->block, message, sizeof message), 0);
}

static void make_slipped(struct slipped *one) {
    same("records", make_of(one->block, sizeof one->block, granting, sizeof granting / sizeof *granting), GRANTING);
    for (uint64_t name = START; name < END; name++) {
        add(one, ANAQSIRO_MEMBERSHIP, name, name + 1, ANAQSIRO_READ | ANAQSIRO_UPDATE);
    }
    add(one, ANAQSIRO_PERMISSION, 9, END, ANAQSIRO_UPDATE);
    add(one, ANAQSIRO_PERMISSION, 9, END - 1, ANAQSIRO_READ);
    add(one, ANAQSIRO_PERMISSION, END, 1, ANAQSIRO_UPDATE);
    add(one, ANAQSIRO_PERMISSION, END - 1, 1, ANAQSIRO_READ);
}

/* A question about one right, and how many names a slip has for it on each list. The names of a list are the first ones here, or
 * those from START on. */
struct wanted {
    const char *what;
    uint64_t user, object, right;
    size_t user_names, object_names;
    uint16_t user_chain[3], object_chain[3];
};

static const struct wanted wanted_slips[] = {
    {"by groups of both", 1, KEY, ANAQSIRO_UPDATE, 3, 2, {1, 2, 3}, {KEY, 8, 0}},
    {"by 0", 5, 9, ANAQSIRO_UPDATE, 1, 1, {5, 0, 0}, {0, 0, 0}},
    {"32 steps of hers", START, 9, ANAQSIRO_READ, ANAQSIRO_CHAIN_MAX, 1, {START, 0, 0}, {9, 0, 0}},
    {"32 steps of the object's", 1, START, ANAQSIRO_READ, 1, ANAQSIRO_CHAIN_MAX, {1, 0, 0}, {START, 0, 0}},
    {"33 steps of hers", START, 9, ANAQSIRO_UPDATE, 0, 0, {0, 0, 0}, {0, 0, 0}},
    {"33 steps of the object's", 1, START, ANAQSIRO_UPDATE, 0, 0, {0, 0, 0}, {0, 0, 0}},
    {"not carried", 1, KEY, ANAQSIRO_CREATE, 0, 0, {0, 0, 0}, {0, 0, 0}},
    {"filtered", 1, KEY, ANAQSIRO_READ, 0, 0, {0, 0, 0}, {0, 0, 0}},
    {"not granted", 1, KEY, ANAQSIRO_DELETE, 0, 0, {0, 0, 0}, {0, 0, 0}},
    {"not open to her", 5, KEY, ANAQSIRO_UPDATE, 0, 0, {0, 0, 0}, {0, 0, 0}},
};

/* The finder and the checker, on lists of the one block. */
static uint64_t find(struct slipped *one, const struct wanted *slip, size_t user_len, size_t object_len) {
    memset(one->user_chain, 0xFF, sizeof one->user_chain);
    memset(one->object_chain, 0xFF, sizeof one->object_chain);
    return anaqsiro_find_slip(one->block, sizeof one->block, slip->user, slip->object, slip->right, one->user_chain, user_len,
                              one->object_chain, object_len);
}

static uint64_t check(const struct slipped *one, const struct wanted *slip) {
    return anaqsiro_check_slip(one->block, sizeof one->block, slip->user, slip->object, slip->right, one->user_chain,
                               slip->user_names, one->object_chain, slip->object_names);
}

/* The list has these names in front, and after them what stood there before the finder. */
static void same_list(const char *what, const uint16_t *list, const uint16_t *names, size_t how_many) {
    for (size_t i = 0; i < PLACES; i++) {
        const int from_start = how_many == ANAQSIRO_CHAIN_MAX;
        same(what, list[i], i >= how_many ? 0xFFFF : from_start ? START + i : names[i]);
    }
}

/* A lent list of so many places: what is found, and that it is right. */
static void same_slip(struct slipped *one, const struct wanted *slip, size_t user_len, size_t object_len) {
    const uint64_t found = find(one, slip, user_len, object_len);
    same(slip->what, anaqsiro_number(found), ANAQSIRO_ACCEPTED);
    same(slip->what, anaqsiro_user_names(found), slip->user_names);
    same(slip->what, anaqsiro_object_names(found), slip->object_names);
    same_list(slip->what, one->user_chain, slip->user_chain, slip->user_names);
    same_list(slip->what, one->object_chain, slip->object_chain, slip->object_names);
    if (anaqsiro_value(found) != 0) {
        same(slip->what, check(one, slip), 1);
    }
}

/* What is found with lists of 33 places and of more, and that it is refused with 10 with fewer, also where there is no slip. */
static void test_found_slips(void) {
    static const size_t few[] = {0, 1, ANAQSIRO_CHAIN_MAX - 1};
    struct slipped one;
    make_slipped(&one);
    for (const struct wanted *slip = wanted_slips; slip < wanted_slips + sizeof wanted_slips / sizeof *wanted_slips; slip++) {
        same_slip(&one, slip, ANAQSIRO_CHAIN_MAX, ANAQSIRO_CHAIN_MAX);
        same_slip(&one, slip, PLACES, ANAQSIRO_CHAIN_MAX + 1);
        for (size_t i = 0; i < sizeof few / sizeof *few; i++) {
            same("few places for hers", find(&one, slip, few[i], PLACES), (uint64_t)ANAQSIRO_TEXT_LONG << 32);
            same("few places for the object's", find(&one, slip, PLACES, few[i]), (uint64_t)ANAQSIRO_TEXT_LONG << 32);
            same_list("as it was", one.user_chain, NULL, 0);
            same_list("as it was", one.object_chain, NULL, 0);
        }
    }
}

/* The finder and the checker give these numbers on so many bytes of the block, and nothing changes: the lists have the slip that is
 * found, where one is. */
static void both_give(const char *what, struct slipped *one, size_t len, const struct wanted *slip, uint32_t found,
                      uint32_t checked) {
    const struct slipped before = *one;
    const uint64_t finds = anaqsiro_find_slip(one->block, len, slip->user, slip->object, slip->right, one->user_chain,
                                              slip->user_names, one->object_chain, slip->object_names);
    const uint64_t checks = anaqsiro_check_slip(one->block, len, slip->user, slip->object, slip->right, one->user_chain,
                                                slip->user_names, one->object_chain, slip->object_names);
    same(what, anaqsiro_number(finds), found);
    same(what, anaqsiro_number(checks), checked);
    same(what, found == ANAQSIRO_ACCEPTED || anaqsiro_value(finds) == 0, 1);
    same(what, checked == ANAQSIRO_ACCEPTED || anaqsiro_value(checks) == 0, 1);
    same(what, memcmp(one, &before, sizeof before) == 0, 1);
}

/* The numbers with lists of these lengths. Then more goes wrong, and each time the number is that of what is looked at first. */
static void each_number(struct slipped *one, size_t user_len, size_t object_len, uint32_t found, uint32_t checked) {
    static const uint64_t wrong_rights[] = {0, 3, 5, 15, 16, 32, ((uint64_t)1 << 32) + 4, UINT64_MAX};
    struct wanted slip = wanted_slips[0];
    slip.user_names = user_len;
    slip.object_names = object_len;
    both_give("accepted or the last", one, sizeof one->block, &slip, found, checked);
    for (size_t i = 0; i < sizeof wrong_rights / sizeof *wrong_rights; i++) {
        slip.right = wrong_rights[i];
        both_give("not one right", one, sizeof one->block, &slip, ANAQSIRO_MASK, ANAQSIRO_MASK);
    }
    slip.user = ANAQSIRO_NAMES;
    both_give("a user above all", one, sizeof one->block, &slip, ANAQSIRO_NAME, ANAQSIRO_NAME);
    slip.user = 1;
    slip.object = ((uint64_t)1 << 32) + KEY;
    both_give("an object above all", one, sizeof one->block, &slip, ANAQSIRO_NAME, ANAQSIRO_NAME);
    both_give("cut off", one, ANAQSIRO_BLOCK_MIN, &slip, ANAQSIRO_BLOCK_NOT_GOOD, ANAQSIRO_BLOCK_NOT_GOOD);
    both_give("too short", one, ANAQSIRO_BLOCK_MIN - 1, &slip, ANAQSIRO_BLOCK_LENGTH, ANAQSIRO_BLOCK_LENGTH);
}

/* Each number of both calls, with lists of each length that matters. */
static void test_numbers_of_slips(void) {
    static const size_t lengths[] = {0, 1, ANAQSIRO_CHAIN_MAX - 1, ANAQSIRO_CHAIN_MAX, ANAQSIRO_CHAIN_MAX + 1, PLACES};
    const size_t how_many = sizeof lengths / sizeof *lengths;
    struct slipped one;
    make_slipped(&one);
    memset(one.user_chain, 0, sizeof one.user_chain);
    memset(one.object_chain, 0, sizeof one.object_chain);
    memcpy(one.user_chain, wanted_slips[0].user_chain, 3 * sizeof *one.user_chain);
    memcpy(one.object_chain, wanted_slips[0].object_chain, 2 * sizeof *one.object_chain);
    for (size_t pair = 0; pair < how_many * how_many; pair++) {
        const size_t user_len = lengths[pair / how_many], object_len = lengths[pair % how_many];
        const int few = user_len < ANAQSIRO_CHAIN_MAX || object_len < ANAQSIRO_CHAIN_MAX;
        const int none = user_len == 0 || object_len == 0;
        const int many = user_len > ANAQSIRO_CHAIN_MAX || object_len > ANAQSIRO_CHAIN_MAX;
        each_number(&one, user_len, object_len, few ? ANAQSIRO_TEXT_LONG : ANAQSIRO_ACCEPTED,
                    none || many ? ANAQSIRO_CHAIN_LENGTH : ANAQSIRO_ACCEPTED);
    }
}

/* Each name on a slip changed to each other one, and to numbers that are no names: no, and refused with 4, before 5 and 11. */
static void forge_name(struct slipped *one, struct wanted *slip, uint16_t *name) {
    const uint16_t right = *name;
    for (uint32_t other = 0; other < 2 * ANAQSIRO_NAMES; other++) {
        *name = (uint16_t)other;
        same("another name", check(one, slip), other < ANAQSIRO_NAMES ? other == right : (uint64_t)ANAQSIRO_NAME << 32);
    }
    *name = 0xFFFF;
    slip->right = 0;
    same("before 5", check(one, slip), (uint64_t)ANAQSIRO_NAME << 32);
    slip->right = ANAQSIRO_UPDATE;
    *name = right;
}

static void test_forged_slips(void) {
    struct wanted slip = wanted_slips[0];
    struct slipped one;
    make_slipped(&one);
    find(&one, &slip, PLACES, PLACES);
    for (size_t i = 0; i < slip.user_names; i++) {
        forge_name(&one, &slip, &one.user_chain[i]);
    }
    for (size_t i = 0; i < slip.object_names; i++) {
        forge_name(&one, &slip, &one.object_chain[i]);
    }
    for (uint64_t right = ANAQSIRO_CREATE; right <= ANAQSIRO_DELETE; right *= 2) {
        slip.right = right;
        same("another right", check(&one, &slip), right == ANAQSIRO_UPDATE);
    }
    slip = wanted_slips[0];
    slip.user = 2;
    same("another user", check(&one, &slip), 0);
    slip.user = 1;
    slip.object = 8;
    same("another object", check(&one, &slip), 0);
}

/* A name above all is found far behind, where a list is too long by far. */
static void test_long_lists(void) {
    struct wanted slip = wanted_slips[0];
    struct slipped one;
    make_slipped(&one);
    memset(one.user_chain, 0, sizeof one.user_chain);
    memset(one.object_chain, 0, sizeof one.object_chain);
    slip.user_names = slip.object_names = PLACES;
    same("long lists", check(&one, &slip), (uint64_t)ANAQSIRO_CHAIN_LENGTH << 32);
    one.user_chain[PLACES - 1] = ANAQSIRO_NAMES;
    same("the last of hers", check(&one, &slip), (uint64_t)ANAQSIRO_NAME << 32);
    one.user_chain[PLACES - 1] = 0;
    one.object_chain[PLACES - 1] = ANAQSIRO_NAMES;
    same("the last of the object's", check(&one, &slip), (uint64_t)ANAQSIRO_NAME << 32);
}

/* 0 by itself is for every object; with names before it or after it, it is a name as another. */
static void test_0_by_itself(void) {
    struct wanted slip = wanted_slips[1];
    struct slipped one;
    make_slipped(&one);
    find(&one, &slip, PLACES, PLACES);
    same("by itself", check(&one, &slip), 1);
    one.object_chain[1] = 0;
    slip.object_names = 2;
    same("before itself", check(&one, &slip), 0);
    one.object_chain[0] = 9;
    same("after the object", check(&one, &slip), 0);
    slip.object_names = 1;
    same("the object alone", check(&one, &slip), 0);
    slip.object = 0;
    one.object_chain[0] = 0;
    same("as the object", check(&one, &slip), 1);
    slip.object = KEY;
    same("where the object is not open to her", check(&one, &slip), 0);
}

/* Sets whose rights differ by the limit. KEY is in group 8, which is in 30. 5 is bound to 6 by one membership, 11 to 13 by two, and 14
 * would be bound to 16 by two if the first had no N. 17, 19 and 43 have a membership with a marker alone. 21 and 22 are in each other.
 * 99 is in START. On 10 rights are granted to START and to the names 3, 8, 32 and 33 memberships after it, and to 1 on each of these. */
static const struct keyed limited[] = {
    {ANAQSIRO_MEMBERSHIP, 5, "6;MRUPX"},
    {ANAQSIRO_MEMBERSHIP, 6, "40;MRUP"},
    {ANAQSIRO_MEMBERSHIP, KEY, "8;MRUP"},
    {ANAQSIRO_MEMBERSHIP, 8, "30;MRUP"},
    {ANAQSIRO_MEMBERSHIP, 11, "12;R"},
    {ANAQSIRO_MEMBERSHIP, 12, "13;UX"},
    {ANAQSIRO_MEMBERSHIP, 14, "15;RN"},
    {ANAQSIRO_MEMBERSHIP, 15, "16;RX"},
    {ANAQSIRO_MEMBERSHIP, 17, "18;X"},
    {ANAQSIRO_MEMBERSHIP, 19, "8;X"},
    {ANAQSIRO_MEMBERSHIP, 21, "22;MR"},
    {ANAQSIRO_MEMBERSHIP, 22, "21;RU"},
    {ANAQSIRO_MEMBERSHIP, 41, "42;R"},
    {ANAQSIRO_MEMBERSHIP, 42, "6;P"},
    {ANAQSIRO_MEMBERSHIP, 43, "6;X;8;R"},
    {ANAQSIRO_MEMBERSHIP, 99, "100;M"},
    {ANAQSIRO_PERMISSION, 0, "5;U;11;RU;14;R;17;R;23;r"},
    {ANAQSIRO_PERMISSION, KEY, "20;MRUP;100;R"},
    {ANAQSIRO_PERMISSION, 8, "5;M"},
    {ANAQSIRO_PERMISSION, 9, "21;R;22;MRU;23;RUu"},
    {ANAQSIRO_PERMISSION, 10, "100;P;103;U;108;M;132;R;133;MRUP"},
    {ANAQSIRO_PERMISSION, 99, "100;R"},
    {ANAQSIRO_PERMISSION, 100, "1;P"},
    {ANAQSIRO_PERMISSION, 103, "1;U"},
    {ANAQSIRO_PERMISSION, 108, "1;M"},
    {ANAQSIRO_PERMISSION, 132, "1;R"},
    {ANAQSIRO_PERMISSION, 133, "1;MRUP"},
    {ANAQSIRO_FILTER, 8, "50;MRU"},
    {ANAQSIRO_FILTER, 30, "50;P"},
};

/* A block of them with a chain of memberships from START to END besides, one more than a chain may have, and X in the eighth of them.
 * It has LIMITED memberships, and room for more than the plain engine takes. */
enum { LIMITED = 17 + END - START, BINDING = START + 7, MORE = 200 };

struct limited_block {
    uint8_t block[ANAQSIRO_BLOCK_MIN + 128 * ANAQSIRO_RECORD];
};

/* Replaces the memberships of a name by those of a text. */
static void put_groups(struct limited_block *one, uint64_t name, const char *text) {
    const uint64_t answer =
        anaqsiro_read(one->block, sizeof one->block, ANAQSIRO_MEMBERSHIP, name, (const uint8_t *)text, strlen(text));
    same("groups", anaqsiro_number(answer), ANAQSIRO_ACCEPTED);
}

static void make_limited(struct limited_block *one) {
    char text[16];
    make_of(one->block, sizeof one->block, limited, sizeof limited / sizeof *limited);
    for (unsigned name = START; name < END; name++) {
        snprintf(text, sizeof text, "%u;MRUP%s", name + 1, name == BINDING ? "X" : "");
        put_groups(one, name, text);
    }
    same("memberships", anaqsiro_size(one->block, sizeof one->block, ANAQSIRO_MEMBERSHIP), LIMITED);
    same("permissions", anaqsiro_size(one->block, sizeof one->block, ANAQSIRO_PERMISSION), 22);
    same("filters", anaqsiro_size(one->block, sizeof one->block, ANAQSIRO_FILTER), 2);
}

/* A user and an object, and the rights at each limit from 0 to 8, those at the limits from 9 to 31, and those at 32. */
struct at_limits {
    const char *what;
    uint64_t user, object;
    uint32_t held[ANAQSIRO_PLAIN_LIMIT_MAX + 1], after, at_last;
};

static const struct at_limits at_limits[] = {
    {"her chain", START, 10, {8, 8, 8, 12, 12, 12, 12, 12, 13}, 13, 15},
    {"the object's chain", 1, START, {8, 8, 8, 12, 12, 12, 12, 12, 13}, 13, 15},
    {"filtered by its group", 20, KEY, {7, 7, 7, 7, 7, 7, 7, 7, 7}, 7, 7},
    {"in no group at all", 5, 9, {4, 4, 4, 4, 4, 4, 4, 4, 4}, 4, 4},
    {"in a group by a marker alone", 5, 19, {4, 4, 4, 4, 4, 4, 4, 4, 4}, 4, 4},
    {"a group of hers", 5, 6, {4, 4, 4, 4, 4, 4, 4, 4, 4}, 4, 4},
    {"bound by one", 5, KEY, {4, 0, 0, 0, 0, 0, 0, 0, 0}, 0, 0},
    {"bound by one, open by two", 5, 41, {4, 0, 4, 4, 4, 4, 4, 4, 4}, 4, 4},
    {"bound by one, in her group by a marker alone", 5, 43, {4, 0, 0, 0, 0, 0, 0, 0, 0}, 0, 0},
    {"bound by two", 11, KEY, {6, 6, 0, 0, 0, 0, 0, 0, 0}, 0, 0},
    {"bound by eight", START, KEY, {2, 2, 2, 2, 2, 2, 2, 2, 0}, 0, 0},
    {"bound by eight, open by nine", START, 99, {2, 2, 2, 2, 2, 2, 2, 2, 0}, 2, 2},
    {"over N", 14, KEY, {2, 2, 2, 2, 2, 2, 2, 2, 2}, 2, 2},
    {"a marker alone", 17, KEY, {2, 2, 2, 2, 2, 2, 2, 2, 2}, 2, 2},
    {"a loop", 21, 9, {2, 3, 3, 3, 3, 3, 3, 3, 3}, 3, 3},
    {"the loop's other name", 22, 9, {7, 7, 7, 7, 7, 7, 7, 7, 7}, 7, 7},
    {"the ordinary profile", 23, 9, {2, 2, 2, 2, 2, 2, 2, 2, 2}, 2, 2},
    {"nothing granted", 30, KEY, {0, 0, 0, 0, 0, 0, 0, 0, 0}, 0, 0},
};

/* The rights of a row at a limit. */
static uint32_t held_at(const struct at_limits *row, uint64_t limit) {
    return limit <= ANAQSIRO_PLAIN_LIMIT_MAX ? row->held[limit] : limit < ANAQSIRO_LIMIT_MAX ? row->after : row->at_last;
}

/* The two calls with a limit, and the greatest limit of each. */
struct engine {
    const char *what;
    uint64_t (*call)(const uint8_t *block, size_t len, uint64_t user, uint64_t object, uint64_t request, uint64_t limit);
    uint64_t most;
};

static const struct engine engines[] = {{"the plain engine", anaqsiro_plain, ANAQSIRO_PLAIN_LIMIT_MAX},
                                        {"the walk", anaqsiro_rights_to, ANAQSIRO_LIMIT_MAX}};

enum { ENGINES = sizeof engines / sizeof *engines };

/* What an engine gives for a row at each limit that it takes. */
static void same_at_limits(const struct limited_block *one, const struct engine *engine, const struct at_limits *row,
                           uint64_t request) {
    for (uint64_t limit = 0; limit <= engine->most; limit++) {
        const uint64_t answer = engine->call(one->block, sizeof one->block, row->user, row->object, request, limit);
        same(row->what, answer, held_at(row, limit) & request);
        same(row->what, anaqsiro_held(answer), held_at(row, limit) & request);
    }
}

/* The rights at each limit, whatever is requested, and without a limit. No byte of the block changes. */
static void test_limits(void) {
    struct limited_block one;
    make_limited(&one);
    const struct limited_block before = one;
    for (const struct at_limits *row = at_limits; row < at_limits + sizeof at_limits / sizeof *at_limits; row++) {
        for (uint64_t request = 1; request <= ANAQSIRO_ALL; request++) {
            same_at_limits(&one, &engines[0], row, request);
            same_at_limits(&one, &engines[1], row, request);
            const uint64_t full = anaqsiro_rights(one.block, sizeof one.block, row->user, row->object, request, ANAQSIRO_ORDINARY);
            same("without a limit", anaqsiro_held(full), row->at_last & request);
        }
    }
    same("the block as it was", memcmp(&one, &before, sizeof before) == 0, 1);
}

/* An engine refuses a question with the number, and no byte of the block changes. */
static void limit_refused(const char *what, const struct engine *engine, const struct limited_block *one, size_t len, uint64_t user,
                          uint64_t object, uint64_t request, uint64_t limit, uint32_t number) {
    const struct limited_block before = *one;
    same(what, engine->call(one->block, len, user, object, request, limit), (uint64_t)number << 32);
    same(engine->what, memcmp(one, &before, sizeof before) == 0, 1);
}

/* The number at a limit. Then more goes wrong, and each time the number is that of what is looked at first. */
static void each_number_at(const struct engine *engine, struct limited_block *one, uint64_t limit, int taken) {
    static const uint64_t wrong_requests[] = {0, 16, 255, ((uint64_t)1 << 32) + 1, UINT64_MAX};
    static const uint64_t wrong_names[] = {ANAQSIRO_NAMES, 65536 + KEY, ((uint64_t)1 << 32) + KEY, UINT64_MAX};
    const size_t len = sizeof one->block;
    if (taken) {
        same("a limit", anaqsiro_number(engine->call(one->block, len, 20, KEY, ANAQSIRO_ALL, limit)), ANAQSIRO_ACCEPTED);
    } else {
        limit_refused("no limit", engine, one, len, 20, KEY, ANAQSIRO_ALL, limit, ANAQSIRO_LIMIT);
    }
    for (size_t i = 0; i < sizeof wrong_requests / sizeof *wrong_requests; i++) {
        limit_refused("a request", engine, one, len, 20, KEY, wrong_requests[i], limit, ANAQSIRO_MASK);
    }
    for (size_t i = 0; i < sizeof wrong_names / sizeof *wrong_names; i++) {
        limit_refused("a user", engine, one, len, wrong_names[i], KEY, ANAQSIRO_ALL, limit, ANAQSIRO_NAME);
        limit_refused("an object", engine, one, len, 20, wrong_names[i], ANAQSIRO_ALL, limit, ANAQSIRO_NAME);
        limit_refused("a user before a request", engine, one, len, wrong_names[i], KEY, 0, limit, ANAQSIRO_NAME);
        limit_refused("an object before a request", engine, one, len, 20, wrong_names[i], 0, limit, ANAQSIRO_NAME);
    }
    limit_refused("cut off", engine, one, ANAQSIRO_BLOCK_MIN, ANAQSIRO_NAMES, KEY, 0, limit, ANAQSIRO_BLOCK_NOT_GOOD);
    limit_refused("too short", engine, one, ANAQSIRO_BLOCK_MIN - 1, ANAQSIRO_NAMES, KEY, 0, limit, ANAQSIRO_BLOCK_LENGTH);
    same("no bytes", engine->call(NULL, 0, 20, KEY, ANAQSIRO_ALL, limit), (uint64_t)ANAQSIRO_BLOCK_LENGTH << 32);
    one->block[6] = 1; /* this number is to be zero */
    limit_refused("not good", engine, one, len, 20, KEY, ANAQSIRO_ALL, limit, ANAQSIRO_BLOCK_NOT_GOOD);
    one->block[6] = 0;
}

/* Each number of both calls, at each limit that matters: a number that 32 bits do not hold is never taken for another. */
static void test_numbers_at_limits(void) {
    static const uint64_t limits[] = {0, 1, 7, 8, 9, 31, 32, 33, 64, 256, 264, 65536 + 8, (uint64_t)1 << 32,
                                      ((uint64_t)1 << 32) + 8, ((uint64_t)1 << 32) + 32, (uint64_t)1 << 63, UINT64_MAX};
    struct limited_block one;
    make_limited(&one);
    for (size_t i = 0; i < ENGINES; i++) {
        for (size_t at = 0; at < sizeof limits / sizeof *limits; at++) {
            each_number_at(&engines[i], &one, limits[at], limits[at] <= engines[i].most);
        }
    }
}

/* The plain engine takes 64 memberships and no 65th, be it with a marker alone. The walk takes them all. */
static void test_many_memberships(void) {
    static const char *const last[] = {"8;R", "8;X", "8;N"};
    struct limited_block one;
    make_limited(&one);
    for (unsigned name = MORE; name < MORE + ANAQSIRO_PLAIN_RECORDS_MAX - LIMITED; name++) {
        put_groups(&one, name, "8;R");
    }
    same("64 memberships", anaqsiro_size(one.block, sizeof one.block, ANAQSIRO_MEMBERSHIP), ANAQSIRO_PLAIN_RECORDS_MAX);
    for (size_t i = 0; i < sizeof last / sizeof *last; i++) {
        for (uint64_t limit = 0; limit <= ANAQSIRO_PLAIN_LIMIT_MAX; limit++) {
            same("of 64", anaqsiro_plain(one.block, sizeof one.block, 20, KEY, ANAQSIRO_ALL, limit), 7);
        }
        put_groups(&one, ANAQSIRO_NAMES - 1, last[i]);
        for (uint64_t limit = 0; limit <= ANAQSIRO_LIMIT_MAX; limit++) {
            each_number_at(&engines[0], &one, limit, 0);
            same("of 65", anaqsiro_rights_to(one.block, sizeof one.block, 20, KEY, ANAQSIRO_ALL, limit), 7);
        }
        put_groups(&one, ANAQSIRO_NAMES - 1, "");
    }
}

/* Sets whose memberships reach other names, whatever they carry. KEY is in group 8, which is in 30. 21 and 22 are in each other. 40, 42
 * and 44 have memberships with markers alone, and KEY has one in 9, which is in 31. 50 is in 0, which is in 51. Nothing is granted. */
static const struct keyed reaching[] = {
    {ANAQSIRO_MEMBERSHIP, 0, "51;R"},       {ANAQSIRO_MEMBERSHIP, KEY, "8;M;9;X"}, {ANAQSIRO_MEMBERSHIP, 8, "30;P"},
    {ANAQSIRO_MEMBERSHIP, 9, "31;MRUP"},    {ANAQSIRO_MEMBERSHIP, 21, "22;U"},     {ANAQSIRO_MEMBERSHIP, 22, "21;MN"},
    {ANAQSIRO_MEMBERSHIP, 40, "41;X65535"}, {ANAQSIRO_MEMBERSHIP, 42, "43;N"},     {ANAQSIRO_MEMBERSHIP, 44, "45;XN"},
    {ANAQSIRO_MEMBERSHIP, 50, "0;PXN"},
};

/* A block of them with a chain of memberships from START to END besides, one more than a chain may have. No right is carried over two
 * of them, and some have markers. */
static void make_reaching(struct limited_block *one) {
    static const char *const links[] = {"M", "RX", "UN", "PXN"};
    char text[16];
    make_of(one->block, sizeof one->block, reaching, sizeof reaching / sizeof *reaching);
    for (unsigned name = START; name < END; name++) {
        snprintf(text, sizeof text, "%u;%s", name + 1, links[name % 4]);
        put_groups(one, name, text);
    }
    same("memberships", anaqsiro_size(one->block, sizeof one->block, ANAQSIRO_MEMBERSHIP), 11 + END - START);
}

/* A user, an object and a record, and whether it bears. */
struct bearing {
    const char *what;
    uint64_t user, object, kind, key, id, bears;
};

enum { OTHER = 500 }; /* a name that no record has */

static const struct bearing bearing[] = {
    {"her own membership", 1, KEY, ANAQSIRO_MEMBERSHIP, 1, OTHER, 1},
    {"the object's own", 1, KEY, ANAQSIRO_MEMBERSHIP, KEY, OTHER, 1},
    {"another's", 1, KEY, ANAQSIRO_MEMBERSHIP, OTHER, OTHER, 0},
    {"another's in her", 1, KEY, ANAQSIRO_MEMBERSHIP, OTHER, 1, 0},
    {"another's in the object", 1, KEY, ANAQSIRO_MEMBERSHIP, OTHER, KEY, 0},
    {"31 from her", START, KEY, ANAQSIRO_MEMBERSHIP, START + 31, OTHER, 1},
    {"32 from her", START, KEY, ANAQSIRO_MEMBERSHIP, START + 32, OTHER, 0},
    {"33 from her", START, KEY, ANAQSIRO_MEMBERSHIP, START + 33, OTHER, 0},
    {"31 from the object", 1, START, ANAQSIRO_MEMBERSHIP, START + 31, OTHER, 1},
    {"32 from the object", 1, START, ANAQSIRO_MEMBERSHIP, START + 32, OTHER, 0},
    {"33 from the object", 1, START, ANAQSIRO_MEMBERSHIP, START + 33, OTHER, 0},
    {"32 from her, 31 from the object", START, START + 1, ANAQSIRO_MEMBERSHIP, START + 32, OTHER, 1},
    {"31 from her, 32 from the object", START + 1, START, ANAQSIRO_MEMBERSHIP, START + 32, OTHER, 1},
    {"32 from both", START, START, ANAQSIRO_MEMBERSHIP, START + 32, OTHER, 0},
    {"against the chain", START + 1, KEY, ANAQSIRO_MEMBERSHIP, START, OTHER, 0},
    {"round a loop", 21, KEY, ANAQSIRO_MEMBERSHIP, 22, OTHER, 1},
    {"who has a marker alone", 40, KEY, ANAQSIRO_MEMBERSHIP, 40, OTHER, 1},
    {"over X alone", 40, KEY, ANAQSIRO_MEMBERSHIP, 41, OTHER, 0},
    {"over N alone", 42, KEY, ANAQSIRO_MEMBERSHIP, 43, OTHER, 0},
    {"over both markers alone", 44, KEY, ANAQSIRO_MEMBERSHIP, 45, OTHER, 0},
    {"over X alone from the object", 1, KEY, ANAQSIRO_MEMBERSHIP, 9, OTHER, 0},
    {"over X alone and further", 1, KEY, ANAQSIRO_MEMBERSHIP, 31, OTHER, 0},
    {"a group's group from the object", 1, KEY, ANAQSIRO_MEMBERSHIP, 30, OTHER, 1},
    {"a membership of 0", 1, KEY, ANAQSIRO_MEMBERSHIP, 0, OTHER, 0},
    {"a membership of 0, reached from her", 50, KEY, ANAQSIRO_MEMBERSHIP, 0, OTHER, 1},
    {"beyond 0, reached from the object", 1, 50, ANAQSIRO_MEMBERSHIP, 51, OTHER, 1},
    {"to her on the object", 1, KEY, ANAQSIRO_PERMISSION, KEY, 1, 1},
    {"to the object on her", 1, KEY, ANAQSIRO_PERMISSION, 1, KEY, 0},
    {"to another on the object", 1, KEY, ANAQSIRO_PERMISSION, KEY, OTHER, 0},
    {"to her on another", 1, KEY, ANAQSIRO_PERMISSION, OTHER, 1, 0},
    {"to her on herself", 1, KEY, ANAQSIRO_PERMISSION, 1, 1, 0},
    {"to the object on itself", 1, KEY, ANAQSIRO_PERMISSION, KEY, KEY, 0},
    {"to 32 from her", START, KEY, ANAQSIRO_PERMISSION, KEY, START + 32, 1},
    {"to 33 from her", START, KEY, ANAQSIRO_PERMISSION, KEY, START + 33, 0},
    {"on 32 from the object", 1, START, ANAQSIRO_PERMISSION, START + 32, 1, 1},
    {"on 33 from the object", 1, START, ANAQSIRO_PERMISSION, START + 33, 1, 0},
    {"32 on both sides", START, START, ANAQSIRO_PERMISSION, START + 32, START + 32, 1},
    {"33 from her, 32 from the object", START, START, ANAQSIRO_PERMISSION, START + 32, START + 33, 0},
    {"32 from her, 33 from the object", START, START, ANAQSIRO_PERMISSION, START + 33, START + 32, 0},
    {"on 32 from her", START, KEY, ANAQSIRO_PERMISSION, START + 32, START, 0},
    {"to 32 from the object", 1, START, ANAQSIRO_PERMISSION, START, START + 32, 0},
    {"to her on 0", 1, KEY, ANAQSIRO_PERMISSION, 0, 1, 1},
    {"to 32 from her on 0", START, KEY, ANAQSIRO_PERMISSION, 0, START + 32, 1},
    {"to 33 from her on 0", START, KEY, ANAQSIRO_PERMISSION, 0, START + 33, 0},
    {"to another on 0", 1, KEY, ANAQSIRO_PERMISSION, 0, OTHER, 0},
    {"to the object on 0", 1, KEY, ANAQSIRO_PERMISSION, 0, KEY, 0},
    {"to 0 on the object", 1, KEY, ANAQSIRO_PERMISSION, KEY, 0, 0},
    {"to 0 on 0", 1, KEY, ANAQSIRO_PERMISSION, 0, 0, 0},
    {"to 0, reached from her", 50, KEY, ANAQSIRO_PERMISSION, KEY, 0, 1},
    {"on a group of 0", 1, KEY, ANAQSIRO_PERMISSION, 51, 1, 0},
    {"on a group of 0, reached from the object", 1, 50, ANAQSIRO_PERMISSION, 51, 1, 1},
    {"to a group by a marker alone", 40, KEY, ANAQSIRO_PERMISSION, KEY, 41, 0},
    {"on a group by a marker alone", 1, KEY, ANAQSIRO_PERMISSION, 9, 1, 0},
    {"the object's own filter", 1, KEY, ANAQSIRO_FILTER, KEY, OTHER, 1},
    {"her own filter", 1, KEY, ANAQSIRO_FILTER, 1, OTHER, 0},
    {"her group's filter", START, KEY, ANAQSIRO_FILTER, START + 1, OTHER, 0},
    {"its group's filter", 1, KEY, ANAQSIRO_FILTER, 8, OTHER, 1},
    {"its group's group's filter", 1, KEY, ANAQSIRO_FILTER, 30, OTHER, 0},
    {"a filter of a group by a marker alone", 1, KEY, ANAQSIRO_FILTER, 9, OTHER, 0},
    {"a filter of who is in it", 1, 8, ANAQSIRO_FILTER, KEY, OTHER, 0},
    {"a filter of 0", 1, KEY, ANAQSIRO_FILTER, 0, OTHER, 0},
    {"a filter of 0, its group", 1, 50, ANAQSIRO_FILTER, 0, OTHER, 1},
    {"a filter of 0's group", 1, 50, ANAQSIRO_FILTER, 51, OTHER, 0},
    {"another filter that has the object's name", 1, KEY, ANAQSIRO_FILTER, OTHER, KEY, 0},
};

/* The call, about a row. */
static uint64_t bears(const struct limited_block *one, const struct bearing *row) {
    return anaqsiro_bears(one->block, sizeof one->block, row->user, row->object, row->kind, row->key, row->id);
}

/* Of a membership and of a filter any id will do. */
static void same_bearing(const struct limited_block *one, const struct bearing *row) {
    same(row->what, bears(one, row), row->bears);
    for (uint64_t id = 0; id < ANAQSIRO_NAMES && row->kind != ANAQSIRO_PERMISSION; id++) {
        struct bearing other = *row;
        other.id = id;
        same(row->what, bears(one, &other), row->bears);
    }
}

/* Both questions about the user and the object of a row have the same answers in two blocks. */
static void same_both(const struct limited_block *one, const struct limited_block *other, const struct bearing *row) {
    const size_t len = sizeof one->block;
    for (uint64_t request = 1; request <= ANAQSIRO_ALL; request++) {
        for (uint64_t profile = ANAQSIRO_ORDINARY; profile <= ANAQSIRO_STRICT; profile++) {
            same(row->what, anaqsiro_rights(one->block, len, row->user, row->object, request, profile),
                 anaqsiro_rights(other->block, len, row->user, row->object, request, profile));
            same(row->what, anaqsiro_may(one->block, len, row->user, row->object, request, profile),
                 anaqsiro_may(other->block, len, row->user, row->object, request, profile));
        }
    }
}

/* A block with the record of a row besides, with what a record of the kind may have. */
static struct limited_block with_record(const struct limited_block *one, const struct bearing *row) {
    const uint64_t more[] = {ANAQSIRO_X, ANAQSIRO_NO_UPDATE, 0};
    const struct anaqsiro_half half = {row->key, row->id, ANAQSIRO_READ | more[row->kind - 1]};
    struct limited_block other = *one;
    uint8_t message[ANAQSIRO_MESSAGE];
    anaqsiro_put_message(message, row->kind, NULL, &half);
    same("the record", anaqsiro_message(other.block, sizeof other.block, message, sizeof message), 0);
    return other;
}

/* A record bears or not, be it in the block or not. Where it does not, its coming changes no answer. No byte of the block changes. */
static void test_bearing(void) {
    struct limited_block one;
    make_reaching(&one);
    const struct limited_block before = one;
    for (const struct bearing *row = bearing; row < bearing + sizeof bearing / sizeof *bearing; row++) {
        const struct limited_block with = with_record(&one, row), with_before = with;
        same_bearing(&one, row);
        same_bearing(&with, row);
        if (row->bears == 0) {
            same_both(&one, &with, row);
        }
        same("the block as it was", memcmp(&one, &before, sizeof before) == 0, 1);
        same("that with the record as it was", memcmp(&with, &with_before, sizeof with) == 0, 1);
    }
}

/* The call refuses a row with the number, and no byte of the block changes. */
static void bears_refused(const char *what, const struct limited_block *one, size_t len, const struct bearing *row, uint32_t number) {
    const struct limited_block before = *one;
    same(what, anaqsiro_bears(one->block, len, row->user, row->object, row->kind, row->key, row->id), (uint64_t)number << 32);
    same(row->what, memcmp(one, &before, sizeof before) == 0, 1);
}

/* A row is refused with the number. Then the block is wrong, too, and the number is that of what is looked at first. */
static void refused_last(const char *what, struct limited_block *one, const struct bearing *row, uint32_t number) {
    bears_refused(what, one, sizeof one->block, row, number);
    bears_refused("cut off", one, ANAQSIRO_BLOCK_MIN, row, ANAQSIRO_BLOCK_NOT_GOOD);
    bears_refused("too short", one, ANAQSIRO_BLOCK_MIN - 1, row, ANAQSIRO_BLOCK_LENGTH);
    one->block[6] = 1; /* this number is to be zero */
    bears_refused("not good", one, sizeof one->block, row, ANAQSIRO_BLOCK_NOT_GOOD);
    bears_refused("not good and too short", one, ANAQSIRO_BLOCK_MIN - 1, row, ANAQSIRO_BLOCK_LENGTH);
    one->block[6] = 0;
}

/* A row with some of its names, by the bits of which, replaced by another: user, object, key, id. */
static struct bearing with_names(const struct bearing *row, unsigned which, uint64_t name) {
    struct bearing other = *row;
    other.user = (which & 1u) != 0 ? name : row->user;
    other.object = (which & 2u) != 0 ? name : row->object;
    other.key = (which & 4u) != 0 ? name : row->key;
    other.id = (which & 8u) != 0 ? name : row->id;
    return other;
}

/* Each number, for what bears and for what does not: a number that 32 bits do not hold is never taken for another. */
static void each_number_of_bearing(struct limited_block *one, const struct bearing *row) {
    static const uint64_t wrong_kinds[] = {0, 4, 5, 15, 17, 18, 256 + 1, 65536 + 2, ((uint64_t)1 << 32) + 3, UINT64_MAX};
    static const uint64_t wrong_names[] = {ANAQSIRO_NAMES, 65535, 65536 + KEY, ((uint64_t)1 << 32) + KEY, UINT64_MAX};
    for (unsigned which = 1; which < 16; which++) {
        const struct bearing last = with_names(row, which, ANAQSIRO_NAMES - 1);
        same("the last name", anaqsiro_number(bears(one, &last)), ANAQSIRO_ACCEPTED);
        for (size_t i = 0; i < sizeof wrong_names / sizeof *wrong_names; i++) {
            const struct bearing wrong = with_names(row, which, wrong_names[i]);
            refused_last("a name", one, &wrong, ANAQSIRO_NAME);
        }
    }
    for (size_t i = 0; i < sizeof wrong_kinds / sizeof *wrong_kinds; i++) {
        for (unsigned which = 0; which < 16; which++) {
            struct bearing wrong = with_names(row, which, ANAQSIRO_NAMES);
            wrong.kind = wrong_kinds[i];
            refused_last("a kind", one, &wrong, ANAQSIRO_FORM);
        }
    }
}

/* A block of one byte too many, and none at all. */
static void test_lengths_of_bearing(void) {
    static uint8_t long_block[ANAQSIRO_BLOCK_MAX + 1];
    same("the longest block", anaqsiro_bears(long_block, ANAQSIRO_BLOCK_MAX, 1, KEY, ANAQSIRO_FILTER, KEY, 0), 2ull << 32);
    anaqsiro_make(long_block, ANAQSIRO_BLOCK_MAX);
    same("the longest block, made", anaqsiro_bears(long_block, ANAQSIRO_BLOCK_MAX, 1, KEY, ANAQSIRO_FILTER, KEY, 0), 1);
    same("too long", anaqsiro_bears(long_block, sizeof long_block, 1, KEY, ANAQSIRO_FILTER, KEY, 0), 1ull << 32);
    same("no bytes", anaqsiro_bears(NULL, 0, 1, KEY, 0, UINT64_MAX, 0), 1ull << 32);
}

static void test_numbers_of_bearing(void) {
    struct limited_block one;
    make_reaching(&one);
    for (const struct bearing *row = bearing; row < bearing + sizeof bearing / sizeof *bearing; row++) {
        each_number_of_bearing(&one, row);
    }
    test_lengths_of_bearing();
}

/* An answer is of the block that is asked. A membership that does not bear leaves it; one that bears brings what it reaches. */
static void test_bearing_later(void) {
    const struct bearing far = {"what another is in", 1, KEY, ANAQSIRO_MEMBERSHIP, OTHER, OTHER + 1, 0};
    const struct bearing near = {"what the object's group is in", 1, KEY, ANAQSIRO_MEMBERSHIP, 30, OTHER, 1};
    const struct bearing granted = {"to her on what was far off", 1, KEY, ANAQSIRO_PERMISSION, OTHER + 1, 1, 0};
    struct limited_block one;
    make_reaching(&one);
    const struct limited_block after_far = with_record(&one, &far), after_near = with_record(&after_far, &near);
    same("at first", bears(&one, &granted), 0);
    same(far.what, bears(&after_far, &granted), 0);
    same(near.what, bears(&after_near, &granted), 1);
    same("and the other", bears(&after_near, &far), 1);
}

int main(void) {
    test_version();
    test_lengths();
    test_letters();
    test_refusals();
    test_bytes();
    test_markers();
    test_wide_numbers();
    test_wrong_markers();
    test_wide_bytes();
    test_wide_halves();
    test_widened();
    test_wrong_lists();
    test_one_pair();
    test_other_call();
    test_longest_text();
    test_places();
    test_parts();
    test_examined(ANAQSIRO_ORDINARY);
    test_examined(ANAQSIRO_STRICT);
    test_records();
    test_directory();
    test_by();
    test_not_own();
    test_left_behind();
    test_profiles();
    test_dates();
    test_appointment_bytes();
    test_appointment_numbers();
    test_lists();
    test_terms();
    test_moves();
    test_names_of_slips();
    test_found_slips();
    test_numbers_of_slips();
    test_forged_slips();
    test_long_lists();
    test_0_by_itself();
    test_limits();
    test_numbers_at_limits();
    test_many_memberships();
    test_bearing();
    test_numbers_of_bearing();
    test_bearing_later();
    printf("include/anaqsiro.h as " LANGUAGE ": %u tests, %u failed\n", tests, failures);
    return failures > 0;
}
