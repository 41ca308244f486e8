/* How many bytes of stack each call takes: it is made on a stack of our own that was painted beforehand, and the deepest byte
 * that lost its paint is looked for. The blocks are such that each call goes as deep as it can: a chain of 40 records for the
 * questions, with X in the one that a chain may end with and a denial at the end of both chains, a count of five digits for the
 * text, for the messages one that inserts and one that puts back what it took, with 64 pairs in a half of the wide ones, for the
 * moves lists of 256 appointments, for slips one with 33 names on either list, at a limit a grant at the end of chains that are as long
 * as the limit allows, for the plain engine a loop, and for what bears records at the ends of chains that are as long as they may be,
 * and one record further. Questions are asked in both profiles. The calls by a directory are made on the same blocks. It fails where a
 * call takes more than LIMIT, the finder of slips more than FIND_LIMIT, the plain engine more than PLAIN_LIMIT, or where one gives another
 * number than it is to: a call that is refused too early takes little, and so does a slip that is not found or not right, or a right that
 * is not reached. */
#define _GNU_SOURCE
#include "anaqsiro.h"

#include <stdio.h>
#include <string.h>
#include <ucontext.h>

#define PAINT 0xA5u
#define CHAIN 40u
#define LAST 32u
#define PAIRS (ANAQSIRO_LIST_MAX * ANAQSIRO_LIST_MAX)
#define LIMIT (24u * 1024u)
#define FIND_LIMIT (32u * 1024u)
#define PLAIN_LIMIT (64u * 1024u)
#define JANUARY 19723u
#define FEBRUARY 19754u

enum { KEY = 900, FAR = 1000 };

static uint8_t stack[1u << 18];
static uint8_t block[ANAQSIRO_BLOCK_MIN + (CHAIN + 5 + PAIRS) * ANAQSIRO_RECORD];
static uint16_t directory[ANAQSIRO_DIRECTORY_LENGTH];
static uint8_t out[4096];
static const uint8_t text[] = "1;M65535R2;7;MRUPmrup65535";
static ucontext_t host, guest;
static uint64_t answer;
static uint64_t (*call)(void);
static size_t depth;
static unsigned failures;
static uint8_t update[ANAQSIRO_MESSAGE];
static uint8_t wide_update[ANAQSIRO_WIDE_MAX];
static size_t wide_length;
static uint8_t list[ANAQSIRO_APPOINTMENTS_MAX];
static uint64_t old_day, new_day;
static uint16_t user_chain[ANAQSIRO_CHAIN_MAX], object_chain[ANAQSIRO_CHAIN_MAX];

static void add(uint64_t kind, uint64_t key, uint64_t id, uint64_t mask) {
    const struct anaqsiro_half half = {key, id, mask};
    uint8_t message[ANAQSIRO_MESSAGE];
    anaqsiro_put_message(message, kind, NULL, &half);
    anaqsiro_message(block, sizeof block, message, sizeof message);
}

/* The message that is measured: it moves letters of one membership to another. */
static void put_update(uint64_t key, uint64_t id, uint64_t mask, uint64_t far) {
    const struct anaqsiro_half previous = {key, id, mask}, moved = {far, far, ANAQSIRO_CREATE};
    anaqsiro_put_message(update, ANAQSIRO_MEMBERSHIP, &previous, &moved);
}

/* The wide message that is measured: it adds letters to 64 filters, and first takes some away from 64 that are there, if any. */
static void put_wide_update(uint64_t taken, uint64_t added, uint64_t far) {
    struct anaqsiro_wide_half previous = {{1, 2, 3, 4, 5, 6, 7, 8}, 8, {1, 2, 3, 4, 5, 6, 7, 8}, 8, taken}, more = previous;
    more.mask = added;
    more.keys[ANAQSIRO_LIST_MAX - 1] = far;
    wide_length = anaqsiro_put_wide(wide_update, ANAQSIRO_FILTER, taken == 0 ? NULL : &previous, &more);
}

/* The move that is measured, over a list of which one half stands in January 2024 and the other in February, each in so many
 * records. */
static void put_move(uint64_t from, uint64_t to, unsigned january, unsigned february) {
    for (unsigned i = 0; i < ANAQSIRO_APPOINTMENTS; i++) {
        const unsigned month = 1 + i % 2, name = month == 1 ? 200 + i / 2 % january : 400 + i / 2 % february;
        const struct anaqsiro_appointment one = {{name, name, ANAQSIRO_ALL | ANAQSIRO_X}, 2024, month, 1, 1};
        anaqsiro_put_appointment(list + i * ANAQSIRO_APPOINTMENT, &one);
    }
    old_day = from;
    new_day = to;
}

static uint64_t call_make(void) { return anaqsiro_make(block, sizeof block); }
static uint64_t call_message(void) { return anaqsiro_message(block, sizeof block, update, sizeof update); }
static uint64_t call_wide(void) { return anaqsiro_wide(block, sizeof block, wide_update, wide_length); }
static uint64_t call_rights(void) { return anaqsiro_rights(block, sizeof block, 1, 1, ANAQSIRO_ALL, ANAQSIRO_ORDINARY); }
static uint64_t call_rights_strict(void) {
    return anaqsiro_rights(block, sizeof block, 1, 1, ANAQSIRO_ALL, ANAQSIRO_STRICT);
}
static uint64_t call_may(void) { return anaqsiro_may(block, sizeof block, 1, 1, ANAQSIRO_CREATE, ANAQSIRO_ORDINARY); }
static uint64_t call_may_strict(void) { return anaqsiro_may(block, sizeof block, 1, 1, ANAQSIRO_CREATE, ANAQSIRO_STRICT); }
static uint64_t call_write(void) { return anaqsiro_write(block, sizeof block, ANAQSIRO_PERMISSION, KEY, out, sizeof out); }
static uint64_t call_read(void) {
    return anaqsiro_read(block, sizeof block, ANAQSIRO_PERMISSION, KEY, text, sizeof text - 1);
}
static uint64_t call_directory(void) { return anaqsiro_directory(block, sizeof block, directory, ANAQSIRO_DIRECTORY_LENGTH); }
static uint64_t call_message_by(void) {
    return anaqsiro_message_by(block, sizeof block, directory, ANAQSIRO_DIRECTORY_LENGTH, update, sizeof update);
}
static uint64_t call_wide_by(void) {
    return anaqsiro_wide_by(block, sizeof block, directory, ANAQSIRO_DIRECTORY_LENGTH, wide_update, wide_length);
}
static uint64_t call_rights_by(void) {
    return anaqsiro_rights_by(block, sizeof block, directory, ANAQSIRO_DIRECTORY_LENGTH, 1, 1, ANAQSIRO_ALL, ANAQSIRO_ORDINARY);
}
static uint64_t call_rights_by_strict(void) {
    return anaqsiro_rights_by(block, sizeof block, directory, ANAQSIRO_DIRECTORY_LENGTH, 1, 1, ANAQSIRO_ALL, ANAQSIRO_STRICT);
}
static uint64_t call_may_by(void) {
    return anaqsiro_may_by(block, sizeof block, directory, ANAQSIRO_DIRECTORY_LENGTH, 1, 1, ANAQSIRO_CREATE, ANAQSIRO_ORDINARY);
}
static uint64_t call_may_by_strict(void) {
    return anaqsiro_may_by(block, sizeof block, directory, ANAQSIRO_DIRECTORY_LENGTH, 1, 1, ANAQSIRO_CREATE, ANAQSIRO_STRICT);
}
static uint64_t call_write_by(void) {
    return anaqsiro_write_by(block, sizeof block, directory, ANAQSIRO_DIRECTORY_LENGTH, ANAQSIRO_PERMISSION, KEY, out,
                             sizeof out);
}
static uint64_t call_read_by(void) {
    return anaqsiro_read_by(block, sizeof block, directory, ANAQSIRO_DIRECTORY_LENGTH, ANAQSIRO_PERMISSION, KEY, text,
                            sizeof text - 1);
}
static uint64_t call_move(void) { return anaqsiro_move(block, sizeof block, list, sizeof list, old_day, new_day); }
static uint64_t call_next_change(void) { return anaqsiro_next_change(list, sizeof list, JANUARY); }
static uint64_t call_stands(void) { return anaqsiro_stands(list, ANAQSIRO_APPOINTMENT, JANUARY); }
static uint64_t call_find_slip(void) {
    return anaqsiro_find_slip(block, sizeof block, 1, 1, ANAQSIRO_UPDATE, user_chain, ANAQSIRO_CHAIN_MAX, object_chain,
                              ANAQSIRO_CHAIN_MAX);
}
static uint64_t call_check_slip(void) {
    return anaqsiro_check_slip(block, sizeof block, 1, 1, ANAQSIRO_UPDATE, user_chain, ANAQSIRO_CHAIN_MAX, object_chain,
                               ANAQSIRO_CHAIN_MAX);
}
static uint64_t call_plain(void) {
    return anaqsiro_plain(block, sizeof block, 1, 1, ANAQSIRO_ALL, ANAQSIRO_PLAIN_LIMIT_MAX);
}
static uint64_t call_rights_to(void) {
    return anaqsiro_rights_to(block, sizeof block, 1, 1, ANAQSIRO_ALL, ANAQSIRO_LIMIT_MAX);
}
static uint64_t bears(uint64_t kind, uint64_t key, uint64_t id) {
    return anaqsiro_bears(block, sizeof block, 1, 1, kind, key, id);
}
static uint64_t call_bears_m(void) { return bears(ANAQSIRO_MEMBERSHIP, LAST, FAR); }
static uint64_t call_bears_m_not(void) { return bears(ANAQSIRO_MEMBERSHIP, LAST + 1, FAR); }
static uint64_t call_bears_p(void) { return bears(ANAQSIRO_PERMISSION, LAST + 1, LAST + 1); }
static uint64_t call_bears_p_not(void) { return bears(ANAQSIRO_PERMISSION, LAST + 1, LAST + 2); }
static uint64_t call_bears_f(void) { return bears(ANAQSIRO_FILTER, 2, FAR); }
static uint64_t call_bears_f_not(void) { return bears(ANAQSIRO_FILTER, 3, FAR); }
static uint64_t call_day(void) { return anaqsiro_day(ANAQSIRO_LAST_YEAR, 12, 31); }
static uint64_t call_date(void) { return anaqsiro_date(ANAQSIRO_LAST_DAY); }
static uint64_t call_tested(void) { return anaqsiro_tested(block, sizeof block); }
static uint64_t call_size(void) { return anaqsiro_size(block, sizeof block, ANAQSIRO_PERMISSION); }
static uint64_t call_record(void) { return anaqsiro_record(block, sizeof block, CHAIN); }
static uint64_t call_count(void) { return anaqsiro_count(block, sizeof block, CHAIN, 0); }

/* Runs on the painted stack, and counts from its own frame down to the deepest byte that the call has written. */
static void run(void) {
    const uint8_t *here = __builtin_frame_address(0);
    const volatile uint8_t *low = stack;
    answer = call();
    while (*low == PAINT) {
        low++;
    }
    depth = (size_t)(here - (const uint8_t *)low);
}

/* A call by its name. */
struct named {
    const char *name;
    uint64_t (*call)(void);
};

/* The most that a call may take. */
static size_t limit_of(const struct named *what) {
    return what->call == call_find_slip ? FIND_LIMIT : what->call == call_plain ? PLAIN_LIMIT : LIMIT;
}

/* Measures a call that is to give the number. */
static void measure(const struct named *what, uint32_t number) {
    memset(stack, PAINT, sizeof stack);
    call = what->call;
    getcontext(&guest);
    guest.uc_stack.ss_sp = stack;
    guest.uc_stack.ss_size = sizeof stack;
    guest.uc_link = &host;
    makecontext(&guest, run, 0);
    swapcontext(&host, &guest);
    printf("%-26s %6zu bytes of stack (number %u, value %u)\n", what->name, depth, anaqsiro_number(answer),
           anaqsiro_value(answer));
    if (depth > limit_of(what)) {
        printf("%s: it is to take no more than %zu bytes\n", what->name, limit_of(what));
        failures++;
    }
    if (anaqsiro_number(answer) != number) {
        printf("%s: it is to give the number %u\n", what->name, number);
        failures++;
    }
}

/* The calls of the rules on a block that is there, without a directory and by one; the message and the wide one are the first. */
enum { CALLS = 8 };
static const struct named without[CALLS] = {
    {"anaqsiro_message", call_message}, {"anaqsiro_wide", call_wide},
    {"anaqsiro_read", call_read},       {"anaqsiro_write", call_write},
    {"anaqsiro_rights", call_rights},   {"anaqsiro_rights, strict", call_rights_strict},
    {"anaqsiro_may", call_may},         {"anaqsiro_may, strict", call_may_strict},
};
static const struct named by[CALLS] = {
    {"anaqsiro_message_by", call_message_by}, {"anaqsiro_wide_by", call_wide_by},
    {"anaqsiro_read_by", call_read_by},       {"anaqsiro_write_by", call_write_by},
    {"anaqsiro_rights_by", call_rights_by},   {"anaqsiro_rights_by, strict", call_rights_by_strict},
    {"anaqsiro_may_by", call_may_by},         {"anaqsiro_may_by, strict", call_may_by_strict},
};

static const struct named move = {"anaqsiro_move", call_move};
static const struct named find_slip = {"anaqsiro_find_slip", call_find_slip};
static const struct named check_slip = {"anaqsiro_check_slip", call_check_slip};
static const struct named plain = {"anaqsiro_plain", call_plain};
static const struct named rights_to = {"anaqsiro_rights_to", call_rights_to};

/* What bears, a record of each kind, and what does not. */
static const struct named bearing[] = {
    {"anaqsiro_bears, M", call_bears_m},
    {"anaqsiro_bears, P", call_bears_p},
    {"anaqsiro_bears, F", call_bears_f},
};
static const struct named not_bearing[] = {
    {"anaqsiro_bears, M, no", call_bears_m_not},
    {"anaqsiro_bears, P, no", call_bears_p_not},
    {"anaqsiro_bears, F, no", call_bears_f_not},
};

/* The other calls, on the block and the list that those leave. */
static const struct named others[] = {
    {"anaqsiro_next_change", call_next_change}, {"anaqsiro_stands", call_stands}, {"anaqsiro_day", call_day},
    {"anaqsiro_date", call_date},               {"anaqsiro_tested", call_tested}, {"anaqsiro_size", call_size},
    {"anaqsiro_record", call_record},           {"anaqsiro_count", call_count},   {"anaqsiro_directory", call_directory},
    {"anaqsiro_make", call_make},
};

/* Makes the block a chain of records with a grant to its first name on itself, and its directory. She is bound, and let in. One
 * right is denied where her chain and the object's end, so that the others are still held in the strict profile. */
static void make_chain(void) {
    anaqsiro_make(block, sizeof block);
    for (unsigned name = 1; name <= CHAIN; name++) {
        add(ANAQSIRO_MEMBERSHIP, name, name + 1, name == LAST ? ANAQSIRO_ALL | ANAQSIRO_X : ANAQSIRO_ALL);
    }
    add(ANAQSIRO_PERMISSION, 1, 1, ANAQSIRO_ALL);
    add(ANAQSIRO_PERMISSION, LAST + 1, LAST + 1, ANAQSIRO_NO_DELETE);
    call_directory();
}

/* The first messages insert records. The last ones find the block full, and put back what they took. */
static void measure_rules(const struct named *calls) {
    make_chain();
    put_update(1, 2, ANAQSIRO_CREATE, FAR);
    put_wide_update(0, ANAQSIRO_ALL, 8);
    for (size_t i = 0; i < CALLS; i++) {
        measure(&calls[i], ANAQSIRO_ACCEPTED);
    }
    put_update(2, 3, ANAQSIRO_READ, FAR + 1);
    measure(&calls[0], ANAQSIRO_NO_ROOM);
    put_wide_update(ANAQSIRO_READ, ANAQSIRO_READ, FAR);
    measure(&calls[1], ANAQSIRO_NO_ROOM);
}

/* The first move adds 128 appointments in 64 records, the next takes these away and adds 128 others. The last takes them away, finds
 * no room for the 68th of 128 records, and puts all back. */
static void measure_moves(void) {
    make_chain();
    put_move(ANAQSIRO_LAST_DAY, JANUARY, PAIRS, PAIRS);
    measure(&move, ANAQSIRO_ACCEPTED);
    put_move(JANUARY, FEBRUARY, PAIRS, PAIRS);
    measure(&move, ANAQSIRO_ACCEPTED);
    put_move(FEBRUARY, JANUARY, 2 * PAIRS, PAIRS);
    measure(&move, ANAQSIRO_NO_ROOM);
}

/* Measures a call that is to be accepted with the value. */
static void measure_value(const struct named *what, uint32_t value) {
    measure(what, ANAQSIRO_ACCEPTED);
    if (anaqsiro_value(answer) != value) {
        printf("%s: it is to give the value %u\n", what->name, value);
        failures++;
    }
}

/* What is granted is granted at the ends of both chains alone, so that the slip has as many names as any can have. */
static void measure_slips(void) {
    make_chain();
    anaqsiro_read(block, sizeof block, ANAQSIRO_PERMISSION, 1, NULL, 0);
    add(ANAQSIRO_PERMISSION, LAST + 1, LAST + 1, ANAQSIRO_UPDATE);
    measure_value(&find_slip, ANAQSIRO_CHAIN_MAX + 256u * ANAQSIRO_CHAIN_MAX);
    measure_value(&check_slip, 1);
}

/* A name that is a member of itself, by the first of as many memberships as the plain engine takes. Its frames are one for each record
 * that it goes through, so that it goes deepest where the first record of all leads on, each time: here, for what is granted to a name
 * that is not reached, and on one that is not. What is granted to the user herself, on herself, is the value. */
static void make_loop(void) {
    anaqsiro_make(block, sizeof block);
    for (unsigned name = 1; name <= ANAQSIRO_PLAIN_RECORDS_MAX; name++) {
        add(ANAQSIRO_MEMBERSHIP, name, name, ANAQSIRO_ALL | ANAQSIRO_X);
    }
    add(ANAQSIRO_PERMISSION, 1, 1, ANAQSIRO_UPDATE);
    add(ANAQSIRO_PERMISSION, 1, 2, ANAQSIRO_ALL);
    add(ANAQSIRO_PERMISSION, 2, 1, ANAQSIRO_ALL);
}

/* The walk with the greatest limit: a right is granted at the ends of both chains alone, and what makes the group there hers is as long a
 * chain. */
static void measure_limits(void) {
    make_loop();
    measure_value(&plain, ANAQSIRO_UPDATE);
    make_chain();
    anaqsiro_read(block, sizeof block, ANAQSIRO_PERMISSION, 1, NULL, 0);
    add(ANAQSIRO_PERMISSION, LAST + 1, LAST + 1, ANAQSIRO_CREATE);
    measure_value(&rights_to, ANAQSIRO_CREATE);
}

/* The records at the ends of both chains bear, and those one membership further do not. */
static void measure_bearing(void) {
    make_chain();
    for (size_t i = 0; i < sizeof bearing / sizeof *bearing; i++) {
        measure_value(&bearing[i], 1);
        measure_value(&not_bearing[i], 0);
    }
}

int main(void) {
    measure_rules(without);
    measure_rules(by);
    measure_moves();
    measure_slips();
    measure_limits();
    measure_bearing();
    for (size_t i = 0; i < sizeof others / sizeof *others; i++) {
        measure(&others[i], ANAQSIRO_ACCEPTED);
    }
    return failures > 0;
}
