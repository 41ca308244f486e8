/* One question, followed with a finger through the plain engine: may planner-7 create on order-4711, with chains of at most 3 records,
 * and of at most 2? Each function from counts to rights_within is the engine's function of that name, with the same tests in the same
 * order. The engine is silent; these say what they ask and find, as docs/PLAIN.md shows. At the end they are held against anaqsiro_plain. */
#include "anaqsiro.h"

#include <stdbool.h>
#include <stdio.h>

enum { ROOM = 10, PLANNER_7 = 7, PLANNERS = 10, MAINTENANCE, LINE_2 = 20, HALL_1, MILL, SHIFT, ORDER_4711 = 711 };

/* Letters have numbers: four rights, their denials, X, N. A link, which says what each record of a chain must have, is a right or one
 * of two more. At a depth below 0, as from SILENT on, nothing is said. */
enum { RIGHTS = 4, X = 8, N, WITHOUT_N = RIGHTS, MEMBER, SILENT = -1000 };

static const char *const named[ANAQSIRO_NAMES] = {
    [PLANNER_7] = "planner-7", [PLANNERS] = "planners", [MAINTENANCE] = "maintenance", [LINE_2] = "line-2",
    [HALL_1] = "hall-1",       [MILL] = "mill",         [SHIFT] = "shift",             [ORDER_4711] = "order-4711"};
static const char *const rights[] = {"create", "read", "update", "delete"};
static const char *const with[] = {"carrying M", "carrying R", "carrying U", "carrying P", "counting N in none", "whatever they carry"};

/* The mill, as in plain.c. */
static const struct { uint64_t kind, key, id; const char *letters; } statements[] = {
    {ANAQSIRO_MEMBERSHIP, ORDER_4711, LINE_2, "MRUP"},    {ANAQSIRO_MEMBERSHIP, LINE_2, HALL_1, "MRUP"},
    {ANAQSIRO_MEMBERSHIP, HALL_1, MILL, "MRUP"},          {ANAQSIRO_MEMBERSHIP, PLANNER_7, PLANNERS, "MRUP"},
    {ANAQSIRO_MEMBERSHIP, PLANNERS, MAINTENANCE, "MRUP"}, {ANAQSIRO_MEMBERSHIP, MAINTENANCE, MILL, "MRUPX"},
    {ANAQSIRO_PERMISSION, ORDER_4711, PLANNER_7, "RP"},   {ANAQSIRO_PERMISSION, LINE_2, PLANNERS, "U"},
    {ANAQSIRO_PERMISSION, MILL, MAINTENANCE, "M"},        {ANAQSIRO_FILTER, LINE_2, SHIFT, "MRU"}};

static uint8_t block[ANAQSIRO_BLOCK_MIN + ROOM * ANAQSIRO_RECORD];

static void load(void) {
    uint8_t message[ANAQSIRO_MESSAGE];
    anaqsiro_make(block, sizeof block);
    for (unsigned s = 0; s < sizeof statements / sizeof *statements; s++) {
        const struct anaqsiro_half half = {statements[s].key, statements[s].id, anaqsiro_mask(statements[s].letters)};
        anaqsiro_put_message(message, statements[s].kind, NULL, &half);
        anaqsiro_message(block, sizeof block, message, sizeof message);
    }
}

/* Says a line, indented by two spaces for each call inside another. The answer to a question is the last line under it, one deeper. */
#define SAY(depth, ...) ((void)((depth) >= 0 && printf("%*s", 2 * (depth), "") >= 0 && printf(__VA_ARGS__) >= 0 && printf("\n") > 0))
static bool answer(int depth, bool yes) {
    SAY(depth + 1, "%s", yes ? "yes" : "no");
    return yes;
}

/* How many records of a kind there are, and the key and the id of record i. */
static unsigned size_of(uint64_t kind) { return anaqsiro_value(anaqsiro_size(block, sizeof block, kind)); }
static unsigned key_of(unsigned i) { return anaqsiro_key(anaqsiro_record(block, sizeof block, i)); }
static unsigned id_of(unsigned i) { return anaqsiro_id(anaqsiro_record(block, sizeof block, i)); }

/* Does record i count the letter? Is the right in its net mask? Is M record i a membership? */
static bool counts(unsigned i, unsigned letter) { return anaqsiro_value(anaqsiro_count(block, sizeof block, i, letter)) > 0; }
static bool has_right(unsigned i, unsigned right) { return counts(i, right) && !counts(i, right + RIGHTS); }
static bool is_member(unsigned i) {
    unsigned letter = 0;
    while (letter < X && !counts(i, letter)) { letter++; }
    return letter < X;
}

/* Is it one that does not count N? Is it one that counts X besides? */
static bool is_without_n(unsigned i) { return !counts(i, N) && is_member(i); }
static bool closes(unsigned i) { return counts(i, X) && is_without_n(i); }

/* Says something of record i, and what it has: its key, its id, and the letters that it counts. */
static void say_of(int depth, const char *before, unsigned i, const char *between, const char *after, const char *found) {
    char letters[ANAQSIRO_LETTERS + 1];
    uint64_t mask = 0;
    for (unsigned letter = 0; letter < ANAQSIRO_LETTERS; letter++) {
        mask |= (uint64_t)counts(i, letter) << letter;
    }
    anaqsiro_put_letters(letters, mask);
    SAY(depth, "%srecord %u%s%s %s %s%s%s", before, i, between, named[key_of(i)], named[id_of(i)], letters, after, found);
}

/* Can M record i be one of such a chain? Does it lead on from the name? */
static bool links(unsigned link, unsigned i) {
    return link < RIGHTS ? has_right(i, link) : link == WITHOUT_N ? is_without_n(i) : is_member(i);
}
static bool leads(unsigned link, unsigned name, unsigned i) { return key_of(i) == name && links(link, i); }

static bool through(unsigned link, unsigned from, unsigned to, unsigned left, unsigned n, int depth);

static bool reached(unsigned link, unsigned from, unsigned to, unsigned left, int depth) {
    SAY(depth, "reached: is %s reached from %s, with %u record%s left, %s?%s", named[to], named[from], left, left == 1 ? "" : "s",
        with[link], from == to ? " It is the name itself" : left == 0 ? " No record is left" : "");
    return answer(depth, from == to || (left != 0 && through(link, from, to, left, size_of(ANAQSIRO_MEMBERSHIP), depth + 1)));
}

/* Goes through the first n M records, the last of them first. */
static bool through(unsigned link, unsigned from, unsigned to, unsigned left, unsigned n, int depth) {
    if (n == 0) {
        SAY(depth, "through: no further record leads on from %s", named[from]);
        return false;
    }
    if (leads(link, from, n - 1)) {
        SAY(depth, "through: record %u leads on to %s", n - 1, named[id_of(n - 1)]);
        if (reached(link, id_of(n - 1), to, left - 1, depth + 1)) {
            return true;
        }
    }
    return through(link, from, to, left, n - 1, depth);
}

static bool names(unsigned object, unsigned group, unsigned i) { return id_of(i) == group && leads(MEMBER, object, i); }
static bool is_in(unsigned object, unsigned group, int depth) {
    unsigned i = 0, end = size_of(ANAQSIRO_MEMBERSHIP);
    SAY(depth, "is_in: does some M record name %s for %s?", named[group], named[object]);
    while (i < end && !names(object, group, i)) { i++; }
    return answer(depth, i < end);
}

static bool is_looked_at(unsigned object, unsigned name, int depth) {
    SAY(depth, "is_looked_at: are the filters of %s looked at for %s?", named[name], named[object]);
    return answer(depth, name == object || is_in(object, name, depth + 1));
}

static bool passes(unsigned object, unsigned right, int depth) {
    unsigned i = size_of(ANAQSIRO_MEMBERSHIP) + size_of(ANAQSIRO_PERMISSION), end = i + size_of(ANAQSIRO_FILTER);
    bool passed = true;
    SAY(depth, "passes: does every filter of %s let it through?", named[object]);
    for (; i < end && passed; i++) {
        SAY(depth + 1, "record %u %s", i, has_right(i, right) ? "has it" : "does not have it");
        passed = has_right(i, right) || !is_looked_at(object, key_of(i), depth + 1);
    }
    return answer(depth, passed);
}

static bool counts_for(unsigned object, unsigned name, unsigned right, unsigned limit, int depth) {
    SAY(depth, "counts_for: does what is granted on %s count for %s?", name == 0 ? "0" : named[name], named[object]);
    return answer(depth, name == 0 || reached(right, object, name, limit, depth + 1));
}

static bool grants(unsigned user, unsigned object, unsigned right, unsigned limit, unsigned i, int depth) {
    say_of(depth, "grants: does ", i, " (", ") grant it? ", has_right(i, right) ? "It has the right" : "It does not have the right");
    return answer(depth, has_right(i, right) && reached(right, user, id_of(i), limit, depth + 1) &&
                             counts_for(object, key_of(i), right, limit, depth + 1));
}

static bool granted(unsigned user, unsigned object, unsigned right, unsigned limit, int depth) {
    unsigned i = size_of(ANAQSIRO_MEMBERSHIP), end = i + size_of(ANAQSIRO_PERMISSION);
    SAY(depth, "granted: does some P record grant it?");
    while (i < end && !grants(user, object, right, limit, i, depth + 1)) { i++; }
    return answer(depth, i < end);
}

static bool in_no_group(unsigned object, int depth) {
    unsigned i = 0, end = size_of(ANAQSIRO_MEMBERSHIP);
    SAY(depth, "in_no_group: is %s in no group at all?", named[object]);
    while (i < end && !leads(MEMBER, object, i)) { i++; }
    if (i < end) {
        SAY(depth + 1, "record %u puts it in %s", i, named[id_of(i)]);
    }
    return answer(depth, i == end);
}

static bool makes_hers(unsigned user, unsigned limit, unsigned i, int depth) {
    const char *without = counts(i, X) ? "It counts N, or no right" : "It does not count X";
    const char *found = limit == 0 ? "No chain has a record" : closes(i) ? "It counts X and not N" : without;
    say_of(depth, "makes_hers: does ", i, " (", ") make a group hers? ", found);
    return answer(depth, limit != 0 && closes(i) && reached(WITHOUT_N, user, key_of(i), limit - 1, depth + 1));
}

static bool is_bound(unsigned user, unsigned limit, int depth) {
    unsigned i = 0, end = size_of(ANAQSIRO_MEMBERSHIP);
    SAY(depth, "is_bound: is %s bound to some group?", named[user]);
    while (i < end && !makes_hers(user, limit, i, depth + 1)) { i++; }
    return answer(depth, i < end);
}

static bool in_hers(unsigned user, unsigned object, unsigned limit, int depth) {
    unsigned i = 0, end = size_of(ANAQSIRO_MEMBERSHIP);
    SAY(depth, "in_hers: is one of her groups reached from %s?", named[object]);
    while (i < end && !(makes_hers(user, limit, i, depth + 1) && reached(MEMBER, object, id_of(i), limit, depth + 1))) { i++; }
    return answer(depth, i < end);
}

static bool is_open(unsigned user, unsigned object, unsigned limit, int depth) {
    SAY(depth, "is_open: is %s open to %s?", named[object], named[user]);
    return answer(depth, !is_bound(user, limit, depth + 1) || in_no_group(object, depth + 1) ||
                             in_hers(user, object, limit, depth + 1));
}

static bool holds(unsigned user, unsigned object, unsigned right, unsigned limit, int depth) {
    SAY(depth, "holds: may %s %s on %s, with chains of at most %u records?", named[user], rights[right], named[object], limit);
    return answer(depth, passes(object, right, depth + 1) && granted(user, object, right, limit, depth + 1) &&
                             is_open(user, object, limit, depth + 1));
}

static bool is_requested(unsigned request, unsigned right) { return (request >> right & 1) == 1; }
static bool is_given(unsigned user, unsigned object, unsigned request, unsigned right, unsigned limit, int depth) {
    const bool requested = is_requested(request, right);
    SAY(depth, "is_given: is %s requested, and held?%s", rights[right], requested ? "" : " It is not requested");
    return answer(depth, requested && holds(user, object, right, limit, depth + 1));
}

static unsigned held(unsigned user, unsigned object, unsigned request, unsigned limit, int depth) {
    unsigned mask = 0;
    SAY(depth, "held: which of the requested rights does %s hold?", named[user]);
    for (unsigned right = 0; right < RIGHTS; right++) {
        mask |= (unsigned)is_given(user, object, request, right, limit, depth + 1) << right;
    }
    return mask;
}

/* Says the rights, or the number of the refusal, and returns what anaqsiro_plain does. */
static uint64_t given(int depth, uint64_t number, unsigned mask) {
    char letters[ANAQSIRO_LETTERS + 1];
    if (number != ANAQSIRO_ACCEPTED) {
        SAY(depth + 1, "refused with %u", (unsigned)number);
    } else {
        SAY(depth + 1, "%s", mask == 0 ? "none" : anaqsiro_put_letters(letters, mask));
    }
    return number << 32 | mask;
}

/* 1 and 2 of the block, 4 of the names, 5 of the request: the first that is due, or 0. */
static uint64_t ask_refusal(unsigned user, unsigned object, unsigned request, int depth) {
    const bool fair = user < ANAQSIRO_NAMES && object < ANAQSIRO_NAMES;
    const uint64_t tested = anaqsiro_number(anaqsiro_tested(block, sizeof block));
    const uint64_t number = tested != 0 ? tested : !fair ? ANAQSIRO_NAME : request == 0 || request > ANAQSIRO_ALL ? ANAQSIRO_MASK : 0;
    SAY(depth, "ask_refusal: is it refused with 1, 2, 4 or 5?");
    answer(depth, number != 0);
    return number;
}

static uint64_t limit_refusal(unsigned limit, int depth) {
    const unsigned records = size_of(ANAQSIRO_MEMBERSHIP);
    const bool refused = limit > ANAQSIRO_PLAIN_LIMIT_MAX || records > ANAQSIRO_PLAIN_RECORDS_MAX;
    SAY(depth, "limit_refusal: is it refused with 14? The limit is %u, and there are %u M records", limit, records);
    return answer(depth, refused) ? ANAQSIRO_LIMIT : ANAQSIRO_ACCEPTED;
}

static uint64_t rights_within(unsigned user, unsigned object, unsigned request, unsigned limit, int depth) {
    char letters[ANAQSIRO_LETTERS + 1];
    SAY(depth, "rights_within: which of %s does %s hold on %s, with chains of at most %u records?", anaqsiro_put_letters(letters, request),
        named[user], named[object], limit);
    const uint64_t first = ask_refusal(user, object, request, depth + 1);
    if (first != 0) {
        return given(depth, first, 0);
    }
    const uint64_t last = limit_refusal(limit, depth + 1);
    if (last != 0) {
        return given(depth, last, 0);
    }
    return given(depth, 0, held(user, object, request, limit, depth + 1));
}

/* Does anaqsiro_plain answer the same, for every request and every limit, one too great among them? */
static bool is_same(unsigned user) {
    for (unsigned request = 0; request <= ANAQSIRO_ALL; request++) {
        for (unsigned limit = 0; limit <= ANAQSIRO_PLAIN_LIMIT_MAX + 1; limit++) {
            const uint64_t here = rights_within(user, ORDER_4711, request, limit, SILENT);
            const uint64_t plain = anaqsiro_plain(block, sizeof block, user, ORDER_4711, request, limit);
            if (here != plain) {
                printf("%s, request %u, limit %u: here the number %u and the rights %u, ", named[user], request, limit,
                       anaqsiro_number(here), anaqsiro_held(here));
                printf("but anaqsiro_plain gives %u and %u\n", anaqsiro_number(plain), anaqsiro_held(plain));
                return false;
            }
        }
    }
    return true;
}

int main(void) {
    load();
    for (unsigned i = 0; i < ROOM; i++) {
        const bool p = i >= size_of(ANAQSIRO_MEMBERSHIP), f = i >= size_of(ANAQSIRO_MEMBERSHIP) + size_of(ANAQSIRO_PERMISSION);
        say_of(1, "", i, f ? ": F " : p ? ": P " : ": M ", "", "");
    }
    rights_within(PLANNER_7, ORDER_4711, ANAQSIRO_CREATE, 3, 0);
    rights_within(PLANNER_7, ORDER_4711, ANAQSIRO_CREATE, 2, 0);
    if (!is_same(PLANNER_7) || !is_same(PLANNERS) || !is_same(MAINTENANCE)) {
        return 1;
    }
    printf("anaqsiro_plain answers the same: planner-7, planners and maintenance as users, every request, every limit from 0 to 9\n");
    return 0;
}
