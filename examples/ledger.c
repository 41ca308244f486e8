/* A ledger: how many messages of each statement were taken, and what the statement left. A block counts, and cannot tell whose
 * count a message takes away. So where messages may come in another order than they were written in, the host applies those of
 * a statement in their turn, by a number that rises with each, and holds back what comes early. The mill's story shows why: the
 * first appointment stands, the second's end comes before its start, and the right never goes. Messages may be plain or wide. */
#include "anaqsiro.h"

#include <stdio.h>
#include <string.h>

enum { ROOM = 8, STATEMENTS = 8, WAITING = 8, LABEL = 32 };
enum { PLANNER = 1, PLANNERS = 2, REQUESTS = 9, ORDERS = 20 };

/* A message, plain or wide: its length tells. */
struct sent {
    uint8_t bytes[ANAQSIRO_WIDE_MAX];
    size_t length;
};

/* A statement. Its messages are numbered from 1 on. */
struct statement {
    char label[LABEL];
    uint32_t taken;                 /* the number of its last message that was taken */
    uint32_t kind;                  /* the kind of that message: a statement keeps one kind */
    struct anaqsiro_wide_half left; /* the new half of that message, with its marker: zeros where nothing is left */
};

/* A message that waits for its turn. A place with no statement is free. */
struct waiting {
    struct statement *statement;
    uint32_t sequence;
    struct sent message;
};

/* The block and its ledger. A host saves all of it together. */
static uint8_t block[ANAQSIRO_BLOCK_MIN + ROOM * ANAQSIRO_RECORD];
static struct statement statements[STATEMENTS];
static struct waiting queue[WAITING];

/* The statement of a label, entered where it is new; null where the table is full, or the label empty or too long. */
static struct statement *statement_of(const char *label) {
    if (label[0] == 0 || strlen(label) >= LABEL) {
        return NULL;
    }
    for (int i = 0; i < STATEMENTS; i++) {
        if (statements[i].label[0] == 0) {
            strcpy(statements[i].label, label);
        }
        if (strcmp(statements[i].label, label) == 0) {
            return &statements[i];
        }
    }
    return NULL;
}

/* The place of a statement's message that waits; for no statement and the number 0, a free place. Null where there is none. */
static struct waiting *place_of(const struct statement *statement, uint32_t sequence) {
    for (int i = 0; i < WAITING; i++) {
        if (queue[i].statement == statement && queue[i].sequence == sequence) {
            return &queue[i];
        }
    }
    return NULL;
}

static void say(const char *label, uint32_t sequence, const char *what) {
    printf("%s, message %u: %s\n", label, sequence, what);
}

/* A half of a message by its number, ANAQSIRO_WIDE_PREVIOUS or ANAQSIRO_WIDE_NEW; that of a plain one has one key and one id. */
static struct anaqsiro_wide_half half_of(const struct sent *message, size_t number) {
    const size_t at = number == ANAQSIRO_WIDE_PREVIOUS ? ANAQSIRO_PREVIOUS_AT : ANAQSIRO_NEW_AT;
    return message->length == ANAQSIRO_MESSAGE ? anaqsiro_widened(anaqsiro_get_half(message->bytes, at))
                                               : anaqsiro_get_wide_half(message->bytes, message->length, number);
}

/* Whether a message is of its statement's kind, and its previous half is what the statement left, the marker too. */
static int follows(const struct sent *message, const struct statement *statement) {
    const struct anaqsiro_wide_half quoted = half_of(message, ANAQSIRO_WIDE_PREVIOUS);
    const int same_kind = statement->taken == 0 || anaqsiro_get_kind(message->bytes) == statement->kind;
    return same_kind && memcmp(&quoted, &statement->left, sizeof quoted) == 0;
}

/* Enters what a statement left with a message. The message's place is free then. */
static void enter(struct waiting *taken) {
    struct statement *statement = taken->statement;
    statement->taken = taken->sequence;
    statement->kind = anaqsiro_get_kind(taken->message.bytes);
    statement->left = half_of(&taken->message, ANAQSIRO_WIDE_NEW);
    memset(taken, 0, sizeof *taken);
}

/* Applies a message to the block by the call that is for it. */
static uint64_t apply_to_block(const struct sent *message) {
    return message->length == ANAQSIRO_MESSAGE ? anaqsiro_message(block, sizeof block, message->bytes, message->length)
                                               : anaqsiro_wide(block, sizeof block, message->bytes, message->length);
}

/* Applies a message whose turn it is, and gives 1 where it was taken. Where it was not, nothing has changed, and the messages
 * behind it wait on: it can be tried again, as after an 8 when there is more room, or a better one sent with its number. */
static int apply(struct waiting *next) {
    const char *label = next->statement->label;
    if (!follows(&next->message, next->statement)) {
        say(label, next->sequence, "does not quote what the statement left");
        return 0;
    }
    const uint64_t answer = apply_to_block(&next->message);
    say(label, next->sequence, anaqsiro_refusal_text(anaqsiro_number(answer)));
    if (anaqsiro_number(answer) != ANAQSIRO_ACCEPTED) {
        return 0;
    }
    enter(next);
    return 1;
}

/* Applies a message whose turn it is, then those of the statement that waited for it. */
static void go_on(struct waiting *next) {
    const struct statement *statement = next->statement;
    while (next != NULL && apply(next)) {
        next = place_of(statement, statement->taken + 1);
    }
}

/* Puts an early message into a place, if there is one. */
static void hold(struct waiting *place, const struct waiting *early) {
    say(early->statement->label, early->sequence, place == NULL ? "no place to wait, to be sent again" : "early, held back");
    if (place != NULL) {
        *place = *early;
    }
}

/* Takes a message in: applies it where its turn has come, or holds it back. */
static void take(const char *label, uint32_t sequence, const struct sent *message) {
    struct statement *statement = statement_of(label);
    if (statement == NULL) {
        say(label, sequence, "no place for the statement");
        return;
    }
    if (sequence <= statement->taken) {
        say(label, sequence, "was taken before");
        return;
    }
    struct waiting *place = place_of(statement, sequence);
    struct waiting came = {statement, sequence, *message};
    if (sequence > statement->taken + 1) {
        hold(place != NULL ? place : place_of(NULL, 0), &came);
    } else if (place != NULL) {
        *place = came;
        go_on(place);
    } else {
        go_on(&came);
    }
}

/* Takes a message in as it comes, with no ledger. */
static void take_as_it_comes(const char *label, uint32_t sequence, const struct sent *message) {
    const uint64_t answer = apply_to_block(message);
    say(label, sequence, anaqsiro_refusal_text(anaqsiro_number(answer)));
}

/* Asks whether the planner may release the purchase requests. */
static void ask(void) {
    const uint64_t answer = anaqsiro_may(block, sizeof block, PLANNER, REQUESTS, ANAQSIRO_UPDATE, ANAQSIRO_ORDINARY);
    printf("  may release: %s\n", anaqsiro_value(answer) ? "yes" : "no");
}

/* A plain message. */
static struct sent plain(uint64_t kind, const struct anaqsiro_half *previous, const struct anaqsiro_half *new_half) {
    struct sent message = {{0}, ANAQSIRO_MESSAGE};
    anaqsiro_put_message(message.bytes, kind, previous, new_half);
    return message;
}

/* A wide message. */
static struct sent wide(uint64_t kind, const struct anaqsiro_wide_half *previous, const struct anaqsiro_wide_half *new_half) {
    struct sent message = {{0}, 0};
    message.length = anaqsiro_put_wide(message.bytes, kind, previous, new_half);
    return message;
}

/* The mill's story, without a ledger and with it. */
static void tell_the_story(void) {
    const struct anaqsiro_half planners_release = {REQUESTS, PLANNERS, ANAQSIRO_UPDATE};
    const struct anaqsiro_half is_planner = {PLANNER, PLANNERS, ANAQSIRO_ALL};
    const struct sent grant = plain(ANAQSIRO_PERMISSION, NULL, &planners_release);
    const struct sent start = plain(ANAQSIRO_MEMBERSHIP, NULL, &is_planner);
    const struct sent end = plain(ANAQSIRO_MEMBERSHIP, &is_planner, NULL);

    printf("without a ledger\n");
    anaqsiro_make(block, sizeof block);
    take_as_it_comes("grant", 1, &grant);
    take_as_it_comes("first appointment", 1, &start);
    ask();
    take_as_it_comes("second appointment", 2, &end); /* it takes the first appointment's count */
    ask();

    printf("\nwith a ledger\n");
    anaqsiro_make(block, sizeof block);
    take("grant", 1, &grant);
    take("first appointment", 1, &start);
    ask();
    take("second appointment", 2, &end);
    ask();
    take("second appointment", 1, &start);
    ask();
    take("second appointment", 1, &start);
    take("first appointment", 2, &end);
    ask();
}

/* A statement of several orders goes on with one: that is quoted by a plain message or a wide one, and each quotes all of it. */
static void tell_of_orders(void) {
    const struct anaqsiro_wide_half several = {{ORDERS, ORDERS + 1, ORDERS + 2}, 3, {PLANNERS}, 1, ANAQSIRO_UPDATE};
    const struct anaqsiro_half last = {ORDERS + 2, PLANNERS, ANAQSIRO_UPDATE};
    const struct anaqsiro_wide_half only_last = anaqsiro_widened(last);
    const struct sent first = wide(ANAQSIRO_PERMISSION, NULL, &several), one_of_them = plain(ANAQSIRO_PERMISSION, &last, NULL);
    const struct sent fewer = wide(ANAQSIRO_PERMISSION, &several, &only_last);

    printf("\nof several orders\n");
    take("orders", 3, &one_of_them);
    take("orders", 1, &first);
    take("orders", 2, &one_of_them);
    take("orders", 2, &fewer);
    printf("  permissions: %u\n", anaqsiro_value(anaqsiro_size(block, sizeof block, ANAQSIRO_PERMISSION)));
}

int main(void) {
    tell_the_story();
    tell_of_orders();
    return 0;
}
