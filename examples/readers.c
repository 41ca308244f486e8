/* Many readers of one block that changes: the writer copies the block, changes the copy, and makes the copy the current one. A
 * reader asks the block that was current when it came, so it never waits for a change, and it sees all messages of a change or
 * none. Here a right goes from one planner to another and back, by two messages, and no reader sees both or neither hold it. */
#define _POSIX_C_SOURCE 200809L
#include "anaqsiro.h"

#include <pthread.h>
#include <stdio.h>
#include <string.h>

enum { ROOM = 8, READERS = 4, QUESTIONS = 100000, ONE = 1, OTHER = 2, REQUESTS = 9 };

/* A copy of the block, and how many readers are at it. */
struct copy {
    uint8_t block[ANAQSIRO_BLOCK_MIN + ROOM * ANAQSIRO_RECORD];
    int readers;
};

static struct copy copies[2];
static struct copy *current = &copies[0], *spare = &copies[1];
static int asking = READERS;

/* Guards which copy is current, who reads which, and how many still ask. Nobody holds it while asking or changing. */
static pthread_mutex_t gate = PTHREAD_MUTEX_INITIALIZER;
static pthread_cond_t all_left = PTHREAD_COND_INITIALIZER;

/* The current copy, which stays as it is until the reader leaves. */
static struct copy *enter(void) {
    pthread_mutex_lock(&gate);
    struct copy *copy = current;
    copy->readers++;
    pthread_mutex_unlock(&gate);
    return copy;
}

static void leave(struct copy *copy) {
    pthread_mutex_lock(&gate);
    if (--copy->readers == 0) {
        pthread_cond_signal(&all_left);
    }
    pthread_mutex_unlock(&gate);
}

/* Waits until the last reader has left the spare copy, which was current before the last change. */
static void wait_for_spare(void) {
    pthread_mutex_lock(&gate);
    while (spare->readers > 0) {
        pthread_cond_wait(&all_left, &gate);
    }
    pthread_mutex_unlock(&gate);
}

/* Makes the spare copy the current one. */
static void swap(void) {
    pthread_mutex_lock(&gate);
    struct copy *old = current;
    current = spare;
    spare = old;
    pthread_mutex_unlock(&gate);
}

/* Carries out messages all together, from one thread only. The first that is refused gives its number, and then none is
 * carried out: the spare copy does not become the current one. */
static uint32_t change(uint8_t (*messages)[ANAQSIRO_MESSAGE], size_t how_many) {
    wait_for_spare();
    memcpy(spare->block, current->block, sizeof spare->block);
    for (size_t i = 0; i < how_many; i++) {
        const uint64_t answer = anaqsiro_message(spare->block, sizeof spare->block, messages[i], ANAQSIRO_MESSAGE);
        if (anaqsiro_number(answer) != ANAQSIRO_ACCEPTED) {
            return anaqsiro_number(answer);
        }
    }
    swap();
    return ANAQSIRO_ACCEPTED;
}

/* Whether the planner may release the purchase requests. */
static uint32_t may(const struct copy *copy, uint64_t planner) {
    const uint64_t answer =
        anaqsiro_may(copy->block, sizeof copy->block, planner, REQUESTS, ANAQSIRO_UPDATE, ANAQSIRO_ORDINARY);
    return anaqsiro_value(answer);
}

/* A reader: counts, in a number of its own, how often it sees two planners with the right, or none. */
static void *reader(void *own) {
    unsigned *wrong = own;
    for (int i = 0; i < QUESTIONS; i++) {
        struct copy *copy = enter();
        *wrong += may(copy, ONE) + may(copy, OTHER) != 1;
        leave(copy);
    }
    pthread_mutex_lock(&gate);
    asking--;
    pthread_mutex_unlock(&gate);
    return NULL;
}

static int some_ask(void) {
    pthread_mutex_lock(&gate);
    const int some = asking > 0;
    pthread_mutex_unlock(&gate);
    return some;
}

/* Moves the right from one planner to another. */
static uint32_t hand_over(uint64_t from, uint64_t to) {
    const struct anaqsiro_half taken = {REQUESTS, from, ANAQSIRO_UPDATE}, given = {REQUESTS, to, ANAQSIRO_UPDATE};
    uint8_t messages[2][ANAQSIRO_MESSAGE];
    anaqsiro_put_message(messages[0], ANAQSIRO_PERMISSION, &taken, NULL);
    anaqsiro_put_message(messages[1], ANAQSIRO_PERMISSION, NULL, &given);
    return change(messages, 2);
}

int main(void) {
    const struct anaqsiro_half first = {REQUESTS, ONE, ANAQSIRO_UPDATE};
    uint8_t message[1][ANAQSIRO_MESSAGE];
    anaqsiro_put_message(message[0], ANAQSIRO_PERMISSION, NULL, &first);
    anaqsiro_make(current->block, sizeof current->block);
    printf("the right is given: %s\n", anaqsiro_refusal_text(change(message, 1)));

    pthread_t threads[READERS];
    unsigned wrong[READERS] = {0}, refused = 0;
    for (int i = 0; i < READERS; i++) {
        if (pthread_create(&threads[i], NULL, reader, &wrong[i]) != 0) {
            return 1;
        }
    }
    while (some_ask()) {
        refused += hand_over(ONE, OTHER) != ANAQSIRO_ACCEPTED;
        refused += hand_over(OTHER, ONE) != ANAQSIRO_ACCEPTED;
    }
    printf("it goes there and back as long as somebody asks: %u refused\n", refused);
    for (int i = 0; i < READERS; i++) {
        pthread_join(threads[i], NULL);
        printf("reader %d, of %d answers: %u with two who have it, or none\n", i + 1, QUESTIONS, wrong[i]);
    }
    printf("one who does not have it hands it over: %s\n", anaqsiro_refusal_text(hand_over(OTHER, ONE)));
    return 0;
}
