/* The mill's story with dates: the planner is in the group of planners by two appointments of a year each, and planners may read
 * order 9. One appointment ends, and the right stands; the other ends, and it goes. The host keeps block, list and day together,
 * and always moves from the day that it has to the next one on which another set of the list stands. */
#include "anaqsiro.h"

#include <stdio.h>

enum { ROOM = 4, PLANNER = 1, PLANNERS = 2, ORDER_9 = 9 };

/* What a host keeps, and stores together: the block, the list, and the day of the last accepted move. */
static uint8_t block[ANAQSIRO_BLOCK_MIN + ROOM * ANAQSIRO_RECORD];
static uint8_t list[ANAQSIRO_APPOINTMENTS_MAX];
static size_t length;
static uint64_t moved_to = ANAQSIRO_LAST_DAY; /* on the last day none stands, whatever the list: the first move starts there */

/* The block's directory. A move does not know it, so it is made again after each one. */
static uint16_t directory[ANAQSIRO_DIRECTORY_LENGTH];

/* Prints a day as a date, if it has one, and as its number. */
static void print_day(uint64_t day) {
    const uint64_t date = anaqsiro_date(day);
    if (anaqsiro_number(date) == ANAQSIRO_ACCEPTED) {
        printf("%04u-%02u-%02u, ", anaqsiro_date_year(date), anaqsiro_date_month(date), anaqsiro_date_day(date));
    }
    printf("day %u", (unsigned)day);
}

/* Puts an appointment of the planner on the list. */
static void appoint(uint64_t year, uint64_t month, uint64_t day, uint64_t months) {
    const struct anaqsiro_appointment one = {{PLANNER, PLANNERS, ANAQSIRO_READ}, year, month, day, months};
    anaqsiro_put_appointment(list + length, &one);
    length += ANAQSIRO_APPOINTMENT;
    printf("a planner for %u months from ", (unsigned)months);
    print_day(anaqsiro_value(anaqsiro_day(year, month, day)));
    printf("\n");
}

/* Goes to a day, from the one that the last accepted move went to. Whether it was accepted. */
static int move_to(uint64_t day) {
    const uint64_t answer = anaqsiro_move(block, sizeof block, list, length, moved_to, day);
    const int accepted = anaqsiro_number(answer) == ANAQSIRO_ACCEPTED;
    if (accepted) {
        moved_to = day;
        anaqsiro_directory(block, sizeof block, directory, ANAQSIRO_DIRECTORY_LENGTH);
    }
    print_day(day);
    printf(": %s\n", anaqsiro_refusal_text(anaqsiro_number(answer)));
    return accepted;
}

/* Prints the planner's groups as text, and whether she may read the order. */
static void print_planner(void) {
    uint8_t text[64];
    const uint64_t written = anaqsiro_write(block, sizeof block, ANAQSIRO_MEMBERSHIP, PLANNER, text, sizeof text);
    const uint64_t may = anaqsiro_may_by(block, sizeof block, directory, ANAQSIRO_DIRECTORY_LENGTH, PLANNER, ORDER_9,
                                         ANAQSIRO_READ, ANAQSIRO_ORDINARY);
    printf("  groups \"%.*s\", may read order 9: %s\n", (int)anaqsiro_value(written), (const char *)text,
           anaqsiro_value(may) ? "yes" : "no");
}

/* The day of the next change, for the host's timer; 0 for none. (A refusal has the value 0 too, but not of a list that a move has
 * accepted.) */
static uint64_t print_next(void) {
    const uint64_t next = anaqsiro_value(anaqsiro_next_change(list, length, moved_to));
    printf("  next change: ");
    if (next == 0) {
        printf("none");
    } else {
        print_day(next);
    }
    printf("\n");
    return next;
}

/* Says which appointments of the list stand on the day of the last accepted move. */
static void print_standing(void) {
    for (size_t at = 0; at < length; at += ANAQSIRO_APPOINTMENT) {
        const uint64_t answer = anaqsiro_stands(list + at, ANAQSIRO_APPOINTMENT, moved_to);
        printf("  appointment %u stands: %s\n", (unsigned)(at / ANAQSIRO_APPOINTMENT + 1),
               anaqsiro_value(answer) ? "yes" : "no");
    }
}

int main(void) {
    static const uint8_t planners_read[] = "2;R";
    anaqsiro_make(block, sizeof block);
    anaqsiro_read(block, sizeof block, ANAQSIRO_PERMISSION, ORDER_9, planners_read, sizeof planners_read - 1);
    appoint(2024, 2, 29, 12);
    appoint(2024, 6, 1, 12);

    /* That there is such a date is known here. Of one that was typed in the number is tested: the value 0 is a day, too. */
    uint64_t next = anaqsiro_value(anaqsiro_day(2025, 2, 27));
    /* A refused move leaves the day as it was, and the next change would be the same one, over and over. */
    while (next != 0 && move_to(next)) {
        print_planner();
        next = print_next();
    }

    printf("a move may go back, too\n");
    move_to(anaqsiro_value(anaqsiro_day(2024, 5, 31)));
    print_planner();
    print_standing();

    printf("a day after the last: nothing changes\n");
    move_to(ANAQSIRO_LAST_DAY + 1);
    print_planner();

    printf("another list: to a day with none standing over the old one, and back over the new one\n");
    const uint64_t today = moved_to; /* a host asks its clock: the last change may be long ago */
    move_to(ANAQSIRO_LAST_DAY);
    print_planner();
    length = 0;
    appoint(2023, 10, 1, 24);
    move_to(today);
    print_planner();
    print_next();
    return 0;
}
