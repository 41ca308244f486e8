/*
 * Anaqsiro: who may create, read, update or delete what, kept as counts in one block of bytes that the caller lends.
 *
 * Every call answers for any bytes of any length and any numbers. It returns one 64-bit number, the refusal's number times
 * 2^32 plus a value; anaqsiro_number and anaqsiro_value take it apart. The number is 0 where the call was accepted. A refused
 * call leaves every lent byte as it was. Its value is 0, but for one: a text that anaqsiro_read refuses with 9 comes back with
 * its place. What is said here of a call holds of the one by a directory too, whose name ends in _by.
 *
 * - THE VALUE OF anaqsiro_rights IS NOT THE RIGHTS. Up to 0.3 it was. Since 0.4 it has two more numbers in it, and can be above
 *   0 where no right is held: if (anaqsiro_value(anaqsiro_rights(..))) would take that for a yes. Take the rights by
 *   anaqsiro_held.
 * - anaqsiro_read CHANGES THE BLOCK, anaqsiro_write DOES NOT. The first reads a text into the block: the records that it had
 *   of that kind and key are gone. The second writes a text out of the block.
 * - A REFUSAL IS NOT ZERO: if (anaqsiro_may(..)) would take it for a yes. Test anaqsiro_value of what anaqsiro_may,
 *   anaqsiro_check_slip and anaqsiro_find_slip give, and anaqsiro_held of what anaqsiro_rights, anaqsiro_rights_to and anaqsiro_plain
 *   give: both are 0 for every refusal. Test anaqsiro_number of what anaqsiro_read gives, whose value may be a place, of what
 *   anaqsiro_day and anaqsiro_next_change give, where the 0 of a refusal would be taken for 1 January 1970, or for no change any
 *   more, and of what anaqsiro_bears gives, where it would be taken for "this cannot touch her".
 * - A QUESTION HAS A PROFILE SINCE 0.8, AS ITS LAST ARGUMENT. Compile every file again that calls anaqsiro_rights, anaqsiro_may or
 *   one of the two by a directory. One that was compiled with a header of 0.7 is linked without a word, and its questions are
 *   asked in whatever profile happens to stand there, or refused with 15. The other way, an archive of 0.7 ignores the profile, and
 *   answers every question in the ordinary one.
 * - IN THE ORDINARY PROFILE DENIALS DO NOT REACH ACROSS RECORDS. "No read" takes read out of the one permission record that it
 *   stands in; another one may still give it, to a group of the same user or on a group of the same object. Who wants a denial to
 *   win over every grant asks in the strict profile.
 * - A SLIP IS OF THE BLOCK AS IT WAS, AND OF THE ORDINARY PROFILE. After a message, a read or a move, check it again before it is
 *   shown. What it shows may be barred in the strict profile: who decides by that one asks anaqsiro_may there, and not for a slip.
 * - A LIMIT IS FOR LOOKING, NOT FOR DECIDING. At a lower limit anaqsiro_plain and anaqsiro_rights_to may show more rights than are
 *   held, since a group that binds the user may lie further off. Who decides asks anaqsiro_may or anaqsiro_rights. And anaqsiro_plain
 *   may take very long: do not call it where an answer is waited for.
 * - WHETHER A MESSAGE BEARS IS ASKED FOR EVERY RECORD THAT IT NAMES, AND OF THE BLOCK AS IT STANDS. anaqsiro_bears takes one record. A
 *   message names one in each half, a wide one up to 64, and leaves the answers as they are where none of them bears. After a
 *   message that bears, ask again.
 * - A BLOCK OF 0.4 OR BEFORE IS NOT ONE OF 0.5 OR AFTER. Its records have 20 bytes and these 24. It is refused with 2, unless it
 *   has no record. Take it over by the texts of its sets.
 * - A CHANGE WITHOUT THE DIRECTORY LEAVES IT BEHIND. Who keeps one changes the block by anaqsiro_message_by, anaqsiro_wide_by
 *   and anaqsiro_read_by, or makes it again after other changes, as after every anaqsiro_move. Where such a change left some key
 *   with more or fewer records than it had, calls by the directory are refused with 13 until it is made again.
 * - A MOVE STARTS WHERE THE LAST ACCEPTED ONE ENDED, OVER THE SAME LIST. A block does not know its day. From another day, or over
 *   another list, anaqsiro_move takes away what it never added, which is refused with 6 or takes another's, or adds again what the
 *   block already has, which is accepted and which nothing ends afterwards. ANAQSIRO_LAST_DAY is the start only for a block that
 *   was never moved over the list, or was moved back to that day.
 *
 * No call keeps anything between calls, allocates, or touches memory other than the bytes it is lent and its own stack. So
 * several threads may call at once, as long as no block or buffer that one of them writes is used by another. Two buffers of
 * one call must not overlap where one of them is written. A length of 0 may come with a null pointer.
 *
 * This header is C99 and C++11. docs/LINKING.md has what a host should know beside it.
 */
#ifndef ANAQSIRO_H
#define ANAQSIRO_H

#include <stddef.h>
#include <stdint.h>

#ifdef __cplusplus
extern "C" {
#endif

/* The version of this header and its archive. The formats of what a host keeps are part of it: as long as the first two numbers
 * are the same, a block, a message, a text, a list of appointments or a slip of one version is good for the other and means the
 * same there, and every call is made and answers as before. Where any of this changes, or a program over the Rust crate has to, the
 * second number rises; where something is only added that no host keeps, the third. Slips are new in 0.9, and a host may keep them.
 * No call of 0.8 has changed, and what a host kept before is as in 0.8. 0.9.1 only adds to 0.9.0: the two calls with a limit, and the
 * number 14, which they alone give. 0.9.2 only adds to 0.9.1: the call anaqsiro_bears, which gives no number that is new. */
#define ANAQSIRO_VERSION "0.9.2"
#define ANAQSIRO_VERSION_MAJOR 0
#define ANAQSIRO_VERSION_MINOR 9
#define ANAQSIRO_VERSION_PATCH 2

/* ---- numbers of the rules */

/* Names of users, groups and objects are below this number; 0 is the group of all resources. */
#define ANAQSIRO_NAMES 1024u

/* A record has a count for each letter, and no count is above this one. The last two letters are markers, which memberships alone
 * may have; permissions may have all letters before them, and so many. */
#define ANAQSIRO_LETTERS 10u
#define ANAQSIRO_LETTERS_OF_PERMISSION 8u
#define ANAQSIRO_COUNT_MAX 65535u

/* A block is this long at least and at most. Each record, of a key, an id and the counts, 16 bits each, takes so many bytes of
 * what is over the least length, and no block has room for more than so many. */
#define ANAQSIRO_RECORD (2u * (2u + ANAQSIRO_LETTERS))
#define ANAQSIRO_ROOM_MAX 2048u
#define ANAQSIRO_BLOCK_MIN 16u
#define ANAQSIRO_BLOCK_MAX (ANAQSIRO_BLOCK_MIN + ANAQSIRO_ROOM_MAX * ANAQSIRO_RECORD)

/* No membership record is examined more than four times on one side of a question, so neither of the two numbers that
 * anaqsiro_rights reports is above this one. */
#define ANAQSIRO_EXAMINED_MAX (4u * ANAQSIRO_ROOM_MAX)

/* A message: kind, flags, then the previous half at the first of these places and the new one at the second. A half is key, id
 * (16 bits each, low byte first) and mask; an absent half is zero bytes. The byte of the kind has the kind in its low four bits
 * and above it a bit for each marker of each half. anaqsiro_put_message writes a message, anaqsiro_get_kind and anaqsiro_get_half
 * read it. */
#define ANAQSIRO_KIND_BITS 0x0Fu
#define ANAQSIRO_X_PREVIOUS 0x40u
#define ANAQSIRO_N_PREVIOUS 0x80u
#define ANAQSIRO_X_NEW 0x10u
#define ANAQSIRO_N_NEW 0x20u
#define ANAQSIRO_HALF 5u
#define ANAQSIRO_PREVIOUS_AT 2u
#define ANAQSIRO_NEW_AT (ANAQSIRO_PREVIOUS_AT + ANAQSIRO_HALF)
#define ANAQSIRO_MESSAGE (ANAQSIRO_NEW_AT + ANAQSIRO_HALF)
#define ANAQSIRO_HAS_PREVIOUS 1u
#define ANAQSIRO_HAS_NEW 2u

/* A wide message: a header of 16 bytes, then four lists of names, the previous keys and ids, the new keys and ids, 16 bits a
 * name, low byte first. The header has kind and flags as a message has them, the length of each list at the first of these
 * places, the mask of each half at the second, and from the third on the byte, 16 bits wide, where each list begins. Each list
 * begins where the one before ends. An absent half has lengths and mask zero. No list is longer than so many names, so no wide
 * message is longer than so many bytes. The halves are numbered. anaqsiro_put_wide writes a wide message, anaqsiro_get_kind and
 * anaqsiro_get_wide_half read it. */
#define ANAQSIRO_WIDE_LENGTHS_AT 2u
#define ANAQSIRO_WIDE_MASKS_AT 6u
#define ANAQSIRO_WIDE_OFFSETS_AT 8u
#define ANAQSIRO_WIDE_HEADER 16u
#define ANAQSIRO_LIST_MAX 8u
#define ANAQSIRO_WIDE_MAX (ANAQSIRO_WIDE_HEADER + 4u * ANAQSIRO_LIST_MAX * 2u)
#define ANAQSIRO_WIDE_PREVIOUS 0u
#define ANAQSIRO_WIDE_NEW 1u

/* The longest text of a set, 54,185 bytes, with no zero byte at its end. That set has a permission record for each name as its
 * id, and in each record all eight letters at a count of five digits. Its bytes are
 *   the digits of the ids: 10 ids of one digit, 90 of two, 900 of three, the other 24 of four;
 *   one ; after each id, and one between two records;
 *   in each record every letter that a permission may have, with the five digits of its count. */
#define ANAQSIRO_ID_DIGITS (10u * 1u + 90u * 2u + 900u * 3u + (ANAQSIRO_NAMES - 1000u) * 4u)
#define ANAQSIRO_TEXT_MAX \
    (ANAQSIRO_ID_DIGITS + ANAQSIRO_NAMES + (ANAQSIRO_NAMES - 1u) + ANAQSIRO_NAMES * ANAQSIRO_LETTERS_OF_PERMISSION * (1u + 5u))

/* A directory has a part for each kind of record, and a part has an entry for each name and one for the end. The entries are
 * uint16_t, and the length of a directory is how many of them there are, not how many bytes. */
#define ANAQSIRO_DIRECTORY_PART (ANAQSIRO_NAMES + 1u)
#define ANAQSIRO_DIRECTORY_LENGTH (3u * ANAQSIRO_DIRECTORY_PART)

/* Days are numbered by the Gregorian calendar, from 1 January of the first of these years, which is day 0, to 31 December of the
 * last, which is the last day. */
#define ANAQSIRO_FIRST_YEAR 1970u
#define ANAQSIRO_LAST_YEAR 2399u
#define ANAQSIRO_LAST_DAY 157053u

/* An appointment: key, id (16 bits each, low byte first), mask, marker (0 none, 1 X, 2 N), then its first date, which is the year
 * (16 bits, low byte first), the month and the day, its term in months, and a zero. A list of appointments has one after the
 * other. anaqsiro_put_appointment writes an appointment, anaqsiro_get_appointment reads it. */
#define ANAQSIRO_APPOINTMENT_MASK_AT 4u
#define ANAQSIRO_APPOINTMENT_MARKER_AT 5u
#define ANAQSIRO_APPOINTMENT_YEAR_AT 6u
#define ANAQSIRO_APPOINTMENT_MONTH_AT 8u
#define ANAQSIRO_APPOINTMENT_DAY_AT 9u
#define ANAQSIRO_APPOINTMENT_TERM_AT 10u
/* The bytes of one appointment. */
#define ANAQSIRO_APPOINTMENT 12u
/* The longest term, in months. */
#define ANAQSIRO_TERM_MAX 120u
/* How many appointments a list has at most. */
#define ANAQSIRO_APPOINTMENTS 256u
/* The bytes of that many. */
#define ANAQSIRO_APPOINTMENTS_MAX (ANAQSIRO_APPOINTMENTS * ANAQSIRO_APPOINTMENT)

/* A slip has two lists of names. Neither has more names than this: those on a chain of 32 membership records, the start among them. A
 * list that is lent to anaqsiro_find_slip has at least so many places. The names are uint16_t, and the length of a list is how many
 * of them there are, not how many bytes. */
#define ANAQSIRO_CHAIN_MAX 33u

/* A limit is how many membership records a chain may have at most. The greatest limit of anaqsiro_plain, and how many membership
 * records there may be in a block that it is asked about. */
#define ANAQSIRO_PLAIN_LIMIT_MAX 8u
#define ANAQSIRO_PLAIN_RECORDS_MAX 64u
/* The greatest limit of anaqsiro_rights_to: what the rules allow a chain. */
#define ANAQSIRO_LIMIT_MAX 32u

/* What a record says. */
enum anaqsiro_kind {
    ANAQSIRO_MEMBERSHIP = 1, /* the key is a member of the group id */
    ANAQSIRO_PERMISSION = 2, /* id is granted or denied rights on key */
    ANAQSIRO_FILTER = 3      /* the filter named id bounds key and the members of key; every filter binds */
};

/* The letters of a mask: four rights, the denial of each, which permissions alone may have, and two markers, of which a half may
 * carry one, and a membership alone. */
enum anaqsiro_letter {
    ANAQSIRO_CREATE = 1,
    ANAQSIRO_READ = 2,
    ANAQSIRO_UPDATE = 4,
    ANAQSIRO_DELETE = 8,
    ANAQSIRO_NO_CREATE = 16,
    ANAQSIRO_NO_READ = 32,
    ANAQSIRO_NO_UPDATE = 64,
    ANAQSIRO_NO_DELETE = 128,
    ANAQSIRO_X = 256, /* who is a member so is bound to the group: see below */
    ANAQSIRO_N = 512, /* a chain over this membership binds nobody */
    ANAQSIRO_ALL = ANAQSIRO_CREATE | ANAQSIRO_READ | ANAQSIRO_UPDATE | ANAQSIRO_DELETE
};

/* The markers keep firms apart that share one installation. A user is bound if a chain of 1 to 32 memberships, whatever rights
 * they carry, counts N in none of them and X in the last; the group that it ends at is hers. N wins over X in the same record.
 * A bound user holds rights only on objects that are in no group at all, or from which a chain of 0 to 32 memberships, whatever
 * rights and markers they have, reaches one of her groups. A membership record with marker counts alone gives no chain of any
 * kind and no group. */

/* How far a denial reaches. A permission record is reached for a right where a chain of 0 to 32 memberships, each of which carries
 * the right, leads from the user to the record's id, and such a chain from the object to its key, or the key is 0. A record that is
 * reached for a right grants it if it counts the capital letter and not the small one. So in both profiles a denial takes its right
 * out of the record that it stands in. What it does to the grants of other records is the profile's:
 *
 * - Ordinary: nothing.
 * - Strict: it bars them all. A right is barred where a record that is reached for it counts its small letter, whatever the capital
 *   one counts. A record that is reached for other rights alone, as over a membership that does not carry this one, does not bar
 *   it. A denial on 0 bars on every object.
 *
 * A right is held where some record grants it, every filter that binds the object has it, the object is open to the user if she is
 * bound, and, in the strict profile, it is not barred. Filters and markers have no part in what is barred. So whatever is held in
 * the strict profile is held in the ordinary one, too. A profile belongs to the question: the block does not know it, and may be
 * asked in both. */
enum anaqsiro_profile {
    ANAQSIRO_ORDINARY = 0, /* a denial takes its right out of the record that it stands in */
    ANAQSIRO_STRICT = 1    /* a denial that is reached wins over every grant */
};

/* The letters as a text has them, in the order of their masks. A letter's number is its place here, 0 for M to 9 for N; its
 * mask is 2 to that number. */
#define ANAQSIRO_SPELLED "MRUPmrupXN"

/* The numbers that a call can give. anaqsiro_refusal_text says when. */
enum anaqsiro_number {
    ANAQSIRO_ACCEPTED = 0,
    ANAQSIRO_BLOCK_LENGTH = 1,
    ANAQSIRO_BLOCK_NOT_GOOD = 2,
    ANAQSIRO_FORM = 3,
    ANAQSIRO_NAME = 4,
    ANAQSIRO_MASK = 5,
    ANAQSIRO_NOTHING_TO_TAKE = 6,
    ANAQSIRO_COUNT_FULL = 7,
    ANAQSIRO_NO_ROOM = 8,
    ANAQSIRO_TEXT = 9,
    ANAQSIRO_TEXT_LONG = 10,
    ANAQSIRO_CHAIN_LENGTH = 11,
    ANAQSIRO_OUTSIDE_RANGE = 12,
    ANAQSIRO_DIRECTORY_NOT_OWN = 13,
    ANAQSIRO_LIMIT = 14,
    ANAQSIRO_PROFILE = 15
};

/* ---- the calls */

/* Makes the block an empty one. Numbers 0, 1. Value 0. */
uint64_t anaqsiro_make(uint8_t *block, size_t len);

/* Applies a message to the block: takes its previous half away, then adds the new one. Numbers 0 to 8. Value 0. */
uint64_t anaqsiro_message(uint8_t *block, size_t len, const uint8_t *message, size_t message_len);

/* Applies a wide message, which stands for every pair of a key and an id in each half: takes all pairs of its previous half
 * away, then adds all of the new one, pairs by key then id, each as a message would. It is applied as a whole: where a pair is
 * refused, nothing has changed, and the number, 6, 7 or 8, is that of the first such pair. Before them 3 is for the header, the
 * length and the lists, whose names rise strictly, 4 for all names, 5 for both masks. A message of 12 bytes is no wide one, and
 * is refused with 3, as a wide one is by anaqsiro_message. Numbers 0 to 8. Value 0. */
uint64_t anaqsiro_wide(uint8_t *block, size_t len, const uint8_t *message, size_t message_len);

/* The rights that the user holds on the object in the profile, of those requested, and the number of membership records examined,
 * one for the user's side and one for the object's. A name's mark in round n is the set of rights that some chain of at most n
 * records carries to it; in round 0 the start, which is the user or the object, has all four, the others none, and before round 0
 * nobody has any. The number is, summed over rounds 0 to 31, the membership records whose key's mark differs from the round
 * before. It is at most four times the membership records. Request, profile, filters and markers have no part in it. A user who is
 * bound, and to whom the object is not open, holds none. Numbers 0, 1, 2, 4, 5, 15. Value: the rights + 2^4 * the records examined
 * on the user's side + 2^18 * those on the object's; anaqsiro_held, anaqsiro_user_examined and anaqsiro_object_examined take the
 * answer apart. */
uint64_t anaqsiro_rights(const uint8_t *block, size_t len, uint64_t user, uint64_t object, uint64_t request, uint64_t profile);

/* Whether the user holds every right requested, in the profile. Numbers 0, 1, 2, 4, 5, 15. Value: 1 for yes, 0 for no. */
uint64_t anaqsiro_may(const uint8_t *block, size_t len, uint64_t user, uint64_t object, uint64_t request, uint64_t profile);

/* Writes the records of one kind and key as text at the front of out, and touches no other byte. Numbers 0, 1, 2, 3, 4, 10.
 * Value: the length of the text. */
uint64_t anaqsiro_write(const uint8_t *block, size_t len, uint64_t kind, uint64_t key, uint8_t *out, size_t out_len);

/* Replaces the records of one kind and key by those of a text. Numbers 0, 1, 2, 3, 4, 9, 8. Value: how many records; with 9 the
 * place: the length of the text's longest beginning that is also a beginning of some acceptable text of that kind, whatever the
 * room. So text[place] is the first wrong byte, or the text ends too early where the place is text_len. It is 3 for 3;M0, and 4
 * for 3;M1, since 3;M10 would do. A desk is shown the text up to the place, and a caret under the next byte: after a line with
 * the text, printf("%*s^\n", (int)place, "") prints the caret. */
uint64_t anaqsiro_read(uint8_t *block, size_t len, uint64_t kind, uint64_t key, const uint8_t *text, size_t text_len);

/* ---- the calls by a directory
 *
 * A directory says where the records of each key begin, so that a question need not search the block for them. Messages and
 * sets by it search as before: anaqsiro_message_by, anaqsiro_wide_by, anaqsiro_read_by and anaqsiro_write_by test it, and the
 * first three renew it.
 * The host lends it beside the block: an array of ANAQSIRO_DIRECTORY_LENGTH entries, each a uint16_t, aligned as those are. It
 * has a part for the memberships, then one for the permissions, then one for the filters. The entry at x of a part is where
 * that kind's records with the key x begin, or would begin if there were any, in bytes from the front of the block; the last
 * entry of a part is where that kind's records end.
 *
 * - It belongs to one block. The block's own directory is the one that anaqsiro_directory would make of it as it stands.
 * - Each call by it tests all of it: one of another length, or with any other entry, is refused with 13, right after 1 and 2 of
 *   the block. So a wrong directory gives no wrong answer.
 * - anaqsiro_message_by, anaqsiro_wide_by and anaqsiro_read_by change it with the block. The other calls by it only read it.
 * - A call without it does not know it. After an anaqsiro_make, anaqsiro_message, anaqsiro_wide, anaqsiro_read or anaqsiro_move
 *   that left some key with more or fewer records than it had, the directory is no longer the block's own, and calls by it are
 *   refused until it is made again.
 * - No answer needs it. It is for hosts that ask much of large blocks; others do without. */

/* Writes the block's own directory, whatever stood there before. Numbers 0, 1, 2, 13, which is for its length alone. Value 0. */
uint64_t anaqsiro_directory(const uint8_t *block, size_t len, uint16_t *directory, size_t directory_len);

/* Applies a message as anaqsiro_message does, and makes the directory the changed block's own. Numbers 0, 1, 2, 13, 3 to 8.
 * Value 0. */
uint64_t anaqsiro_message_by(uint8_t *block, size_t len, uint16_t *directory, size_t directory_len, const uint8_t *message,
                             size_t message_len);

/* Applies a wide message as anaqsiro_wide does, and makes the directory the changed block's own. Numbers 0, 1, 2, 13, 3 to 8.
 * Value 0. */
uint64_t anaqsiro_wide_by(uint8_t *block, size_t len, uint16_t *directory, size_t directory_len, const uint8_t *message,
                          size_t message_len);

/* What anaqsiro_rights answers. Numbers 0, 1, 2, 13, 4, 5, 15. Value: as there, and taken apart in the same way. */
uint64_t anaqsiro_rights_by(const uint8_t *block, size_t len, const uint16_t *directory, size_t directory_len, uint64_t user,
                            uint64_t object, uint64_t request, uint64_t profile);

/* What anaqsiro_may answers. Numbers 0, 1, 2, 13, 4, 5, 15. Value: 1 for yes, 0 for no. */
uint64_t anaqsiro_may_by(const uint8_t *block, size_t len, const uint16_t *directory, size_t directory_len, uint64_t user,
                         uint64_t object, uint64_t request, uint64_t profile);

/* Writes a set as text as anaqsiro_write does, and touches no other byte. Numbers 0, 1, 2, 13, 3, 4, 10. Value: the length of
 * the text. */
uint64_t anaqsiro_write_by(const uint8_t *block, size_t len, const uint16_t *directory, size_t directory_len, uint64_t kind,
                           uint64_t key, uint8_t *out, size_t out_len);

/* Replaces a set by that of a text as anaqsiro_read does, and makes the directory the changed block's own. Numbers 0, 1, 2, 13,
 * 3, 4, 9, 8. Value: how many records; with 9 the place. */
uint64_t anaqsiro_read_by(uint8_t *block, size_t len, uint16_t *directory, size_t directory_len, uint64_t kind, uint64_t key,
                          const uint8_t *text, size_t text_len);

/* ---- the calls for appointments
 *
 * An appointment is a membership with a first date and a term of 1 to 120 months. It stands from its first day up to the day
 * before the anniversary, which falls so many months later on the same day of the month, or on the month's last day if it has no
 * such day. From 29 February 2024, which is day 19,782, twelve months later is 28 February 2025, day 20,147: on day 20,146 the
 * appointment stands, on day 20,147 no more. The host lends its list of appointments to each call, as the block does not hold it.
 *
 * - The host keeps the block, the list and the day of the last accepted move together, and stores them together.
 * - While the list stays the same, each move starts on the day on which the last accepted one ended, and the first on a day with
 *   none standing. ANAQSIRO_LAST_DAY is such a day for every list, since no anniversary is later. Then, in a block that began
 *   empty and whose messages each quote what their statement left, every count is at every moment the number of statements and
 *   appointments that stand with that record and that letter, and no such move or message is refused with 6. A host that loads its
 *   block and begins on ANAQSIRO_LAST_DAY again adds every appointment that stands a second time, and no number tells it so.
 * - To change the list, move to ANAQSIRO_LAST_DAY over the old one, and from there to today over the new one: to today, since
 *   something of the new list may have begun or ended after the day of the last move. The counts stay the numbers said.
 * - No call for appointments takes a directory. After a move make it again by anaqsiro_directory. */

/* The number of the day that has this date. A date that there is not, as 29 February 2025, is refused with 12, and so is one
 * before 1 January 1970 or after 31 December 2399. Numbers 0, 12. Value: the day's number. That of a refusal is 0, which is a
 * day too: test anaqsiro_number of the answer before a move goes there. */
uint64_t anaqsiro_day(uint64_t year, uint64_t month, uint64_t day);

/* The date of the day that has this number, 0 to ANAQSIRO_LAST_DAY. Numbers 0, 12. Value: the day of the month + 2^5 * the month
 * + 2^9 * the year; anaqsiro_date_day, anaqsiro_date_month and anaqsiro_date_year take the answer apart. */
uint64_t anaqsiro_date(uint64_t day);

/* Goes from one day to any other, later or earlier: takes from the block the appointments of the list that stand on the old day
 * only, then adds those that stand on the new day only, in the order of the list, each as a message would. It is applied as a
 * whole: where an appointment is refused, nothing has changed, and the number, 6, 7 or 8, is that of the first such one. Before
 * them 3 is for the form of the list: its length, the marker of each appointment, its last byte; 4 for all names, 5 for all
 * masks, and 12 for a 257th appointment, a date that is none, a term that is not 1 to 120, and a day, date or anniversary outside
 * the range; an anniversary on 1 January 2400 is. Numbers 0, 1, 2, 3, 4, 5, 12, 6, 7, 8. Value 0. */
uint64_t anaqsiro_move(uint8_t *block, size_t len, const uint8_t *list, size_t list_len, uint64_t old_day, uint64_t new_day);

/* When to move next: the next day after this one on which another set of the list stands, so that a host sets one timer. (Of a
 * list of one appointment and a day on which it stands, that is its anniversary. Where one appointment ends and another of the same
 * membership begins, another set stands, though no count changes.) The day to ask from is that of the last accepted move. Move to
 * today first: before the first move the day is ANAQSIRO_LAST_DAY, and the answer is none. As it takes no block, it also tests a
 * list that comes from elsewhere: 3, 4, 5 and 12 are as for anaqsiro_move. Numbers 0, 3, 4, 5, 12. Value: the number of that day,
 * or 0 if there is none; a refusal has 0 too. */
uint64_t anaqsiro_next_change(const uint8_t *list, size_t list_len, uint64_t day);

/* Whether one appointment stands on the day. Its length is ANAQSIRO_APPOINTMENT; any other is refused with 3. Otherwise 3, 4, 5
 * and 12 are as for anaqsiro_move. Numbers 0, 3, 4, 5, 12. Value: 1 for yes, 0 for no. */
uint64_t anaqsiro_stands(const uint8_t *appointment, size_t appointment_len, uint64_t day);

/* ---- the calls for slips
 *
 * A slip says why a user holds one right on an object. It is two lists of names: those on a chain from the user, and those on a chain
 * from the object, or 0 by itself. They end at the permission record that grants the right. Read out, a slip is
 *   planner-7, planners, maintenance | order-4711, line-2
 * and rests on this:
 *   the membership record of planner-7 in planners carries the right,
 *   the membership record of planners in maintenance carries it,
 *   the membership record of order-4711 in line-2 carries it,
 *   the permission record of line-2 for maintenance grants it: it counts the capital letter, and not the small one,
 *   every filter of order-4711, and of each group that its membership records name, lets it through,
 *   order-4711 is open to planner-7, if she is bound.
 * The last two are of the user, the object and the right, and no other name on the slip has a part in them.
 *
 * - A chain has 1 to ANAQSIRO_CHAIN_MAX names, and the first is the user or the object. It may repeat names.
 * - 0 by itself stands for the group of all resources: what is granted on it counts for every object. It is no chain from the object.
 *   So 0 with names after it is right only where the object is 0.
 * - The right is one of ANAQSIRO_CREATE, ANAQSIRO_READ, ANAQSIRO_UPDATE and ANAQSIRO_DELETE. Any other mask is refused with 5.
 * - A slip is right or not for a block as it stands. A message may end it, even where another slip says that the right is still held.
 * - Any slip may be checked, wherever it comes from. One that was changed on its way is right only if it meets all of the above.
 * - Slips belong to the ordinary profile, and neither call takes a directory. */

/* Finds a slip, and writes its lists at the front of the two that are lent, which must not overlap. There is one exactly where
 * anaqsiro_may says yes in the ordinary profile. Which one it is, where there are several, is left open; but no slip for this block,
 * user, object and right has fewer names, both lists counted together. The places after each chain are left as they were, and both
 * lists are where there is none. A lent list of fewer than ANAQSIRO_CHAIN_MAX places is refused with 10, also where there is none.
 * Numbers 0, 1, 2, 4, 5, 10. Value: 0 for none, else the names on the user's chain + 2^8 * those on the object's;
 * anaqsiro_user_names and anaqsiro_object_names take the answer apart. */
uint64_t anaqsiro_find_slip(const uint8_t *block, size_t len, uint64_t user, uint64_t object, uint64_t right, uint16_t *user_chain,
                            size_t user_len, uint16_t *object_chain, size_t object_len);

/* Whether a slip is right. Its lists have just the names on it: those that anaqsiro_find_slip wrote, and no place after them. 4 is
 * for all names on both lists too, however long these are. (A number from elsewhere that 16 bits do not hold is no name: write 65,535
 * for it, which is refused, and do not cut it.) A list of no names, or of more than ANAQSIRO_CHAIN_MAX, is refused with 11.
 * Numbers 0, 1, 2, 4, 5, 11. Value: 1 for yes, 0 for no. */
uint64_t anaqsiro_check_slip(const uint8_t *block, size_t len, uint64_t user, uint64_t object, uint64_t right,
                             const uint16_t *user_chain, size_t user_len, const uint16_t *object_chain, size_t object_len);

/* ---- the calls with a limit
 *
 * Both give the rights of the full question in the ordinary profile, with no more membership records in any chain than the limit
 * says. anaqsiro_plain is the plain engine, for a support desk that wants to follow a question with a finger: one function
 * asks whether a name is reached with so many records left, another goes through that name's records and asks the first, with one
 * fewer (docs/PLAIN.md goes through a question line by line). anaqsiro_rights_to is the walk of the other questions, held to the
 * limit.
 *
 * - The limit holds for the user's chain, the object's chain (or 0 by itself), the chain that makes a group hers, of 1 to so many
 *   records, and the chain from the object to one of her groups, of 0 to so many. So at limit 0 a right is granted to the user
 *   herself, on the object itself or on 0, and nobody is bound.
 * - It touches neither the filters nor what it is to be in no group at all: a filter of a group that the object's membership records
 *   name binds at limit 0 too.
 * - A lower limit may show more rights, since a group of hers that lies further off does not bind. A right that is shown at a limit
 *   below 32 need not be held, and one that is not shown may be.
 * - Where anaqsiro_plain does not refuse with 14, both give the same, which is proved. At limit 32 anaqsiro_rights_to gives the rights
 *   that anaqsiro_rights gives in the ordinary profile.
 * - The last argument is a limit where anaqsiro_rights has a profile. Both are numbers of 64 bits, so that no compiler finds one in
 *   the other's place: with ANAQSIRO_ORDINARY these two ask at limit 0.
 * - Neither takes a profile or a directory. */

/* The rights that the user holds on the object, of those requested, with every chain held to the limit, 0 to
 * ANAQSIRO_PLAIN_LIMIT_MAX. It goes through every chain and keeps no marks, so that it may take very long where there are many: 64
 * membership records that make each of 8 names a member of all 8 give 8^8 chains at limit 8, 16,777,216, for each requested right and
 * each permission record that has it, where the answer is no. It is for small blocks that are looked into. A greater limit is refused with 14, and so is a block with more than
 * ANAQSIRO_PLAIN_RECORDS_MAX membership records, those with marker counts alone among them. Numbers 0, 1, 2, 4, 5, 14. Value: the
 * rights. */
uint64_t anaqsiro_plain(const uint8_t *block, size_t len, uint64_t user, uint64_t object, uint64_t request, uint64_t limit);

/* The same rights, by the walk of anaqsiro_rights held to the limit, 0 to ANAQSIRO_LIMIT_MAX, over any block, and without the numbers
 * of records examined. A greater limit is refused with 14. Numbers 0, 1, 2, 4, 5, 14. Value: the rights. */
uint64_t anaqsiro_rights_to(const uint8_t *block, size_t len, uint64_t user, uint64_t object, uint64_t request, uint64_t limit);

/* ---- the call about what bears on rights
 *
 * Planners ask whether a change in another department can touch them. anaqsiro_bears answers for one user, one object and one record:
 * a message about a record for which this says no changes no answer to either question about this user and object. That is proved, of
 * anaqsiro_rights and anaqsiro_may, in both profiles, for every request, and with the numbers of records examined. These records bear, and no others:
 *   the memberships whose key is reached from the user or from the object by a chain of at most 31 memberships,
 *   the permissions whose key is reached from the object by at most 32, or is 0, and whose id is reached from the user by at most 32,
 *   the filters of the object, and of each group that its membership records name.
 *
 * - The record need not be in the block: a message may bring it.
 * - A chain leads from key to id, whatever rights and markers its memberships have. One of no memberships leads from a name to itself.
 *   A membership record with marker counts alone is part of no chain and names no group; by its own key it bears as any other does.
 *   Here 0 is a name like others, but for the key of a permission.
 * - No says that no answer changes. Yes says that one may change, not that one does: a right that is granted a second time is held as
 *   before.
 * - Of a membership and of a filter the id does not matter, as long as it is a name: who asks about a whole set asks once.
 * - Ask for every record that is to change: those of both halves of a message, every pair of a wide one, those that anaqsiro_read takes
 *   away and those that it brings, and the membership of each appointment that anaqsiro_move takes or adds. Where none of them bears,
 *   the answers stay as they are.
 * - The answer is of this block. It stays the same while only records change that do not bear, so that a list of changes may be asked
 *   about beforehand: where none bears, all of them together change no answer, in whatever order they are sent. After a message that
 *   bears it may be another, and the next change of the list has to be asked about again.
 * - It takes no request, no profile and no directory: what it says holds for every request, in both profiles, and by the block's own
 *   directory too. It says nothing of slips and limits: anaqsiro_plain refuses a block with a 65th membership, wherever that stands. */

/* Whether the record of the kind, the key and the id bears on what the user may do with the object. 3 is for a kind that is not 1 to 3,
 * 4 for a user, an object, a key or an id that is no name. The kind is without markers, as anaqsiro_get_kind gives it: the first byte of
 * a message with a marker is refused with 3. No lent byte changes. Numbers 0, 1, 2, 3, 4. Value: 1 for yes, 0 for no; a
 * refusal has 0 too: test anaqsiro_number of the answer before a no is relied on. */
uint64_t anaqsiro_bears(const uint8_t *block, size_t len, uint64_t user, uint64_t object, uint64_t kind, uint64_t key, uint64_t id);

/* ---- a block as it stands, record by record
 *
 * Only the first of these calls tests the block, so that a host can go through 2,048 records without 2,048 tests. Of a block
 * that is not good the others give what its bytes say, with 0 for each byte that it does not have. */

/* Whether the block is good. Numbers 0, 1, 2. Value 0. */
uint64_t anaqsiro_tested(const uint8_t *block, size_t len);

/* How many records of the kind the block's header says there are. Numbers 0, 3. Value: how many. */
uint64_t anaqsiro_size(const uint8_t *block, size_t len, uint64_t kind);

/* The key and the id of a record; anaqsiro_key and anaqsiro_id take the answer apart. Records are numbered from 0 on: first
 * the memberships, then the permissions, then the filters, as many of each as anaqsiro_size says; those of a kind rise by key,
 * then by id. Past the bytes of the block, and for a number above 65,535, the value is 0. That is no mark of the end: a record
 * of the key 0 and the id 0 has the value 0 too. Number 0. Value: key + 65,536 * id. */
uint64_t anaqsiro_record(const uint8_t *block, size_t len, uint64_t number);

/* The count of a letter, by its number below ANAQSIRO_LETTERS, in a record, numbered as for anaqsiro_record. 0 for any other
 * letter. Number 0. Value: the count. */
uint64_t anaqsiro_count(const uint8_t *block, size_t len, uint64_t number, uint64_t letter);

/* ---- an answer taken apart */

/* The number of an answer: 0 where the call was accepted. */
static inline uint32_t anaqsiro_number(uint64_t answer) { return (uint32_t)(answer >> 32); }

/* The value of an answer. Where the call was refused it is 0, but for the place that anaqsiro_read gives with 9. That of
 * anaqsiro_rights is made of three parts, which the next three functions give. */
static inline uint32_t anaqsiro_value(uint64_t answer) { return (uint32_t)(answer & 0xFFFFFFFFu); }

/* The rights of an answer of anaqsiro_rights, anaqsiro_rights_to or anaqsiro_plain, as a mask; 0 where the call was refused. */
static inline uint32_t anaqsiro_held(uint64_t answer) { return anaqsiro_value(answer) & ANAQSIRO_ALL; }

/* The membership records examined on the user's side, of an answer of anaqsiro_rights; 0 where the call was refused. */
static inline uint32_t anaqsiro_user_examined(uint64_t answer) { return anaqsiro_value(answer) >> 4 & 0x3FFFu; }

/* Those examined on the object's side. */
static inline uint32_t anaqsiro_object_examined(uint64_t answer) { return anaqsiro_value(answer) >> 18; }

/* The names on the user's chain, of an answer of anaqsiro_find_slip; 0 where there is no slip, or the call was refused. */
static inline uint32_t anaqsiro_user_names(uint64_t answer) { return anaqsiro_value(answer) & 0xFFu; }

/* Those on the object's chain. */
static inline uint32_t anaqsiro_object_names(uint64_t answer) { return anaqsiro_value(answer) >> 8; }

/* The day of the month of an answer of anaqsiro_date, 1 to 31; 0 where the call was refused, as for month and year. */
static inline uint32_t anaqsiro_date_day(uint64_t answer) { return anaqsiro_value(answer) & 0x1Fu; }

/* The month of an answer of anaqsiro_date, 1 to 12. */
static inline uint32_t anaqsiro_date_month(uint64_t answer) { return anaqsiro_value(answer) >> 5 & 0xFu; }

/* The year of an answer of anaqsiro_date. */
static inline uint32_t anaqsiro_date_year(uint64_t answer) { return anaqsiro_value(answer) >> 9; }

/* The key of an answer of anaqsiro_record. */
static inline uint32_t anaqsiro_key(uint64_t answer) { return anaqsiro_value(answer) & 0xFFFFu; }

/* The id of an answer of anaqsiro_record. */
static inline uint32_t anaqsiro_id(uint64_t answer) { return anaqsiro_value(answer) >> 16; }

/* When a call gives the number, in the words of the rules. "unknown" for a number that is not of this version. */
static inline const char *anaqsiro_refusal_text(uint64_t number) {
    switch (number) {
    case ANAQSIRO_ACCEPTED: return "accepted";
    case ANAQSIRO_BLOCK_LENGTH: return "block length not 16 to 49,168";
    case ANAQSIRO_BLOCK_NOT_GOOD: return "block not good";
    case ANAQSIRO_FORM:
        return "message not 12 bytes, or kind, flags, a marker or an absent half wrong; "
               "a wide message's header, length or list wrong; kind not 1 to 3; "
               "appointments not of 12 bytes each, or a marker or last byte of one wrong";
    case ANAQSIRO_NAME: return "a name above 1023, given by the caller, in a present half or in an appointment";
    case ANAQSIRO_MASK:
        return "request 0 or above 15; not exactly one right on a slip; "
               "a present half's mask 0, or above 15 for M or F; an appointment's mask 0 or above 15";
    case ANAQSIRO_NOTHING_TO_TAKE:
        return "a letter or marker of the previous half, or of an appointment to take, has count 0 or no record";
    case ANAQSIRO_COUNT_FULL: return "after taking away, a letter or marker to add stands at 65,535";
    case ANAQSIRO_NO_ROOM: return "after taking away (or removing the old set), the records do not fit";
    case ANAQSIRO_TEXT: return "not the text of any set of that kind";
    case ANAQSIRO_TEXT_LONG: return "text longer than the output buffer; a list lent for a slip has fewer than 33 places";
    case ANAQSIRO_CHAIN_LENGTH: return "a checked chain has 0 or more than 33 names";
    case ANAQSIRO_OUTSIDE_RANGE:
        return "a 257th appointment, a date that is none, or a day, date, term or anniversary outside the range";
    case ANAQSIRO_DIRECTORY_NOT_OWN: return "the lent directory has the wrong length or is not the block's own";
    case ANAQSIRO_LIMIT:
        return "for the plain engine a limit above 8 or more than 64 membership records; for the walk a limit above 32";
    case ANAQSIRO_PROFILE: return "a profile other than ordinary or strict";
    default: return "unknown";
    }
}

/* ---- letters */

/* The number of a letter, as anaqsiro_count takes it: 0 for M to 9 for N. ANAQSIRO_LETTERS for any other byte. */
static inline uint32_t anaqsiro_letter_number(char letter) {
    uint32_t number = 0;
    while (number < ANAQSIRO_LETTERS && ANAQSIRO_SPELLED[number] != letter) {
        number++;
    }
    return number;
}

/* The mask of a word of letters: 7 for "MRU", in any order, and 263 for "MRUX". Where a byte of the word is no letter it is 0, as
 * for the empty word, and every request and every half with the mask 0 is refused with 5. */
static inline uint32_t anaqsiro_mask(const char *word) {
    uint32_t mask = 0;
    for (; *word != 0; word++) {
        const uint32_t number = anaqsiro_letter_number(*word);
        if (number == ANAQSIRO_LETTERS) {
            return 0;
        }
        mask |= (uint32_t)1 << number;
    }
    return mask;
}

/* Writes the letters of a mask to a buffer of ANAQSIRO_LETTERS + 1 bytes, "MRU" for 7, with a zero byte after the last, and
 * gives the buffer back. Bits of the mask that stand for no letter are passed over. */
static inline char *anaqsiro_put_letters(char *out, uint64_t mask) {
    size_t length = 0;
    for (uint32_t number = 0; number < ANAQSIRO_LETTERS; number++) {
        if ((mask >> number & 1u) != 0) {
            out[length++] = ANAQSIRO_SPELLED[number];
        }
    }
    out[length] = 0;
    return out;
}

/* ---- a message put together */

/* One half of a message: the record that it speaks of, by key and id, and the letters to take away from it or to add to it, with
 * a marker or without. The marker is part of what a statement leaves and has to quote. The numbers are 64 bits wide, as those of
 * the calls, so that 65,537 is never taken for 1. */
struct anaqsiro_half {
    uint64_t key;
    uint64_t id;
    uint64_t mask;
};

/* Writes a name to two bytes, the low one first. One that does not fit becomes 65,535, which no name is. */
static inline void anaqsiro_put_name(uint8_t *at, uint64_t name) {
    const uint64_t fits = name > 0xFFFFu ? 0xFFFFu : name;
    at[0] = (uint8_t)(fits & 0xFFu);
    at[1] = (uint8_t)(fits >> 8);
}

/* A mask as a message has it: one with bits that stand for no letter becomes 0, which no mask is. */
static inline uint32_t anaqsiro_fitting_mask(uint64_t mask) { return mask >> ANAQSIRO_LETTERS != 0 ? 0u : (uint32_t)mask; }

/* Writes a half to its ANAQSIRO_HALF bytes, and gives its markers, which stand elsewhere: X as 1, N as 2. A null pointer stands
 * for an absent half. */
static inline uint32_t anaqsiro_put_half(uint8_t *at, const struct anaqsiro_half *half) {
    const struct anaqsiro_half absent = {0, 0, 0};
    const struct anaqsiro_half *written = half == NULL ? &absent : half;
    const uint32_t mask = anaqsiro_fitting_mask(written->mask);
    anaqsiro_put_name(at, written->key);
    anaqsiro_put_name(at + 2, written->id);
    at[4] = (uint8_t)(mask & 0xFFu);
    return mask / ANAQSIRO_X;
}

/* Writes the first two bytes of a message, plain or wide: the kind with the markers of both halves, and which of them are
 * there. A kind that four bits do not hold becomes 0, which no kind is. */
static inline void anaqsiro_put_front(uint8_t *message, uint64_t kind, uint32_t taken, uint32_t added, int has_previous,
                                      int has_new) {
    const uint32_t fits = (uint32_t)(kind > ANAQSIRO_KIND_BITS ? 0u : kind);
    message[0] = (uint8_t)(fits | taken * ANAQSIRO_X_PREVIOUS | added * ANAQSIRO_X_NEW);
    message[1] = (uint8_t)((has_previous ? ANAQSIRO_HAS_PREVIOUS : 0u) | (has_new ? ANAQSIRO_HAS_NEW : 0u));
}

/* Writes a message to its ANAQSIRO_MESSAGE bytes: what the statement said before, and what it says now. A null pointer stands
 * for an absent half: no previous half where the statement is new, no new half where it is withdrawn. The markers come from the
 * masks alone. Whatever is wrong with a number here, anaqsiro_message refuses by the number of the rules: 3, 4 or 5. */
static inline void anaqsiro_put_message(uint8_t *message, uint64_t kind, const struct anaqsiro_half *previous,
                                        const struct anaqsiro_half *new_half) {
    const uint32_t taken = anaqsiro_put_half(message + ANAQSIRO_PREVIOUS_AT, previous);
    const uint32_t added = anaqsiro_put_half(message + ANAQSIRO_NEW_AT, new_half);
    anaqsiro_put_front(message, kind, taken, added, previous != NULL, new_half != NULL);
}

/* ---- a wide message put together */

/* One half of a wide message: its keys and its ids, each with how many there are, and the letters of every pair of a key and an
 * id, with a marker or without. The names of each list rise strictly. So the three keys 20, 21, 22 and the two ids 1, 2 are
 *   const struct anaqsiro_wide_half half = {{20, 21, 22}, 3, {1, 2}, 2, ANAQSIRO_UPDATE};
 * All of it is what a statement leaves and has to quote. A half of a message is one with one key and one id. */
struct anaqsiro_wide_half {
    uint64_t keys[ANAQSIRO_LIST_MAX];
    uint64_t how_many_keys;
    uint64_t ids[ANAQSIRO_LIST_MAX];
    uint64_t how_many_ids;
    uint64_t mask;
};

/* Writes a list of a wide message by its number, 0 to 3, to the place where it begins, and gives where it ends. Of a list that
 * is too long no name is read or written, and its length becomes 9, which no length is. */
static inline size_t anaqsiro_put_list(uint8_t *message, size_t number, size_t begins, const uint64_t *names, uint64_t how_many) {
    const size_t written = how_many > ANAQSIRO_LIST_MAX ? 0u : (size_t)how_many;
    message[ANAQSIRO_WIDE_LENGTHS_AT + number] = (uint8_t)(how_many > ANAQSIRO_LIST_MAX ? ANAQSIRO_LIST_MAX + 1u : how_many);
    anaqsiro_put_name(message + ANAQSIRO_WIDE_OFFSETS_AT + 2u * number, begins);
    for (size_t i = 0; i < written; i++) {
        anaqsiro_put_name(message + begins + 2u * i, names[i]);
    }
    return begins + 2u * written;
}

/* Writes a half of a wide message by its number, its lists from the place where the first begins, and gives where the last
 * ends. A null pointer stands for an absent half. A mask with bits that stand for no letter becomes 0, which no mask is. */
static inline size_t anaqsiro_put_wide_half(uint8_t *message, size_t number, size_t begins,
                                            const struct anaqsiro_wide_half *half) {
    const struct anaqsiro_wide_half absent = {{0}, 0, {0}, 0, 0};
    const struct anaqsiro_wide_half *written = half == NULL ? &absent : half;
    const size_t ids_begin = anaqsiro_put_list(message, 2u * number, begins, written->keys, written->how_many_keys);
    message[ANAQSIRO_WIDE_MASKS_AT + number] = (uint8_t)(anaqsiro_fitting_mask(written->mask) & 0xFFu);
    return anaqsiro_put_list(message, 2u * number + 1u, ids_begin, written->ids, written->how_many_ids);
}

/* Writes a wide message to a buffer of ANAQSIRO_WIDE_MAX bytes, and gives how long it is: what the statement said before, and
 * what it says now. A null pointer stands for an absent half. Whatever is wrong with a number, a list or a length here, nothing
 * is written outside the buffer, and anaqsiro_wide refuses by the number of the rules: 3, 4 or 5; a list that is too long, or
 * does not rise strictly, is 3. (Two names of one list that do not fit both become 65,535, so that it does not rise.) */
static inline size_t anaqsiro_put_wide(uint8_t *message, uint64_t kind, const struct anaqsiro_wide_half *previous,
                                       const struct anaqsiro_wide_half *new_half) {
    const uint32_t taken = previous == NULL ? 0u : anaqsiro_fitting_mask(previous->mask) / ANAQSIRO_X;
    const uint32_t added = new_half == NULL ? 0u : anaqsiro_fitting_mask(new_half->mask) / ANAQSIRO_X;
    const size_t new_begins = anaqsiro_put_wide_half(message, ANAQSIRO_WIDE_PREVIOUS, ANAQSIRO_WIDE_HEADER, previous);
    anaqsiro_put_front(message, kind, taken, added, previous != NULL, new_half != NULL);
    return anaqsiro_put_wide_half(message, ANAQSIRO_WIDE_NEW, new_begins, new_half);
}

/* ---- a message read, for a host that keeps what its statements left */

/* The kind of a message, plain or wide, without the markers. */
static inline uint32_t anaqsiro_get_kind(const uint8_t *message) { return message[0] & ANAQSIRO_KIND_BITS; }

/* A name of two bytes, the low one first. */
static inline uint64_t anaqsiro_get_name(const uint8_t *at) { return (uint64_t)at[0] | (uint64_t)at[1] << 8; }

/* The markers of a half of a message, plain or wide, by the half's number, 0 for the previous one and 1 for the new: X as 1, N
 * as 2. */
static inline uint32_t anaqsiro_get_markers(const uint8_t *message, size_t number) {
    return message[0] / (number == 0 ? ANAQSIRO_X_PREVIOUS : ANAQSIRO_X_NEW) & 3u;
}

/* A half of a message by its place, ANAQSIRO_PREVIOUS_AT or ANAQSIRO_NEW_AT, its mask with the marker. All numbers of an absent
 * half are 0 in a message that is not refused with 3. */
static inline struct anaqsiro_half anaqsiro_get_half(const uint8_t *message, size_t at) {
    const uint32_t markers = anaqsiro_get_markers(message, at == ANAQSIRO_PREVIOUS_AT ? 0u : 1u);
    struct anaqsiro_half half;
    half.key = anaqsiro_get_name(message + at);
    half.id = anaqsiro_get_name(message + at + 2);
    half.mask = message[at + 4] | (uint64_t)markers * ANAQSIRO_X;
    return half;
}

/* A half of a message as the wide half that says the same, of one key and one id; all numbers are 0 for an absent one. */
static inline struct anaqsiro_wide_half anaqsiro_widened(struct anaqsiro_half half) {
    const uint64_t how_many = half.mask == 0 ? 0u : 1u;
    struct anaqsiro_wide_half wide = {{0}, 0, {0}, 0, 0};
    wide.keys[0] = half.key;
    wide.how_many_keys = how_many;
    wide.ids[0] = half.id;
    wide.how_many_ids = how_many;
    wide.mask = half.mask;
    return wide;
}

/* Reads a list of a wide message by its number, 0 to 3, into ANAQSIRO_LIST_MAX places, and gives how many names it has: none
 * where it is too long, or not all of it stands in the message. */
static inline uint64_t anaqsiro_get_list(const uint8_t *message, size_t message_len, size_t number, uint64_t *names) {
    const size_t how_many = message[ANAQSIRO_WIDE_LENGTHS_AT + number];
    const size_t begins = (size_t)anaqsiro_get_name(message + ANAQSIRO_WIDE_OFFSETS_AT + 2u * number);
    if (how_many > ANAQSIRO_LIST_MAX || begins + 2u * how_many > message_len) {
        return 0;
    }
    for (size_t i = 0; i < how_many; i++) {
        names[i] = anaqsiro_get_name(message + begins + 2u * i);
    }
    return how_many;
}

/* A half of a wide message by its number, ANAQSIRO_WIDE_PREVIOUS or ANAQSIRO_WIDE_NEW, its mask with the marker. All numbers of
 * an absent half are 0 in a message that is not refused with 3, and so are those of a list past its end: two halves are the
 * same where memcmp says so. Bytes that are too few for a wide message give the same zeros. */
static inline struct anaqsiro_wide_half anaqsiro_get_wide_half(const uint8_t *message, size_t message_len, size_t number) {
    struct anaqsiro_wide_half half = {{0}, 0, {0}, 0, 0};
    if (message_len >= ANAQSIRO_WIDE_HEADER) {
        half.how_many_keys = anaqsiro_get_list(message, message_len, 2u * number, half.keys);
        half.how_many_ids = anaqsiro_get_list(message, message_len, 2u * number + 1u, half.ids);
        half.mask = message[ANAQSIRO_WIDE_MASKS_AT + number] | (uint64_t)anaqsiro_get_markers(message, number) * ANAQSIRO_X;
    }
    return half;
}

/* ---- an appointment put together and read */

/* An appointment: the membership that it is, with a marker in its mask or without, the date of its first day, and its term in
 * months. So a year from 29 February 2024 is
 *   const struct anaqsiro_appointment one = {{PLANNER, PLANNERS, ANAQSIRO_READ}, 2024, 2, 29, 12};
 * The numbers are 64 bits wide, as those of a half. */
struct anaqsiro_appointment {
    struct anaqsiro_half membership;
    uint64_t year;
    uint64_t month;
    uint64_t day;
    uint64_t term;
};

/* Writes a number to one byte. One that does not fit becomes 255, which no month, no day of a month and no term is. */
static inline void anaqsiro_put_small(uint8_t *at, uint64_t number) { *at = (uint8_t)(number > 0xFFu ? 0xFFu : number); }

/* Writes an appointment to its ANAQSIRO_APPOINTMENT bytes of a list. The host sees to it that there is room for them: a full list
 * has ANAQSIRO_APPOINTMENTS_MAX bytes. Whatever is wrong with a number here, the calls refuse by the number of the rules: 3 for
 * both markers at once, 4, 5 or 12. */
static inline void anaqsiro_put_appointment(uint8_t *at, const struct anaqsiro_appointment *appointment) {
    at[ANAQSIRO_APPOINTMENT_MARKER_AT] = (uint8_t)anaqsiro_put_half(at, &appointment->membership);
    anaqsiro_put_name(at + ANAQSIRO_APPOINTMENT_YEAR_AT, appointment->year);
    anaqsiro_put_small(at + ANAQSIRO_APPOINTMENT_MONTH_AT, appointment->month);
    anaqsiro_put_small(at + ANAQSIRO_APPOINTMENT_DAY_AT, appointment->day);
    anaqsiro_put_small(at + ANAQSIRO_APPOINTMENT_TERM_AT, appointment->term);
    at[ANAQSIRO_APPOINTMENT - 1u] = 0;
}

/* An appointment of a list by its bytes, its mask with the marker. Put together again it has the same bytes, where the calls do
 * not refuse it with 3. */
static inline struct anaqsiro_appointment anaqsiro_get_appointment(const uint8_t *at) {
    struct anaqsiro_appointment appointment;
    appointment.membership.key = anaqsiro_get_name(at);
    appointment.membership.id = anaqsiro_get_name(at + 2);
    appointment.membership.mask = at[ANAQSIRO_APPOINTMENT_MASK_AT] | (uint64_t)at[ANAQSIRO_APPOINTMENT_MARKER_AT] * ANAQSIRO_X;
    appointment.year = anaqsiro_get_name(at + ANAQSIRO_APPOINTMENT_YEAR_AT);
    appointment.month = at[ANAQSIRO_APPOINTMENT_MONTH_AT];
    appointment.day = at[ANAQSIRO_APPOINTMENT_DAY_AT];
    appointment.term = at[ANAQSIRO_APPOINTMENT_TERM_AT];
    return appointment;
}

#ifdef __cplusplus
}
#endif

#endif
