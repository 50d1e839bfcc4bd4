/* One round of cases, by call; and what the files of cases share. */
#ifndef CASES_H
#define CASES_H

#include "classes.h"
#include "lending.h"

void compare_checks(struct dice *dice);
void compare_writes(struct dice *dice);
void compare_parts(struct dice *dice);
void compare_written_parts(struct dice *dice);
void compare_bookings(struct dice *dice);
void compare_rosters(struct dice *dice);
void compare_ceilings(struct dice *dice);
void compare_accounts(struct dice *dice);
void compare_saves(struct dice *dice);
void compare_moves(struct dice *dice);
void compare_saved_reports(struct dice *dice);
void compare_articles(struct dice *dice);
void compare_reports(struct dice *dice);

/* In few rounds: every byte, and few cases each of large books and far numbers. */
void compare_marks(struct dice *dice);
void compare_report_bytes(struct dice *dice);
void compare_saved_report_bytes(struct dice *dice);
void compare_part_bytes(struct dice *dice);
void compare_written_bytes(struct dice *dice);
void compare_far_records(struct dice *dice);
void compare_far_books(struct dice *dice);
void compare_far_saves(struct dice *dice);
void compare_far_rosters(struct dice *dice);

/* compare_book.c: the figures of a line by its key of 34 bytes. */
uint64_t ask_line(const uint8_t *key, struct shelf *shelf);

/* compare_book.c: a record of this shape for this key; where a slip is given, as that slip. */
struct booking {
    enum shape shape;
    const uint8_t *key;
    size_t copies;
    const uint8_t *slip;
};

/* compare_book.c: books it before this roster. */
uint64_t book_before(struct dice *dice, const struct roster *roster, struct shelf *shelf,
                     struct booking booking);

/* compare_book.c: books it before a roster on which its school stands with the highest
   ceiling. So does book_listed with a record. */
uint64_t book_one(struct dice *dice, struct shelf *shelf, enum shape shape,
                  const uint8_t *key, size_t copies, const uint8_t *slip);
uint64_t book_listed(struct dice *dice, const uint8_t *record, size_t length,
                     struct shelf *shelf);

/* compare_roster.c: books a record of any kind, now and then before another roster first. */
void book_meeting(struct dice *dice, const uint8_t *record, size_t length,
                  struct shelf *shelf);

/* compare_ceiling.c: an order for a new line of this school, which stands on a roster with
   this ceiling; and both sides of the ceiling, where the book has a line left. */
uint64_t order_under(struct dice *dice, struct shelf *shelf, const uint8_t *account,
                     size_t copies, uint64_t ceiling);
void order_at_edge(struct dice *dice, struct shelf *shelf, const uint8_t *account,
                   size_t copies, enum class class);

/* compare_save.c: a save of any sound book, loaded again, gives it back where its keys
   allow; one of a book made by bookings is moved there and back as well, a large one now and
   then. */
void save_and_load(struct dice *dice, struct shelf *shelf, int by_bookings);

/* compare_save.c: saves the book and loads it into rooms of the same size, now and then from
   the old form; gives the answer of loading, and where that is 0 the same book, from the old
   form without its messages. */
uint64_t load_again(struct dice *dice, struct shelf *shelf, struct shelf *loaded);

/* compare_save.c: whether both have the same counts and the same used entries. */
int is_same_book(const struct shelf *shelf, const struct shelf *other);

/* compare_moves.c: moves the save of a book that can be loaded to the old form and back, first
   as it is, then with its messages forgotten. */
void move_book(struct dice *dice, const struct shelf *shelf);

/* compare_moves.c: gives bytes to load, to old to new and to new to old, whose answers have to
   follow from that of load; gives that one. Counts the class and the two behind it, one for each
   of the three. */
uint64_t try_save(struct dice *dice, const uint8_t *saved, size_t length,
                  const struct shelf *room, enum class class);

#endif
