/* Generated inputs: records of all kinds, titles, parts, rosters, lent books and saved books. */
#ifndef INPUTS_H
#define INPUTS_H

#include "../include/wizqamul.h"

enum {
    /* widths of the documents, stated here a second time on purpose */
    IN_ADDRESS = 10, IN_QUALIFIER = 2, IN_PARTY = 12, IN_NAME = 10, IN_QUANTITY = 4,
    IN_KEY = 34, IN_LINE = 66, IN_SLIP_KEY = 46, IN_SLIP = 50, IN_DAY = 8,
    /* a title is an article with its qualifier; it stands behind the key of a line, and
       behind the reference of a record */
    IN_ARTICLE = 13, IN_TITLE = IN_ARTICLE + IN_QUALIFIER, IN_TITLED = IN_KEY + IN_TITLE,
    IN_SAVED_OLD_LINE = 53, IN_SAVED_LINE = 63, IN_SAVED_SLIP = 51, IN_SAVED_END = 5,
    IN_KIND_END = 0, IN_KIND_OLD_LINE = 1, IN_KIND_SLIP = 2, IN_KIND_LINE = 3,
    IN_SCHOOL = 16, IN_CEILING = 12, IN_MOST_SCHOOLS = 64,
    /* digits of a message, and where month and day stand in a date */
    IN_MESSAGE_DIGITS = 3, IN_MONTH = 4, IN_DAY_OF_MONTH = 6,
    /* where the parts of a line, of a slip and of a delivery's fixed part start; in a save
       the byte of kind stands before a line or slip */
    IN_ORDERED = 49, IN_MARK = 51, IN_MESSAGE = 52, IN_EXPECTED = 54, IN_ARRIVED = 62,
    IN_ARRIVED_WIDTH = IN_LINE - IN_ARRIVED,
    IN_LINE_OF_SLIP = 46, IN_COPIES = 48,
    /* what a save of the old form and one of the new have of a line, and what a line has of
       its last report */
    IN_OLD_BODY = IN_MESSAGE, IN_BODY = IN_ARRIVED, IN_STATE = IN_ARRIVED - IN_MARK,
    IN_DATE = 24, IN_DATE_TO_POSITION = 22, IN_SLIP_NUMBER = 32, IN_DELIVERY_DATE = 28,
    IN_KIND_BYTE = 1,
    IN_SAVED_LINES_COUNT = 4, IN_SAVED_SLIPS_COUNT = 2,
    IN_SENDER = 4, IN_RECIPIENT = 16, IN_REFERENCE = 24, IN_ORDER_COPIES = 61,
    IN_DELIVERY_COPIES = 75,
    IN_ORDER_REFERENCE = 36, IN_DELIVERY_REFERENCE = 50, IN_REPORT_REFERENCE = 38,
    IN_REPORT_MESSAGE = 63, IN_REPORT_HOLD = 66, IN_REPORT_EXPECTED = 67,
    IN_MOST_FIELDS = 96, IN_FULL_TABLE = 3 * IN_MOST_FIELDS, IN_LONGEST = 1024,
    IN_MOST_COPIES = 9999,
    IN_NO_MARK = 0, IN_HELD = 1, IN_LET_GO = 2,
    IN_MOST_MESSAGE = 999, IN_UNKNOWN = 65534, IN_NO_REPORT = 65535,
    IN_AS_DAY = 1, IN_AS_ZEROS = 2, IN_AS_BLANKS = 3,
    /* bundles: the mark, the fields of a loop and its shortest length, a lent part and a
       price in it */
    IN_TAX_MARK = 107, IN_MOST_PARTS = 8, IN_LOOP = 10, IN_SHORTEST_LOOP = 77,
    IN_PART = 68, IN_FULL_PARTS = IN_MOST_PARTS * IN_PART,
    IN_PART_MEDIUM = 1, IN_PART_NET = 2, IN_PART_LIST = 16, IN_PART_LENGTH = 30,
    IN_PART_ARTICLE = 31, IN_PART_QUALIFIER = 66, IN_LONGEST_ARTICLE = 35,
    IN_PRICE_DIGITS = 8, IN_PRICE_QUALIFIER = 9, IN_PRICE_CURRENCY = 11, IN_CURRENCY = 3,
    IN_LEAST_DIGITS = 5, IN_MOST_DIGITS = 15, IN_PHYSICAL = 1, IN_DIGITAL = 2,
    IN_TAX_ID = 1019,
    /* where the typographic marks of document 02 begin and end */
    IN_FIRST_TYPOGRAPHIC = 128, IN_LAST_TYPOGRAPHIC = 159,
    SHEET_FIELDS = IN_MOST_FIELDS + 24, SHEET_CONTENTS = 8192, RECORD_ROOM = 9000,
    PARTS_ROOM = (IN_MOST_PARTS + 2) * IN_PART, SHELF_LINES = 514, SHELF_SLIPS = 1026,
    FAR_ROSTER = 65536, ROSTER_ROOM = FAR_ROSTER + (IN_MOST_SCHOOLS + 3) * IN_SCHOOL,
    SAVE_ROOM = 200000
};

/* An expected date of eight blanks. */
#define BLANK_DATE "        "

/* A small generator of random numbers with a course that its seed fixes. */
struct dice { uint64_t state; };

uint64_t roll(struct dice *dice);
size_t below(struct dice *dice, size_t bound);
size_t between(struct dice *dice, size_t least, size_t most);
int chance(struct dice *dice, size_t one_in);

/* A record in parts, as wq_write takes them. */
struct sheet {
    uint8_t fixed[120];
    size_t fixed_length;
    size_t count, table[3 * SHEET_FIELDS];
    uint8_t contents[SHEET_CONTENTS];
    size_t contents_length;
};

/* A bundle, as wq_write_parts takes it: a sheet and how many numbers of its table are lent, its
   parts, how many of their bytes are lent, and their count. */
struct bundle {
    struct sheet sheet;
    size_t table_length;
    uint8_t parts[PARTS_ROOM];
    size_t parts_length, count;
};

/* A lent book: rooms in bytes, and the used counts. */
struct shelf {
    uint8_t lines[SHELF_LINES * IN_LINE], slips[SHELF_SLIPS * IN_SLIP];
    size_t lines_length, slips_length, used[2];
};

/* A lent roster: its entries, and how many of its bytes are lent. */
struct roster {
    uint8_t bytes[ROSTER_ROOM];
    size_t length;
};

enum shape { ORDER_SHAPE, GOODS_SHAPE, ADVANCE_SHAPE, CLOSING_SHAPE, REPORT_SHAPE, SHAPES };

extern const size_t listed_ids[];
extern const size_t listed_count;

/* Keys and titles come from a small pool (variety 1 to 4 of each field), or are all random
   (0). Whatever makes a line's key puts a title behind it. */
void make_day(struct dice *dice, uint8_t *date);
void make_party(struct dice *dice, uint8_t *party);
void make_line_key(struct dice *dice, size_t variety, uint8_t *key);
void make_slip_part(struct dice *dice, size_t variety, uint8_t *date_number_position);
void put_random_digits(struct dice *dice, uint8_t *to, size_t width);
void put_capitals(struct dice *dice, uint8_t *to, size_t width);
int is_allowed(uint8_t byte);
int is_typographic(uint8_t byte);
int is_barred(uint8_t byte);
uint8_t high_byte(struct dice *dice);
uint8_t allowed_byte(struct dice *dice, int order);
uint8_t odd_byte(struct dice *dice, uint8_t byte);
void put_digits(uint8_t *to, size_t width, size_t number);
size_t get_digits(const uint8_t *from, size_t width);
void put_little(uint8_t *to, size_t width, uint64_t number);
size_t get_little(const uint8_t *from, size_t width);

/* Titles: one that is valid; another than this one; two that differ as told; one number that
   two qualifiers take, or one book by its two ISBNs; two that differ in the digit at this place
   alone. */
enum change { SAME_TITLE, OTHER_NUMBER, OTHER_QUALIFIER, OTHER_BOTH, CHANGES };
enum pair { EN_AND_UM, KN_AND_UM_7, KN_AND_UM_8, IB_AND_EN, PAIRS };
struct titles { uint8_t ours[IN_TITLE], other[IN_TITLE]; };
void make_title(struct dice *dice, uint8_t *title);
void make_other_title(struct dice *dice, const uint8_t *title, uint8_t *other);
void make_titles(struct dice *dice, enum change change, struct titles *titles);
void make_pair(struct dice *dice, enum pair pair, struct titles *titles);
void make_near_titles(struct dice *dice, size_t place, struct titles *titles);

/* Fixed parts. */
void make_fixed(struct dice *dice, struct sheet *sheet, enum shape shape,
                const uint8_t *key, size_t copies);

/* Optional fields, each valid by itself; whole groups; and any mixture. */
size_t make_content(struct dice *dice, size_t id, int order, uint8_t *content);
void add_field(struct sheet *sheet, size_t id, const uint8_t *content, size_t length);
void add_valid_field(struct dice *dice, struct sheet *sheet, size_t id);
size_t group_next(size_t id);
size_t group_previous(size_t id);
void add_with_group(struct dice *dice, struct sheet *sheet, size_t id,
                    const uint8_t *content, size_t length);
void add_some_fields(struct dice *dice, struct sheet *sheet, size_t most);
void make_sheet(struct dice *dice, struct sheet *sheet, enum shape shape, size_t most);
size_t assemble(const struct sheet *sheet, uint8_t *record);

/* Bundles: a part whose loop has so many bytes more than the shortest, or less; its loop; a
   sheet with mark 6 and without 1019; a bundle of so many parts that can be written; what
   writing it gives. */
extern const size_t loop_ids[IN_LOOP];
void make_part(struct dice *dice, size_t more, uint8_t *part);
void add_loop(struct sheet *sheet, const uint8_t *part);
void make_bundle_sheet(struct dice *dice, struct sheet *sheet, size_t most);
void make_bundle(struct dice *dice, struct bundle *bundle, size_t count);
size_t assemble_bundle(const struct bundle *bundle, uint8_t *record);
uint64_t power_of_ten(size_t digits);

/* Rosters. An account is an address and its qualifier. */
const uint8_t *account_of(const uint8_t *record, size_t length);
uint64_t any_ceiling(struct dice *dice);
void make_other(struct dice *dice, const uint8_t *account, uint8_t *other);
void put_school(struct roster *roster, size_t index, const uint8_t *account, uint64_t ceiling);
void make_roster_without(struct dice *dice, struct roster *roster, const uint8_t *account,
                         size_t entries);
void make_roster_of(struct dice *dice, struct roster *roster, const uint8_t *account,
                    uint64_t ceiling, size_t entries, size_t place);
void make_roster(struct dice *dice, struct roster *roster, const uint8_t *account,
                 uint64_t ceiling);
void make_roster_across(struct roster *roster, const uint8_t *account, size_t place);
void make_wrong_roster(struct dice *dice, struct roster *roster, const uint8_t *account);

/* What the last report said, on a line: mark, message and expected date in one of its forms,
   which stand in the order of their numbers; and what is told of it. */
enum form { A_DAY, ZEROS, BLANKS, FORMS };
struct said { uint64_t message, expected, year, month, day; };
void make_expected(struct dice *dice, enum form form, uint8_t *date);
size_t make_message(struct dice *dice);
void put_state(uint8_t *line, uint8_t mark, size_t message, const void *date);
void make_state(struct dice *dice, uint8_t *line, uint8_t mark);
void make_any_state(struct dice *dice, uint8_t *line);
int is_sound_state(const uint8_t *line);
struct said said_of(size_t message, enum form form, const uint8_t *date);
struct said said_on(const uint8_t *line);
int is_same_said(const struct said *one, const struct said *other);

/* Bytes that may stand as a message or as a date on a line, by kind. */
enum number_kind { MESSAGE_KIND, NUMBER_KIND, UNKNOWN_KIND, NO_REPORT_KIND };
enum date_kind { DAY_KIND, ZEROS_KIND, BLANKS_KIND, UNREAL_KIND, PARTLY_BLANK_KIND, BYTES_KIND };
struct number_sample { size_t message; enum number_kind kind; };
struct date_sample { const char *bytes; enum date_kind kind; };
extern const struct number_sample number_samples[];
extern const struct date_sample date_samples[];
extern const size_t number_count, date_count;

/* A line in each kind of state: by J and by N with a day, zeros, blanks and unknown; and none. */
enum { STATES = 9 };
void make_state_of(struct dice *dice, size_t kind, uint8_t *line);

/* Books; the copies of a line, and a line as a booking has to leave it. */
struct figures { uint64_t ordered, filled, still_open, let_go, extra; };
void make_shelf(struct dice *dice, struct shelf *shelf, size_t line_room, size_t slip_room);
void stock_shelf(struct dice *dice, struct shelf *shelf, size_t lines, size_t slips,
                 size_t variety);
void stock_unique(struct dice *dice, struct shelf *shelf, size_t lines, size_t slips);
void add_line(struct dice *dice, struct shelf *shelf, const uint8_t *account, size_t ordered,
              size_t arrived, uint8_t mark);
void add_open(struct dice *dice, struct shelf *shelf, const uint8_t *account, size_t open);
struct figures figures_on(const uint8_t *line);
size_t open_on(const struct shelf *shelf, const uint8_t *account);
const uint8_t *line_with(const struct shelf *shelf, const uint8_t *key);
const uint8_t *line_named(const uint8_t *record, const struct shelf *shelf);
int names_title(const uint8_t *record, const uint8_t *line);
void line_after(const uint8_t *record, const uint8_t *before, uint8_t *line);
void unique_line_key(uint8_t *key, size_t number);
void unique_slip_key(uint8_t *key, size_t number);
void unique_line(struct dice *dice, uint8_t *line, size_t number);
void unique_slip(struct dice *dice, uint8_t *slip, size_t number, size_t line);

/* Saves in both forms: the width of a line's entry, the length of a save, where its entries
   begin, and how many lines it states; valid saves, and the save of a book; the messages in one
   of the new form, whose lines are told by index. */
enum saved_form { OLD_FORM, NEW_FORM, SAVED_FORMS };
size_t saved_width(enum saved_form form);
size_t save_length(enum saved_form form, size_t lines, size_t slips);
uint8_t *saved_line(uint8_t *saved, enum saved_form form, size_t index);
uint8_t *saved_slip(uint8_t *saved, enum saved_form form, size_t lines, size_t index);
size_t lines_stated(const uint8_t *saved, size_t length);
int is_in_form(const uint8_t *saved, enum saved_form form);
size_t make_save(struct dice *dice, uint8_t *saved, enum saved_form form, size_t lines,
                 size_t slips, size_t copies);
size_t write_save(const struct shelf *shelf, enum saved_form form, uint8_t *saved);
size_t write_moved(const uint8_t *saved, size_t length, enum saved_form to, uint8_t *moved);
int has_number(const uint8_t *saved, size_t lines);
void forget_numbers(uint8_t *saved, size_t lines);
void put_number(struct dice *dice, uint8_t *saved, size_t index, size_t message);
int is_loaded(const uint8_t *saved, size_t length, const struct shelf *before,
              const struct shelf *after);

#endif
