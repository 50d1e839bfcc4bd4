/* Wizqamul: the order book of a school library's ordering desk.
 *
 * One desk orders books for many schools. Orders (B101) go out to wholesalers; deliveries
 * (L101) and reports (M101) come back mixed. The library reads and writes these records,
 * books them into one shared book, for the schools of a roster alone, and tells for each
 * order line how many copies are ordered, filled, open, let go or extra, and what its last
 * report said. The book can be saved as bytes and loaded again.
 *
 * It opens no files, takes no memory of its own and keeps nothing between two calls: you
 * lend it all bytes for the length of one call. No call asks anything of you except that
 *   - each pointer is valid for the length given with it, and `used` for two numbers;
 *     no pointer is null, also where the length is 0;
 *   - a pointer to numbers or schools is aligned for them, as any array of them is;
 *   - a part that the call writes overlaps no other part. Parts that are only read may
 *     overlap: a key for wq_line may be read straight out of a line entry.
 * Any bytes and any numbers may be handed over; those that are wrong are refused.
 *
 * libwizqamul.a is x86-64 code (ELF, with the System V calling convention, as on Linux), for
 * processors of the level x86-64-v2. It needs two symbols from outside, memcpy and memset,
 * which every C library has. docs/RULES.md says in full what is said in short here.
 *
 * Each call returns a struct by value. `answer` is 0 for done, else it tells the reason.
 * A refusal gives its answer and its place, 0 in all other members, and changes nothing
 * that was lent. On success the place is 0. An answer is the first refusal that holds, in
 * the order named at the call. "1 to 10" are always asked in the order of their numbers,
 * except that 6 to 8 come from one walk over the optional fields, and then 9 and 10 from a
 * second: 9, then 10, at each field.
 *
 * Example: books one record into an empty book and prints "10 copies open".
 *
 *     #include "wizqamul.h"
 *     #include <stdio.h>
 *     #include <string.h>
 *     static uint8_t lines[WQ_MOST_LINES * WQ_LINE_WIDTH];
 *     static uint8_t slips[WQ_MOST_SLIPS * WQ_SLIP_WIDTH];
 *     int main(void)
 *     {
 *         size_t used[WQ_USED_NUMBERS] = {0, 0};
 *         const char *record = "B10143210     VD24000     VD20240219A-17      "
 *                              "9783442756841EN0010ST*9999";
 *         wq_school school = {.ceiling = 500};
 *         memcpy(school.address, "43210     ", WQ_ADDRESS_WIDTH);
 *         memcpy(school.qualifier, "VD", WQ_QUALIFIER_WIDTH);
 *         wq_booked booked = wq_book((const uint8_t *)record, strlen(record),
 *                                    (const uint8_t *)&school, sizeof school,
 *                                    lines, sizeof lines, slips, sizeof slips, used);
 *         if (booked.answer != WQ_DONE) {
 *             printf("refused: %d\n", (int)booked.answer);
 *             return 1;
 *         }
 *         printf("%d copies open\n", (int)booked.still_open);
 *         return 0;
 *     }
 */
#ifndef WIZQAMUL_H
#define WIZQAMUL_H

#include <stddef.h>
#include <stdint.h>

#ifdef __cplusplus
extern "C" {
#endif

/* ---- Records --------------------------------------------------------------------------
 * A record is a fixed part, then up to 96 optional fields, then `*9999`; at most 1,024 bytes.
 * The CR LF that ends it in a file is not part of it. Allowed bytes are 32 to 126, 128, 130 to
 * 140, 142, 145 to 156 and 158 to 255: what Windows-1252 assigns, without control signs. A
 * blank is byte 32, a capital A to Z. In full: docs/RULES.md, sections 1 and 2.
 *
 * Fixed parts: index, place and length of each field, and what it holds. "Digits" and the
 * like fill the whole field.
 *
 *       0    0   4  kind              B101, L101 or M101
 *       1    4  10  sender            address: one or more digits or capitals, then blanks
 *       2   14   2  qualifier         VD, IB or SA
 *       3   16  10  recipient         address
 *       4   26   2  qualifier         VD, IB or SA
 *   B101, an order:
 *       5   28   8  date              day: YYYYMMDD, a real one of the years 0001 to 9999
 *       6   36  10  reference         name, with none of * + : ? ' in it
 *       7   46  13  article           by the qualifier after it, see below
 *       8   59   2  qualifier         EN, IB, KN, UM or RK
 *       9   61   4  quantity          digits
 *      10   65   2  qualifier         ST or NP
 *   L101, a delivery:                 goods record              closing record
 *       5   28   8  date              day                       zeros
 *       6   36  10  slip number       name                      blanks
 *       7   46   4  position          digits                    blanks
 *       8   50  10  reference         name                      blanks
 *       9   60  13  article           by the qualifier          blanks
 *      10   73   2  qualifier         EN, IB, KN, UM or RK      blanks
 *      11   75   4  quantity          digits                    zeros
 *      12   79  15  price             digits                    zeros
 *      13   94   2  price qualifier   capitals                  blanks
 *      14   96   3  currency          capitals                  blanks
 *      15   99   8  discount          digits                    zeros
 *      16  107   1  tax mark          0, 1, 2 or 6              blank
 *   M101, a report:
 *       5   28  10  slip number       name
 *       6   38  10  reference         name
 *       7   48  13  article           by the qualifier
 *       8   61   2  qualifier         EN, IB, KN, UM or RK
 *       9   63   3  message           digits
 *      10   66   1  hold mark         J or N
 *      11   67   8  expected date     day, zeros or blanks
 *      12   75   4  partial quantity  zeros
 *
 * A name is all blank, or its first byte is not blank. An L101 dated eight zeros is a closing
 * record, any other a goods record, and one with a blank slip number an advance notice. A
 * price is in ten-thousandths of the currency, a discount in ten-thousandths of a percent.
 * The school is the sender of a B101 and the recipient of an L101 or M101.
 *
 * Articles, by qualifier:
 *   EN  13 digits; times 1, 3, 1, 3, .. 1 they add up to a multiple of 10
 *   IB  nine digits, then a digit or X, which counts ten; times 10, 9, .. 1 they add up to a
 *       multiple of 11; then three blanks
 *   KN  7 or 8 digits, then blanks
 *   UM  1 to 13 digits, then blanks
 *   RK  three digits, five blanks, five digits
 *
 * An optional field is a star, four digits of ID, and a content without a star. Contents:
 *   1001 1003 1101  1 to 35 bytes     1115  1 to 10 bytes
 *   1009            3 bytes           1129  1 to 6 digits
 *   1017            1 to 39 bytes     1131  1 to 3 bytes
 *   1019            0, 1 or 2         1151  PHY or DIG
 *   1021 1045       J or N            1201  a day, as above
 *   1025            5 to 8 digits     1203  1 to 3 digits, 1 to 360
 *   1029            5 to 15 digits    9001  1 byte
 *   1032            3 capitals        9003  J or U
 *   1047            J                 9010  1 to 40 bytes
 *   1051 1113       1 to 5 bytes      9011  1 to 14 digits
 *   1107 9007 9016  1 to 4 digits     9012  13 digits
 *   1005 1007 1013 1018 1030 1102 1108 1114 1116 1202 1204    2 capitals
 * Any other ID below 9999 may have any content, also an empty one. In a B101 1001, 1003, 1051
 * and 9010 hold none of * + : ? ' either. IDs may repeat.
 *
 * Groups: where one of these IDs stands, the IDs before and after it in its group are those
 * of the fields just before and just after it.
 *   1017 1018    1029 1030 1032    1101 1102    1107 1108
 *   1113 1114    1115 1116         1201 1202    1203 1204 */
#define WQ_KIND_ORDER "B101"
#define WQ_KIND_DELIVERY "L101"
#define WQ_KIND_REPORT "M101"
#define WQ_KIND_WIDTH 4
#define WQ_ORDER_LENGTH 67       /* fixed part of a B101 */
#define WQ_DELIVERY_LENGTH 108   /* fixed part of an L101 */
#define WQ_REPORT_LENGTH 79      /* fixed part of an M101 */
#define WQ_MOST_RECORD 1024      /* most bytes in a record */
#define WQ_MOST_FIELDS 96        /* most optional fields before *9999 */
#define WQ_FIELD_HEAD 5          /* a star and four digits; also the length of *9999 */
#define WQ_END_ID 9999

/* A table describes optional fields, three numbers a field: ID, place where its content
 * starts, length of its content. Table lengths count numbers, not fields and not bytes. */
#define WQ_TABLE_NUMBERS 3
#define WQ_TABLE_ID 0
#define WQ_TABLE_PLACE 1
#define WQ_TABLE_LENGTH 2
#define WQ_FULL_TABLE (WQ_MOST_FIELDS * WQ_TABLE_NUMBERS)   /* 288 numbers */

/* ---- Parts ----------------------------------------------------------------------------
 * An L101 with tax mark 6 is a bundle: a book with digital parts. Each part is a loop of ten
 * optional fields, and the loops stand together after all other fields:
 *   1019    1029 1030 1032 (net price)    1029 1030 1032 (list price)    1101 1102    1151
 * The qualifier (1030) of the net price is NO, that of the list price LP or FP. Up to eight
 * parts are read into entries of 68 bytes and written from them; a room's length is in bytes.
 * Any other record has no parts, whatever fields it holds. A price is an amount in
 * ten-thousandths of its currency and the number of digits that it is written with, so that
 * writing gives its zeros in front again. */
#define WQ_MOST_PARTS 8
#define WQ_PART_FIELDS 10        /* optional fields of a part */
#define WQ_PART_WIDTH 68         /* bytes of an entry */
#define WQ_FULL_PARTS (WQ_MOST_PARTS * WQ_PART_WIDTH)   /* 544 bytes */
#define WQ_PART_TAX 0            /* where each part of an entry starts; 1 byte: '0', '1' or '2' */
#define WQ_PART_MEDIUM 1         /* 1 byte */
#define WQ_PART_NET 2            /* a price, 14 bytes */
#define WQ_PART_LIST 16          /* a price, 14 bytes */
#define WQ_PART_ARTICLE_LENGTH 30   /* 1 byte: 1 to 35 */
#define WQ_PART_ARTICLE 31       /* 35 bytes; behind its length zeros when read, anything when written */
#define WQ_PART_ARTICLE_QUALIFIER 66   /* 2 bytes */
#define WQ_PART_ARTICLE_WIDTH 35
#define WQ_PHYSICAL 1            /* PHY: goods */
#define WQ_DIGITAL 2             /* DIG: a digital service */
#define WQ_PRICE_WIDTH 14        /* a price: where each part of it starts in it */
#define WQ_PRICE_AMOUNT 0        /* 8 bytes, unsigned, lowest byte first */
#define WQ_PRICE_DIGITS 8        /* 1 byte: 5 to 15 */
#define WQ_PRICE_QUALIFIER 9     /* 2 bytes */
#define WQ_PRICE_CURRENCY 11     /* 3 bytes */
#define WQ_PRICE_AMOUNT_WIDTH 8
#define WQ_CURRENCY_WIDTH 3

/* ---- The roster -----------------------------------------------------------------------
 * The desk's own schools, each with a ceiling: the most copies that may be open for it. At
 * most 64 entries of 16 bytes; the first entry with an account (address and qualifier)
 * speaks for it. On a roster of no entries nobody stands. Entries are not judged: one with an
 * address that no record can have is never found. An array of wq_school is a roster: in
 * memory it is the bytes of its entries, so it is lent to both calls that take one. */
#define WQ_MOST_SCHOOLS 64
#define WQ_SCHOOL_WIDTH 16       /* bytes of an entry */
#define WQ_SCHOOL_ADDRESS 0      /* where each part starts in its entry */
#define WQ_SCHOOL_QUALIFIER 10
#define WQ_SCHOOL_CEILING 12     /* 4 bytes, unsigned, lowest byte first */
#define WQ_CEILING_WIDTH 4
#define WQ_HIGHEST_CEILING 4294967295u

/* ---- The lent book --------------------------------------------------------------------
 * A book is `lines` (room for 1 to 512 entries), `slips` (room for 1 to 1,024 entries) and
 * `used` (how many of each are in use). Room lengths are in bytes and a whole number of
 * entries. An empty book is any room with used {0, 0}. What stands past the used entries
 * is never looked at. Numbers in entries are unsigned, lowest byte first.
 * A book is sound if the used counts fit the room, each used slip names a used line, and
 * each used line has 1 to 9,999 ordered, at most 9,999,999 arrived, and one of these:
 *   mark 0          message WQ_NO_REPORT       expected date eight blanks
 *   mark 1 or 2     message WQ_MESSAGE_UNKNOWN expected date eight blanks
 *   mark 1 or 2     message 0 to 999           expected date a day, eight zeros or eight blanks
 * Where keys repeat, the first entry counts. */
#define WQ_MOST_LINES 512
#define WQ_MOST_SLIPS 1024
#define WQ_USED_NUMBERS 2        /* numbers in `used` */
#define WQ_USED_LINES 0          /* used[0]: lines in use */
#define WQ_USED_SLIPS 1          /* used[1]: slips in use */
#define WQ_MOST_COPIES 9999      /* most copies in one order or on one slip */
#define WQ_MOST_ARRIVED 9999999  /* most copies that may arrive on one line */

#define WQ_ADDRESS_WIDTH 10      /* widths of the fields in entries */
#define WQ_QUALIFIER_WIDTH 2
#define WQ_REFERENCE_WIDTH 10
#define WQ_ARTICLE_WIDTH 13
#define WQ_DATE_WIDTH 8
#define WQ_SLIP_NUMBER_WIDTH 10
#define WQ_POSITION_WIDTH 4

/* A line: where each part starts in its entry. The first 34 bytes are its key; the article
 * and its qualifier, as the order had them, stand after it; then the copies ordered and what
 * the last report said. */
#define WQ_LINE_WIDTH 66
#define WQ_LINE_KEY_WIDTH 34
#define WQ_LINE_SCHOOL 0
#define WQ_LINE_SCHOOL_QUALIFIER 10
#define WQ_LINE_SUPPLIER 12
#define WQ_LINE_SUPPLIER_QUALIFIER 22
#define WQ_LINE_REFERENCE 24
#define WQ_LINE_ARTICLE 34
#define WQ_LINE_ARTICLE_QUALIFIER 47
#define WQ_LINE_ORDERED 49       /* 2 bytes: copies ordered */
#define WQ_LINE_MARK 51          /* 1 byte: the last report's hold mark */
#define WQ_LINE_MESSAGE 52       /* 2 bytes: the last report's message number */
#define WQ_LINE_EXPECTED 54      /* 8 bytes: its expected date, as the record had it */
#define WQ_LINE_ARRIVED 62       /* 4 bytes: sum of the line's slips */
#define WQ_LINE_ORDERED_WIDTH 2
#define WQ_LINE_MARK_WIDTH 1
#define WQ_LINE_MESSAGE_WIDTH 2
#define WQ_LINE_EXPECTED_WIDTH WQ_DATE_WIDTH
#define WQ_LINE_ARRIVED_WIDTH 4
#define WQ_MARK_NONE 0           /* no report yet */
#define WQ_MARK_HELD 1           /* J: the supplier holds the order open */
#define WQ_MARK_LET_GO 2         /* N: the supplier lets the rest go */

/* A message: a number of 0 to WQ_MOST_MESSAGE, of which 000 is one like any other. Where there
 * is none, one of the other two stands in its place. */
#define WQ_MOST_MESSAGE 999
#define WQ_NO_REPORT 65535       /* no report yet */
#define WQ_MESSAGE_UNKNOWN 65534 /* a report came, but an old save did not keep its message */

/* An expected date: which of its three forms it has. */
#define WQ_EXPECTED_DAY 1
#define WQ_EXPECTED_ZEROS 2
#define WQ_EXPECTED_BLANKS 3

/* A slip: where each part starts in its entry. The first 46 bytes are its key. */
#define WQ_SLIP_WIDTH 50
#define WQ_SLIP_KEY_WIDTH 46
#define WQ_SLIP_SUPPLIER 0
#define WQ_SLIP_SUPPLIER_QUALIFIER 10
#define WQ_SLIP_SCHOOL 12
#define WQ_SLIP_SCHOOL_QUALIFIER 22
#define WQ_SLIP_DATE 24
#define WQ_SLIP_NUMBER 32
#define WQ_SLIP_POSITION 42
#define WQ_SLIP_LINE 46          /* 2 bytes: index of its line, from 0 */
#define WQ_SLIP_QUANTITY 48      /* 2 bytes: copies on the slip */
#define WQ_SLIP_LINE_WIDTH 2
#define WQ_SLIP_QUANTITY_WIDTH 2

/* ---- The saved book -------------------------------------------------------------------
 * Lines, then slips, in book order, then the end. Each entry is one byte of kind and a
 * body: a line's front, a slip's 50 bytes, or used lines (2) and used slips (2).
 * There are two forms, and they differ in their lines alone. In the new form, which is the
 * one that is written, a line's front is its first 62 bytes: all but its arrived. In the old
 * form it is its first 52 bytes, so neither message nor expected date. All lines of a save
 * are of one form; a save without lines is of both. */
#define WQ_SAVE_END 0
#define WQ_SAVE_OLD_LINE 1
#define WQ_SAVE_SLIP 2
#define WQ_SAVE_LINE 3
#define WQ_SAVE_LINE_WIDTH 63
#define WQ_SAVE_OLD_LINE_WIDTH 53
#define WQ_SAVE_SLIP_WIDTH 51
#define WQ_SAVE_END_WIDTH 5
#define WQ_SAVE_LENGTH(lines, slips) \
    ((lines) * WQ_SAVE_LINE_WIDTH + (slips) * WQ_SAVE_SLIP_WIDTH + WQ_SAVE_END_WIDTH)
#define WQ_SAVE_OLD_LENGTH(lines, slips) \
    ((lines) * WQ_SAVE_OLD_LINE_WIDTH + (slips) * WQ_SAVE_SLIP_WIDTH + WQ_SAVE_END_WIDTH)

/* ---- Answers --------------------------------------------------------------------------
 * Places are bytes of the record, counted from 0; from 11 on the place is 0. Writing has
 * places of its own: see wq_write. */
#define WQ_DONE 0              /* Done. */
#define WQ_TOO_LONG 1          /* The record is over 1,024 bytes; place 1,024. */
#define WQ_UNKNOWN_KIND 2      /* It starts with none of the three kinds; place 0. */
#define WQ_TOO_SHORT 3         /* No room for the fixed part and *9999; place: its length. */
#define WQ_BYTE_NOT_ALLOWED 4  /* A byte is not allowed; place: the first such byte. */
#define WQ_FIXED_FIELD 5       /* A fixed field breaks its rule; place: the field's start. */
#define WQ_NO_STAR_OR_ID 6     /* No star, or no four digits after it; place: the star's. */
#define WQ_END_MISPLACED 7     /* *9999 is not last (place: its star) or absent (length). */
#define WQ_TOO_MANY_FIELDS 8   /* More than 96 optional fields; place: the 97th's star. */
#define WQ_CONTENT 9           /* An optional field's content is wrong; place: its star. */
#define WQ_GROUP 10            /* Fields that belong together are apart; place: the star. */
#define WQ_QUANTITY_ZERO 11    /* An order or a delivery of no copies. */
#define WQ_REFERENCE_BLANK 12  /* The reference is blank, so no line can be told. */
#define WQ_NOTHING_TO_BOOK 13  /* A closing record or an advance notice: never booked. */
#define WQ_LINE_EXISTS 14      /* A line with this key exists already. */
#define WQ_LINES_FULL 15       /* All lines of the room are used. */
#define WQ_NO_LINE 16          /* There is no line with this key. */
#define WQ_SLIP_REPEATED 17    /* The slip is booked already, same line and quantity. */
#define WQ_SLIP_DIFFERS 18     /* The slip is booked already with another line or quantity. */
#define WQ_SLIPS_FULL 19       /* All slips of the room are used. */
#define WQ_BOOK_UNSOUND 20     /* The book is unsound, or a room or roster has a wrong size. */
#define WQ_ARRIVED_LIMIT 21    /* More than 9,999,999 copies would have arrived on a line. */
#define WQ_SAVE_INVALID 22     /* The bytes are not exactly one valid save. */
#define WQ_TOO_SMALL 23        /* The lent output, table or book is too small. */
#define WQ_NOT_ON_ROSTER 24    /* The school's account is not on the roster. */
#define WQ_CEILING_PASSED 25   /* The order would bring the school above its ceiling. */
#define WQ_PARTS_BROKEN 26     /* A bundle without parts, or parts that are not as they must be. */
#define WQ_TOO_MANY_PARTS 27   /* More than eight parts. */
#define WQ_MESSAGE_LOST 28     /* The old form would lose the message of a line. */

/* ---- Results -------------------------------------------------------------------------- */
typedef struct { uint64_t answer, place, fields; } wq_checked;
typedef struct { uint64_t answer, place, length; } wq_written;
typedef struct { uint64_t answer, place, parts; } wq_parts_read;
typedef struct {
    uint64_t answer, place, ordered, filled, still_open, let_go, extra, agreed;
    uint64_t message, expected, year, month, day;
} wq_booked;
typedef struct {
    uint64_t answer, place, ordered, filled, still_open, let_go, extra;
    uint64_t message, expected, year, month, day;
} wq_told;
typedef struct { uint64_t answer, place, length; } wq_saved;
typedef struct { uint64_t answer, place; } wq_loaded;
typedef struct { uint64_t answer, place, ceiling; } wq_account_told;

/* An entry of the roster, 16 bytes with none between its parts. */
typedef struct {
    uint8_t address[10];
    uint8_t qualifier[2];
    uint32_t ceiling;
} wq_school;

/* ---- Calls ---------------------------------------------------------------------------- */

/* Reads one record. Needs a table of at least 288 numbers (WQ_FULL_TABLE), whatever the
 * record. Gives `fields`, the number of optional fields, and writes three numbers for each
 * of them; a place in the table counts from the record's start. The rest of the table and
 * the record never change. Refusals: 23, then 1 to 10. */
wq_checked wq_check(const uint8_t *record, size_t record_length, size_t *table, size_t table_length);

/* Writes one record: the fixed part as bytes, `fields` optional fields from the table,
 * whose places count from the start of `contents`, and *9999. Gives `length` and writes
 * that many bytes to `out`; the rest of `out` and all other parts never change. No CR LF is
 * written. What it writes, wq_check accepts; 1,024 bytes of `out` are always enough.
 * Refusals, in order, with their own places:
 *   5   a fixed field breaks its rule or holds a byte not allowed; place: the field's index
 *       from 0. An unknown kind, or a fixed part not of its kind's length, is 5 at 0.
 *   8   `fields` is over 96; place 96.
 *   23  the table has fewer than three numbers for each field; place 0.
 *   9   a content is wrong, holds a star or a byte not allowed, or lies outside `contents`,
 *       or the ID is 9999 or more; then 10, a group is broken; both are asked at each field
 *       in turn; place: the field's index from 0.
 *   1   the record would be over 1,024 bytes; place 0.
 *   23  `out` is too small; place 0. */
wq_written wq_write(const uint8_t *fixed, size_t fixed_length, const size_t *table, size_t table_length, size_t fields, const uint8_t *contents, size_t contents_length, uint8_t *out, size_t out_length);

/* Reads the parts of one record. Needs room for eight parts (WQ_FULL_PARTS bytes), whatever the
 * record. Gives `parts`, the number of parts, and writes an entry for each of them from the
 * front of the room on; the rest of the room and the record never change. A record that is no
 * L101 with tax mark 6 has none. wq_check, wq_write and wq_book know nothing of parts.
 * Refusals: 23, then 1 to 10 as wq_check has them; then for an L101 with tax mark 6
 *   26  there is no field 1019, or what stands from the first 1019 to *9999 is not whole loops
 *       and nothing else, or a first price's qualifier is not NO or a second's not LP or FP;
 *   27  there are more than eight loops. */
wq_parts_read wq_parts(const uint8_t *record, size_t record_length, uint8_t *parts, size_t parts_length);

/* Writes one record as wq_write does, with the ten fields of each of `count` parts after the
 * fields of the table. What it writes, wq_parts reads: the same parts. 1,024 bytes of `out` are
 * always enough. Refusals, in order:
 *   27  `count` is over 8; place 0.
 *   23  the room holds fewer than `count` parts; place 0.
 *   26  there are parts, but the fixed part is not that of an L101 with tax mark 6 (it begins
 *       with L101 and has `6` at 107); or it is, and there are none, or one of the table's
 *       entries (of those that are whole in it, and of the first `fields`) has ID 1019; or a
 *       net price's qualifier is not NO, or a list price's not LP or FP; place 0.
 *   then 5, 8, 23, 9 and 10, 1, 23 as wq_write has them, over all fields: those of the table
 *   first, then those of the parts, ten each. 8 where they are more than 96 together. A part's
 *   value that cannot be written (a number of digits that is not 5 to 15 or too small for its
 *   amount, an article of no or more than 35 bytes, a medium that is neither, any other value
 *   that breaks the rule of its field) is 9 at that field's index among all fields. */
wq_written wq_write_parts(const uint8_t *fixed, size_t fixed_length, const size_t *table, size_t table_length, size_t fields, const uint8_t *contents, size_t contents_length, const uint8_t *parts, size_t parts_length, size_t count, uint8_t *out, size_t out_length);

/* Books one record for a school of the roster and gives its line's figures, and what the
 * line's last report said. An order adds a line and 1 to used[0]; a delivery adds a slip and
 * 1 to used[1], and adds its copies to its line's arrived; a report sets its line's mark,
 * message and expected date. Nothing else changes; the record and the roster never do.
 * A line is found by school, supplier and reference alone, since a supplier may answer with
 * its own number for a title.
 *   filled      the smaller of ordered and arrived
 *   extra       arrived minus filled
 *   let_go      ordered minus filled where the last mark is N, else 0
 *   still_open  ordered minus filled where the last mark is not N, else 0
 *   agreed      1 where the record's article and its qualifier are both those that stand in
 *               the line, byte for byte, else 0; for an order 1
 *   message     the last report's message number, 0 to 999; WQ_NO_REPORT where none came,
 *               WQ_MESSAGE_UNKNOWN where an old save was loaded since it came. The 0 of a
 *               refusal is not message 000: look at `answer` first
 *   expected    which form its expected date has: WQ_EXPECTED_DAY, _ZEROS or _BLANKS; _BLANKS
 *               also where `message` is WQ_NO_REPORT or WQ_MESSAGE_UNKNOWN: look at it first
 *   year, month, day   the expected day; 0 where it is none
 * A delivery after an N still fills. A record booked twice changes nothing the second time
 * (14, 17), but a report sets what it says each time. An order for a reference that a line has is
 * 14, and a slip that comes again is 17, whatever the article.
 * An order is refused (25) where the open copies of all used lines of its school and its own
 * quantity together are above the school's ceiling. A report that opens copies again is never
 * refused for it.
 * The roster's length is in bytes; one that is not a whole number of entries, or more than
 * 64 of them, is 20.
 * Refusals: 20, 1 to 10, 13, 11, 12, 24; then for an order 14, 25, 15; for a delivery 17 or
 * 18, 16, 21, 19; for a report 16. */
wq_booked wq_book(const uint8_t *record, size_t record_length, const uint8_t *roster, size_t roster_length, uint8_t *lines, size_t lines_length, uint8_t *slips, size_t slips_length, size_t *used);

/* Gives the figures of the line with this key, and what its last report said, as wq_book
 * gives them. The five key fields have the widths above, filled with blanks; one of another
 * length matches no line. Changes nothing.
 * Refusals: 20, then 16. */
wq_told wq_line(const uint8_t *school, size_t school_length, const uint8_t *school_qualifier, size_t school_qualifier_length, const uint8_t *supplier, size_t supplier_length, const uint8_t *supplier_qualifier, size_t supplier_qualifier_length, const uint8_t *reference, size_t reference_length, const uint8_t *lines, size_t lines_length, const uint8_t *slips, size_t slips_length, const size_t *used);

/* Saves the book: writes WQ_SAVE_LENGTH(used[0], used[1]) bytes to `out` and gives that
 * `length`: the new form. The rest of `out` and the book never change. It takes every sound
 * book; a book made by bookings from an empty one, or from a loaded one, loads again with
 * equal counts and used entries.
 * Refusals: 20, then 23 where `out` is too small. */
wq_saved wq_save(const uint8_t *lines, size_t lines_length, const uint8_t *slips, size_t slips_length, const size_t *used, uint8_t *out, size_t out_length);

/* Loads a save of either form: replaces used[0] and used[1] and fills the entries they count;
 * each line's arrived is the sum of its slips. From the old form a line's message is
 * WQ_MESSAGE_UNKNOWN where it has a mark, else WQ_NO_REPORT, and its expected date eight
 * blanks. Entries past them and the saved bytes never change. What the book held before is
 * not judged and is lost.
 * Each key is compared with those before it, and the slips of each line are looked for
 * among all slips, so the time grows as lines squared plus slips squared: about a
 * millisecond for a full book (docs/PERFORMANCE.md). A save of more lines or slips than any
 * room has, up to 65,535 of each, is judged whole too before it is answered 23: what is
 * longer than WQ_SAVE_LENGTH(WQ_MOST_LINES, WQ_MOST_SLIPS) need not be tried.
 * Refusals: 20 for room sizes alone; 22 for bytes that are not exactly one valid save, lines
 * of both forms, keys that repeat (also of two lines with different articles), a mark, a
 * message and an expected date that do not go together, or a line with more than 9,999,999
 * arrived; 23 where the save is valid but has more lines or slips than the rooms. */
wq_loaded wq_load(const uint8_t *saved, size_t saved_length, uint8_t *lines, size_t lines_length, uint8_t *slips, size_t slips_length, size_t *used);

/* Turns a save of the old form into one of the new form: writes the WQ_SAVE_LENGTH bytes of
 * its lines and slips to `out` and gives that `length`. Loading either gives the same book,
 * and wq_to_old of what was written gives the bytes of `saved` again. The rest of `out` and
 * the saved bytes never change. It takes as long as loading.
 * Refusals: 22 for bytes that are not exactly one valid save of the old form, then 23 where
 * `out` is too small. */
wq_saved wq_to_new(const uint8_t *saved, size_t saved_length, uint8_t *out, size_t out_length);

/* Turns a save of the new form back into one of the old form, of WQ_SAVE_OLD_LENGTH bytes,
 * where nothing is lost by it: wq_to_new of what was written gives the bytes of `saved` again.
 * All else as wq_to_new.
 * Refusals: 22 for bytes that are not exactly one valid save of the new form, 28 where a
 * line's message is a number of 0 to WQ_MOST_MESSAGE, then 23. */
wq_saved wq_to_old(const uint8_t *saved, size_t saved_length, uint8_t *out, size_t out_length);

/* Gives the ceiling of the first school with this account, as wq_book would find it. `count`
 * counts schools, and `schools` is aligned to 4 bytes. An address or a qualifier of another
 * width than those above is no school's. Changes nothing.
 * Refusals: 20 where there are more than 64 schools, then 24. */
wq_account_told wq_account(const wq_school *schools, size_t count, const uint8_t *address, size_t address_length, const uint8_t *qualifier, size_t qualifier_length);

#ifdef __cplusplus
}
#endif

#endif
