/* The saved book in its two forms: writing it, judging it, loading it, and moving it from one
   form to the other. */
#include "reference.h"
#include "reference_parts.h"

#include <string.h>

/* What the two forms differ in: the kind of a line's entry, how many of the line's bytes stand
   in it, and whether these say what the last report said besides its mark. */
struct saved_form {
    uint8_t kind;
    size_t body_width;
    int holds_report;
};

static const struct saved_form old_form = {SAVED_OLD_LINE, OLD_BODY_WIDTH, 0};
static const struct saved_form new_form = {SAVED_NEW_LINE, NEW_BODY_WIDTH, 1};

/* A saved book as it is looked at: the form of its lines, where its entries of each kind begin,
   and how many. */
struct saved_book {
    const struct saved_form *form;
    const uint8_t *line_entries, *slip_entries;
    size_t lines, slips;
};

static size_t line_stride(const struct saved_form *form)
{
    return 1 + form->body_width;
}

static const uint8_t *line_body(const struct saved_book *save, size_t index)
{
    return save->line_entries + index * line_stride(save->form) + 1;
}

static const uint8_t *slip_body(const struct saved_book *save, size_t index)
{
    return save->slip_entries + index * SAVED_SLIP_WIDTH + 1;
}

static size_t length_in(const struct saved_form *form, size_t lines, size_t slips)
{
    return lines * line_stride(form) + slips * SAVED_SLIP_WIDTH + SAVED_END_WIDTH;
}

static wq_saved not_saved(enum answer answer)
{
    wq_saved saved = {answer, 0, 0};
    return saved;
}

/* Writes an entry and gives where the next one begins. */
static uint8_t *put_entry(uint8_t *to, uint8_t kind, const uint8_t *body, size_t width)
{
    to[0] = kind;
    memcpy(to + 1, body, width);
    return to + 1 + width;
}

static void put_end(uint8_t *to, size_t lines, size_t slips)
{
    to[0] = SAVED_END;
    put_le16(to + 1, lines);
    put_le16(to + 3, slips);
}

/* Save: 20, 23. Lines first, then slips, in book order, then the counts; in the new form. */
wq_saved ref_save(const uint8_t *lines, size_t lines_length,
                  const uint8_t *slips, size_t slips_length,
                  const size_t *used, uint8_t *out, size_t out_length)
{
    struct book book;
    wq_saved saved = {DONE, 0, 0};
    if (!ref_open_book(lines, lines_length, slips, slips_length, used, &book))
        return not_saved(BOOK_UNSOUND);
    size_t length = length_in(&new_form, book.used_lines, book.used_slips);
    if (out_length < length)
        return not_saved(ROOM_TOO_SMALL);
    for (size_t i = 0; i < book.used_lines; i++)
        out = put_entry(out, new_form.kind, lines + i * LINE_WIDTH, new_form.body_width);
    for (size_t i = 0; i < book.used_slips; i++)
        out = put_entry(out, SAVED_SLIP, slips + i * SLIP_WIDTH, SLIP_WIDTH);
    put_end(out, book.used_lines, book.used_slips);
    saved.length = length;
    return saved;
}

/* The form of a save's lines, by its first byte. A save without lines is of both forms. */
static const struct saved_form *form_of(const uint8_t *saved, size_t length)
{
    return length > 0 && saved[0] == SAVED_OLD_LINE ? &old_form : &new_form;
}

static int is_of_form(const struct saved_book *save, const struct saved_form *form)
{
    return save->lines == 0 || save->form == form;
}

/* Lines of one form, then slips, then the end with their numbers, and nothing after. */
static int find_entries(const uint8_t *saved, size_t length, struct saved_book *save)
{
    size_t place = 0, stride;
    save->form = form_of(saved, length);
    stride = line_stride(save->form);
    save->lines = save->slips = 0;
    save->line_entries = saved;
    while (length - place >= stride && saved[place] == save->form->kind) {
        place += stride;
        save->lines++;
    }
    save->slip_entries = saved + place;
    while (length - place >= SAVED_SLIP_WIDTH && saved[place] == SAVED_SLIP) {
        place += SAVED_SLIP_WIDTH;
        save->slips++;
    }
    return length - place == SAVED_END_WIDTH && saved[place] == SAVED_END
        && get_le16(saved + place + 1) == save->lines
        && get_le16(saved + place + 3) == save->slips;
}

/* The fields of a key and the article with its qualifier obey the field rules of goods
   records, the reference not blank. */
static int is_valid_key(const uint8_t *body)
{
    const uint8_t *school = body, *supplier = body + PARTY_WIDTH;
    const uint8_t *reference = body + 2 * PARTY_WIDTH;
    const uint8_t *article = reference + REFERENCE_WIDTH;
    const uint8_t *qualifier = article + ARTICLE_WIDTH;
    return ref_is_address(school) && ref_is_address_qualifier(school + ADDRESS_WIDTH)
        && ref_is_address(supplier) && ref_is_address_qualifier(supplier + ADDRESS_WIDTH)
        && reference[0] != ' '
        && ref_first_not_allowed(reference, REFERENCE_WIDTH) == REFERENCE_WIDTH
        && ref_is_article(article, qualifier) && ref_is_article_qualifier(qualifier);
}

/* 1 to 9,999 copies; the mark alone, or mark, message and date as in a sound book. */
static int is_valid_line(const struct saved_form *form, const uint8_t *body)
{
    size_t ordered = get_le16(body + LINE_ORDERED_PLACE);
    return is_valid_key(body) && ordered >= 1 && ordered <= MOST_COPIES
        && (form->holds_report ? ref_is_sound_report(body)
                               : body[LINE_MARK_PLACE] <= MARK_LET_GO);
}

/* A slip's school and supplier are its line's; slip number not blank; 1 to 9,999 copies. */
static int is_valid_slip(const struct saved_book *save, const uint8_t *body)
{
    const uint8_t *date = body + 2 * PARTY_WIDTH;
    const uint8_t *number = date + DATE_WIDTH;
    size_t index = get_le16(body + SLIP_LINE_PLACE);
    size_t copies = get_le16(body + SLIP_COPIES_PLACE);
    if (index >= save->lines || copies < 1 || copies > MOST_COPIES)
        return 0;
    const uint8_t *line = line_body(save, index);
    return memcmp(body, line + PARTY_WIDTH, PARTY_WIDTH) == 0
        && memcmp(body + PARTY_WIDTH, line, PARTY_WIDTH) == 0
        && ref_is_real_day(date) && number[0] != ' '
        && ref_first_not_allowed(number, SLIP_NUMBER_WIDTH) == SLIP_NUMBER_WIDTH
        && ref_all_digits(number + SLIP_NUMBER_WIDTH, POSITION_WIDTH);
}

/* No two entries share a key. */
static int keys_repeat(const uint8_t *bodies, size_t count, size_t stride, size_t key_width)
{
    for (size_t i = 1; i < count; i++)
        for (size_t j = 0; j < i; j++)
            if (memcmp(bodies + i * stride, bodies + j * stride, key_width) == 0)
                return 1;
    return 0;
}

/* The sum of one line's slips. */
static size_t arrived_on(const struct saved_book *save, size_t line)
{
    size_t arrived = 0;
    for (size_t i = 0; i < save->slips; i++)
        if (get_le16(slip_body(save, i) + SLIP_LINE_PLACE) == line)
            arrived += get_le16(slip_body(save, i) + SLIP_COPIES_PLACE);
    return arrived;
}

/* A sum over the limit; too few slips cannot reach it. */
static int sum_over_limit(const struct saved_book *save)
{
    if (save->slips * MOST_COPIES <= MOST_ARRIVED)
        return 0;
    for (size_t i = 0; i < save->lines; i++)
        if (arrived_on(save, i) > MOST_ARRIVED)
            return 1;
    return 0;
}

/* Answer 22: not exactly a valid save, keys repeated, or a sum over the limit. */
static int is_valid_save(const uint8_t *saved, size_t length, struct saved_book *save)
{
    if (!find_entries(saved, length, save))
        return 0;
    for (size_t i = 0; i < save->lines; i++)
        if (!is_valid_line(save->form, line_body(save, i)))
            return 0;
    for (size_t i = 0; i < save->slips; i++)
        if (!is_valid_slip(save, slip_body(save, i)))
            return 0;
    return !keys_repeat(save->line_entries + 1, save->lines, line_stride(save->form),
                        LINE_KEY_WIDTH)
        && !keys_repeat(save->slip_entries + 1, save->slips, SAVED_SLIP_WIDTH, SLIP_KEY_WIDTH)
        && !sum_over_limit(save);
}

/* A line up to its message and date, which the old form does not hold: "A line loaded from kind
   1 with a mark has message unknown"; one without a mark has no report. */
static void take_line(const struct saved_book *save, size_t index, uint8_t *line)
{
    memcpy(line, line_body(save, index), save->form->body_width);
    if (!save->form->holds_report)
        put_no_message(line, line[LINE_MARK_PLACE] == MARK_NONE ? NO_REPORT : MESSAGE_UNKNOWN);
}

/* Copies a valid save into the rooms; each line's A is the sum of its slips. */
static void fill_book(const struct saved_book *save, uint8_t *lines, uint8_t *slips)
{
    for (size_t i = 0; i < save->lines; i++) {
        take_line(save, i, lines + i * LINE_WIDTH);
        put_le32(lines + i * LINE_WIDTH + LINE_ARRIVED_PLACE, 0);
    }
    for (size_t i = 0; i < save->slips; i++) {
        uint8_t *slip = slips + i * SLIP_WIDTH;
        memcpy(slip, slip_body(save, i), SLIP_WIDTH);
        uint8_t *arrived = lines + get_le16(slip + SLIP_LINE_PLACE) * LINE_WIDTH
                         + LINE_ARRIVED_PLACE;
        put_le32(arrived, get_le32(arrived) + get_le16(slip + SLIP_COPIES_PLACE));
    }
}

/* Load of either form: 20 for room sizes alone, 22, 23. */
wq_loaded ref_load(const uint8_t *saved, size_t saved_length,
                   uint8_t *lines, size_t lines_length,
                   uint8_t *slips, size_t slips_length, size_t *used)
{
    struct saved_book save;
    wq_loaded loaded = {DONE, 0};
    if (!ref_rooms_fit(lines_length, slips_length))
        loaded.answer = BOOK_UNSOUND;
    else if (!is_valid_save(saved, saved_length, &save))
        loaded.answer = SAVE_INVALID;
    else if (save.lines > lines_length / LINE_WIDTH || save.slips > slips_length / SLIP_WIDTH)
        loaded.answer = ROOM_TOO_SMALL;
    if (loaded.answer != DONE)
        return loaded;
    fill_book(&save, lines, slips);
    used[0] = save.lines;
    used[1] = save.slips;
    return loaded;
}

/* A line whose message is a number, which the old form does not hold. */
static int message_lost(const struct saved_book *save)
{
    for (size_t i = 0; i < save->lines; i++)
        if (get_le16(line_body(save, i) + LINE_MESSAGE_PLACE) <= MOST_MESSAGE)
            return 1;
    return 0;
}

/* Writes a valid save in this form; 23. */
static wq_saved put_save(const struct saved_book *save, const struct saved_form *form,
                         uint8_t *out, size_t out_length)
{
    uint8_t line[NEW_BODY_WIDTH];
    wq_saved saved = {DONE, 0, 0};
    size_t length = length_in(form, save->lines, save->slips);
    if (out_length < length)
        return not_saved(ROOM_TOO_SMALL);
    for (size_t i = 0; i < save->lines; i++) {
        take_line(save, i, line);
        out = put_entry(out, form->kind, line, form->body_width);
    }
    for (size_t i = 0; i < save->slips; i++)
        out = put_entry(out, SAVED_SLIP, slip_body(save, i), SLIP_WIDTH);
    put_end(out, save->lines, save->slips);
    saved.length = length;
    return saved;
}

/* Old to new: 22 for all but the old form, 23. */
wq_saved ref_to_new(const uint8_t *saved, size_t saved_length, uint8_t *out, size_t out_length)
{
    struct saved_book save;
    if (!is_valid_save(saved, saved_length, &save) || !is_of_form(&save, &old_form))
        return not_saved(SAVE_INVALID);
    return put_save(&save, &new_form, out, out_length);
}

/* New to old: 22 for all but the new form, 28, 23. */
wq_saved ref_to_old(const uint8_t *saved, size_t saved_length, uint8_t *out, size_t out_length)
{
    struct saved_book save;
    if (!is_valid_save(saved, saved_length, &save) || !is_of_form(&save, &new_form))
        return not_saved(SAVE_INVALID);
    if (message_lost(&save))
        return not_saved(MESSAGE_LOST);
    return put_save(&save, &old_form, out, out_length);
}
