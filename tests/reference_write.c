/* Writing a record from its fixed part, a table of optional fields and their contents. */
#include "reference.h"
#include "reference_parts.h"

#include <string.h>

static wq_written refused(enum answer answer, size_t place)
{
    wq_written written = {0, 0, 0};
    written.answer = answer;
    written.place = place;
    return written;
}

/* The first fixed field that breaks its rule or holds a byte not allowed. A kind that is
   unknown, or a fixed part of another length than its kind's, breaks field 0. */
size_t ref_first_bad_fixed(const uint8_t *fixed, size_t length)
{
    enum record_kind kind = ref_kind_of(fixed, length);
    if (kind == NO_KIND || length != ref_fixed_length(kind))
        return 0;
    size_t broken = ref_first_broken(kind, fixed).index;
    size_t not_allowed = ref_first_not_allowed(fixed, length);
    if (not_allowed == length)
        return broken;
    size_t holding = ref_field_at(kind, not_allowed);
    return holding < broken ? holding : broken;
}

void ref_take_fields(const size_t *table, size_t count, struct optional_field *fields)
{
    for (size_t i = 0; i < count; i++) {
        fields[i].id = table[TABLE_STRIDE * i];
        fields[i].place = table[TABLE_STRIDE * i + 1];
        fields[i].length = table[TABLE_STRIDE * i + 2];
    }
}

/* Content outside the lent bytes, an ID of 9999 or more, a star or a byte not allowed. */
static int cannot_stand(const struct optional_field *field,
                        const uint8_t *contents, size_t contents_length)
{
    if (field->id >= END_ID)
        return 1;
    if (field->place > contents_length || field->length > contents_length - field->place)
        return 1;
    const uint8_t *content = contents + field->place;
    if (ref_first_not_allowed(content, field->length) < field->length)
        return 1;
    return field->length > 0 && memchr(content, '*', field->length) != NULL;
}

static struct verdict found(enum answer answer, size_t index)
{
    struct verdict verdict;
    verdict.answer = answer;
    verdict.place = index;
    return verdict;
}

/* 9 and 10 per field; its place is the index of the field. */
struct verdict ref_judge_contents(enum record_kind kind, const struct optional_field *fields,
                                  size_t count, size_t standing,
                                  const uint8_t *contents, size_t contents_length)
{
    for (size_t i = 0; i < count; i++) {
        if (cannot_stand(&fields[i], contents, contents_length)
            || ref_content_broken(kind, &fields[i], contents))
            return found(CONTENT_BROKEN, i);
        if (ref_group_broken(fields, standing, i))
            return found(GROUP_BROKEN, i);
    }
    return found(DONE, 0);
}

/* The length of the whole record, or anything over the longest where it passes that. */
size_t ref_record_length(size_t fixed_length, const struct optional_field *fields, size_t count)
{
    size_t length = fixed_length + FIELD_HEAD;
    for (size_t i = 0; i < count && length <= LONGEST_RECORD; i++) {
        if (fields[i].length > LONGEST_RECORD)
            return LONGEST_RECORD + 1;
        length += FIELD_HEAD + fields[i].length;
    }
    return length;
}

uint8_t *ref_put_head(uint8_t *to, size_t id)
{
    *to = '*';
    for (size_t i = ID_DIGITS; i > 0; i--) {
        to[i] = (uint8_t)('0' + id % 10);
        id /= 10;
    }
    return to + FIELD_HEAD;
}

uint8_t *ref_put_fields(uint8_t *to, const struct optional_field *fields, size_t count,
                        const uint8_t *contents)
{
    for (size_t i = 0; i < count; i++) {
        to = ref_put_head(to, fields[i].id);
        memcpy(to, contents + fields[i].place, fields[i].length);
        to += fields[i].length;
    }
    return to;
}

/* Write: 5, 8, 23 for a table under its count, 9 and 10 per field, 1, 23. */
wq_written ref_write(const uint8_t *fixed, size_t fixed_length,
                     const size_t *table, size_t table_length, size_t fields,
                     const uint8_t *contents, size_t contents_length,
                     uint8_t *out, size_t out_length)
{
    struct optional_field taken[MOST_FIELDS];
    size_t bad = ref_first_bad_fixed(fixed, fixed_length);
    if (bad != NONE_BROKEN)
        return refused(FIXED_FIELD_BROKEN, bad);
    if (fields > MOST_FIELDS)
        return refused(TOO_MANY_FIELDS, MOST_FIELDS);
    if (table_length < TABLE_STRIDE * fields)
        return refused(ROOM_TOO_SMALL, 0);
    ref_take_fields(table, fields, taken);
    struct verdict verdict = ref_judge_contents(ref_kind_of(fixed, fixed_length), taken, fields,
                                                fields, contents, contents_length);
    if (verdict.answer != DONE)
        return refused((enum answer)verdict.answer, verdict.place);
    size_t length = ref_record_length(fixed_length, taken, fields);
    if (length > LONGEST_RECORD)
        return refused(TOO_LONG, 0);
    if (length > out_length)
        return refused(ROOM_TOO_SMALL, 0);
    memcpy(out, fixed, fixed_length);
    ref_put_head(ref_put_fields(out + fixed_length, taken, fields, contents), END_ID);
    wq_written written = refused(DONE, 0);
    written.length = length;
    return written;
}
