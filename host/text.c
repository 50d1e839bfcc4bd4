/* Bytes, names and complaints as text. */
#include "text.h"

#include <errno.h>
#include <stdlib.h>
#include <string.h>

#define UTF_8_MARK "\xEF\xBB\xBF"
#define UTF_16_MARK "\xFF\xFE"
#define UTF_16_MARK_TURNED "\xFE\xFF"

enum {
    FIRST_ASCII = ' ', LAST_ASCII = '~',
    FIRST_WINDOWS = 128, FIRST_LATIN = 160,     /* from here on a byte is its own letter */
    FIRST_LEADING = 0xC2, LAST_LEADING = 0xF4,  /* bytes that UTF-8 letters begin with */
    FOLLOWING = 0x80, FOLLOWING_MASK = 0xC0, FOLLOWING_BITS = 6,
    ESCAPE_WIDTH = 4,                           /* \xNN */
    BYTE_ROOM = ESCAPE_WIDTH + 1,               /* a byte as text, and the end */
    FIRST_SURROGATE = 0xD800, LAST_SURROGATE = 0xDFFF, LAST_LETTER = 0x10FFFF
};

/* Windows-1252 from 128 to 159; NULL where it has no sign. */
static const char *const windows[FIRST_LATIN - FIRST_WINDOWS] = {
    "€", NULL, "‚", "ƒ", "„", "…", "†", "‡", "ˆ", "‰", "Š", "‹", "Œ", NULL, "Ž", NULL,
    NULL, "‘", "’", "“", "”", "•", "–", "—", "˜", "™", "š", "›", "œ", NULL, "ž", "Ÿ"
};

static int is_plain(unsigned byte)
{
    return byte >= FIRST_ASCII && byte <= LAST_ASCII && byte != '\\';
}

int is_digit(uint8_t byte)
{
    return byte >= '0' && byte <= '9';
}

size_t line_end(const uint8_t *text)
{
    if (text[0] == '\r' && text[1] == '\n')
        return 2;
    return text[0] == '\r' || text[0] == '\n';
}

int is_sign(uint8_t byte)
{
    return byte >= FIRST_LATIN || (byte >= FIRST_ASCII && byte <= LAST_ASCII) ||
           (byte >= FIRST_WINDOWS && windows[byte - FIRST_WINDOWS] != NULL);
}

/* One byte of a field as text; gives the number of bytes written. */
static int byte_as_text(unsigned byte, char *text)
{
    if (is_plain(byte))
        return sprintf(text, "%c", (int)byte);
    if (byte >= FIRST_LATIN)
        return sprintf(text, "%c%c", (int)(0xC0 | byte >> FOLLOWING_BITS),
                       (int)(FOLLOWING | (byte & ~(unsigned)FOLLOWING_MASK)));
    if (byte >= FIRST_WINDOWS && windows[byte - FIRST_WINDOWS] != NULL)
        return sprintf(text, "%s", windows[byte - FIRST_WINDOWS]);
    return sprintf(text, "\\x%02X", byte);
}

void text_of(const uint8_t *field, size_t width, char text[TEXT_ROOM])
{
    while (width > 0 && field[width - 1] == ' ')
        width--;
    text[0] = '\0';
    for (size_t i = 0; i < width; i++)
        text += byte_as_text(field[i], text);
}

void print_text(FILE *to, const uint8_t *bytes, size_t length)
{
    char text[BYTE_ROOM];
    for (size_t i = 0; i < length; i++) {
        byte_as_text(bytes[i], text);
        fputs(text, to);
    }
}

void text_with_qualifier(const uint8_t *field, size_t width, char text[ACCOUNT_ROOM])
{
    char qualifier[TEXT_ROOM];
    text_of(field, width, text);
    text_of(field + width, WQ_QUALIFIER_WIDTH, qualifier);
    sprintf(text + strlen(text), " %s", qualifier);
}

void print_padded(const char *text, size_t letters)
{
    size_t shown = 0;
    for (const char *at = text; *at != '\0'; at++)
        shown += ((unsigned char)*at & FOLLOWING_MASK) != FOLLOWING;
    printf("%s%*s", text, (int)(shown < letters ? letters - shown : 0), "");
}

size_t letter_length(const char *text, unsigned long *letter)
{
    static const unsigned long least[LONGEST_LETTER + 1] = {0, 0, FIRST_WINDOWS, 0x800, 0x10000};
    unsigned first = (unsigned char)text[0];
    size_t length = first >= 0xF0 ? 4 : first >= 0xE0 ? 3 : 2;
    *letter = first & (0x7Fu >> length);
    if (first < FIRST_LEADING || first > LAST_LEADING)
        return 0;
    for (size_t i = 1; i < length; i++) {
        unsigned next = (unsigned char)text[i];
        if ((next & FOLLOWING_MASK) != FOLLOWING)
            return 0;
        *letter = *letter << FOLLOWING_BITS | (next & ~(unsigned)FOLLOWING_MASK);
    }
    if (*letter < least[length] || *letter > LAST_LETTER ||
        (*letter >= FIRST_SURROGATE && *letter <= LAST_SURROGATE))
        return 0;
    return length;
}

int windows_byte(unsigned long letter)
{
    unsigned long sign;
    if (letter >= FIRST_LATIN && letter <= UINT8_MAX)
        return (int)letter;
    for (int i = 0; i < FIRST_LATIN - FIRST_WINDOWS; i++)
        if (windows[i] != NULL && letter_length(windows[i], &sign) > 0 && sign == letter)
            return FIRST_WINDOWS + i;
    return -1;
}

/* How many bytes at the start of a name are shown as they are: those of one letter, or none. The
   control signs 128 to 159 are shown by no terminal. */
static size_t shown_length(const char *name)
{
    unsigned long letter;
    size_t length = letter_length(name, &letter);
    if (is_plain((unsigned char)*name))
        return 1;
    return letter < FIRST_LATIN ? 0 : length;
}

void print_name(FILE *to, const char *name)
{
    while (*name != '\0') {
        size_t length = shown_length(name);
        if (length > 0) {
            fprintf(to, "%.*s", (int)length, name);
            name += length;
        } else {
            fprintf(to, "\\x%02X", (unsigned)(unsigned char)*name++);
        }
    }
}

char *name_printed(const char *text, size_t length)
{
    char *name = malloc(length + 1);
    size_t at = 0;
    for (size_t i = 0; name != NULL && i < length; at++) {
        unsigned byte = (unsigned char)text[i];
        if (byte == '\\' && length - i >= ESCAPE_WIDTH &&
            sscanf(text + i, "\\x%2X", &byte) == 1)
            i += ESCAPE_WIDTH;
        else
            i++;
        name[at] = (char)byte;
    }
    if (name != NULL)
        name[at] = '\0';
    return name;
}

static int begins_with(const uint8_t *text, const char *mark)
{
    return strncmp((const char *)text, mark, strlen(mark)) == 0;
}

int text_start(const char *name, const uint8_t *text, size_t *start)
{
    *start = begins_with(text, UTF_8_MARK) ? strlen(UTF_8_MARK) : 0;
    if (!begins_with(text, UTF_16_MARK) && !begins_with(text, UTF_16_MARK_TURNED))
        return 1;
    complain(name, "this is UTF-16 text; save it as UTF-8 or plain text");
    return 0;
}

static FILE *complaints;

void complain_on(FILE *stream)
{
    complaints = stream;
}

/* One line: the reason is left out where there is none. */
static void say(const char *subject, const char *trouble, const char *reason)
{
    FILE *to = complaints == NULL ? stderr : complaints;
    fputs(PROGRAM ": ", to);
    print_name(to, subject);
    fprintf(to, ": %s%s%s\n", trouble, reason == NULL ? "" : ": ", reason == NULL ? "" : reason);
}

void complain(const char *subject, const char *trouble)
{
    say(subject, trouble, NULL);
}

void complain_system(const char *subject, const char *trouble)
{
    say(subject, trouble, strerror(errno));
}
