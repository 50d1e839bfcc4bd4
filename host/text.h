/* Bytes and names as text that any terminal can show, texts that come in, and what the program
   complains of. */
#ifndef TEXT_H
#define TEXT_H

#include "wizqamul.h"

#include <stdio.h>

#define PROGRAM "wizqamul-host"

/* Room for the longest field as text: each byte as \xNN, and the end. */
enum { TEXT_ROOM = 4 * WQ_PART_ARTICLE_WIDTH + 1 };

/* A field as text: blanks at its end dropped; bytes above 127 are taken as Windows-1252 and
   shown as UTF-8; a backslash, and bytes that are no sign at all, are shown as \xNN. */
void text_of(const uint8_t *field, size_t width, char text[TEXT_ROOM]);

/* A field and its qualifier, which stands right behind it. */
enum { ACCOUNT_ROOM = 2 * TEXT_ROOM };
void text_with_qualifier(const uint8_t *field, size_t width, char text[ACCOUNT_ROOM]);

/* Prints bytes as text_of shows them, however many, with the blanks at their end. */
void print_text(FILE *to, const uint8_t *bytes, size_t length);

/* Prints a text and blanks behind it up to a number of letters. */
void print_padded(const char *text, size_t letters);

/* A name of a file: ASCII and UTF-8 letters as they are, all else as \xNN. */
void print_name(FILE *to, const char *name);

/* The name that was printed so; free() gives it back, NULL where there is not enough memory. */
char *name_printed(const char *text, size_t length);

int is_digit(uint8_t byte);

/* Whether Windows-1252 has a sign for a byte; a control sign is none. */
int is_sign(uint8_t byte);

/* How many bytes the line end has that stands at the start of a text that a byte 0 ends: LF, CR
   LF or CR; 0 where none does. */
size_t line_end(const uint8_t *text);

/* Reads the UTF-8 letter of two bytes or more at the start of a text that a byte 0 ends. Gives
   how many bytes it has, 0 where none stands there. */
enum { LONGEST_LETTER = 4 };
size_t letter_length(const char *text, unsigned long *letter);

/* The byte that Windows-1252 has for such a letter, or -1. */
int windows_byte(unsigned long letter);

/* Finds where a text begins: behind the mark that some editors put before UTF-8. Returns 0, and
   has said so, where it is UTF-16, of which no line could be understood. */
int text_start(const char *name, const uint8_t *text, size_t *start);

/* One line on standard error, or on the stream that was named instead; the second adds the
   system's reason. */
void complain_on(FILE *stream);
void complain(const char *subject, const char *trouble);
void complain_system(const char *subject, const char *trouble);

#endif
