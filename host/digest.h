/* SHA-256 digests (FIPS 180-4): two files with one digest have the same bytes. */
#ifndef DIGEST_H
#define DIGEST_H

#include <stddef.h>
#include <stdint.h>

/* A digest as text: 64 small hexadecimal digits and the end. */
enum { DIGEST_DIGITS = 64, DIGEST_ROOM = DIGEST_DIGITS + 1 };

void digest_of(const uint8_t *bytes, size_t length, char digest[DIGEST_ROOM]);

#endif
