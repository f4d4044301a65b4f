/*
 * Labels are ISO 8859-1, a byte a character; what is typed in a terminal or stands in a source file is mostly UTF-8.
 * These functions go from one to the other: char is UTF-8 here, and uint8_t is ISO 8859-1.
 *
 *     uint8_t label[CREP_LABEL];
 *     size_t len;
 *     if (latin1_from_utf8(text, strlen(text), label, sizeof label, &len) == LATIN1_OK)
 *         refusal = crep_record_write(record, CREP_RECORD, closed, opened, label, len);
 *
 * Lengths and rooms are in bytes. No NUL ends anything: none is looked for and none is written. Nothing is written past
 * the room; buffers do not overlap. A conversion that is refused puts 0 into the length, and may have written a part.
 */
#ifndef LATIN1_H
#define LATIN1_H

#include <stddef.h>
#include <stdint.h>

#include "crepulanter.h"

#define LATIN1_NAME (2 * CREP_LABEL)    /* room for any name out of a record, as UTF-8 */

/* What a conversion returns; the first mistake from the left wins. */
enum {
    LATIN1_OK,
    LATIN1_NOT_UTF8,            /* malformed: a stray byte, a character cut short or spelt in too many bytes */
    LATIN1_NO_CHARACTER,        /* above U+00FF, so not in ISO 8859-1; also an accent apart from its letter (U+0301) */
    LATIN1_NO_ROOM
};

/* UTF-8 into ISO 8859-1. Any byte may come out, 00h to FFh: whether it may stand in a label the kit says (9). */
CREP_CHECKED int latin1_from_utf8(const char *text, size_t text_len, uint8_t *label, size_t room, size_t *label_len);

/* ISO 8859-1 into UTF-8. Every byte has its character, so the one refusal is LATIN1_NO_ROOM; 2 * name_len is enough. */
CREP_CHECKED int latin1_to_utf8(const uint8_t *name, size_t name_len, char *text, size_t room, size_t *text_len);

/* Prints ISO 8859-1 on a terminal that shows UTF-8. */
void latin1_print(const uint8_t *name, size_t name_len);

#endif
