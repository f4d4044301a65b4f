#include "latin1.h"

#include <stdio.h>

enum { MALFORMED = -1 };

/* The length of a character by its first byte; 0 where no character begins so. */
static size_t size_by(uint8_t first)
{
    if (first < 0x80)
        return 1;
    return first < 0xc0 ? 0 : first < 0xe0 ? 2 : first < 0xf0 ? 3 : first < 0xf8 ? 4 : 0;
}

/* The character at the beginning of a text that is not empty, and its length. */
static int32_t character(const char *text, size_t text_len, size_t *size)
{
    static const int32_t least[] = { 0, 0, 0x80, 0x800, 0x10000 };
    uint8_t byte = (uint8_t)text[0];
    int32_t c;
    size_t i;

    *size = size_by(byte);
    if (*size == 0 || *size > text_len)
        return MALFORMED;
    c = *size == 1 ? byte : byte & 0x7f >> *size;
    for (i = 1; i < *size; i++) {
        byte = (uint8_t)text[i];
        if ((byte & 0xc0) != 0x80)
            return MALFORMED;
        c = c << 6 | (byte & 0x3f);
    }
    return c < least[*size] || (c >= 0xd800 && c <= 0xdfff) || c > 0x10ffff ? MALFORMED : c;
}

int latin1_from_utf8(const char *text, size_t text_len, uint8_t *label, size_t room, size_t *label_len)
{
    size_t at, size, n = 0;
    int32_t c;

    *label_len = 0;
    for (at = 0; at < text_len; at += size) {
        c = character(text + at, text_len - at, &size);
        if (c == MALFORMED)
            return LATIN1_NOT_UTF8;
        if (c > 0xff)
            return LATIN1_NO_CHARACTER;
        if (n == room)
            return LATIN1_NO_ROOM;
        label[n++] = (uint8_t)c;
    }
    *label_len = n;
    return LATIN1_OK;
}

/* One character in UTF-8; returns its length, 1 or 2. */
static size_t spell(uint8_t byte, char text[2])
{
    if (byte < 0x80) {
        text[0] = (char)byte;
        return 1;
    }
    text[0] = (char)(0xc0 | byte >> 6);
    text[1] = (char)(0x80 | (byte & 0x3f));
    return 2;
}

int latin1_to_utf8(const uint8_t *name, size_t name_len, char *text, size_t room, size_t *text_len)
{
    char spelt[2];
    size_t i, j, size, n = 0;

    *text_len = 0;
    for (i = 0; i < name_len; i++) {
        size = spell(name[i], spelt);
        if (size > room - n)
            return LATIN1_NO_ROOM;
        for (j = 0; j < size; j++)
            text[n++] = spelt[j];
    }
    *text_len = n;
    return LATIN1_OK;
}

void latin1_print(const uint8_t *name, size_t name_len)
{
    char spelt[2];
    size_t i;

    for (i = 0; i < name_len; i++)
        fwrite(spelt, 1, spell(name[i], spelt), stdout);
}
