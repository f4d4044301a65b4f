#include "show.h"

#include <stddef.h>

void show_event(FILE *out, uint8_t event)
{
    static const char *const others[] = { "program-done", "power-up, all written", "power-up, nothing written",
                                          "power-up, places 0-15 written", "no event" };

    if (event < 8)
        fprintf(out, "%d (SCL %d, SDA %d, pin %d)", event, event & 1, event >> 1 & 1, event >> 2 & 1);
    else
        fprintf(out, "%d (%s)", event, others[event < 12 ? event - 8 : 4]);
}

void show_answer(FILE *out, uint8_t answer)
{
    fprintf(out, "0x%02x (line %d, note %d)", answer, CREP_LINE(answer), CREP_NOTE(answer));
}

void show_bytes(FILE *out, const uint8_t *bytes, size_t n)
{
    size_t i;

    for (i = 0; i < n; i++) {
        if (i % 16 == 0)
            fprintf(out, "%s    %04zx ", i ? "\n" : "", i);
        fprintf(out, " %02x", bytes[i]);
    }
    fputc('\n', out);
}

void show_trace(FILE *out, const uint8_t *trace, size_t first, size_t last)
{
    size_t i;

    for (i = first; i < last; i++) {
        if ((i - first) % 18 == 0)
            fprintf(out, "%s    %6zu:", i > first ? "\n" : "", i);
        fprintf(out, " %d", trace[i]);
    }
    fputc('\n', out);
}

/* The single bytes at the head of a chip, in the order of the struct. */
static const char *const fields[] = {
    "part", "select", "ppen", "bl", "rpel", "pel", "counter_high", "counter_low", "mark", "busy", "scl", "line",
    "phase", "bits", "byte", "high", "count",
};

enum { FIELDS = sizeof fields / sizeof fields[0] };

/* Those behind the load. */
static const char *const later[] = { "spoil", "wait", "wait_high", "wait_low", "wait_ppen", "wait_bl" };

enum { LATER = sizeof later / sizeof later[0] };

static void show_row(FILE *out, const char *name, int index, size_t at, const struct crep_chip *const *chips, int n)
{
    uint8_t last[2] = { 0, 0 };
    char title[24];
    int i;

    snprintf(title, sizeof title, index < 0 ? "%s" : "%s[%d]", name, index);
    fprintf(out, "    %-15s", title);
    for (i = 0; i < n; i++) {
        last[0] = last[1];
        last[1] = ((const uint8_t *)chips[i])[at];
        fprintf(out, " %7d", last[1]);
    }
    fprintf(out, "%s\n", n > 1 && last[0] != last[1] ? "   <-- differs" : "");
}

/* Whether any of the chips has something there. */
static int used(size_t at, const struct crep_chip *const *chips, int n)
{
    int i;

    for (i = 0; i < n; i++)
        if (((const uint8_t *)chips[i])[at] != 0)
            return 1;
    return 0;
}

/* The rows of a list of 32 in which there is something. */
static void show_list(FILE *out, const char *name, size_t at, const struct crep_chip *const *chips, int n)
{
    int i;

    for (i = 0; i < 32; i++)
        if (used(at + (size_t)i, chips, n))
            show_row(out, name, i, at + (size_t)i, chips, n);
}

void show_chips(FILE *out, const char *const *titles, const struct crep_chip *const *chips, int n)
{
    int i;

    fprintf(out, "    %-15s", "chip");
    for (i = 0; i < n; i++)
        fprintf(out, " %7s", titles[i]);
    fputc('\n', out);
    for (i = 0; i < FIELDS; i++)
        show_row(out, fields[i], -1, (size_t)i, chips, n);
    for (i = 0; i < LATER; i++)
        show_row(out, later[i], -1, offsetof(struct crep_chip, spoil) + (size_t)i, chips, n);
    show_list(out, "places", offsetof(struct crep_chip, places), chips, n);
    show_list(out, "load", offsetof(struct crep_chip, load), chips, n);
    show_list(out, "wait_places", offsetof(struct crep_chip, wait_places), chips, n);
    show_list(out, "wait_bytes", offsetof(struct crep_chip, wait_bytes), chips, n);
}

int show_difference(FILE *out, const char *what, const uint8_t *library, const uint8_t *model, size_t n)
{
    size_t first = n, count = 0, i;

    for (i = n; i-- > 0; )
        if (library[i] != model[i]) {
            first = i;
            count++;
        }
    if (count == 0)
        return 0;
    fprintf(out, "    %s: differs in %zu of %zu bytes, first at %zu (%04zxh): library %02x, model %02x\n",
            what, count, n, first, first, library[first], model[first]);
    return 1;
}
