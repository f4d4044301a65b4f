/*
 * A panel that asks for a gate on its console, makes the record, sends it over two pins and reads it back. It runs as
 * Cortex-M3 code on a board that QEMU plays; the memory at its pins is the kit's model, on the same image. On a panel of
 * your own board.c goes, and board_wires and board_line of board.h move and read two port pins.
 */
#include <stdio.h>
#include <stdlib.h>
#include <string.h>

#include "board.h"
#include "crepulanter.h"
#include "driver.h"
#include "latin1.h"

#define PART CREP_X24F128
#define SELECT 0
#define LINE 80                 /* room for a line and the byte that ends it */

/* ---- The console ---- */

/* What a stop says of the memory. */
static const char *memory = "nothing was sent";

static void stop(const char *why)
{
    printf("%s; %s\n", why, memory);
    exit(1);
}

/* Stops where the kit refuses a call. */
static void taken(const char *call, uint8_t refusal)
{
    if (refusal == CREP_OK)
        return;
    printf("%s refused %d: ", call, refusal);
    stop(crep_refusal_text(refusal));
}

/* A line as it is typed. Returns its length; one that has no room is refused and not cut. */
static size_t ask(const char *question, char *line)
{
    size_t n = 0;
    int c;

    printf("%s\n", question);
    while ((c = getchar()) != EOF && c != '\n') {
        if (c == '\r')
            continue;
        if (n + 1 == LINE)
            stop("a line that is too long");
        line[n++] = (char)c;
    }
    line[n] = '\0';
    return n;
}

static int32_t ask_limit(const char *question)
{
    char line[LINE], *end;
    long limit;

    ask(question, line);
    limit = strtol(line, &end, 10);
    if (end == line || *end != '\0')
        stop("not a whole number");
    return limit < INT32_MIN ? INT32_MIN : limit > INT32_MAX ? INT32_MAX : (int32_t)limit;
}

/* ---- The gate ---- */

static void make_record(uint8_t *record)
{
    uint8_t label[LINE];
    char text[LINE];
    size_t len, n = ask("label, up to 24 characters:", text);
    int32_t closed, opened;

    if (latin1_from_utf8(text, n, label, sizeof label, &len) != LATIN1_OK)
        stop("a character that ISO 8859-1 does not have");
    closed = ask_limit("closed limit, -30000 to 30000:");
    opened = ask_limit("open limit, likewise:");
    taken("crep_record_write", crep_record_write(record, CREP_RECORD, closed, opened, label, len));
}

/* The first free sector, by the map of all 512 records as the wires bring them. */
static uint16_t first_free(void)
{
    static uint8_t array[CREP_ARRAY], map[CREP_MAP];
    uint16_t gate;

    if (!memory_read(SELECT, 0, array, sizeof array))
        stop("the memory does not answer");
    taken("crep_map_build", crep_map_build(array, sizeof array, map, sizeof map));
    taken("crep_map_first", crep_map_first(map, sizeof map, &gate));
    if (gate == CREP_NO_SECTOR)
        stop("no sector is free");
    return gate;
}

static void send(uint16_t gate, const uint8_t *record)
{
    static uint8_t events[CREP_SEND];
    uint16_t n;

    taken("crep_send", crep_send(PART, SELECT, gate, record, CREP_RECORD, events, sizeof events, &n));
    memory = "look at the gate before it moves";
    if (!memory_play(SELECT, events, n))
        stop("the memory does not answer");
    printf("gate %d: %d events played on two pins, every byte acknowledged\n", gate, n);
}

/* A locked sector acknowledges every byte and keeps its own: what counts is what comes back. */
static void read_back(uint16_t gate, uint8_t *record)
{
    uint8_t sent[CREP_RECORD];
    size_t i;

    memcpy(sent, record, sizeof sent);
    if (!memory_read_sector(SELECT, gate, record))
        stop("the memory does not answer");
    printf("read back:");
    for (i = 0; i < CREP_RECORD; i++)
        printf(" %02x", record[i]);
    printf("\n");
    if (memcmp(sent, record, sizeof sent) != 0)
        stop("not what was sent");
}

static void show(const uint8_t *record)
{
    static const uint8_t standard[] = { 'G', 'A', 'T', 'E' };
    uint8_t label_len, is_free, from_record;
    int32_t closed, opened, travel;
    uint64_t start, len;

    taken("crep_record_read",
          crep_record_read(record, CREP_RECORD, &closed, &opened, &travel, &label_len, &is_free));
    crep_name(record, CREP_RECORD, standard, sizeof standard, &start, &len, &from_record);
    printf("name \"");
    latin1_print((from_record ? record : standard) + start, (size_t)len);
    printf("\", closed %ld, open %ld, travel %ld\n", (long)closed, (long)opened, (long)travel);
}

int main(void)
{
    uint8_t record[CREP_RECORD];
    uint16_t gate;

    board_new(PART, SELECT);
    board.polls = 3;            /* a cycle lasts three questions of memory_wait */
    make_record(record);
    gate = first_free();
    send(gate, record);
    read_back(gate, record);
    show(record);
    return 0;
}
