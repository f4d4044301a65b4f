/*
 * Plays the script of the program `vectors` through the calls of crepulanter.h, and writes what that program must
 * write. Linked with the independent model under the library's names it gives the stored `stdout` of the crate: worked
 * out from the rules, never copied from a run of the kit. Linked with the library of a processor it must give the same.
 *
 *     script crates/vectors/stdin > crates/vectors/stdout
 *
 * The orders are explained at the top of the script itself.
 */
#include <stdio.h>
#include <string.h>

#include "crepulanter.h"
#include "wire.h"

#define BEFORE 0xee             /* what stands in a buffer before a call writes it */

static struct crep_chip chip;
static uint8_t array[CREP_ARRAY + 1], map[CREP_MAP + 1], tape[CREP_TRACE + 1], answers[CREP_TRACE + 4];
static uint8_t spelt[64];
static struct wire wire = { spelt, sizeof spelt, 0, 0 };
static unsigned long value;     /* the number that is being read */
static int number, minus, comment, text, recording, mapping, line = 1;
static size_t length, room = CREP_ARRAY, map_lent = CREP_MAP, space_lent = CREP_TRACE;
static size_t live;             /* events of a live order, which stand past the tape's end */
static int32_t closed, opened;

static void refused(unsigned n)
{
    if (n != 0)
        printf("!%x", n);
}

static void noted(unsigned n)
{
    if (n != 0)
        printf("'%x", n);
}

/* What is lent of the array, and of the map where one goes along, is no longer than what there is. */
static int lendable(int with_map)
{
    return room <= sizeof array && (!with_map || map_lent <= sizeof map);
}

/* ---- Words on the wires ---- */

static void record_byte(unsigned byte)
{
    if (length < sizeof tape)
        tape[length++] = (uint8_t)byte;
}

static uint8_t run_event(uint8_t byte, uint8_t *answer)
{
    if (mapping)
        return crep_map_event(&chip, array, room, map, map_lent, byte, answer);
    return crep_event(&chip, array, room, byte, answer);
}

static uint8_t run_power_up(uint32_t choices, uint8_t *answer)
{
    if (mapping)
        return crep_map_power_up(&chip, array, room, map, map_lent, choices, answer);
    return crep_power_up(&chip, array, room, choices, answer);
}

static void answered(uint8_t refusal, uint8_t answer)
{
    refused(refusal);
    noted(CREP_NOTE(answer));
    line = CREP_LINE(answer);
}

/* A live order's events stand past the tape's end while it runs, and what has no room there is not run. */
static void event(unsigned byte)
{
    uint8_t answer = 0, refusal;

    if (recording) {
        record_byte(byte);
        return;
    }
    if (length + live >= sizeof tape || !lendable(mapping))
        return;
    tape[length + live++] = (uint8_t)byte;
    refusal = run_event((uint8_t)byte, &answer);
    answered(refusal, answer);
}

/* No event byte knows these choices, so that the tape has no part in it. */
static void power_up(uint32_t choices)
{
    uint8_t answer = 0, refusal;

    if (lendable(mapping)) {
        refusal = run_power_up(choices, &answer);
        answered(refusal, answer);
    }
    printf(":%d", line);
}

/* Hands what is spelt on, event by event. */
static void play(void)
{
    size_t i, n = wire.len;

    wire.len = 0;
    for (i = 0; i < n; i++)
        event(spelt[i]);
}

/* One clock. */
static void clock_bit(int sda)
{
    wire_bit(&wire, sda);
    play();
}

static void eight(unsigned byte)
{
    int k;

    for (k = 7; k >= 0; k--)
        wire_bit(&wire, byte >> k & 1);
    play();
}

static void send(unsigned byte)
{
    wire_send(&wire, (uint8_t)byte);
    play();
}

static void receive(int more)
{
    unsigned byte = 0;
    int k;

    for (k = 0; k < 8; k++) {
        clock_bit(1);
        byte = byte * 2 + (unsigned)line;
    }
    clock_bit(!more);
    printf("=%02x", byte);
}

static void burst(unsigned long n)
{
    unsigned long i, taken = 0;

    for (i = 0; i < n; i++) {
        live = 0;
        send((unsigned)(i % 255 + 1));
        taken += !line;
    }
    printf("+%02lx", taken);
}

/* ---- Whole traces and recovery ---- */

static uint8_t run_trace(void)
{
    if (mapping)
        return crep_map_run(&chip, array, room, map, map_lent, tape, length, answers, space_lent);
    return crep_run(&chip, array, room, tape, length, answers, space_lent);
}

static void run_tape(void)
{
    unsigned long kept = 0, low = 0, sum = 0;
    size_t i;

    memset(answers, BEFORE, sizeof answers);
    if (!lendable(mapping) || length > sizeof tape || space_lent > sizeof answers)
        return;
    refused(run_trace());
    for (i = 0; i < sizeof answers; i++) {
        if (answers[i] == BEFORE) {
            kept++;
            continue;
        }
        if (answers[i] / 2 != 0)
            printf(" %05zx'%x", i, answers[i] / 2);
        low += !CREP_LINE(answers[i]);
        sum = (sum + answers[i]) % 65536;
    }
    printf(" k%05lx l%05lx s%05lx", kept, low, sum);
}

static void recover(void)
{
    uint8_t pulses = BEFORE;

    if (room > sizeof array)
        return;
    refused(crep_recover(&chip, array, room, (uint8_t)wire.pin, &pulses));
    printf("=%02x", pulses);
}

/* ---- Records: what is lent of the array, with what is on the tape as the label or the standard label ---- */

static void put_signed(char sign, int32_t z)
{
    if (z < 0)
        printf("%c-%04lx", sign, -(long)z);
    else
        printf("%c%04lx", sign, (long)z);
}

static void read_record(void)
{
    int32_t limits[3] = { BEFORE, BEFORE, BEFORE };
    uint8_t label_len = BEFORE, is_free = BEFORE;

    refused(crep_record_read(array, room, &limits[0], &limits[1], &limits[2], &label_len, &is_free));
    put_signed('=', limits[0]);
    put_signed(',', limits[1]);
    put_signed(',', limits[2]);
    printf(",%02x", label_len);
}

static void show_name(void)
{
    uint64_t first = BEFORE, len = 0, i;
    uint8_t own = BEFORE;
    const uint8_t *name;

    (void)crep_name(array, room, tape, length, &first, &len, &own);
    name = (own ? array : tape) + first;
    printf("=[");
    for (i = 0; i < len; i++)
        printf(name[i] < 0x20 || name[i] > 0x7e || name[i] == '\\' ? "\\%02x" : "%c", name[i]);
    printf("]%c,%02lx,%02lx", own ? 'r' : 's', (unsigned long)first, (unsigned long)len);
}

static void on_record(int c)
{
    if (room > sizeof array || length > sizeof tape)
        return;
    switch (c) {
    case 'W': refused(crep_record_write(array, room, closed, opened, tape, length)); break;
    case 'L': refused(crep_record_limits(array, room, closed, opened)); break;
    case 'R': read_record(); break;
    case 'N': show_name(); break;
    }
}

/* ---- Sending: what is lent of the array is the record, what is lent as answers is lent of the tape ---- */

static void send_record(void)
{
    uint16_t events = BEFORE;
    unsigned long sum = 0;
    uint8_t refusal;
    size_t i;

    if (room > sizeof array || space_lent > sizeof tape)
        return;
    refusal = crep_send((uint8_t)(value / 16777216), (uint8_t)(value / 65536 % 256), (uint16_t)(value % 65536), array, room,
                         tape, space_lent, &events);
    refused(refusal);
    for (i = 0; i < sizeof tape; i++)
        sum = (sum + tape[i]) % 65536;
    printf("=%04x,%05lx", events, sum);
    if (refusal == 0)
        length = events;
}

/* ---- The map: all of its bytes are counted, the one beside those that are lent too ---- */

static void build_map(void)
{
    unsigned bits = 0, sum = 0, k;
    size_t i;

    if (!lendable(1))
        return;
    refused(crep_map_build(array, room, map, map_lent));
    for (i = 0; i < sizeof map; i++) {
        sum += map[i];
        for (k = 0; k < 8; k++)
            bits += map[i] >> k & 1;
    }
    printf("=%04x,%04x", bits, sum);
}

static void first_free(void)
{
    uint16_t found = BEFORE;
    uint8_t refusal;

    if (map_lent > sizeof map)
        return;
    refusal = crep_map_first(map, map_lent, &found);
    refused(refusal);
    if (refusal == 0 && found == CREP_NO_SECTOR)
        printf("=n");
    else if (refusal == 0)
        printf("=%04x", found);
}

/* ---- Looking and setting ---- */

static void show(void)
{
    printf("=%02x,%02x%02x", chip.ppen << 7 | chip.bl << 3 | chip.rpel << 2 | chip.pel << 1, chip.counter_high, chip.counter_low);
    if (chip.mark)
        putchar('m');
    if (chip.busy)
        putchar('b');
}

static void show_load(void)
{
    unsigned loaded = 0, sum = 0, i;

    for (i = 0; i < 32; i++) {
        loaded += chip.places[i];
        sum += chip.load[i];
    }
    printf("=%02x,%02x,%04x", chip.count, loaded, sum);
}

static void show_wait(void)
{
    unsigned places = 0, sum = 0, i;

    for (i = 0; i < 32; i++) {
        places += chip.wait_places[i];
        sum += chip.wait_bytes[i];
    }
    switch (chip.wait) {
    case 0: printf("=n"); break;
    case 1: printf("=s%02x%02x", chip.wait_high, chip.wait_low); break;
    default: printf("=r%x,%02x", chip.wait_ppen, chip.wait_bl);
    }
    printf(",%02x,%04x", places, sum);
}

static void sector(unsigned long address)
{
    unsigned long first = address / 32 * 32 % 65536, i;

    putchar('=');
    for (i = 0; i < 32; i++)
        if (first + i < sizeof array)
            printf("%02x", array[first + i]);
}

/* What waits on a chip as no run leaves it: of a sector all places, each with 5Ah; what is not named is 0. */
static void put_wait(uint8_t kind, unsigned sector, uint8_t ppen, uint8_t bl)
{
    chip.wait = kind;
    chip.wait_high = (uint8_t)(sector / 256);
    chip.wait_low = (uint8_t)(sector % 256);
    chip.wait_ppen = ppen;
    chip.wait_bl = bl;
    memset(chip.wait_places, kind == 1, sizeof chip.wait_places);
    memset(chip.wait_bytes, kind == 1 ? 0x5a : 0, sizeof chip.wait_bytes);
}

/* Fields of a chip as no run sets them; the phase's own bytes are 0. */
static void alter(unsigned field, uint8_t n)
{
    if (field >= 0x80) {
        put_wait(1, (field - 0x80) * 256 + n, 0, 0);
        return;
    }
    switch (field) {
    case 0: chip.part = n; break;
    case 1: chip.select = n; break;
    case 2: chip.bl = n; break;
    case 3: chip.counter_high = n; chip.counter_low = 0; break;
    case 4: chip.phase = n / 16; chip.bits = n % 16; chip.byte = 0; chip.high = 0; break;
    case 5: memset(chip.load, 0, sizeof chip.load); memset(chip.places, 0, sizeof chip.places); chip.count = n; break;
    case 6: chip.busy = n == 1; break;
    case 7: chip.spoil = n; break;
    case 8: put_wait(2, 0, n / 128, n % 128); break;
    case 10: memset(chip.load, n, sizeof chip.load); break;
    default: put_wait(0, 0, 0, 0);
    }
}

static void new_chip(uint8_t n)
{
    refused(crep_new(&chip, n / 16, n % 16));
    memset(array, 0xff, sizeof array);
    wire.pin = 0;
    room = CREP_ARRAY;
}

static int32_t limit(void)
{
    long size = (long)(value % 16777216);

    return (int32_t)(minus ? -size : size);
}

static void set(int c)
{
    uint8_t n = (uint8_t)(value % 256);

    switch (c) {
    case 'X': map_lent = value; break;
    case '{': mapping = 1; break;
    case '}': mapping = 0; break;
    case 'f': if (length <= sizeof tape) memset(tape + length, n, sizeof tape - length); break;
    case 'q': if (length > 0 && length - 1 < sizeof tape) tape[length - 1] = n; break;
    case '^': wire.pin = 1; break;
    case '_': wire.pin = 0; break;
    case '[': recording = 1; length = 0; break;
    case ']': recording = 0; break;
    case 'a': room = value; break;
    case 'y': length = value; break;
    case 'z': space_lent = value; break;
    case 'x': alter((unsigned)(value / 256 % 256), n); break;
    case 'c': closed = limit(); break;
    case 'j': opened = limit(); break;
    default: on_record(c);
    }
}

static void look(int c)
{
    uint8_t n = (uint8_t)(value % 256);

    switch (c) {
    case 'i': show(); break;
    case 'h': show_load(); break;
    case 'H': show_wait(); break;
    case 'm': putchar('='); if (value < sizeof array) printf("%02x", array[value]); break;
    case 'o': sector(value); break;
    case 'w': if (value / 256 < sizeof array) array[value / 256] = n; break;
    case 'M': build_map(); break;
    case 'G': first_free(); break;
    case 'K': if (value / 256 < sizeof map) map[value / 256] = n; break;
    case 'I': if (value < sizeof map) printf("=%02x", map[value]); break;
    default: set(c);
    }
}

static void order(int c)
{
    uint8_t n = (uint8_t)(value % 256);

    switch (c) {
    case 's': wire_start(&wire); play(); break;
    case 'r': wire_restart(&wire); play(); break;
    case 'p': wire_stop(&wire); play(); break;
    case 'd': event(8); break;
    case 'u': event(9); break;
    case 'P': power_up((uint32_t)value); break;
    case 'b': eight(n); break;
    case 'e': event(n); printf(":%d", line); break;
    case 'g': receive(1); break;
    case 'l': receive(0); break;
    case 'k': burst(value); break;
    case 'v': recover(); break;
    case 't': run_tape(); break;
    case 'S': send_record(); break;
    case 'n': new_chip(n); break;
    default: look(c);
    }
}

/* ---- Reading the script ---- */

static int digit_of(int c)
{
    if (c >= '0' && c <= '9')
        return c - '0';
    return c >= 'A' && c <= 'F' ? c - 'A' + 10 : -1;
}

static void cleared(void)
{
    value = 0;
    number = 0;
    minus = 0;
    live = 0;
}

/* A number that stands by itself is a byte to send; what it says stands before the space. */
static void blank(void)
{
    if (!number)
        return;
    send((unsigned)(value % 256));
    if (!recording)
        putchar(line ? '-' : '+');
    cleared();
}

/* A byte of text is put on the tape, recording or not. */
static void letter(int c)
{
    if (c == '"')
        text = 0;
    else
        record_byte((unsigned)c);
}

static void take(int c)
{
    if (c == '#') {
        comment = 1;
    } else if (c == '"') {
        text = 1;
        length = 0;
    } else if (c == '-') {
        minus = 1;
    } else if (digit_of(c) >= 0) {
        value = value % 268435456 * 16 + (unsigned long)digit_of(c);
        number = 1;
    } else {
        order(c);
        cleared();
    }
}

int main(int argc, char **argv)
{
    FILE *script = argc == 2 ? fopen(argv[1], "rb") : NULL;
    int c;

    if (script == NULL) {
        fputs("script: name one file that can be read, the script\n", stderr);
        return 2;
    }
    memset(array, 0xff, sizeof array);
    memset(tape, 3, sizeof tape);
    refused(crep_new(&chip, CREP_X24F128, 0));          /* the standard chip */
    while ((c = getc(script)) != EOF) {
        int blanks = !comment && !text && (c == ' ' || c == '\n');

        if (blanks)
            blank();
        putchar(c);
        if (comment)
            comment = c != '\n';
        else if (text)
            letter(c);
        else if (!blanks)
            take(c);
    }
    return 0;
}
