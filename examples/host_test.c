/*
 * A firmware's test on the host: the driver of driver.c runs on the board of board.c in place of a panel. It writes a
 * gate's record and reads it back, shows what a label of 27 characters does, hangs the bus and frees it, plays the
 * events of crep_send, adds a gate in the first free sector, loses its power in a cycle, gives a gate a label with
 * accents, and runs on a part without a register. Prints a report in UTF-8; the exit status is 1 where a step did not
 * go as expected, 2 where the test itself went wrong.
 *
 * new_panel says which part the panel has, for the board and for the driver alike: name your own there.
 */
#include <stdio.h>
#include <string.h>

#include "board.h"
#include "driver.h"
#include "latin1.h"

enum { GATE = 7, SENT = 17, FROM_3000H = 384, LAST = 511, OLD_GATES = 3, SELECT = 2, POLLS = 3 };

static const char label[] = "NORTH YARD";
static const char long_label[] = "NORTH YARD, DELIVERIES ONLY";
static uint8_t record[CREP_RECORD];
static uint8_t *const sector = board.array + GATE * CREP_RECORD;
static uint8_t part;
static int wrong;

/* A panel with this part: the board has such a chip, and the driver is told of it. */
static void new_panel(uint8_t fitted)
{
    part = fitted;
    board_new(part, SELECT);
    board.polls = POLLS;
}

/* The kit's events for the panel's part, played by the driver. */
static int send_record(unsigned gate, const uint8_t *bytes)
{
    return memory_send_record(part, SELECT, (uint16_t)gate, bytes);
}

/* Prints a step of the report, and counts it where it is not as expected. */
static void step(int good, const char *text)
{
    printf("   %s  %s\n", good ? "ok   " : "WRONG", text);
    wrong += !good;
}

static void show_sector(void)
{
    int i;

    printf("          sector  ");
    for (i = 0; i < CREP_RECORD; i++)
        printf(" %02x", sector[i]);
    printf("\n");
}

/* The name that a panel shows for a record, and its length. */
static const uint8_t *name_of(const uint8_t *bytes, uint64_t *len)
{
    static const uint8_t standard[] = { 'G', 'A', 'T', 'E' };
    uint8_t from_record;
    uint64_t start;

    crep_name(bytes, CREP_RECORD, standard, sizeof standard, &start, len, &from_record);
    return (from_record ? bytes : standard) + start;
}

static void show_name(const uint8_t *bytes)
{
    uint64_t len;
    const uint8_t *name = name_of(bytes, &len);

    printf("          name shown: \"");
    latin1_print(name, len);
    printf("\"\n");
}

/* What a panel would make of the sector's first two bytes. */
static int closed_limit(void)
{
    return (int16_t)(sector[0] << 8 | sector[1]);
}

/* Reads the record in the chip back over the wires; returns the refusal of reading it. */
static uint8_t read_gate(int32_t *closed, int32_t *opened, int32_t *travel)
{
    uint8_t bytes[CREP_RECORD], length, free_record;

    if (!memory_read_sector(SELECT, GATE, bytes))
        return 255;
    return crep_record_read(bytes, sizeof bytes, closed, opened, travel, &length, &free_record);
}

static void report_record(void)
{
    int32_t closed, opened, travel;

    printf("1. A gate's record goes over the wires and comes back\n");
    step(memory_enable(part, SELECT) && board_note() == CREP_NOTE_LATCH, "02h to the register: PEL set (note 3)");
    board_taken(crep_record_write(record, sizeof record, 150, 900, (const uint8_t *)label, sizeof label - 1));
    board_taken(crep_record_limits(record, sizeof record, 150, -200));
    step(memcmp(record + 6, label, sizeof label - 1) == 0,
         "record made, then its limits changed to closed 150, open -200: the label \"NORTH YARD\" stays");
    step(memory_write_sector(SELECT, GATE, record) && board_note() == CREP_NOTE_STORED,
         "32 bytes to sector 7: stored (note 1), cycle waited out");
    show_sector();
    step(read_gate(&closed, &opened, &travel) == CREP_OK && closed == 150 && opened == -200 && travel == -350,
         "read back: limits 150 and -200, travel -350");
    show_name(sector);
    printf("\n");
}

/* The old kit's mistake: the label alone, unchecked, at its place in the sector. */
static int send_long_label(void)
{
    int sent = memory_write(SELECT, GATE * CREP_RECORD + 6, (const uint8_t *)long_label, sizeof long_label - 1);

    return sent && memory_wait(SELECT, 100) == POLLS + 1;
}

static void report_long_label(void)
{
    int32_t closed, opened, travel;
    uint8_t copy[CREP_RECORD];
    char text[80];

    memcpy(copy, record, sizeof copy);
    printf("2. A label of 27 characters\n");
    step(crep_record_write(copy, sizeof copy, 150, -200, (const uint8_t *)long_label, sizeof long_label - 1)
         == CREP_REFUSED_LABEL_LENGTH && memcmp(copy, record, sizeof copy) == 0,
         "the kit refuses it (8) and keeps the record");
    step(send_long_label() && board_note() == CREP_NOTE_STORED,
         "sent past the kit to byte 6 of the sector: the X24128 takes it (note 1), cycle waited out");
    show_sector();
    snprintf(text, sizeof text, "the 27th character is in byte 0: closed limit was 150, is %d", closed_limit());
    step(closed_limit() == 'Y' * 256 + 150, text);
    step(read_gate(&closed, &opened, &travel) == CREP_REFUSED_SUM,
         "the kit refuses to read it (13, sum wrong): no gate moves by it");
}

static int sector_is_all(unsigned gate, uint8_t byte)
{
    int i, same = 0;

    for (i = 0; i < CREP_RECORD; i++)
        same += board.array[gate * CREP_RECORD + i] == byte;
    return same == CREP_RECORD;
}

static void report_other_part(void)
{
    int32_t closed, opened, travel;

    printf("   The same firmware on an X24F128\n");
    new_panel(CREP_X24F128);
    step(memory_enable(part, SELECT) && memory_write_sector(SELECT, GATE, record) && board_note() == CREP_NOTE_STORED,
         "32 bytes: stored (note 1)");
    step(send_long_label() && board_note() == CREP_NOTE_NOT_32 && sector_is_all(GATE, 0xff),
         "27 bytes: the sector is spoilt (note 5), cycle waited out");
    show_sector();
    step(read_gate(&closed, &opened, &travel) == CREP_OK && travel == 0,
         "read back: a free record, so the gate is gone and nothing is refused");
    board.chip.spoil = 0x00;
    step(send_long_label() && board_note() == CREP_NOTE_NOT_32 && sector_is_all(GATE, 0x00)
         && read_gate(&closed, &opened, &travel) == CREP_REFUSED_STATE_BYTE,
         "again, with 00h as the chip's spoil byte: the kit refuses to read it (12)");
    step(memory_write_sector(SELECT, GATE, record) && board_note() == CREP_NOTE_STORED
         && read_gate(&closed, &opened, &travel) == CREP_OK && closed == 150, "32 bytes: the record is back (note 1)");
    printf("\n");
}

/* A read that noise or a reset breaks off after three bits of a byte 00h. */
static void hang(void)
{
    wires_start();
    wires_send(0xa0 | SELECT << 1);
    wires_send(GATE * CREP_RECORD >> 8);
    wires_send(GATE * CREP_RECORD & 0xff);
    wires_start();
    wires_send(0xa1 | SELECT << 1);
    wires_clock(1);
    wires_clock(1);
    wires_clock(1);
}

static void report_hang(void)
{
    int32_t closed, opened, travel;
    struct board hung;
    int pulses, own;
    char text[80];

    printf("3. The bus hangs in mid-byte\n");
    hang();
    board_wires(1, 1);
    step(board_line() == 0, "both wires let go, and the data wire stays low: the chip is sending a 0");
    hung = board;
    pulses = board_recover();
    step(pulses == 6 && board.chip.phase == CREP_PHASE_SLAVE, "crep_recover frees it in 6 pulses and makes a start");
    board = hung;
    own = wires_free();
    snprintf(text, sizeof text, "the driver's own loop frees it too: %d pulses, crep_recover took %d", own, pulses);
    step(own == pulses && board.chip.phase == CREP_PHASE_SLAVE, text);
    step(read_gate(&closed, &opened, &travel) == CREP_OK && closed == 150 && travel == -350,
         "the record reads as before");
    printf("\n");
}

/* The record in a gate's sector, read over the wires, is the one at hand. */
static int comes_back(unsigned gate)
{
    uint8_t bytes[CREP_RECORD];

    return memory_read_sector(SELECT, gate, bytes) && memcmp(bytes, record, sizeof bytes) == 0;
}

static void send_on(uint8_t fitted, const char *text)
{
    new_panel(fitted);
    step(send_record(SENT, record) && board_note() == CREP_NOTE_STORED, text);
    step(comes_back(SENT), "read back over the wires: the record");
}

static void report_sender(void)
{
    uint8_t copy[CREP_RECORD];

    memcpy(copy, record, sizeof copy);
    copy[0] ^= 1;
    printf("4. crep_send spells the messages and the driver plays them: gate 17\n");
    send_on(CREP_X24128, "X24128: 39 bytes acknowledged, stored (note 1), cycle waited out");
    send_on(CREP_X24F128, "X24F128: the same");
    step(!send_record(SENT, copy) && comes_back(SENT),
         "a record with a limit changed past the kit: its sum is wrong, nothing is sent");
    board.chip.bl = 1;
    step(send_record(LAST, record) && board_note() == CREP_NOTE_LOCKED && !comes_back(LAST),
         "gate 511 with BL 1: every byte acknowledged, but the sector is locked and stays (note 4)");
    printf("\n");
}

/* The first free sector, from the board's map alone. */
static unsigned first_free(void)
{
    uint16_t found;

    board_taken(crep_map_first(board.map, sizeof board.map, &found));
    return found;
}

/* The map that the board has kept is the one that is built from its array. */
static int map_is_true(void)
{
    uint8_t built[CREP_MAP];

    board_taken(crep_map_build(board.array, sizeof board.array, built, sizeof built));
    return memcmp(built, board.map, sizeof built) == 0;
}

/* Gates in the first sectors, put there past the wires as from a saved image. */
static void load_image(void)
{
    int i;

    for (i = 0; i < OLD_GATES; i++)
        memcpy(board.array + i * CREP_RECORD, record, CREP_RECORD);
    board_map();
}

static void report_map(void)
{
    static const uint8_t empty[CREP_RECORD - 1] = { 0 };
    unsigned gate;

    printf("5. A gate is added in the first free sector\n");
    new_panel(CREP_X24F128);
    load_image();
    gate = first_free();
    step(gate == OLD_GATES, "an image with gates 0 to 2, its map built: sector 3 is the first free");
    step(send_record(gate, record) && board_note() == CREP_NOTE_STORED && comes_back(gate),
         "the record is sent there: stored (note 1), read back over the wires");
    step(first_free() == gate + 1 && map_is_true(),
         "the map has followed: sector 4 is next, and building it again gives the same");
    step(memory_write(SELECT, CREP_RECORD, empty, sizeof empty) && board_note() == CREP_NOTE_NOT_32
         && memory_wait(SELECT, 100) == POLLS + 1 && first_free() == 1 && map_is_true(),
         "31 bytes to sector 1 spoil it with FFh (note 5): the gate is gone, and its sector the first free");
    printf("\n");
}

/* The power fails when the chip is busy with a record for gate 7; until then its sector is as before. */
static int cut_off(const uint8_t *bytes, uint32_t choices)
{
    uint8_t before[CREP_RECORD];
    int begun;

    memcpy(before, sector, sizeof before);
    begun = memory_enable(part, SELECT) && memory_write(SELECT, GATE * CREP_RECORD, bytes, CREP_RECORD)
        && board_note() == CREP_NOTE_STORED && memcmp(sector, before, sizeof before) == 0;
    board_cut(choices);
    return begun;
}

/* 02h and 06h open the register, 1Ah is BL 3: everything locked. Returns BL after the cut. */
static int bl_after_cut(uint32_t choices)
{
    static const uint8_t bytes[] = { 0x02, 0x06, 0x1a };
    size_t i;

    for (i = 0; i < sizeof bytes; i++)
        if (!memory_write(SELECT, 0xffff, bytes + i, 1))
            return -1;
    if (board_note() != CREP_NOTE_REGISTER || board.chip.bl != 0)
        return -1;
    board_cut(choices);
    return board.chip.bl;
}

static void report_cut(void)
{
    int32_t closed, opened, travel;
    uint8_t changed[CREP_RECORD];

    printf("6. The power fails in the cycle\n");
    new_panel(CREP_X24F128);
    memcpy(sector, record, sizeof record);
    board_map();
    board.polls = BOARD_NEVER;
    memcpy(changed, record, sizeof changed);
    board_taken(crep_record_limits(changed, sizeof changed, 160, -200));
    step(cut_off(changed, 0) && read_gate(&closed, &opened, &travel) == CREP_OK && closed == 150,
         "a new closed limit, 160, is sent and no byte of it written: the gate has the old record");
    step(cut_off(changed, 0xffff) && read_gate(&closed, &opened, &travel) == CREP_REFUSED_SUM,
         "again, and bytes 0 to 15 are written: the kit refuses to read it (13, sum wrong)");
    show_sector();
    step(cut_off(changed, 0xffffffffu) && read_gate(&closed, &opened, &travel) == CREP_OK && closed == 160,
         "again, and all 32 are written: the gate has the new record");
    step(bl_after_cut(0) == 0 && bl_after_cut(1) == 3,
         "a register byte that locks everything is taken whole or not at all");
    printf("\n");
}

/* Labels in UTF-8, as a terminal gives them: Portón Núñez, Ávila, ÿ; and the first misread, PortÃ³n NÃºÃ±ez. The bytes
 * are spelt out, so that they do not depend on how this file is saved. */
static const char typed[] = "Port\xc3\xb3n N\xc3\xba\xc3\xb1" "ez";
static const char capital[] = "\xc3\x81vila";
static const char last[] = "\xc3\xbf";
static const char misread[] = "Port\xc3\x83\xc2\xb3n N\xc3\x83\xc2\xba\xc3\x83\xc2\xb1" "ez";

/* Makes the record at hand with a label as it is given. */
static uint8_t labelled(const void *bytes, size_t n)
{
    return crep_record_write(record, sizeof record, 150, -200, bytes, n);
}

/* The same with a label in UTF-8, which is converted into n bytes first; 255 where it is not. */
static uint8_t labelled_utf8(const char *text, size_t n)
{
    uint8_t bytes[CREP_LABEL];
    size_t len;

    if (latin1_from_utf8(text, strlen(text), bytes, sizeof bytes, &len) != LATIN1_OK || len != n)
        return 255;
    return labelled(bytes, len);
}

/* Sends the record at hand, and reads into bytes what the chip then holds. */
static int send_and_read(uint8_t *bytes)
{
    return send_record(GATE, record) && board_note() == CREP_NOTE_STORED
        && memory_read_sector(SELECT, GATE, bytes);
}

/* The name of a record is this text in UTF-8. */
static int name_is(const uint8_t *bytes, const char *text)
{
    char shown[LATIN1_NAME];
    uint64_t len;
    size_t n;
    const uint8_t *name = name_of(bytes, &len);

    return latin1_to_utf8(name, len, shown, sizeof shown, &n) == LATIN1_OK
        && n == strlen(text) && memcmp(shown, text, n) == 0;
}

static void report_accents(void)
{
    uint8_t bytes[CREP_RECORD] = { 0 };

    printf("7. A label with accents\n");
    new_panel(CREP_X24F128);
    step(labelled_utf8(typed, 12) == CREP_OK, "15 bytes of UTF-8, converted into 12 of ISO 8859-1: the kit takes them");
    step(send_and_read(bytes) && name_is(bytes, typed),
         "the record is sent: stored (note 1), read back over the wires, its name is as typed");
    show_name(bytes);
    step(labelled(typed, strlen(typed)) == CREP_OK && send_and_read(bytes) && name_is(bytes, misread),
         "the same without converting: the kit takes the 15 bytes, as 15 characters");
    show_name(bytes);
    step(labelled(capital, strlen(capital)) == CREP_REFUSED_LABEL_BYTE && labelled_utf8(capital, 5) == CREP_OK,
         "a capital A with acute in front: refused without converting (9, byte 81h), taken after it");
    step(labelled_utf8(last, 1) == CREP_REFUSED_LABEL_BYTE,
         "U+00FF is converted into FFh, and the kit refuses that byte (9)");
    printf("\n");
}

/* The events for another part than the panel's, with a record in sector 511 before them. */
static void report_wrong_part(void)
{
    step(send_record(LAST, record) && board_note() == CREP_NOTE_STORED && comes_back(LAST),
         "gate 511: stored (note 1)");
    step(!memory_send_record(CREP_X24F128, SELECT, GATE, record) && board_note() == CREP_NOTE_NOT_32
         && memory_wait(SELECT, 100) && sector_is_all(LAST, 0xff) && !comes_back(GATE),
         "the 713 events for an X24F128: 02h at FFFFh spoils gate 511 (note 5), and gate 7 is not stored");
    new_panel(CREP_X24F128);
    step(!memory_send_record(CREP_X24F129, SELECT, GATE, record) && board_note() == CREP_NOTE_NONE && !comes_back(GATE),
         "on an X24F128 the 636 events for an X24F129: PEL is not set, gate 7 is not stored");
}

static void report_no_register(void)
{
    uint8_t changed[CREP_RECORD];

    printf("8. A panel with an X24F129, which has no register: its pin locks from gate 384 on, at 3000h\n");
    new_panel(CREP_X24F129);
    memcpy(changed, record, sizeof changed);
    board_taken(crep_record_limits(changed, sizeof changed, 160, -200));
    step(send_record(FROM_3000H, record) && board_note() == CREP_NOTE_STORED && comes_back(FROM_3000H),
         "protect pin low, gate 384: 35 bytes acknowledged, stored (note 1), read back over the wires");
    board.pin = 1;
    step(send_record(FROM_3000H, changed) && board_note() == CREP_NOTE_LOCKED && comes_back(FROM_3000H),
         "pin high, another record for it: every byte acknowledged, but the sector is locked and stays (note 4)");
    step(memory_write(SELECT, FROM_3000H * CREP_RECORD, changed, 20) && board_note() == CREP_NOTE_LOCKED
         && comes_back(FROM_3000H), "20 bytes for it: locked as well, so they spoil nothing (note 4)");
    step(send_record(FROM_3000H - 1, record) && board_note() == CREP_NOTE_STORED && comes_back(FROM_3000H - 1),
         "gate 383: not locked, stored (note 1)");
    board.pin = 0;
    step(send_record(FROM_3000H, changed) && board_note() == CREP_NOTE_STORED && !comes_back(FROM_3000H),
         "pin low again, gate 384: not locked any more, stored (note 1)");
    report_wrong_part();
    printf("\n");
}

int main(void)
{
    printf("Gate memory on the bench: X24128, select %d, gate %d in sector %d\n\n", SELECT, GATE, GATE);
    new_panel(CREP_X24128);
    report_record();
    report_long_label();
    report_other_part();
    report_hang();
    report_sender();
    report_map();
    report_cut();
    report_accents();
    report_no_register();
    if (wrong)
        printf("%d steps WRONG\n", wrong);
    else
        printf("Every step went as expected.\n");
    return wrong != 0;
}
