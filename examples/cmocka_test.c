/*
 * The same board under CMocka (Debian: libcmocka-dev): each test on it has a new chip, and a refused call fails the
 * test at the line that made it. The conversions of latin1.h are tested beside it.
 */
#include <setjmp.h>
#include <stdarg.h>
#include <stddef.h>
#include <stdint.h>
#include <string.h>

#include <cmocka.h>

#include "board.h"
#include "driver.h"
#include "latin1.h"

enum { PART = CREP_X24128, SELECT = 2, GATE = 7, FROM_3000H = 384, LAST = 511 };

static void fail_test(const char *file, int line, const char *reason)
{
    print_error("%s:%d: %s\n", file, line, reason);
    _fail(file, line);
}

/* A new X24128 with PEL set and a good record at hand; a test with another part fits its own. */
static int new_board(void **state)
{
    static uint8_t record[CREP_RECORD];

    board_stop = fail_test;
    board.trace = NULL;
    board_new(PART, SELECT);
    board_taken(crep_record_write(record, sizeof record, 150, -200, (const uint8_t *)"NORTH", 5));
    *state = record;
    return !memory_enable(PART, SELECT);
}

static void a_record_comes_back(void **state)
{
    uint8_t bytes[CREP_RECORD];

    board.polls = 3;
    assert_true(memory_write_sector(SELECT, GATE, *state));
    assert_int_equal(board_note(), CREP_NOTE_STORED);
    assert_true(memory_read_sector(SELECT, GATE, bytes));
    assert_memory_equal(bytes, *state, CREP_RECORD);
}

/* The driver asks in vain as often as the cycle lasts, and gives up on a chip that never ends. */
static void the_driver_waits(void **state)
{
    board.polls = 5;
    assert_true(memory_write(SELECT, GATE * CREP_RECORD, *state, CREP_RECORD));
    assert_int_equal(memory_wait(SELECT, 100), 6);
    board.polls = BOARD_NEVER;
    assert_true(memory_write(SELECT, GATE * CREP_RECORD, *state, CREP_RECORD));
    assert_int_equal(memory_wait(SELECT, 100), 0);
    board_done();
    assert_int_equal(memory_wait(SELECT, 100), 1);
}

/* 20 bytes on an X24F128 are all acknowledged, and leave none of them. The cycle is waited out as after a store. */
static void a_short_load_spoils(void **state)
{
    uint8_t spoilt[CREP_RECORD];

    memset(spoilt, 0xa5, sizeof spoilt);
    board.chip.part = CREP_X24F128;
    board.chip.spoil = 0xa5;
    board.polls = 3;
    assert_true(memory_write(SELECT, GATE * CREP_RECORD, *state, 20));
    assert_int_equal(board_note(), CREP_NOTE_NOT_32);
    assert_int_equal(memory_wait(SELECT, 100), 4);
    assert_memory_equal(board.array + GATE * CREP_RECORD, spoilt, CREP_RECORD);
    assert_int_equal(board.array[(GATE + 1) * CREP_RECORD], 0xff);
}

/* A write that breaks off must not end in a STOP alone: that is a short load. A START before it drops the load. */
static void an_abandoned_write_spoils_nothing(void **state)
{
    const uint8_t *record = *state;
    int i;

    board.chip.part = CREP_X24F128;
    assert_true(memory_write_sector(SELECT, GATE, record));
    wires_start();
    assert_true(wires_send(0xa0 | SELECT << 1));
    assert_true(wires_send(GATE * CREP_RECORD / 256) && wires_send(GATE * CREP_RECORD % 256));
    for (i = 0; i < 20; i++)
        assert_true(wires_send(0x00));
    wires_abandon();
    assert_int_equal(board_note(), CREP_NOTE_DROPPED);
    assert_memory_equal(board.array + GATE * CREP_RECORD, record, CREP_RECORD);
}

static void a_locked_sector_stays(void **state)
{
    board.chip.bl = 3;
    assert_true(memory_write_sector(SELECT, GATE, *state));
    assert_int_equal(board_note(), CREP_NOTE_LOCKED);
    assert_int_equal(board.array[GATE * CREP_RECORD], 0xff);
}

/* On a new board with this part the driver plays the events of crep_send as they are, up to the wait for the cycle;
 * returns their number. */
static int plays_what_the_kit_spells(uint8_t part, const uint8_t *record)
{
    static uint8_t trace[CREP_TRACE], events[CREP_SEND];
    uint16_t n;

    board.trace = trace;
    board.trace_room = sizeof trace;
    board_new(part, SELECT);
    board.polls = 3;
    board.trace_len = 0;
    assert_true(memory_send_record(part, SELECT, GATE, record));
    assert_int_equal(board_note(), CREP_NOTE_STORED);
    assert_memory_equal(board.array + GATE * CREP_RECORD, record, CREP_RECORD);
    board_taken(crep_send(part, SELECT, GATE, record, CREP_RECORD, events, sizeof events, &n));
    assert_memory_equal(trace, events, n - 1);
    return n;
}

static void the_kit_sends_a_record(void **state)
{
    assert_int_equal(plays_what_the_kit_spells(PART, *state), CREP_SEND);
}

/* With RPEL set the first message takes the locks away, when its cycle has ended, and the second is not heard: the
 * driver says so. */
static void rpel_must_be_clear(void **state)
{
    board.polls = BOARD_NEVER;
    board.chip.bl = 3;
    board.chip.rpel = 1;
    assert_false(memory_send_record(PART, SELECT, GATE, *state));
    assert_int_equal(board_note(), CREP_NOTE_REGISTER);
    assert_int_equal(board.chip.bl, 3);
    board_done();
    assert_int_equal(board.chip.bl, 0);
}

/* An X24F129 has no PEL: the kit's events for it have one message, and the driver moves no pin to set one. */
static void a_part_without_a_register(void **state)
{
    assert_int_equal(plays_what_the_kit_spells(CREP_X24F129, *state), CREP_SEND_X24F129);
    board.trace_len = 0;
    assert_true(memory_enable(CREP_X24F129, SELECT));
    assert_int_equal(board.trace_len, 0);
}

/* With the pin high gate 384, at 3000h, is kept, from a short load too, and gate 383 is written. */
static void the_pin_locks_from_3000h(void **state)
{
    const uint8_t *record = *state;

    board_new(CREP_X24F129, SELECT);
    assert_true(memory_write_sector(SELECT, FROM_3000H, record));
    assert_int_equal(board_note(), CREP_NOTE_STORED);
    board.pin = 1;
    assert_true(memory_write(SELECT, FROM_3000H * CREP_RECORD, record, 20));
    assert_int_equal(board_note(), CREP_NOTE_LOCKED);
    assert_memory_equal(board.array + FROM_3000H * CREP_RECORD, record, CREP_RECORD);
    assert_true(memory_write_sector(SELECT, LAST, record));
    assert_int_equal(board_note(), CREP_NOTE_LOCKED);
    assert_int_equal(board.array[LAST * CREP_RECORD], 0xff);
    assert_true(memory_write_sector(SELECT, FROM_3000H - 1, record));
    assert_int_equal(board_note(), CREP_NOTE_STORED);
    assert_memory_equal(board.array + (FROM_3000H - 1) * CREP_RECORD, record, CREP_RECORD);
}

/* 32 bytes for gate 384, the pin at one level up to the STOP and at another in it; returns the note. */
static int note_with_pins(const uint8_t *record, int before, int at_stop)
{
    int i;

    board.pin = before;
    wires_start();
    assert_true(wires_send(0xa0 | SELECT << 1));
    assert_true(wires_send(FROM_3000H * CREP_RECORD / 256) && wires_send(FROM_3000H * CREP_RECORD % 256));
    for (i = 0; i < CREP_RECORD; i++)
        assert_true(wires_send(record[i]));
    board_wires(0, 0);
    board_wires(1, 0);
    board.pin = at_stop;
    board_wires(1, 1);
    return board_note();
}

/* The STOP's own sample decides, and what it began ends with the pin high too. */
static void the_pin_counts_at_the_stop(void **state)
{
    board_new(CREP_X24F129, SELECT);
    assert_int_equal(note_with_pins(*state, 0, 1), CREP_NOTE_LOCKED);
    board.polls = BOARD_NEVER;
    assert_int_equal(note_with_pins(*state, 1, 0), CREP_NOTE_STORED);
    board.pin = 1;
    board_wires(1, 1);
    board_done();
    assert_memory_equal(board.array + FROM_3000H * CREP_RECORD, *state, CREP_RECORD);
}

/* Runs on a chip of this part the events that are for that one; returns the note of event 76. */
static int note_of_other_events(uint8_t part, uint8_t that, const uint8_t *record)
{
    static uint8_t events[CREP_SEND], answers[CREP_SEND];
    uint16_t n;

    board_new(part, SELECT);
    memcpy(board.array + LAST * CREP_RECORD, record, CREP_RECORD);
    board_taken(crep_send(that, SELECT, GATE, record, CREP_RECORD, events, sizeof events, &n));
    board_taken(crep_run(&board.chip, board.array, sizeof board.array, events, n, answers, sizeof answers));
    assert_int_equal(board.array[GATE * CREP_RECORD], 0xff);
    return CREP_NOTE(answers[76]);
}

/* The part of crep_send has to be the chip's: else the record is not stored, and an X24F129 loses that of gate 511. */
static void the_wrong_part_costs_a_record(void **state)
{
    uint8_t spoilt[CREP_RECORD];

    memset(spoilt, 0xff, sizeof spoilt);
    assert_int_equal(note_of_other_events(CREP_X24F129, CREP_X24F128, *state), CREP_NOTE_NOT_32);
    assert_memory_equal(board.array + LAST * CREP_RECORD, spoilt, CREP_RECORD);
    assert_int_equal(note_of_other_events(CREP_X24F128, CREP_X24F129, *state), CREP_NOTE_NONE);
    assert_memory_equal(board.array + LAST * CREP_RECORD, *state, CREP_RECORD);
}

/* The power fails in the cycle that overwrites a record: the array was as before until then, and half of it is new. */
static void a_cut_leaves_old_and_new(void **state)
{
    const uint8_t *sector = board.array + GATE * CREP_RECORD, *old_record = *state;
    uint8_t new_record[CREP_RECORD], bytes[CREP_RECORD];

    assert_true(memory_write_sector(SELECT, GATE, old_record));
    board_taken(crep_record_write(new_record, sizeof new_record, 160, -210, (const uint8_t *)"SOUTH", 5));
    board.polls = BOARD_NEVER;
    assert_true(memory_write(SELECT, GATE * CREP_RECORD, new_record, CREP_RECORD));
    assert_memory_equal(sector, old_record, CREP_RECORD);
    board_cut(0xffff);
    assert_memory_equal(sector, new_record, 16);
    assert_memory_equal(sector + 16, old_record + 16, 16);
    assert_true(memory_read_sector(SELECT, GATE, bytes));
    assert_memory_equal(bytes, sector, CREP_RECORD);
}

/* A short load is cut off before it spoils anything: the record is as it was, and PEL is to be set again. */
static void a_cut_spares_the_sector(void **state)
{
    board.chip.part = CREP_X24F128;
    assert_true(memory_write_sector(SELECT, GATE, *state));
    board.polls = BOARD_NEVER;
    assert_true(memory_write(SELECT, GATE * CREP_RECORD, *state, 20));
    assert_int_equal(board_note(), CREP_NOTE_NOT_32);
    board_cut(0);
    assert_memory_equal(board.array + GATE * CREP_RECORD, *state, CREP_RECORD);
    assert_false(memory_write_sector(SELECT, GATE, *state));
}

static unsigned first_free(void)
{
    uint16_t sector;

    board_taken(crep_map_first(board.map, sizeof board.map, &sector));
    return sector;
}

static void assert_map_is_true(void)
{
    uint8_t built[CREP_MAP];

    board_taken(crep_map_build(board.array, sizeof board.array, built, sizeof built));
    assert_memory_equal(built, board.map, sizeof built);
}

/* Two gates go where the map says, beside one that was there. */
static void gates_are_added_where_it_is_free(void **state)
{
    memcpy(board.array + CREP_RECORD, *state, CREP_RECORD);
    board_map();
    assert_int_equal(first_free(), 0);
    assert_true(memory_send_record(PART, SELECT, 0, *state));
    assert_int_equal(first_free(), 2);
    assert_true(memory_send_record(PART, SELECT, 2, *state));
    assert_int_equal(first_free(), 3);
    assert_map_is_true();
}

/* A full memory has no free sector, and crep_send refuses the 512 that says so. Bytes FFh free a sector. */
static void a_full_memory_has_none(void **state)
{
    static uint8_t events[CREP_SEND], empty[CREP_RECORD];
    uint16_t n;

    memset(board.array, 0x00, sizeof board.array);
    board_map();
    assert_int_equal(first_free(), CREP_NO_SECTOR);
    assert_int_equal(crep_send(PART, SELECT, CREP_NO_SECTOR, *state, CREP_RECORD, events, sizeof events, &n),
                     CREP_REFUSED_GATE);
    memset(empty, 0xff, sizeof empty);
    assert_true(memory_write_sector(SELECT, 511, empty));
    assert_int_equal(first_free(), 511);
    assert_map_is_true();
}

/* The map knows a gate when a byte of it is written, and not before: one place is enough. */
static void the_map_follows_a_cut(void **state)
{
    board.polls = BOARD_NEVER;
    assert_true(memory_write(SELECT, 0, *state, CREP_RECORD));
    assert_int_equal(first_free(), 0);
    board_cut(0);
    assert_int_equal(first_free(), 0);
    assert_true(memory_enable(PART, SELECT) && memory_write(SELECT, 0, *state, CREP_RECORD));
    board_cut(1u << 4);
    assert_int_equal(first_free(), 1);
    assert_map_is_true();
}

/* What was recorded, run by crep_run on a new chip, ends in the same chip and array. */
static void a_trace_runs_again(void **state)
{
    static uint8_t trace[CREP_TRACE], answers[CREP_TRACE], array[CREP_ARRAY];
    struct crep_chip chip;

    board.trace = trace;
    board.trace_room = sizeof trace;
    board_new(PART, SELECT);
    assert_true(memory_enable(PART, SELECT) && memory_write_sector(SELECT, GATE, *state));
    board.polls = BOARD_NEVER;
    assert_true(memory_write(SELECT, 0, *state, CREP_RECORD));
    board_cut(0xffff);
    memset(array, 0xff, sizeof array);
    board_taken(crep_new(&chip, PART, SELECT));
    board_taken(crep_run(&chip, array, sizeof array, trace, board.trace_len, answers, sizeof answers));
    assert_memory_equal(&chip, &board.chip, sizeof chip);
    assert_memory_equal(array, board.array, sizeof array);
}

/* Most drivers move one pin at a time, with the clock low between bits: a byte, and whether it was acknowledged. */
static int send_pin_by_pin(uint8_t byte)
{
    int i, low;

    for (i = 7; i >= 0; i--) {
        board_sda(byte >> i & 1);
        board_scl(1);
        board_scl(0);
    }
    board_sda(1);
    board_scl(1);
    low = !board_line();
    board_scl(0);
    return low;
}

static void one_pin_at_a_time(void **state)
{
    (void)state;
    board_sda(0);
    board_scl(0);
    assert_true(send_pin_by_pin(0xa0 | SELECT << 1) && send_pin_by_pin(0x00) && send_pin_by_pin(0xe0));
    assert_true(send_pin_by_pin('N'));
    board_sda(0);
    board_scl(1);
    board_sda(1);
    assert_int_equal(board_note(), CREP_NOTE_STORED);
    assert_int_equal(board.array[GATE * CREP_RECORD], 'N');
}

/* "Núñez" in UTF-8, seven bytes, and in ISO 8859-1, five. */
static const char nunez[] = "N\xc3\xba\xc3\xb1" "ez";
static const uint8_t nunez_label[] = { 'N', 0xfa, 0xf1, 'e', 'z' };

/* From a text in UTF-8 to a name in UTF-8, by way of a record and the wires. */
static void an_accented_label_comes_back(void **state)
{
    uint8_t label[CREP_LABEL], bytes[CREP_RECORD], from_record;
    char shown[LATIN1_NAME];
    uint64_t start, named;
    size_t len;

    (void)state;
    assert_int_equal(latin1_from_utf8(nunez, strlen(nunez), label, sizeof label, &len), LATIN1_OK);
    board_taken(crep_record_write(bytes, sizeof bytes, 150, -200, label, len));
    assert_true(memory_send_record(PART, SELECT, GATE, bytes));
    memset(bytes, 0x00, sizeof bytes);
    assert_true(memory_read_sector(SELECT, GATE, bytes));
    crep_name(bytes, sizeof bytes, NULL, 0, &start, &named, &from_record);
    assert_int_equal(from_record, 1);
    assert_int_equal(named, sizeof nunez_label);
    assert_memory_equal(bytes + start, nunez_label, named);
    assert_int_equal(latin1_to_utf8(bytes + start, named, shown, sizeof shown, &len), LATIN1_OK);
    assert_int_equal(len, strlen(nunez));
    assert_memory_equal(shown, nunez, len);
}

/* All 256 characters in one text: those from 80h on are two bytes. */
static void every_character_goes_there_and_back(void **state)
{
    uint8_t all[256], back[256];
    char text[512];
    size_t i, len;

    (void)state;
    for (i = 0; i < sizeof all; i++)
        all[i] = (uint8_t)i;
    assert_int_equal(latin1_to_utf8(all, sizeof all, text, sizeof text, &len), LATIN1_OK);
    assert_int_equal(len, 128 + 2 * 128);
    assert_int_equal(latin1_from_utf8(text, len, back, sizeof back, &len), LATIN1_OK);
    assert_int_equal(len, sizeof all);
    assert_memory_equal(back, all, sizeof all);
}

/* A text is refused so, alone and behind a good letter. */
static void assert_refused(const char *text, int refusal)
{
    char behind[8] = "N";
    uint8_t label[CREP_LABEL];
    size_t len = 99;

    memcpy(behind + 1, text, strlen(text));
    assert_int_equal(latin1_from_utf8(text, strlen(text), label, sizeof label, &len), refusal);
    assert_int_equal(len, 0);
    assert_int_equal(latin1_from_utf8(behind, 1 + strlen(text), label, sizeof label, &len), refusal);
}

static void bad_text_is_refused(void **state)
{
    static const char *const malformed[] = {
        "\x80", "\xbf", "\xa9N",                                            /* a stray byte */
        "\xc3", "\xc3N", "\xc3 ", "\xc3\xc3", "\xe2\x82", "\xf0\x9f\x9a",   /* cut short */
        "\xc0\x80", "\xc1\xbf", "\xe0\x83\xb1", "\xf0\x80\x83\xb1",         /* spelt in too many bytes */
        "\xed\xa0\x80", "\xf4\x90\x80\x80", "\xf9\x80\x80\x80", "\xff"      /* no character at all */
    };
    static const char *const foreign[] = {
        "\xc4\x80", "\xd3\xb1", "\xe2\x82\xac", "\xf0\x9f\x9a\xaa",         /* U+0100, 04F1, 20AC, 1F6AA */
        "n\xcc\x83"                                                         /* n and its tilde apart */
    };
    size_t i;

    (void)state;
    for (i = 0; i < sizeof malformed / sizeof *malformed; i++)
        assert_refused(malformed[i], LATIN1_NOT_UTF8);
    for (i = 0; i < sizeof foreign / sizeof *foreign; i++)
        assert_refused(foreign[i], LATIN1_NO_CHARACTER);
}

/* The length ends a text, also in a character whose other half lies behind it. */
static void no_byte_is_read_behind_a_text(void **state)
{
    uint8_t label[CREP_LABEL];
    size_t len;

    (void)state;
    assert_int_equal(latin1_from_utf8(nunez, 2, label, sizeof label, &len), LATIN1_NOT_UTF8);
    assert_int_equal(latin1_from_utf8(nunez, 3, label, sizeof label, &len), LATIN1_OK);
    assert_int_equal(len, 2);
    assert_memory_equal(label, nunez_label, len);
}

/* In every room that is too small a conversion is refused, and what lies behind the room stays. */
static void too_little_room_is_refused(void **state)
{
    uint8_t label[sizeof nunez_label];
    char text[sizeof nunez];
    size_t room, len;

    (void)state;
    for (room = 0; room < sizeof label; room++) {
        memset(label, '#', sizeof label);
        len = 99;
        assert_int_equal(latin1_from_utf8(nunez, strlen(nunez), label, room, &len), LATIN1_NO_ROOM);
        assert_int_equal(len, 0);
        assert_int_equal(label[room], '#');
    }
    for (room = 0; room < strlen(nunez); room++) {
        memset(text, '#', sizeof text);
        len = 99;
        assert_int_equal(latin1_to_utf8(nunez_label, sizeof nunez_label, text, room, &len), LATIN1_NO_ROOM);
        assert_int_equal(len, 0);
        assert_int_equal(text[room], '#');
    }
    assert_int_equal(latin1_from_utf8(nunez, strlen(nunez), label, sizeof label, &len), LATIN1_OK);
    assert_int_equal(latin1_to_utf8(nunez_label, sizeof nunez_label, text, strlen(nunez), &len), LATIN1_OK);
}

int main(void)
{
    const struct CMUnitTest tests[] = {
        cmocka_unit_test_setup(a_record_comes_back, new_board),
        cmocka_unit_test_setup(the_driver_waits, new_board),
        cmocka_unit_test_setup(a_short_load_spoils, new_board),
        cmocka_unit_test_setup(an_abandoned_write_spoils_nothing, new_board),
        cmocka_unit_test_setup(a_locked_sector_stays, new_board),
        cmocka_unit_test_setup(the_kit_sends_a_record, new_board),
        cmocka_unit_test_setup(rpel_must_be_clear, new_board),
        cmocka_unit_test_setup(a_part_without_a_register, new_board),
        cmocka_unit_test_setup(the_pin_locks_from_3000h, new_board),
        cmocka_unit_test_setup(the_pin_counts_at_the_stop, new_board),
        cmocka_unit_test_setup(the_wrong_part_costs_a_record, new_board),
        cmocka_unit_test_setup(a_cut_leaves_old_and_new, new_board),
        cmocka_unit_test_setup(a_cut_spares_the_sector, new_board),
        cmocka_unit_test_setup(gates_are_added_where_it_is_free, new_board),
        cmocka_unit_test_setup(a_full_memory_has_none, new_board),
        cmocka_unit_test_setup(the_map_follows_a_cut, new_board),
        cmocka_unit_test_setup(a_trace_runs_again, new_board),
        cmocka_unit_test_setup(one_pin_at_a_time, new_board),
        cmocka_unit_test_setup(an_accented_label_comes_back, new_board),
        cmocka_unit_test(every_character_goes_there_and_back),
        cmocka_unit_test(bad_text_is_refused),
        cmocka_unit_test(no_byte_is_read_behind_a_text),
        cmocka_unit_test(too_little_room_is_refused),
    };

    return cmocka_run_group_tests_name("gate memory", tests, NULL, NULL);
}
