/*
 * crepulanter.h: gate records, the events that send one and the map of free sectors, for a panel's firmware; and a model
 * of the X24128, X24F128 and X24F129 memory chips, on which that firmware is tried.
 * C99 or C++98 and later. The library behind it, libcrepulanter.a, is for x86-64 Linux; targets/README.md has it for
 * Cortex-M, RISC-V, AArch64 Linux and web pages.
 *
 * ON A PANEL call crep_record_write, crep_record_limits, crep_record_read, crep_name, crep_send, crep_map_build and
 * crep_map_first. None of them knows a chip: linked with --gc-sections they bring no code of the model along.
 *
 * ON THE MODEL let your bit-banging driver call crep_event in place of its port pins, and read in the answers what the
 * chip would have done.
 *
 * THE SHORTEST TEST
 *
 *     static uint8_t array[CREP_ARRAY];              // what the chip holds; yours to fill and to look at
 *     struct crep_chip chip;
 *     uint8_t answer, refusal;
 *     refusal = crep_new(&chip, CREP_X24F128, 0);    // an X24F128 with select 0, just powered up
 *     if (refusal == 0)                              // both wires high
 *         refusal = crep_event(&chip, array, sizeof array, CREP_SCL | CREP_SDA, &answer);
 *     if (refusal == 0)                              // data falls: a START
 *         refusal = crep_event(&chip, array, sizeof array, CREP_SCL, &answer);
 *     if (refusal != 0)
 *         puts(crep_refusal_text(refusal));
 *     // CREP_LINE(answer) is the level of the data wire now, CREP_NOTE(answer) what the event did
 *
 * EVENT BYTES                                     ANSWER BYTES
 *     0-7  a sample of the wires:                     bit 0     the level of the data wire after the event
 *          bit 0  SCL level                           bits 1-3  the note
 *          bit 1  master's SDA: 0 pulls, 1 lets go    bits 4-7  0
 *          bit 2  protect pin level
 *     8    program-done: the cycle has ended, what waited is written
 *     9    power-up: of a cycle that it cuts off, all is written
 *     10   power-up: of a cycle that it cuts off, nothing is written
 *     11   power-up: of a cycle that it cuts off, places 0 to 15 of the sector are written, or the register byte
 *     12 and above are refused (6)
 *   A clock is two samples: SCL low, then SCL high, with the bit on SDA in both. A START is SDA falling and a
 *   STOP is SDA rising between two samples with SCL high. Where SCL changes, only the clock edge counts.
 *   Byte sequences, pin low: 3 1 start - 2 3 1 repeated start - 0 1 3 stop - 0 1 a bit 0 - 2 3 a bit 1.
 *   After eight bits a ninth clock 2 3 lets SDA go: the chip pulls it low (acknowledge) or does not.
 *
 * FOR THE AUTHOR OF A DRIVER
 *   - After crep_new and after a power-up the chip's last SCL is low. A first sample with SCL high and SDA pulled is
 *     then a rising clock and no START: send one sample with both wires high before it.
 *   - Notes 1, 2 and 5 begin a cycle and write nothing yet: what is to be written waits in the chip, and CREP_DONE
 *     writes it. Look at the array, or at PPEN and BL, after that. Unless CREP_DONE (or a power-up) is sent, the chip
 *     stays busy for ever, deaf to the wires.
 *   - A power-up in a cycle is the supply lost in it: each byte of the waiting sector is then the old or the new one,
 *     as the event byte or the choices of crep_power_up say, and every other byte of the array is kept.
 *   - An X24F128 and an X24F129 take whole sectors. A load of fewer or more than 32 bytes spoils its sector, unless
 *     that is locked: after the cycle (note 5) neither the load nor what stood there before is left, all 32 bytes are
 *     chip.spoil. To break a write off make a START and then a STOP: the START drops the load (note 7), a STOP alone
 *     commits it.
 *   - An X24128 and an X24F128 take data bytes while PEL is 1: send 02h to FFFFh, the register, after each power-up. An
 *     X24F129 has no register and no PEL and always takes them. FFFFh is 3FFFh there: 02h sent to it is a load of one
 *     byte and, with the protect pin low, spoils sector 511. So a driver has to know which part the panel has.
 *   - In an X24128 and an X24F128 BL locks, whatever the protect pin is. In an X24F129 the pin locks, from 3000h on. It
 *     counts in one sample alone, that of the STOP. High there: nothing is written (note 4). Low there: the cycle
 *     begins, and the pin is not asked again until CREP_DONE.
 *   - A write that ends in note 0 was not taken: PEL is not set (an X24F129 has none), or the slave byte names another
 *     select, or the chip is busy, or a call was refused and its result dropped. The missing acknowledge tells which
 *     byte it was.
 *   - Letting SDA go while SCL is high is a STOP, and a STOP can commit a load. Where a bus hangs, do not tidy the pins
 *     first: crep_recover takes the chip as it was left.
 *   - crep_recover ends with SCL high and SDA pulled, its START made: a driver that keeps its own idea of its pins sets
 *     it so, and goes on with the slave byte.
 *
 * LENGTHS are uint64_t on every machine, as wide as the proved code counts: a size_t is taken where one is handed over,
 * and the two numbers that crep_name writes are uint64_t.
 *
 * POINTERS: each points to what its type says and is never null. A pointer that comes with a length is read and
 * written within that length alone; with length 0 it may be anything. No two of the buffers and numbers of one call
 * overlap, but for two that are const. Nothing is allocated or kept between calls, so chips are copied by `=` and
 * calls on different chips, arrays and maps may run at once.
 */
#ifndef CREPULANTER_H
#define CREPULANTER_H

#include <stdint.h>

#ifdef __cplusplus
extern "C" {
#endif

#define CREP_VERSION "0.10.0"
#define CREP_VERSION_NUMBER 1000        /* the same for #if: 10000 * first + 100 * second + third */

/* Before a call whose result must not be dropped: the compiler warns where it is. */
#if defined(__GNUC__)
#define CREP_CHECKED __attribute__((warn_unused_result))
#elif defined(__cplusplus) && __cplusplus >= 201703L
#define CREP_CHECKED [[nodiscard]]
#else
#define CREP_CHECKED
#endif

/* ---- Sizes ---- */

#define CREP_ARRAY 16384        /* bytes of the array: 512 sectors of 32 */
#define CREP_SECTORS 512        /* sectors of the array */
#define CREP_MAP 64             /* bytes of a map: a bit for each sector */
#define CREP_RECORD 32          /* bytes of a gate's record: one sector */
#define CREP_LABEL 24           /* the longest label: bytes, each one a character */
#define CREP_TRACE 65536        /* the longest trace of one crep_run or crep_map_run */
#define CREP_PULSES 10          /* the most pulses that crep_recover makes */
#define CREP_SEND 713           /* events that crep_send writes for an X24128 or an X24F128, the most for any part */
#define CREP_SEND_X24F129 636   /* and for an X24F129, which has no PEL to set */
#define CREP_STATE 151          /* bytes of a struct crep_chip */

/* ---- Parts, events, answers ---- */

#define CREP_X24128 0           /* stores a load of any length */
#define CREP_X24F128 1          /* stores 32 bytes, any other load spoils its sector; the part of the standard chip */
#define CREP_X24F129 2          /* as the X24F128, but no register, no PEL; 3000h-3FFFh locked while the pin is high */

#define CREP_SCL 1              /* in a sample: the clock is high */
#define CREP_SDA 2              /* in a sample: the master lets the data wire go */
#define CREP_PIN 4              /* in a sample: the protect pin is high */
#define CREP_DONE 8             /* event: program-done */
#define CREP_POWER_UP 9         /* event: power-up with all choices, FFFFFFFFh: see crep_power_up */
#define CREP_CUT_NONE 10        /* event: power-up with no choice, 00000000h */
#define CREP_CUT_HALF 11        /* event: power-up with choices 0 to 15, 0000FFFFh */

#define CREP_LINE(answer) ((answer) & 1)            /* level of the data wire, 0 or 1 */
#define CREP_NOTE(answer) ((answer) >> 1 & 7)       /* the note, 0 to 7 */

/* ---- Notes: what an event did ---- */

#define CREP_NOTE_NONE 0        /* nothing to say */
#define CREP_NOTE_STORED 1      /* array cycle begun: the chip is busy, CREP_DONE stores the loaded bytes */
#define CREP_NOTE_REGISTER 2    /* register cycle begun: the chip is busy, CREP_DONE sets PPEN and BL */
#define CREP_NOTE_LATCH 3       /* PEL or RPEL set or cleared by a register byte */
#define CREP_NOTE_LOCKED 4      /* the sector is locked, by BL, in an X24F129 by the pin: nothing written */
#define CREP_NOTE_NOT_32 5      /* X24F128 or X24F129, not 32 bytes: array cycle begun, CREP_DONE spoils its sector */
#define CREP_NOTE_NOT_TAKEN 6   /* register byte not taken: RPEL not set before, reserved bits, or PPEN with the pin */
#define CREP_NOTE_DROPPED 7     /* loaded bytes dropped by a START, a misplaced STOP or a second register byte */

/*
 * ---- Refusals ----
 * Every call returns one of these numbers, CREP_OK where it was done. The first in the order of its row wins.
 *
 *     crep_new            3                      crep_record_write   7 8 9 10 11
 *     crep_event          1 2 6                  crep_record_limits  7 12 13 14 10 11
 *     crep_run            1 2 4 5 6              crep_record_read    7 12 13 14
 *     crep_power_up       1 2                    crep_name           none
 *     crep_recover        1 2                    crep_map_build      1 18
 *     crep_send           7 12 13 14 15 16 3 17  crep_map_first      18
 *     crep_map_event      1 18 2 6               crep_map_power_up   1 18 2
 *     crep_map_run        1 18 2 4 5 6
 *
 * A refused call runs nothing and changes neither the chip, nor the array, nor any buffer, the map among them. What it
 * does write:
 *     crep_new          the standard chip (X24F128, select 0) into *chip
 *     crep_event        1 into *answer (line high, note 0); crep_map_event and the two power-ups too
 *     crep_recover      0 into *pulses
 *     crep_record_read  0 into each of its five numbers
 *     crep_send         0 into *events
 *     crep_map_first    CREP_NO_SECTOR into *sector
 */
#define CREP_OK 0
#define CREP_REFUSED_ARRAY_LENGTH 1     /* array_len is not 16384 */
#define CREP_REFUSED_CHIP 2             /* a field of the chip is out of its range */
#define CREP_REFUSED_PART_OR_SELECT 3   /* crep_new: part above 2 or select above 7; crep_send: part above 2 */
#define CREP_REFUSED_TRACE_LENGTH 4     /* trace_len above 65536 */
#define CREP_REFUSED_ANSWERS_LENGTH 5   /* answers_len below trace_len */
#define CREP_REFUSED_EVENT 6            /* an event byte above 11 */
#define CREP_REFUSED_RECORD_LENGTH 7    /* record_len is not 32 */
#define CREP_REFUSED_LABEL_LENGTH 8     /* label_len above 24 */
#define CREP_REFUSED_LABEL_BYTE 9       /* a label byte outside 20h-7Eh and A1h-FEh */
#define CREP_REFUSED_LIMIT 10           /* a limit outside -30000..30000 */
#define CREP_REFUSED_EQUAL_LIMITS 11    /* the two limits are equal */
#define CREP_REFUSED_STATE_BYTE 12      /* state byte is not A5h (reading: and the record is not free) */
#define CREP_REFUSED_SUM 13             /* the record's sum is wrong */
#define CREP_REFUSED_LAYOUT 14          /* length, label, padding or limits are against the layout */
#define CREP_REFUSED_GATE 15            /* gate above 511 */
#define CREP_REFUSED_SELECT 16          /* crep_send: select above 7 */
#define CREP_REFUSED_EVENTS_LENGTH 17   /* crep_send: trace_len below 713, or below 636 for an X24F129 */
#define CREP_REFUSED_MAP_LENGTH 18      /* map_len is not 64 */

/* ---- The chip ---- */

/* Where a transfer stands, and what the chip then carries in bits, byte and high ("-": not read, and 0 after a call
 * that was not refused). In 5 to 8 the chip pulls the data wire, in 9 while the bit it sends is 0; nowhere else, and
 * never while busy. */
                                    /*                                      bits           byte       high           */
#define CREP_PHASE_STANDBY 0        /* standby                              -              -          -              */
#define CREP_PHASE_SLAVE 1          /* receiving the slave byte             received 0-8   what came  -              */
#define CREP_PHASE_FIRST 2          /* receiving the first address byte     received 0-8   what came  -              */
#define CREP_PHASE_SECOND 3         /* receiving the second address byte    received 0-8   what came  first address  */
#define CREP_PHASE_DATA 4           /* receiving a data byte                received 0-8   what came  -              */
#define CREP_PHASE_ACK_WRITE 5      /* acknowledging a slave byte, write    -              -          -              */
#define CREP_PHASE_ACK_READ 6       /* acknowledging a slave byte, read     -              -          -              */
#define CREP_PHASE_ACK_FIRST 7      /* acknowledging the first address      -              -          first address  */
#define CREP_PHASE_ACK_BYTE 8       /* acknowledging the second or data     -              -          -              */
#define CREP_PHASE_SENDING 9        /* sending                              bit sent 7-0   byte sent  -              */
#define CREP_PHASE_WAITING 10       /* let go, master's bit to come         -              -          -              */
#define CREP_PHASE_NEXT 11          /* master's bit was low, byte follows   -              -          -              */

/* What waits for the end of a cycle, and what the chip then carries in the other wait_ fields ("-": not read, and 0
 * after a call that was not refused). Until CREP_DONE locks, the protect pin's guard and a register read go by ppen and
 * bl. A new cycle overwrites what waited; after CREP_DONE on a busy chip, and after a power-up, nothing waits. In an
 * idle chip only a caller makes something wait: CREP_DONE leaves it, a power-up drops it unwritten. */
                                    /*                    high, low         ppen, bl    places, bytes               */
#define CREP_WAIT_NOTHING 0         /* nothing            -                 -           -                           */
#define CREP_WAIT_SECTOR 1          /* an array cycle     sector's number   -           what it is to write         */
#define CREP_WAIT_REGISTER 2        /* a register cycle   -                 new values  -                           */

/*
 * A chip: single bytes with no padding. Every field may be looked at and set; a value out of its range makes the next
 * call refuse with 2. A flag is 0 or 1, anything else is out of range. Begin with crep_new and set fields then: later
 * versions add fields at the end.
 *
 *     part          CREP_X24128, CREP_X24F128 or CREP_X24F129                                    0-2
 *     select        the chip's S2 S1 S0 pins                                                     0-7
 *     ppen          register: the protect pin guards the register's PPEN and BL (also WPEN)      flag
 *     bl            register: locks from 0 nothing, 1 3000h, 2 2000h, 3 0000h                    0-3
 *     rpel          register: the next register byte may set PPEN and BL (also RWEL)             flag
 *     pel           register: data bytes are taken (also WEL)                                    flag
 *     counter_high  address counter / 256                                                        0-3Fh
 *     counter_low   address counter % 256                                                        any
 *     mark          address FFFFh was sent: the register is selected, not the array              flag
 *     busy          a cycle runs: wires are ignored until event 8, 9, 10 or 11                   flag
 *     scl           SCL level of the last sample                                                 flag
 *     line          level of the data wire after the last event                                  flag
 *     phase         where a transfer stands, CREP_PHASE_..                                       0-11
 *     bits, byte, high   belong to the phase, above
 *     count         data bytes loaded since the address; 33 means 33 or more                     0-33
 *     places[i]     a byte is loaded for place i of the sector                                   flag
 *     load[i]       that byte; a register byte is load[0]                                        any
 *     spoil         the byte that a short load leaves in all 32 places; FFh in a new chip        any
 *     wait          what waits for the end of a cycle, CREP_WAIT_.., above                       0-2
 *     wait_high     number of the waiting sector / 256                                           0-1
 *     wait_low      number of the waiting sector % 256                                           any
 *     wait_ppen     waiting PPEN                                                                 flag
 *     wait_bl       waiting BL                                                                   0-3
 *     wait_places[i]     place i of the waiting sector takes a byte                              flag
 *     wait_bytes[i]      that byte; 0 from a STOP where it takes none                            any
 *
 * An X24F129 carries ppen, bl, rpel, pel and mark and does not read them: two that differ in these alone answer alike.
 * Out of range they are refused with 2 there too, and they are written as in the other parts.
 * No event and no power-up changes spoil; a cycle takes it at its STOP. A sector spoilt with FFh reads as a free
 * record; set chip.spoil after crep_new to have it refused, with 13 for A5h and with 12 for any other byte.
 */
struct crep_chip {
    uint8_t part, select, ppen, bl, rpel, pel, counter_high, counter_low, mark, busy, scl, line;
    uint8_t phase, bits, byte, high, count, places[32], load[32], spoil;
    uint8_t wait, wait_high, wait_low, wait_ppen, wait_bl, wait_places[32], wait_bytes[32];
};

/*
 * Makes a new chip: PPEN 0, BL 0, spoil FFh, just powered up (standby, last SCL low, last line high, nothing waits).
 * part is CREP_X24128, CREP_X24F128 or CREP_X24F129.
 * Refuses with 3, and then makes the standard chip, an X24F128 with select 0 whatever was asked for.
 */
CREP_CHECKED uint8_t crep_new(struct crep_chip *chip, uint8_t part, uint8_t select);

/*
 * Runs one event on the chip and its array, and puts the answer byte into *answer.
 * Refuses with 1, 2, 6; *answer is then 1.
 */
CREP_CHECKED uint8_t crep_event(struct crep_chip *chip, uint8_t *array, uint64_t array_len,
                                uint8_t event, uint8_t *answer);

/*
 * Runs a whole trace: answers[i] is the answer to trace[i]; answers past trace_len stay. An empty trace is taken.
 * Refuses with 1, 2, 4, 5, 6 before the first event, so a refused trace runs nothing.
 */
CREP_CHECKED uint8_t crep_run(struct crep_chip *chip, uint8_t *array, uint64_t array_len,
                              const uint8_t *trace, uint64_t trace_len, uint8_t *answers, uint64_t answers_len);

/*
 * A power-up with any 32 choices; events 9, 10 and 11 know three sets of them. Of a cycle that it cuts off, place k of
 * the waiting sector takes the byte that waits for it where bit k of choices is set, and a waiting register byte is
 * taken, PPEN and BL together, where bit 0 is. All else in the array stays. An idle chip does not look at choices.
 * Then, as always at power-up, busy, PEL, RPEL, counter, mark, load and what waits are cleared, the chip is in standby,
 * last SCL low, last line high; part, select, PPEN, BL and spoil stay. *answer is 1: line high, note 0.
 * Refuses with 1, 2; *answer is then 1 too.
 */
CREP_CHECKED uint8_t crep_power_up(struct crep_chip *chip, uint8_t *array, uint64_t array_len,
                                   uint32_t choices, uint8_t *answer);

/*
 * Frees a bus that the chip holds: pulses the clock with the data wire let go until the line is high, then makes a
 * START. *pulses is the number of that pulse, 1 to 10. pin is the protect pin's level, 0 low, any other value high.
 * The array and PPEN, BL, RPEL, PEL, spoil and what waits stay; the counter, the mark, the load and the phase may not.
 * SCL is high and SDA pulled afterwards. A busy chip reports 1 and ignores the START.
 * Refuses with 1, 2; *pulses is then 0.
 */
CREP_CHECKED uint8_t crep_recover(struct crep_chip *chip, uint8_t *array, uint64_t array_len,
                                  uint8_t pin, uint8_t *pulses);

/* ---- Gate records ---- */

/*
 * Writes a gate's record, 32 bytes for one sector: 0-1 closed limit, 2-3 open limit (two's complement, high byte
 * first), 4 A5h, 5 label length, 6-29 label padded with 20h, 30-31 sum of bytes 0-29 (high byte first).
 * Limits in encoder counts. The label is up to 24 characters of ISO 8859-1, a byte each: 20h-7Eh and A1h-FEh are good,
 * 7Fh-A0h and FFh are refused with 9.
 * Refuses with 7, 8, 9, 10, 11; the record then keeps its bytes.
 * WARNING: label must not lie in record. crep_record_write(r, 32, closed, opened, r + 6, r[5]) is not refused and
 * leaves a record whose label is lost; to change the limits and keep the label, call crep_record_limits.
 * WARNING: a string from a UTF-8 source or terminal is not ISO 8859-1. An e with acute, E9h, is C3h A9h there and would
 * be taken as two other characters; an A with acute, C1h, is C3h 81h there and refused with 9. Convert it first, as
 * latin1_from_utf8 of examples/latin1.h does.
 */
CREP_CHECKED uint8_t crep_record_write(uint8_t *record, uint64_t record_len, int32_t closed, int32_t opened,
                                       const uint8_t *label, uint64_t label_len);

/*
 * Changes the limits of a good record and keeps its label: bytes 0-3 and the sum change, nothing beside them.
 * Refuses with 7, 12 (here for a free record too), 13, 14 by reading the record, then 10, 11 for the new limits; the
 * record then keeps its bytes.
 */
CREP_CHECKED uint8_t crep_record_limits(uint8_t *record, uint64_t record_len, int32_t closed, int32_t opened);

/*
 * Reads a gate's record: both limits, the travel (opened - closed, negative for a left-hung motor, never 0) and the
 * label's length as stored; *free_record is 0. A free record, 32 bytes of FFh, is not refused: it gives 0 for all
 * four and 1 in *free_record.
 * Refuses with 7, 12, 13, 14; all five are then 0.
 */
CREP_CHECKED uint8_t crep_record_read(const uint8_t *record, uint64_t record_len, int32_t *closed, int32_t *opened,
                                      int32_t *travel, uint8_t *label_len, uint8_t *free_record);

/*
 * Where the name to show lies: *len bytes from *start. With *from_record 1 they are in record, the label without its
 * trailing spaces; with 0 they are in standard, the whole of it, since the record is free, refused or blank.
 * A name in record is ISO 8859-1, to be converted where a terminal shows UTF-8; standard is whatever you lent.
 * It always answers: the number returned is 0 for any lengths and any bytes, and standard is not checked. So this
 * result alone may be dropped.
 */
uint8_t crep_name(const uint8_t *record, uint64_t record_len, const uint8_t *standard, uint64_t standard_len,
                  uint64_t *start, uint64_t *len, uint8_t *from_record);

/* ---- Sending a record ---- */

/*
 * Writes into trace the events that send a gate's record to a chip of this part and select: a message that sets PEL
 * (02h to the register), left out for an X24F129; a message with the 32 bytes at address 32 * gate; then CREP_DONE. The
 * protect pin is low in all. *events is their number, and the bytes of trace past them stay; CREP_SEND bytes are room
 * for every part. It is the firmware's own routine and needs no chip: a driver plays the samples on its two pins and
 * waits out the cycle where CREP_DONE stands; crep_run plays them on the model.
 *
 *                            X24128, X24F128        X24F129
 *     *events                713, CREP_SEND         636, CREP_SEND_X24F129
 *     bytes acknowledged     39                     35
 *     STOP that sets PEL     event 76, note 3       none
 *     STOP of the record     event 711, note 1      event 634, note 1
 *         sector locked      event 711, note 4      with the pin low none is
 *     CREP_DONE              event 712              event 635
 *
 * They are for a chip of the same part and select, idle in standby, RPEL 0 (in an X24F129 any), its load empty and the
 * data wire high, as crep_new and a power-up leave it. After CREP_DONE an unlocked sector holds the record, a locked
 * one stays, and every other byte of the array is kept. The chip is idle in standby again, PEL 1 (in an X24F129 as
 * before), PPEN and BL as before.
 * A power-up in between keeps every other sector, and this one too unless it comes in the cycle, between the STOP of
 * the record and CREP_DONE: then each place holds its old byte or its new one, as chosen. examples/power_cut.c tries
 * every point.
 * WARNING: part has to be the chip's. The 713 events spoil sector 511 of an X24F129: their first message is there a
 * load of one byte at 3FFFh (note 5 at event 76). Its cycle makes the chip deaf to the second message, so the record is
 * not stored either. The 636 events set no PEL: in an X24128 or X24F128 with PEL 0 the first byte of the record is not
 * acknowledged and nothing is stored; with PEL 1 the record is stored.
 * WARNING: in an X24128 or X24F128 with RPEL 1 the first message is a register write that sets PPEN 0 and BL 0: it
 * unlocks the chip, and the record is not stored (note 2 at event 76, no acknowledge after it). A power-up clears RPEL,
 * and so does a write to any unlocked sector.
 * Refuses with 7, 12 (here for a free record too), 13, 14 by reading the record, then 15, 16, 3 for the part, 17 for a
 * trace_len below the number of events; *events is then 0.
 */
CREP_CHECKED uint8_t crep_send(uint8_t part, uint8_t select, uint16_t gate, const uint8_t *record, uint64_t record_len,
                               uint8_t *trace, uint64_t trace_len, uint16_t *events);

/* ---- The map of free sectors ---- */

/*
 * A map is CREP_MAP bytes that you keep beside the array, a bit for each sector: sector k is bit k % 8 of byte k / 8,
 * bit 0 the lowest. It is set where the sector's record is not free: 32 bytes of FFh are free, a bad record is not.
 *
 * Build it once with crep_map_build; from then on crep_map_event, crep_map_run and crep_map_power_up keep it true, in
 * place of crep_event, crep_run and crep_power_up. It falls behind where one of these runs on the same array, or where
 * you write array bytes yourself: build it again then. crep_recover writes no array byte and needs no map.
 */
#define CREP_NO_SECTOR 512      /* crep_map_first: no sector is free */

/*
 * Writes the map of an array over all 64 bytes, whatever they were.
 * Refuses with 1, 18; the map then keeps its bytes.
 */
CREP_CHECKED uint8_t crep_map_build(const uint8_t *array, uint64_t array_len, uint8_t *map, uint64_t map_len);

/*
 * The first free sector, 0 to 511, or CREP_NO_SECTOR where none is: the first bit of the map that is 0. With a true map
 * it is the sector that reading all 512 records would find. It reads the map alone, true or not, and needs neither chip
 * nor array: a routine for the firmware, as crep_send is.
 * The map says nothing of locks: a free sector may be a locked one.
 * Refuses with 18; *sector is then CREP_NO_SECTOR and not 0, so that a caller who overlooks the refusal is not led to
 * the sector of gate 0; crep_send refuses gate 512 with 15.
 */
CREP_CHECKED uint8_t crep_map_first(const uint8_t *map, uint64_t map_len, uint16_t *sector);

/*
 * crep_event with a map beside the array: chip, array and *answer become what crep_event makes of them. CREP_DONE and a
 * power-up, on a busy chip with a waiting sector, set that sector's bit from the array as it is then: 1 where it is not
 * free now, 0 where it is, as after a spoil with FFh or a store of 32 bytes FFh. No other event changes the map, a STOP
 * neither, and no other bit of it ever changes, true or not: a map that was true before is true after.
 * Refuses with 1, 18, 2, 6; *answer is then 1.
 */
CREP_CHECKED uint8_t crep_map_event(struct crep_chip *chip, uint8_t *array, uint64_t array_len,
                                    uint8_t *map, uint64_t map_len, uint8_t event, uint8_t *answer);

/*
 * crep_power_up with a map beside the array, which it keeps as crep_map_event does, whatever was chosen.
 * Refuses with 1, 18, 2; *answer is then 1 too.
 */
CREP_CHECKED uint8_t crep_map_power_up(struct crep_chip *chip, uint8_t *array, uint64_t array_len,
                                       uint8_t *map, uint64_t map_len, uint32_t choices, uint8_t *answer);

/*
 * crep_run with a map beside the array: as crep_map_event for one event after the other. What crep_send wrote runs here
 * too, and then the map knows the new gate.
 * Refuses with 1, 18, 2, 4, 5, 6 before the first event, so a refused trace runs nothing.
 */
CREP_CHECKED uint8_t crep_map_run(struct crep_chip *chip, uint8_t *array, uint64_t array_len,
                                  uint8_t *map, uint64_t map_len, const uint8_t *trace, uint64_t trace_len,
                                  uint8_t *answers, uint64_t answers_len);

/* ---- Texts ---- */

/* What a note says, in words. */
static inline const char *crep_note_text(int note)
{
    static const char *const texts[] = {
        "nothing to say",
        "array cycle begun, to store the loaded bytes",
        "register cycle begun, to set PPEN and BL",
        "PEL or RPEL set or cleared",
        "sector locked, nothing written",
        "not exactly 32 bytes: array cycle begun, to spoil the sector",
        "register byte not taken",
        "loaded bytes dropped"
    };

    return note >= 0 && note <= CREP_NOTE_DROPPED ? texts[note] : "no such note";
}

/* What a refusal says, in words. */
static inline const char *crep_refusal_text(int refusal)
{
    static const char *const texts[] = {
        "done, not refused",
        "array is not 16384 bytes",
        "a field of the chip is out of its range",
        "no such part, or select above 7",
        "trace over 65536 events",
        "answer buffer shorter than the trace",
        "an event byte above 11",
        "record buffer is not 32 bytes",
        "label over 24 bytes",
        "a label byte outside 20h-7Eh and A1h-FEh",
        "a limit outside -30000..30000",
        "the two limits are equal",
        "state byte is not A5h: no gate's record",
        "the record's sum is wrong",
        "length, label, padding or limits against the layout",
        "gate number above 511",
        "select above 7",
        "buffer shorter than 713 events, X24F129: 636",
        "map is not 64 bytes"
    };

    return refusal >= 0 && refusal <= CREP_REFUSED_MAP_LENGTH ? texts[refusal] : "no such refusal";
}

/* The library reads a chip as CREP_STATE bytes in a row. */
#if defined(__cplusplus) && __cplusplus >= 201103L
static_assert(sizeof(struct crep_chip) == CREP_STATE, "struct crep_chip is CREP_STATE bytes");
#elif defined(__STDC_VERSION__) && __STDC_VERSION__ >= 201112L
_Static_assert(sizeof(struct crep_chip) == CREP_STATE, "struct crep_chip is CREP_STATE bytes");
#else
typedef char crep_chip_is_crep_state_bytes[sizeof(struct crep_chip) == CREP_STATE ? 1 : -1];
#endif

#ifdef __cplusplus
}
#endif

#endif
