#include "driver.h"

#include "board.h"
#include "crepulanter.h"

enum { SLAVE_WRITE = 0xa0, SLAVE_READ = 0xa1, SECTOR = 32, PULSES = 10, POLLS = 1000 };

/* ---- The wires ---- */

/* The clock falls first, so that an acknowledge before it ends and the data wire can rise. */
void wires_start(void)
{
    board_wires(0, 1);
    board_wires(1, 1);
    board_wires(1, 0);
}

void wires_stop(void)
{
    board_wires(0, 0);
    board_wires(1, 0);
    board_wires(1, 1);
}

void wires_abandon(void)
{
    wires_start();
    wires_stop();
}

int wires_clock(int sda)
{
    board_wires(0, sda);
    board_wires(1, sda);
    return board_line();
}

/* The ninth clock lets the data wire go: low is the chip's acknowledge. */
int wires_send(uint8_t byte)
{
    int i;

    for (i = 7; i >= 0; i--)
        wires_clock(byte >> i & 1);
    return wires_clock(1) == 0;
}

uint8_t wires_receive(int more)
{
    unsigned byte = 0;
    int i;

    for (i = 0; i < 8; i++)
        byte = byte << 1 | (unsigned)wires_clock(1);
    wires_clock(!more);
    return (uint8_t)byte;
}

/* Ten, not nine: a chip stopped with the clock low in its acknowledge has a whole byte still to send. */
int wires_free(void)
{
    int pulse;

    for (pulse = 1; pulse <= PULSES; pulse++)
        if (wires_clock(1)) {
            board_wires(1, 0);
            return pulse;
        }
    return 0;
}

/* ---- The memory ---- */

static uint8_t slave(uint8_t select, uint8_t kind)
{
    return (uint8_t)(kind | select << 1);
}

static int send_address(uint8_t select, uint16_t address)
{
    wires_start();
    return wires_send(slave(select, SLAVE_WRITE)) && wires_send((uint8_t)(address >> 8))
        && wires_send((uint8_t)address);
}

/* Noise may hide an acknowledge: a stop after a byte that only seems refused would commit a short load. */
int memory_write(uint8_t select, uint16_t address, const uint8_t *bytes, size_t n)
{
    int good = send_address(select, address);
    size_t i;

    for (i = 0; good && i < n; i++)
        good = wires_send(bytes[i]);
    if (good)
        wires_stop();
    else
        wires_abandon();
    return good;
}

/* The register stands at FFFFh; 02h sets PEL. In an X24F129 that is 3FFFh, and one byte would spoil the last sector. */
int memory_enable(uint8_t part, uint8_t select)
{
    uint8_t byte = 0x02;

    return part == CREP_X24F129 || memory_write(select, 0xffff, &byte, 1);
}

int memory_read(uint8_t select, uint16_t address, uint8_t *bytes, size_t n)
{
    int good = send_address(select, address);
    size_t i;

    if (good) {
        wires_start();
        good = wires_send(slave(select, SLAVE_READ));
    }
    for (i = 0; good && i < n; i++)
        bytes[i] = wires_receive(i + 1 < n);
    wires_stop();
    return good;
}

/* A busy chip answers nothing, not even its own slave byte. */
int memory_wait(uint8_t select, int polls)
{
    int poll, here;

    for (poll = 1; poll <= polls; poll++) {
        wires_start();
        here = wires_send(slave(select, SLAVE_WRITE));
        wires_stop();
        if (here)
            return poll;
    }
    return 0;
}

int memory_write_sector(uint8_t select, unsigned sector, const uint8_t *bytes)
{
    return memory_write(select, (uint16_t)(sector * SECTOR), bytes, SECTOR) && memory_wait(select, POLLS);
}

int memory_read_sector(uint8_t select, unsigned sector, uint8_t *bytes)
{
    return memory_read(select, (uint16_t)(sector * SECTOR), bytes, SECTOR);
}

/* One sample on the pins; the protect pin, bit 2 of the event, is not the driver's. */
static uint8_t play_sample(uint8_t event)
{
    board_wires((event & CREP_SCL) != 0, (event & CREP_SDA) != 0);
    return event & (CREP_SCL | CREP_SDA);
}

/* Clocks count from each START, the data wire falling with the clock high: every ninth is an acknowledge. */
int memory_play(uint8_t select, const uint8_t *events, size_t n)
{
    uint8_t before, now = CREP_SCL | CREP_SDA;
    int clocks = 0;
    size_t i;

    for (i = 0; i < n; i++) {
        if (events[i] == CREP_DONE) {
            if (!memory_wait(select, POLLS))
                return 0;
            continue;
        }
        before = now;
        now = play_sample(events[i]);
        if (before == (CREP_SCL | CREP_SDA) && now == CREP_SCL)
            clocks = 0;
        if (!(before & CREP_SCL) && (now & CREP_SCL) && ++clocks % 9 == 0 && board_line()) {
            wires_abandon();
            return 0;
        }
    }
    return 1;
}

int memory_send_record(uint8_t part, uint8_t select, uint16_t gate, const uint8_t *record)
{
    static uint8_t events[CREP_SEND];
    uint16_t n;

    return crep_send(part, select, gate, record, SECTOR, events, sizeof events, &n) == CREP_OK
        && memory_play(select, events, n);
}
