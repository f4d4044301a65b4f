#include "wire.h"

void wire_open(struct wire *w, uint8_t *events, size_t room)
{
    w->events = events;
    w->room = room;
    w->len = 0;
    w->pin = 0;
}

void wire_event(struct wire *w, uint8_t event)
{
    if (w->len < w->room)
        w->events[w->len++] = event;
}

void wire_sample(struct wire *w, int scl, int sda)
{
    wire_event(w, (uint8_t)(scl | sda << 1 | w->pin << 2));
}

void wire_start(struct wire *w)
{
    wire_sample(w, 1, 1);
    wire_sample(w, 1, 0);
}

void wire_restart(struct wire *w)
{
    wire_sample(w, 0, 1);
    wire_start(w);
}

void wire_stop(struct wire *w)
{
    wire_sample(w, 0, 0);
    wire_sample(w, 1, 0);
    wire_sample(w, 1, 1);
}

void wire_bit(struct wire *w, int bit)
{
    wire_sample(w, 0, bit);
    wire_sample(w, 1, bit);
}

void wire_send(struct wire *w, uint8_t byte)
{
    int i;

    for (i = 7; i >= 0; i--)
        wire_bit(w, byte >> i & 1);
    wire_bit(w, 1);
}

void wire_receive(struct wire *w, int more)
{
    int i;

    for (i = 0; i < 8; i++)
        wire_bit(w, 1);
    wire_bit(w, !more);
}

void wire_address(struct wire *w, int select, unsigned address)
{
    wire_start(w);
    wire_send(w, (uint8_t)(0xa0 | select << 1));
    wire_send(w, (uint8_t)(address >> 8));
    wire_send(w, (uint8_t)address);
}

void wire_write(struct wire *w, int select, unsigned address, const uint8_t *bytes, size_t n)
{
    size_t i;

    wire_address(w, select, address);
    for (i = 0; i < n; i++)
        wire_send(w, bytes[i]);
    wire_stop(w);
}

void wire_register(struct wire *w, int select, uint8_t byte)
{
    wire_write(w, select, 0xffff, &byte, 1);
}

void wire_read(struct wire *w, int select, unsigned address, size_t n)
{
    size_t i;

    wire_address(w, select, address);
    wire_restart(w);
    wire_send(w, (uint8_t)(0xa1 | select << 1));
    for (i = 1; i <= n; i++)
        wire_receive(w, i < n);
    wire_stop(w);
}
