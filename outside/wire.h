/* Spells messages on the two wires as event bytes, two samples a clock as in worked case 13. */
#ifndef WIRE_H
#define WIRE_H

#include <stddef.h>
#include <stdint.h>

struct wire {
    uint8_t *events;    /* lent; what does not fit is left out */
    size_t room;
    size_t len;
    int pin;            /* level of the protect pin in the samples to come */
};

void wire_open(struct wire *w, uint8_t *events, size_t room);
void wire_event(struct wire *w, uint8_t event);
void wire_sample(struct wire *w, int scl, int sda);
void wire_start(struct wire *w);                        /* 3 1: from wires that are let go */
void wire_restart(struct wire *w);                      /* 2 3 1: after a ninth clock */
void wire_stop(struct wire *w);                         /* 0 1 3 */
void wire_bit(struct wire *w, int bit);
void wire_send(struct wire *w, uint8_t byte);           /* nine clocks, let go in the ninth */
void wire_receive(struct wire *w, int more);            /* nine clocks, let go; pulled in the ninth if more follows */

/* Start, slave byte with write, two address bytes. */
void wire_address(struct wire *w, int select, unsigned address);

/* A whole message: start, address, n bytes, stop. */
void wire_write(struct wire *w, int select, unsigned address, const uint8_t *bytes, size_t n);

/* One byte to the register, at FFFFh. */
void wire_register(struct wire *w, int select, uint8_t byte);

/* A random read of n bytes, with its stop. */
void wire_read(struct wire *w, int select, unsigned address, size_t n);

#endif
