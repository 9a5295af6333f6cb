/* What tests of the flits that a call sent and took share. */
#ifndef TOLD_H
#define TOLD_H

#include "chihome.h"
#include "drawn.h"

#include <string.h>

static int is_same(const ChiFlit *flit, const ChiFlit *wanted) {
    return flit->message == wanted->message && flit->kind == wanted->kind && flit->slot == wanted->slot &&
        flit->allow_retry == wanted->allow_retry && flit->credit == wanted->credit &&
        memcmp(flit->words, wanted->words, sizeof flit->words) == 0;
}

/* What no call writes: an array of flits or actions is filled with it before each. */
enum { UNWRITTEN = 0xA5 };

static int is_unwritten(const void *from, size_t size) {
    const unsigned char *bytes = from;
    for (size_t place = 0; place < size; place++)
        if (bytes[place] != UNWRITTEN) return 0;
    return 1;
}

static int is_blank(const ChiSent *sent) {
    static const ChiFlit NONE;
    return sent->agent == 0 && sent->channel == 0 && is_same(&sent->flit, &NONE);
}

/* Takes a flit out of those in flight, and puts those that were sent to them. */
static void move_flits(ChiFlits *flits, const ChiSent *sent, uint8_t count, const ChiSent *taken) {
    static const ChiFlit NONE;
    if (taken->flit.message != CHI_NoMessage) {
        HOLDS(is_same(&flits[taken->agent].channels[taken->channel], &taken->flit));
        flits[taken->agent].channels[taken->channel] = NONE;
    }
    for (uint8_t place = 0; place < count; place++) {
        ChiFlit *cell = &flits[sent[place].agent].channels[sent[place].channel];
        HOLDS(cell->message == CHI_NoMessage && sent[place].flit.message != CHI_NoMessage);
        *cell = sent[place].flit;
    }
}

/* Those in flight of each agent. */
static void are_same(const ChiFlits *flits, const ChiFlits *wanted, int agents) {
    for (int agent = 0; agent < agents; agent++)
        for (int channel = 0; channel < 6; channel++)
            HOLDS(is_same(&flits[agent].channels[channel], &wanted[agent].channels[channel]));
}

#endif
