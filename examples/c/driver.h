/* The driver under the examples: in the chip's place the model of an F25L008A, whose power fails once. In a game the transfer and
 * the wait stand in chip_send and chip_wait; send_script stays as it is. */
#ifndef DRIVER_H
#define DRIVER_H

#include <stdio.h>
#include <stdlib.h>
#include "zeradok.h"

#define MUST(holds) ((holds) ? (void)0 : (fprintf(stderr, "%s: this must hold: %s\n", __FILE__, #holds), exit(1)))
enum { F25L008A = 8, SIZE = 1048576, WAIT = 2, END = 3 };

static zeradok_state chip;      /* what the chip is doing */
static uint8_t array[SIZE];     /* what it holds; of a real chip: what a read (03) of all of it shows after power-up */
static bool power_fails = true; /* once, while the first word is written */

/* Here a driver's transfer stands: select, the frame, deselect. The model gets each frame too, so that `chip` and `array` stay
 * true. False: the power went and is back. Of the word's bits that were due to fall, those under the mask fell. */
static bool chip_send(const uint8_t *frame, size_t length)
{
    static const uint8_t mask[] = {0x3C, 0x3C};
    static uint8_t output[4101], driven[4101]; /* what the chip says, and where it speaks; a save looks at neither, read.c at both */
    bool cut = power_fails && frame[0] == 0xAD;
    MUST((cut ? zeradok_cut_frame(&chip, true, array, SIZE, frame, length, output, length, driven, length, mask, sizeof mask)
              : zeradok_frame(&chip, true, array, SIZE, frame, length, output, length, driven, length)) == 0);
    power_fails = power_fails && !cut;
    return !cut;
}

/* Here a driver waits: so long, then until bit 0 of the status (05) is 0, since the sheets' times are typical ones. */
static void chip_wait(uint32_t microseconds) { chip = zeradok_wait(chip, microseconds).state; }

/* Sends a script, record by record. False: the power went. */
static bool send_script(const uint8_t *script, size_t length)
{
    for (size_t offset = 0;;) {
        zeradok_record record = zeradok_read(script, length, offset);
        if (record.kind == END) return true;
        if (record.kind == WAIT) chip_wait(record.microseconds);
        else if (!chip_send(script + record.start, record.length)) return false;
        offset = record.next;
    }
}

#endif
