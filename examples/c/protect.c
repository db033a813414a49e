/* A game protects its save on an F25L05PA, and waits until that holds. A status write (01) takes the chip some milliseconds. Until they
 * are over the old bits count, and the chip answers its status (05) alone: bit 0, BUSY, falls with the new bits. If the power goes in
 * it, the old ones stand or the new, and the game asks which. A plan has its status writes and its waits in it (save.c). */
#include <stdio.h>
#include <stdlib.h>
#include <string.h>
#include "zeradok.h"

#define MUST(holds) ((holds) ? (void)0 : (fprintf(stderr, "%s: this must hold: %s\n", __FILE__, #holds), exit(1)))
enum { F25L05PA = 5, SIZE = 65536, BUSY = 0x01, PROTECTED = 0x1C, UNPROTECTED = 0x00 }; /* of the status: BUSY, and BP 111 or 000 */

static zeradok_state chip;  /* what the chip is doing */
static uint8_t array[SIZE]; /* what it holds */

/* Here a driver's transfer stands, too (driver.h has how). What the line reads in the frame's last byte comes back. */
static uint8_t chip_send(const uint8_t *frame, size_t length)
{
    uint8_t output[2], driven[2];
    MUST(zeradok_frame(&chip, true, array, SIZE, frame, length, output, length, driven, length) == 0);
    return output[length - 1];
}

static uint8_t status(void)
{
    static const uint8_t read_status[] = {0x05, 0x00};
    return chip_send(read_status, sizeof read_status);
}

/* Writes the bits and waits for them. Between 06 and 01 nothing may be sent, and what is sent while BUSY is 1 is lost. */
static void write_status(uint8_t bits)
{
    static const uint8_t enable[] = {0x06};
    const uint8_t write[] = {0x01, bits};
    chip_send(enable, sizeof enable);
    chip_send(write, sizeof write);
    for (uint32_t passed = 0; status() & BUSY; passed += 1000) { /* a real chip takes what it takes: the sheet's maximum is 15 ms */
        printf("after %u microseconds: %02X\n", passed, status());
        chip = zeradok_wait(chip, 1000).state;
    }
    printf("written: %02X\n", status());
}

/* The same, and the power goes in it. The mask tells the model how far it came: 00, the old bits stand; FF, the new ones do. */
static void cut_status_write(uint8_t bits, uint8_t mask)
{
    static const uint8_t enable[] = {0x06};
    const uint8_t write[] = {0x01, bits};
    uint8_t output[2], driven[2];
    chip_send(enable, sizeof enable);
    MUST(zeradok_cut_frame(&chip, true, array, SIZE, write, 2, output, 2, driven, 2, &mask, 1) == 0);
    printf("the power went and is back: %02X\n", status());
}

int main(void)
{
    memset(array, 0xFF, SIZE);          /* a new chip, erased */
    chip = zeradok_new(F25L05PA).state; /* not protected, unlike a new F25L008A */
    write_status(PROTECTED);
    cut_status_write(UNPROTECTED, 0x00);
    cut_status_write(UNPROTECTED, 0xFF);
}
