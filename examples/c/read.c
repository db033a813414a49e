/* A game reads its flags from an F25L05PA, and makes sure that the chip has answered. A chip that is busy or in power-down says
 * nothing. The line reads FF then if the board has a pull-up, just as if the chip were erased and every scene unread; without one it
 * reads anything. So an FF of the chip's own and nobody's FF are told apart by the second slice, `driven`. */
#include <stdio.h>
#include <stdlib.h>
#include <string.h>
#include "zeradok.h"

#define MUST(holds) ((holds) ? (void)0 : (fprintf(stderr, "%s: this must hold: %s\n", __FILE__, #holds), exit(1)))
enum { F25L05PA = 5, SIZE = 65536, FRONT = 4, FLAGS = 2 }; /* in front of what a read (03) shows go its opcode and the address */

static zeradok_state chip;                                   /* what the chip is doing */
static uint8_t array[SIZE];                                  /* what it holds */
static uint8_t output[FRONT + FLAGS], driven[FRONT + FLAGS]; /* of the last frame: what the line reads, 01 where the chip drives it */

/* Here a driver's transfer stands, too (driver.h has how). Of what it reads the bytes count where `driven` has 01. */
static void chip_send(const uint8_t *frame, size_t length)
{
    MUST(zeradok_frame(&chip, true, array, SIZE, frame, length, output, length, driven, length) == 0);
}

/* Reads the first flags. False: nobody speaks, so what the line reads is no flags. */
static bool read_flags(uint8_t *flags)
{
    static const uint8_t read_from_0[FRONT + FLAGS] = {0x03, 0x00, 0x00, 0x00};
    chip_send(read_from_0, sizeof read_from_0);
    memcpy(flags, output + FRONT, FLAGS);
    return driven[FRONT] == 1; /* a read is driven from there to its end, or not at all */
}

static void show(const char *when)
{
    uint8_t flags[FLAGS];
    if (read_flags(flags)) printf("%s: the chip says %02X %02X\n", when, flags[0], flags[1]);
    else printf("%s: nobody speaks\n", when);
}

int main(void)
{
    static const uint8_t enable[] = {0x06}, mark_scene_0[] = {0x02, 0x00, 0x00, 0x00, 0xFE}, power_down[] = {0xB9}, wake[] = {0xAB};
    memset(array, 0xFF, SIZE);          /* a new chip, erased */
    chip = zeradok_new(F25L05PA).state; /* not protected, unlike a new F25L008A */
    show("erased");
    chip_send(enable, sizeof enable);
    chip_send(mark_scene_0, sizeof mark_scene_0);
    show("asked too early"); /* the chip is still writing */
    chip = zeradok_wait(chip, 1500).state;
    show("scene 0 marked");
    chip_send(power_down, sizeof power_down);
    show("in power-down");
    chip_send(wake, sizeof wake);
    show("awake");
}
