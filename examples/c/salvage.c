/* A game's name sector with a damaged mark, salvaged. It holds the names of the scenes that the player has read, one record each: the
 * mark "NR", the name's length, the name. A reader goes from record to record and stops where there is no good one, so it loses every
 * name behind the damage. There is no chip here: a game has the sector's bytes from a read (03). */
#include <stdio.h>
#include <string.h>
#include "zeradok.h"

enum { SECTOR = 4096, FRONT = 3 }; /* what a record has in front of its name: two bytes of mark, one of length */

static uint8_t sector[SECTOR]; /* as it was read from the chip */

/* Puts a record into the sector. The answer: where the next one goes. */
static size_t put(size_t at, const char *name)
{
    size_t length = strlen(name);
    memcpy(sector + at, "NR", 2);
    sector[at + 2] = (uint8_t)length;
    memcpy(sector + at + FRONT, name, length);
    return at + FRONT + length;
}

/* Whether a whole good record begins here, so many bytes before the sector's end. */
static bool is_record(const uint8_t *bytes, size_t left)
{
    if (left < FRONT || bytes[0] != 'N' || bytes[1] != 'R' || bytes[2] < 1 || bytes[2] > 32 || left - FRONT < bytes[2]) return false;
    for (size_t i = 0; i < bytes[2]; i++)
        if (bytes[FRONT + i] < 0x20 || bytes[FRONT + i] > 0x7E) return false;
    return true;
}

/* What a reader sees: the names from the start up to the first place without a whole good record. */
static void show(const char *when, const uint8_t *image)
{
    printf("%s, a reader sees:", when);
    for (size_t at = 0; is_record(image + at, SECTOR - at); at += FRONT + image[at + 2])
        printf(" [%.*s]", image[at + 2], (const char *)image + at + FRONT);
    puts("");
}

/* Four bytes a stretch: where it starts in the sector and how long it is, each in two bytes, the high one first. */
static void show_dropped(const uint8_t *list, size_t length)
{
    for (size_t i = 0; i < length; i += 4)
        printf("dropped: %d bytes, from byte %d on\n", list[i + 2] * 256 + list[i + 3], list[i] * 256 + list[i + 1]);
}

int main(void)
{
    static uint8_t kept[SECTOR], dropped[ZERADOK_LONGEST_DROPPED]; /* no list is longer, so refusal 10 is never met */
    memset(sector, 0xFF, SECTOR);                                  /* erased */
    size_t second = put(0, "prologue");
    put(put(second, "station at night"), "letter");
    show("written", sector);

    sector[second] = 'L'; /* a bit of the second mark has fallen: 4E is 4C */
    show("damaged", sector);

    zeradok_salvaged answer = zeradok_salvage(sector, SECTOR, kept, SECTOR, dropped, sizeof dropped);
    if (answer.number != 0) return 1; /* 2 or 10: a length is wrong, so it is a slip of the game */
    show("salvaged", kept);
    printf("kept: %u bytes of records\n", answer.kept);
    show_dropped(dropped, answer.length);
    /* The game goes by `kept`, in memory, and salvages again at the next start. Written to the chip as it is, a cut could make up a
     * name: the old sector stays untouched. The kept names may be marked one by one in another, erased sector (flags.c has how). */
}
