/* A game's save on an F25L008A, one bit a scene: 1 unread, 0 read. The player has read scenes 9 to 20; the power goes in the
 * middle of the save, and the game goes on. Then it asks for what no save can do. Run it as: save chip.img
 * The file holds the chip's bytes: read at the start, written back at the end. Where there is none, the chip is erased. */
#include <errno.h>
#include <string.h>
#include "driver.h"

enum { FLAGS = 64, WANTS_A_ONE = 8 };

static uint8_t wanted[SIZE]; /* what the game wants the chip to hold: scene s is bit s % 8 of byte s / 8 */

/* Makes the flags as wanted. A plan starts from what the chip holds, so after a cut (a console's game then starts anew) there is
 * nothing to do but to plan again. The answer: 0, or the refusal that the game has to meet. */
static uint32_t save(void)
{
    static uint8_t script[ZERADOK_WORST_BYTES]; /* no plan is longer, so refusal 10 is never met */
    for (;;) {
        zeradok_planned plan = zeradok_plan(chip, true, array, SIZE, 0, wanted, FLAGS, script, sizeof script);
        printf("number %u, %u bytes, %u frames, %u microseconds\n", plan.number, plan.length, plan.frames, plan.microseconds);
        if (send_script(script, plan.length)) return plan.number; /* of a refused plan: nothing */
        puts("the power went and is back");
    }
}

int main(int argc, char **argv)
{
    static const uint8_t arm[] = {0x50}, unprotect[] = {0x01, 0x00};
    MUST(argc == 2);
    FILE *file = fopen(argv[1], "rb");
    memset(array, 0xFF, SIZE);
    MUST(file == NULL ? errno == ENOENT : fread(array, 1, SIZE, file) == SIZE && fgetc(file) == EOF && fclose(file) == 0);
    memcpy(wanted, array, SIZE);
    chip = zeradok_new(F25L008A).state;                 /* as after every power-up: all of it protected */
    MUST(chip_send(arm, 1) && chip_send(unprotect, 2)); /* once, not in every plan: there it takes 22 bytes */

    for (int scene = 9; scene <= 20; scene++) wanted[scene / 8] &= (uint8_t)~(1 << scene % 8);
    MUST(save() == 0 && memcmp(array, wanted, SIZE) == 0);
    wanted[9 / 8] |= 1 << 9 % 8;
    MUST(save() == WANTS_A_ONE);
    puts("scene 9 stays read: only an erase makes it unread");
    MUST((file = fopen(argv[1], "wb")) != NULL && fwrite(array, 1, SIZE, file) == SIZE && fclose(file) == 0);
}
