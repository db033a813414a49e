/* A game's flag book on an F25L008A: 4,096 scenes, and the library knows where each has its bit. The player has read scenes 9 and
 * 12; the power goes in the middle of marking them, and the game marks the same two again. */
#include <string.h>
#include "driver.h"

enum { BOOK = 0x3000 }; /* where the book's sector starts: any multiple of 4,096 on the chip; erased, no scene is read */

/* What a question tells. It looks at what the chip holds and is refused for a slip of the game only: 15, no such scene. */
static uint32_t value_of(zeradok_told told)
{
    MUST(told.number == 0);
    return told.value;
}

static void show(const char *when)
{
    printf("%s:", when);
    for (uint32_t scene = 8; scene <= 13; scene++)
        printf(" %u %s,", scene, value_of(zeradok_book_is_read(chip, array, SIZE, BOOK, scene)) == 1 ? "read" : "unread");
    printf(" %u read in all\n", value_of(zeradok_book_count(chip, array, SIZE, BOOK)));
}

/* Marks scenes as read, and changes no other. After a cut (a console's game then starts anew) some may be read by then: the same
 * list again marks the rest. The answer: 0, or the refusal that the game has to meet. */
static uint32_t mark(const uint32_t *scenes, size_t count)
{
    static uint8_t script[ZERADOK_WORST_BYTES]; /* no plan is longer, so refusal 10 is never met */
    for (;;) {
        zeradok_planned plan = zeradok_book_mark(chip, true, array, SIZE, BOOK, scenes, count, script, sizeof script);
        printf("number %u, %u bytes, %u frames, %u microseconds\n", plan.number, plan.length, plan.frames, plan.microseconds);
        if (send_script(script, plan.length)) return plan.number; /* of a refused plan: nothing */
        show("the power went and is back");
    }
}

int main(void)
{
    static const uint32_t scenes[] = {9, 12};
    memset(array, 0xFF, SIZE);          /* a new chip */
    chip = zeradok_new(F25L008A).state; /* protected: each plan unprotects it and protects it again */
    show("before");
    MUST(mark(scenes, 2) == 0);
    show("after");
    MUST(mark(scenes, 2) == 0); /* read already: the script is empty */
}
