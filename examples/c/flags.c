/* A game's flags by name, on an F25L008A. The old game kept them by position, in a flag book; the patched one has a new scene, the
 * rooftop, and moves them into a name sector. The power goes in the middle of marking the rooftop, and the game marks it again. At
 * the end the flags go back into a book, as the old game would want them. Run it as: flags chip.img
 * The file holds the chip's bytes: read at the start, written back at the end. Where there is none, the chip is erased. */
#include <errno.h>
#include <string.h>
#include "driver.h"

enum { BOOK = 0x3000, NAMES = 0x4000, BACK = 0x5000 }; /* a sector each: any multiples of 4,096 on the chip */
enum { MOVED = 0x6000 };                               /* the game's own note that the move is finished: a byte, FF or 00 */
enum { OLD = 4, ALL = 5 };                             /* how many scenes the old game has, and the patched one */

static const char *const scenes[ALL] = {"prologue", "station at night", "letter", "harbour", "rooftop"};
static uint8_t list[OLD * (1 + 32)]; /* the old game's names by position, each behind its length */
static size_t list_length;
static uint8_t script[ZERADOK_WORST_BYTES]; /* no plan is longer, so refusal 10 is never met */

static void make_list(void)
{
    for (int scene = 0; scene < OLD; scene++) {
        size_t length = strlen(scenes[scene]); /* the 00 behind a C string is no part of the name */
        list[list_length] = (uint8_t)length;
        memcpy(list + list_length + 1, scenes[scene], length);
        list_length += 1 + length;
    }
}

static void show(const char *when)
{
    printf("%s:", when);
    for (int scene = 0; scene < ALL; scene++) {
        const char *name = scenes[scene];
        zeradok_told told = zeradok_names_is_read(chip, array, SIZE, NAMES, (const uint8_t *)name, strlen(name));
        MUST(told.number == 0); /* else it is a slip of the game: 18, no such name can be */
        if (told.value == 1) printf(" [%s]", name);
    }
    puts("");
}

/* Sends what was planned. True: call again, since a second plan may be due, or the power went (a console's game then starts anew).
 * False: nothing was left to send, so it is done; or it is refused. */
static bool sends(zeradok_planned plan)
{
    printf("number %u, %u bytes, %u frames, %u microseconds\n", plan.number, plan.length, plan.frames, plan.microseconds);
    if (plan.length == 0) return false;
    if (!send_script(script, plan.length)) show("the power went and is back");
    return true;
}

/* Marks a scene as read: its name by one plan, the mark in front of it by a second. The answer: 0, or the refusal that the game has
 * to meet. */
static uint32_t mark(const char *name)
{
    zeradok_planned plan;
    do plan = zeradok_names_mark(chip, true, array, SIZE, NAMES, (const uint8_t *)name, strlen(name), script, sizeof script);
    while (sends(plan));
    return plan.number;
}

/* Moves the flags from the book into the name sector, by two plans again, and notes it: once a further name is marked there, to move
 * again would be refused (8). */
static uint32_t move(void)
{
    static const uint8_t done = 0x00;
    zeradok_planned plan;
    if (array[MOVED] == done) return 0;
    do plan = zeradok_names_move(chip, true, array, SIZE, BOOK, NAMES, list, list_length, script, sizeof script);
    while (sends(plan));
    if (plan.number != 0) return plan.number;
    do plan = zeradok_plan(chip, true, array, SIZE, MOVED, &done, 1, script, sizeof script);
    while (sends(plan));
    return plan.number;
}

/* Takes the flags back into a book, in another sector. It is one plan; called again it has nothing left to send. */
static uint32_t back(void)
{
    for (;;) {
        zeradok_returned way = zeradok_names_back(chip, true, array, SIZE, NAMES, BACK, list, list_length, script, sizeof script);
        zeradok_planned plan = {way.number, way.state, way.length, way.frames, way.microseconds};
        if (sends(plan)) continue;
        if (way.number == 0) printf("records with a name that the old game doesn't know: %u\n", way.unlisted);
        return way.number;
    }
}

/* The old game's save, where there is none yet: scenes 0 and 2 are read. */
static uint32_t play_old_game(void)
{
    static const uint32_t played[] = {0, 2};
    zeradok_planned plan;
    do plan = zeradok_book_mark(chip, true, array, SIZE, BOOK, played, 2, script, sizeof script);
    while (sends(plan));
    return plan.number;
}

int main(int argc, char **argv)
{
    MUST(argc == 2);
    FILE *file = fopen(argv[1], "rb");
    memset(array, 0xFF, SIZE);
    MUST(file == NULL ? errno == ENOENT : fread(array, 1, SIZE, file) == SIZE && fgetc(file) == EOF && fclose(file) == 0);
    chip = zeradok_new(F25L008A).state; /* protected: each plan unprotects it and protects it again */
    power_fails = false;
    make_list();
    MUST(play_old_game() == 0);

    show("before");
    MUST(move() == 0);
    show("moved");
    power_fails = true; /* while the first word of the rooftop's record is written */
    MUST(mark("rooftop") == 0);
    show("marked");
    MUST(mark("rooftop") == 0); /* read already: the script is empty */

    MUST(back() == 0);
    for (uint32_t scene = 0; scene < OLD; scene++)
        printf("%s: %s\n", scenes[scene], zeradok_book_is_read(chip, array, SIZE, BACK, scene).value == 1 ? "read" : "unread");
    MUST((file = fopen(argv[1], "wb")) != NULL && fwrite(array, 1, SIZE, file) == SIZE && fclose(file) == 0);
}
