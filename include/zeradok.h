/*
 * Zeradok: a model of the serial flash chips F25L008A and F25L05PA. Link target/staticlib/libhost.a (x86-64 Linux).
 *
 * A chip is a zeradok_state and an array of exactly its size: 1,048,576 bytes (F25L008A, chip number 8) or 65,536 (F25L05PA, 5).
 * The calls keep nothing between them. Each answers any arguments that keep the rules below: 0, or the number of the first refusal
 * that holds. A refused call writes through no pointer and gives back the state that it got, if it got one, with lengths, counts and values 0.
 *
 * What a caller owes, which no call can test:
 *  - a slice is a pointer and a length, and all bytes of the length can be read, and written where the pointer is not const.
 *    An empty slice may have any pointer, NULL too. The length of `scenes` counts numbers and not bytes, that of `list` bytes and not names;
 *  - `chip` of the frame calls points to one zeradok_state, and `scenes` to its first number, each aligned as C aligns it;
 *  - what a call may write (the state behind `chip`, array, output, driven, buffer, kept, dropped) overlaps nothing else that the same call is
 *    passed, so output and driven must not overlap; what it only reads may overlap;
 *  - every bool, in a state too, is 0 or 1; no other thread writes what a call was passed while it runs.
 * A state needs no further care: the calls refuse one that no chip can be in.
 *
 * A save (examples/c/save.c has it whole, over driver.h):
 *  1. zeradok_plan writes a script for the wanted bytes; what to do at each of its refusals is said there;
 *  2. zeradok_read gives the records one by one, the first at offset 0 and each further at `next`, until kind 3, the end. Send each frame, its
 *     bytes between one select and deselect, and wait each wait, in this order;
 *  3. after a power cut power up (zeradok_cut_frame has done so) and plan the same bytes again, from the array as it is now and with 22 bytes
 *     more room, or with ZERADOK_WORST_BYTES every time: that is accepted. By then each bit of those bytes is as before or as wanted, and
 *     nothing else has moved. (The F25L05PA may stand unprotected.)
 * A game with one flag a scene needs no wanted bytes, if it keeps its flags in the flag book (below; examples/c/book.c). zeradok_book_mark is then
 * called in place of zeradok_plan, in 1 and in 3, where the same list is marked again.
 * A game that knows its scenes by name keeps them in a name sector (below; examples/c/flags.c). zeradok_names_mark is then called in place of
 * zeradok_plan. A name takes two plans, so it is called, and its script sent, until the script is empty; in 3 the same name is marked again, with
 * ZERADOK_WORST_BYTES. zeradok_names_move takes the flags from a flag book to a name sector, zeradok_names_back from there to a book.
 * A sector of names in which a mark is damaged gives back what is still good by zeradok_salvage (below; examples/c/salvage.c). It works on an image of
 * the sector, in memory, and what it leaves there is not for writing back: its warning says why, and what to do.
 * Beside a real chip the model gets each frame and wait too, so that state and array stay the chip's; after power-up the array is read back
 * (03), and of an F25L05PA bp, tb and bpl (05; zeradok_new), since a cut status write leaves the old ones or the new.
 * Of what the line reads only the bytes count that the chip drives: a silent one may be anything (zeradok_frame; examples/c/read.c).
 * The waits are the sheets' typical times: wait on until bit 0 of the status (05) is 0. Behind the F25L05PA's status write (01), too: plans wait
 * 5,000 microseconds for it, and its sheet's maximum is 15 ms, at 2.3 V to 2.7 V 40 ms (examples/c/protect.c). A 05 between 06 or 50 and the
 * 01 would spoil the 01.
 *
 * `wp_high` is the level of the chip's WP pin: the same one for a plan and for sending it.
 */
#ifndef ZERADOK_H
#define ZERADOK_H

#include <stdbool.h>
#include <stddef.h>
#include <stdint.h>

#ifdef __cplusplus
extern "C" {
#endif

/* The worst case of an accepted plan, those of the flag book and of names too (where marking and moving take two plans, it is that of each). None is
 * above it, and zeradok_plan reaches each number: on the F25L05PA all by one plan, on the F25L008A the bytes with the frames or with the
 * microseconds.
 *               bytes   frames   microseconds
 *   F25L008A   26,672    3,079         14,343
 *   F25L05PA    4,453       38         35,500
 * Over both chips: */
#define ZERADOK_WORST_BYTES 26672        /* a buffer of so many is never too short (refusal 10), nor is it for planning again after a cut */
#define ZERADOK_WORST_FRAMES 3079        /* sent one by one: what a progress bar counts to */
#define ZERADOK_WORST_MICROSECONDS 35500 /* waited in all: what a spinner is up for, beside the sending and what a chip takes over its typical times */

/* chip: 8 or 5; bp: BP2 BP1 BP0 as a number; armed: a status write may come next; pending: one is running; pending_bits: the bits that it will set;
 * left: microseconds until BUSY falls; next: AAI's next address.
 * A status write (01) of the F25L05PA is a write cycle: it takes T_W, 5,000 microseconds, its sheet's typical time. Until left is 0 the chip is busy,
 * wel stays true, and bp, tb and bpl are the old ones, in its status (05) and for what is protected. Then, in one instant, they are as pending_bits
 * has them, in bits 2 to 4, 5 and 7 of the status, wel is false and nothing is pending. While nothing is, pending_bits is 0. On the F25L008A nothing
 * ever is: its status write sets the bits at once. */
typedef struct { uint8_t chip, bp; bool tb, bpl, wel, aai, armed, power_down, pending; uint8_t pending_bits; uint32_t left, next; } zeradok_state;

typedef struct { uint32_t number; zeradok_state state; } zeradok_answer;

/* A script run: so many frames run and microseconds waited. offset: where the first bad record begins, with 12, 13 and 14; with every other number,
 * 0 among them, it is 0. */
typedef struct { uint32_t number; zeradok_state state; uint32_t frames; uint64_t microseconds; size_t offset; } zeradok_ran;

/* A script looked through: its frames, its microseconds, and the length of output and of driven that running it takes. offset: as in zeradok_ran. */
typedef struct { uint32_t number, frames; uint64_t microseconds; size_t offset, output; } zeradok_surveyed;

/* A script planned: its length in bytes, its frames and its microseconds. */
typedef struct { uint32_t number; zeradok_state state; uint32_t length, frames, microseconds; } zeradok_planned;

/* kind: 0 refused, 1 frame, 2 wait, 3 end. start and length (the frame's bytes in the script) are 0 unless it is a frame, microseconds unless it is a wait. */
typedef struct { uint32_t number, kind; size_t start, length; uint32_t microseconds; size_t next; } zeradok_record;

/* A question's answer: 1 or 0, or how many; 0 with a refusal. */
typedef struct { uint32_t number; zeradok_state state; uint32_t value; } zeradok_told;

/* A way back planned: the script as in zeradok_planned; unlisted: how many records have a name that is not on the list, 0 with a refusal. */
typedef struct { uint32_t number; zeradok_state state; uint32_t length, frames, microseconds, unlisted; } zeradok_returned;

/* length: bytes of the list of dropped stretches; kept: bytes of the kept records. Both 0 with a refusal. */
typedef struct { uint32_t number, length, kept; } zeradok_salvaged;

/* A new chip: its state, the array being erased, all FF. An F25L008A has this state after every power-up; an F25L05PA keeps bp, tb and bpl, which
 * are bits 2 to 4, 5 and 7 of its status (05). Refusal 1: an unknown chip number (the state is then a new F25L05PA). Changes nothing. */
zeradok_answer zeradok_new(uint8_t chip);

/* The state after power-off and power-up. With a status write pending it has the old bits. Refusal 1: the state is not sound. Changes nothing. */
zeradok_answer zeradok_power_up(zeradok_state chip);

/* The state when so many microseconds have passed. Refusal 1: the state is not sound. Changes nothing. */
zeradok_answer zeradok_wait(zeradok_state chip, uint32_t microseconds);

/* Runs the frame. Output byte i is what the line reads while byte i goes in; driven byte i is 01 where the chip drives the line then, 00 where it is
 * silent. A silent byte is FF in output: the board's pull-up makes it so, and a board without one reads anything there. The chip may say FF itself,
 * as it does of an erased byte: that FF is driven, 01.
 * Of a frame that the chip takes it drives: 05 from byte 1 on; 03 and 90 from byte 4 on; 0B from byte 5 on, byte 4 being a dummy; 9F bytes 1 to 3;
 * AB from byte 1 on, on the F25L05PA from byte 4 on. It is silent in all else, and throughout a frame that it ignores: any but 05 while busy, any
 * but AD, 05 and 04 in AAI, any but AB in power-down, and so on.
 * Changes *chip, array, output and driven. Output and driven must not overlap; a refusal leaves both untouched. Refusals: 1 state, 2 array length,
 * 3 frame empty or over 4,101 bytes, 4 output or driven isn't as long as the frame. */
uint32_t zeradok_frame(zeradok_state *chip, bool wp_high, uint8_t *array, size_t array_length, const uint8_t *frame, size_t frame_length,
                       uint8_t *output, size_t output_length, uint8_t *driven, size_t driven_length);

/* Runs the frame while the power is cut, then powers up. The mask has one byte for each array byte that the frame programs or erases, by rising
 * address (none if it does neither): a 1 bit got its new value. For a status write (01) that an F25L05PA takes it is one byte: 00, and the chip has
 * the old bits, or FF, and it has the new ones; the array is the same. One that is ignored has none, nor has any on the F25L008A.
 * Output and driven are the whole frame's, as if the power had stayed. Changes *chip, array, output and driven. Refusals as above, and 5: the mask's
 * length, and for a status write that an F25L05PA takes any other value in the mask than 00 and FF. */
uint32_t zeradok_cut_frame(zeradok_state *chip, bool wp_high, uint8_t *array, size_t array_length, const uint8_t *frame, size_t frame_length,
                           uint8_t *output, size_t output_length, uint8_t *driven, size_t driven_length, const uint8_t *mask, size_t mask_length);

/* Plans the script that makes the bytes from start on as wanted, at the front of buffer. Changes buffer only; the state comes back as given.
 * Where nothing has to change the script is empty; where it must it unprotects the chip and protects it again, on the F25L05PA with a wait of 5,000
 * microseconds behind each of the two status writes. Refusals:
 * 1 state, 2 array length, 6 over 4,096 wanted bytes or they end past the array: slips of the program;
 * 7 not at rest: wait while busy, end AAI by 04, power-down by AB;
 * 8 a wanted 1 where the array has 0: only an erase brings a 1 back, so give up that bit;
 * 9 protected with BPL 1 and WP low: set WP high;
 * 10 the buffer is too short: give more room. After a cut 22 bytes more are enough; for any plan ZERADOK_WORST_BYTES are. */
zeradok_planned zeradok_plan(zeradok_state chip, bool wp_high, const uint8_t *array, size_t array_length, size_t start,
                             const uint8_t *wanted, size_t wanted_length, uint8_t *buffer, size_t buffer_length);

/* Looks a script through without running it: what is wrong with one typed by hand, and how long zeradok_run's output and driven are. Changes nothing.
 * Refusals: 11 script over 32,768 bytes; else what is wrong with the first bad record, in this order:
 * 14 one byte is left, whatever it is: the mark has two;
 * 12 the mark is neither 5A 46, a frame, nor 5A 57, a wait;
 * 14 fewer than two bytes behind 5A 46, where the frame's length stands, or than four behind 5A 57;
 * 13 the frame's length is 0 or over 4,101, however many bytes are left;
 * 14 fewer bytes are left than the frame has.
 * A script that is accepted here is refused by zeradok_run with 1, 2 or 4 only. */
zeradok_surveyed zeradok_survey(const uint8_t *script, size_t script_length);

/* Runs the records of a script: what zeradok_frame gives for each frame stands one after another in output, and so it does in driven; a wait gives
 * nothing. Changes array, output and driven; the state comes back in the answer. Output and driven must not overlap; a refusal leaves both untouched.
 * Refusals, in this order: 1 state, 2 array length, 11 to 14 as zeradok_survey has them, 4 output or driven isn't as long as the frames' sum. */
zeradok_ran zeradok_run(zeradok_state chip, bool wp_high, uint8_t *array, size_t array_length, const uint8_t *script, size_t script_length,
                        uint8_t *output, size_t output_length, uint8_t *driven, size_t driven_length);

/* Reads the record at an offset of a script; next is the offset behind it, and the given one for a refusal and at the end. Changes nothing.
 * Refusals: 11 script over 32,768 bytes, 12 to 14 of this record as zeradok_survey has them, 14 also where the offset is past the end. */
zeradok_record zeradok_read(const uint8_t *script, size_t script_length, size_t offset);

/* The flag book keeps 4,096 scenes by position in one sector, a bit each: 1 is unread, 0 is read. `sector` is the address where the sector starts;
 * scene s is bit s % 8, lowest first, of byte s / 8 from there. So 512 bytes are used, and the sector's other 3,584 are not looked at. In an
 * erased sector no scene is read, and only an erase makes one unread again. Scene numbers are 32 bits wide, so that one too large is refused and
 * not cut to another scene's. */

/* Tells whether the scene is read: 1, or 0. It looks at the array alone: a chip that is busy, in AAI or in power-down is not refused. Changes
 * nothing; the state comes back as given. Refusals, all slips of the program: 1 state, 2 array length, 15 a scene over 4,095 or a sector start that
 * isn't a multiple of 4,096 inside the chip. */
zeradok_told zeradok_book_is_read(zeradok_state chip, const uint8_t *array, size_t array_length, size_t sector, uint32_t scene);

/* Tells how many scenes are read: 0 to 4,096. Changes nothing and is refused as above, with 15 for the sector start only. */
zeradok_told zeradok_book_count(zeradok_state chip, const uint8_t *array, size_t array_length, size_t sector);

/* Plans the script that marks the listed scenes as read, at the front of buffer. Changes buffer only; the state comes back as given. The list may be
 * of any length and have a scene more than once. Where it is empty, or all of it is read already, the script is empty. Refusals, in this order:
 * 1 state, 2 array length, 15 as above, for the sector start and any scene of the list: slips of the program;
 * 7 not at rest, 9 protected with BPL 1 and WP low, 10 the buffer is too short: what to do at each is said at zeradok_plan. Its 6 and 8 never come,
 * since the 512 bytes are in the chip and no 1 is wanted.
 * After a power cut no scene outside the list has turned read, and none has turned unread. Mark the same list again, with 22 bytes more room or with
 * ZERADOK_WORST_BYTES every time: that is accepted, and once sent it leaves exactly the listed scenes read besides those that were. */
zeradok_planned zeradok_book_mark(zeradok_state chip, bool wp_high, const uint8_t *array, size_t array_length, size_t sector,
                                  const uint32_t *scenes, size_t scenes_length, uint8_t *buffer, size_t buffer_length);

/* A name sector keeps scenes by name: records from the sector's start on, one behind the other, each the mark 4E 52 ("NR"), a length of 1 to 32 and
 * so many bytes 20 to 7E, the scene's name. A scene is read if a record has its name. The first place without a whole good record ends them, even
 * where good ones stand behind it, so a damaged mark hides every name behind it.
 * The sector is one of its own: all its 4,096 bytes are for names, and behind the last record they are FF. In an erased one no scene is read.
 * A name is bytes and their number, with no 00 behind them: "rooftop" has the length 7. Names are equal if all their bytes are.
 * A list has the names by position, scene 0's first: a length byte of 1 to 32 and so many bytes 20 to 7E, by turns, to the end of the slice. It has
 * at most 4,096 names, and may be empty.
 *
 * Marking a name and moving a book take two plans. The first writes lengths and names, the second the marks in front of them. So no mark ever stands
 * in front of a half-written name: a power cut never makes up a name. The call sees in the array which plan is due. Call it, send its script, and
 * call it again with the same arguments until the length is 0; a number above 0 ends it too, with nothing planned:
 *     for (;;) {
 *         zeradok_planned plan = zeradok_names_mark(...);
 *         if (plan.number != 0 || plan.length == 0) return plan.number;
 *         send_script(script, plan.length); // whether the power went in it or not: the next call goes on from what the chip holds
 *     }
 * After a power cut call the same again, before any other name is marked in that sector. Lend ZERADOK_WORST_BYTES every time, and 10 never comes.
 * (22 bytes more than the cut plan had are enough for the rest of that plan. But if all its bytes were through, the second plan is next, and that may
 * need more.)
 * A plan belongs to the array that it was made for. Sending it to a chip that holds something else by then may do harm, and no call can test that:
 * send each script before anything else is planned, and never keep one for later. */

/* Tells whether the name is read: 1 where a record of the sector has it, else 0. It looks at the array alone: a chip that is busy, in AAI or in
 * power-down is not refused. Changes nothing; the state comes back as given. Refusals, in this order, all slips of the program: 1 state, 2 array
 * length, 15 a sector start that isn't a multiple of 4,096 inside the chip, 18 a bad name: a length of 0 or over 32, or a byte outside 20 to 7E. */
zeradok_told zeradok_names_is_read(zeradok_state chip, const uint8_t *array, size_t array_length, size_t sector, const uint8_t *name, size_t name_length);

/* Plans the next script that marking the name takes, at the front of buffer: first its length and the name, behind the records that are there, then
 * its mark. Changes buffer only; the state comes back as given. Where a record has the name the script is empty, whatever stands behind the records.
 * Refusals, in this order:
 * 1 state, 2 array length, 15 and 18 as above: slips of the program;
 * 20 no record has the name, and its own, 3 bytes and the name, doesn't fit behind those that are there: the sector is full. Erase another and mark
 *    the names in it that are still needed;
 * 7 not at rest: as at zeradok_plan, also where the script would be empty;
 * 8 behind the records stands something else than FF or this record's own bytes. If the marking of another name was cut there, finish that one
 *    first. If not, or if nobody knows which, erase another sector and mark the names of this one in it;
 * 9 protected with BPL 1 and WP low, 10 the buffer is too short: as at zeradok_plan. Its 6 never comes.
 * After a power cut the sector has the names from before, or those and this one behind them. Mark the same name again: that is neither an 8 nor a 20,
 * and when both scripts are sent the name is read, all earlier ones still are, and behind its record all is FF. */
zeradok_planned zeradok_names_mark(zeradok_state chip, bool wp_high, const uint8_t *array, size_t array_length, size_t sector,
                                   const uint8_t *name, size_t name_length, uint8_t *buffer, size_t buffer_length);

/* Plans the next script that moving a flag book into a name sector takes, at the front of buffer: a record for each scene that is read in the book,
 * in the order of the list, first all lengths and names, then all marks. `book` and `sector` are the addresses where the two start. Changes buffer
 * only; the state comes back as given. The book stays as it is. The name sector has to be erased. Refusals, in this order:
 * 1 state, 2 array length, 15 as above, for either start, 6 both starts are equal: slips of the program;
 * 18 a bad list: a length of 0 or over 32, a byte outside 20 to 7E, a last name cut short, or over 4,096 names; or the book has a read scene for
 *    which the list is too short: name that scene too;
 * 19 a name stands twice in the list, whether its scenes are read or not. The two would become one: rename a scene;
 * 20 the records take more than 4,096 bytes (just 4,096 still go in): take shorter names, or stay with the book;
 * 7 not at rest: as at zeradok_plan;
 * 8 the sector isn't erased, and what stands there isn't what this move has written: take another, or erase it if no name in it is needed;
 * 9 protected with BPL 1 and WP low, 10 the buffer is too short: as at zeradok_plan.
 * After a power cut the sector has the names of the first few read scenes, in the order of the list, or none. Move again by the same list: that goes
 * on. When the length is 0 the book is moved. Let the game note that in a place of its own and move no more: a name marked since would be an 8. */
zeradok_planned zeradok_names_move(zeradok_state chip, bool wp_high, const uint8_t *array, size_t array_length, size_t book, size_t sector,
                                   const uint8_t *list, size_t list_length, uint8_t *buffer, size_t buffer_length);

/* Plans the script that takes a name sector back into a flag book, at the front of buffer. It is one plan: a scene turns read if its name, by its
 * position in the list, has a record. Changes buffer only; the state comes back as given. The name sector stays as it is. The book's sector has to be
 * erased, the 3,584 bytes behind the book too; only scenes that have a record may be read there already. `unlisted` tells how many records have a
 * name that is not on the list, equal ones each counted: the book has no place for them. It is told where the script is empty, too. Refusals, in this
 * order:
 * 1 state, 2 array length, 15 as above, for either start, 6 both starts are equal: slips of the program;
 * 18 a bad list as above (which scenes are read makes no difference here), 19 a name stands twice in it;
 * 7 not at rest: as at zeradok_plan;
 * 8 in the book's sector a scene is read that has no record, or something stands behind the book: take another, or erase it if it isn't needed;
 * 9 protected with BPL 1 and WP low, 10 the buffer is too short: as at zeradok_plan.
 * After a power cut no scene has turned read but those of the list whose names have a record. Plan the way back again, with 22 bytes more room or
 * with ZERADOK_WORST_BYTES every time: that is accepted, and once sent it is finished.
 * Move a book, then take it back by the same list into another sector: all 4,096 flags are as they were, and unlisted is 0. */
zeradok_returned zeradok_names_back(zeradok_state chip, bool wp_high, const uint8_t *array, size_t array_length, size_t sector, size_t book,
                                    const uint8_t *list, size_t list_length, uint8_t *buffer, size_t buffer_length);

#define ZERADOK_LONGEST_DROPPED 3280 /* a list of this length never meets refusal 10 */

/* Salvages a sick name sector: keeps each whole good record of its image and steps over anything else, byte by byte, to the next one. A record is
 * whole if all of it lies in the sector. It has no chip and no state, and changes kept and dropped only, which are other memory than the image.
 * kept gets the records from its front on, in their order, equal names as often as they come, and FF behind them.
 * dropped gets the list of what is left out: four bytes a stretch, its start in the sector and its length, each in two bytes, high first. The starts
 * rise, no stretch touches the next, and the rest of dropped is not written.
 * All FF at the sector's end are its erased stretch, neither kept nor dropped; FF in front of anything else are dropped as any byte is. So records,
 * dropped stretches and the erased one cover the sector once each, and where the list is empty kept is the sector as it was.
 * Refusals, in this order: 2 the sector or kept isn't 4,096 bytes: a slip of the program;
 * 10 the list doesn't fit in dropped: give more room, or ZERADOK_LONGEST_DROPPED every time.
 *
 * Compare the kept names with those that the game has. Nothing in a record checks its name, so damage that leaves a good record goes unseen. And a
 * good record can begin inside a damaged one: a name may hold "NR" and a space, and the space, 20, is also the length 32. By the words above it is
 * kept, a name that nobody marked; it goes on past the damaged record, and a good one that begins there can be lost to it.
 *
 * WARNING: do not write kept to a chip where a power cut can come. One plan writes marks and names together, and a cut may leave a whole mark in
 * front of a half-written name: a reader then meets a made-up one. Nor does a plan write over the old names (refusal 8) before they are erased, and
 * then a cut costs them all. So leave the old sector untouched, let the game go by kept, in memory, and salvage again at each start. The safe way to
 * the chip: erase another sector, then mark the kept names that the game has in it, one by one, by zeradok_names_mark. Until all are marked the old
 * sector counts: a cut in the erase can leave anything in the new one, so begin again with the erase then, and a cut in a marking only asks for the
 * same name again. When all are, let the game note that the new one counts. (A call that plans the erase, 02's A11, is still to come.) */
zeradok_salvaged zeradok_salvage(const uint8_t *sector, size_t sector_length, uint8_t *kept, size_t kept_length,
                                 uint8_t *dropped, size_t dropped_length);

#ifdef __cplusplus
}
#endif

#endif
