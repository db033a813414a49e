/* 01's sample sessions, which bytes the chip drives, a plan of each chip, the F25L05PA's status write, the flag book, salvaged name sectors, flags by
 * name and the refusals 1 to 15 and 18 to 20, by a C program that knows include/zeradok.h and nothing else. Every byte of each output, of which bytes
 * are driven and of the array is compared; behind the first two nothing may be written. */
#include "zeradok.h"

#include <stdio.h>
#include <string.h>

enum { F25L008A = 8, F25L05PA = 5, LONGEST_FRAME = 4101, LONGEST_SCRIPT = 32768 };

/* ---- the chip on the bench, and what its array should be */

static zeradok_state chip;
static bool wp_high;
static size_t size;
static uint8_t array[1048576], expected[1048576];

static bool fresh(uint8_t number, uint8_t filling)
{
    zeradok_answer made = zeradok_new(number);
    chip = made.state;
    wp_high = true;
    size = number == F25L008A ? 1048576 : 65536;
    memset(array, filling, size);
    memset(expected, filling, size);
    return made.number == 0;
}

static bool erased(uint8_t number)
{
    return fresh(number, 0xFF);
}

static bool becomes(size_t address, uint8_t value)
{
    expected[address] = value;
    return true;
}

static bool same_state(zeradok_state a, zeradok_state b)
{
    return a.chip == b.chip && a.bp == b.bp && a.tb == b.tb && a.bpl == b.bpl && a.wel == b.wel && a.aai == b.aai && a.armed == b.armed
        && a.power_down == b.power_down && a.pending == b.pending && a.pending_bits == b.pending_bits && a.left == b.left && a.next == b.next;
}

/* ---- what is lent for output: A5 before the call, and A5 still where the call has nothing to write */

enum { ROOM = 65536 + LONGEST_FRAME }; /* also for lengths that are right when they are cut to 16 bits */

static uint8_t output[ROOM], driven[ROOM], to_show[ROOM], to_drive[ROOM], untouched[ROOM];

static void fill_slices(void)
{
    memset(output, 0xA5, ROOM);
    memset(driven, 0xA5, ROOM);
    memset(untouched, 0xA5, ROOM);
}

/* so many bytes of output and of driven are these, and behind them nothing is written */
static bool gave(const uint8_t *shows, const uint8_t *drives, size_t count)
{
    return memcmp(output, shows, count) == 0 && memcmp(driven, drives, count) == 0 && memcmp(output + count, untouched, ROOM - count) == 0
        && memcmp(driven + count, untouched, ROOM - count) == 0;
}

/* so many bytes, of which the chip drives none */
static bool gave_silence(size_t count)
{
    memset(to_show, 0xFF, count);
    memset(to_drive, 0x00, count);
    return gave(to_show, to_drive, count);
}

static bool gave_nothing(void)
{
    return gave_silence(0);
}

/* ---- frames, written in hex */

static uint8_t input[LONGEST_FRAME + 1];

static size_t bytes_of(const char *hex, uint8_t *bytes)
{
    size_t count = 0;
    unsigned byte;
    int used;
    while (sscanf(hex, "%x%n", &byte, &used) == 1) {
        bytes[count++] = (uint8_t)byte;
        hex += used;
    }
    return count;
}

/* the array should become this, from the address on */
static bool will_be(size_t address, const char *hex)
{
    bytes_of(hex, expected + address);
    return true;
}

/* the array is this before anything is called */
static bool stands(size_t address, const char *hex)
{
    return will_be(address, hex) && memcpy(array + address, expected + address, bytes_of(hex, input)) != NULL;
}

/* what it gives is looked at afterwards */
static bool runs(const uint8_t *frame, size_t count)
{
    fill_slices();
    return zeradok_frame(&chip, wp_high, array, size, frame, count, output, count, driven, count) == 0 && memcmp(array, expected, size) == 0;
}

/* a frame, its output, and which bytes of it the chip drives */
static bool sent(const char *frame, const char *shows, const char *drives)
{
    size_t count = bytes_of(frame, input);
    return bytes_of(shows, to_show) == count && bytes_of(drives, to_drive) == count && runs(input, count) && gave(to_show, to_drive, count);
}

/* a frame in which the chip drives nothing */
static bool silent(const char *frame)
{
    size_t count = bytes_of(frame, input);
    return runs(input, count) && gave_silence(count);
}

static bool status(const char *byte)
{
    char shows[] = "FF 00";
    memcpy(shows + 3, byte, 2);
    return sent("05 00", shows, "00 01");
}

static bool waited(uint32_t microseconds)
{
    zeradok_answer a = zeradok_wait(chip, microseconds);
    chip = a.state;
    return a.number == 0;
}

/* a status write up to its end: on the F25L05PA it takes time */
static bool status_written(uint8_t number, const char *byte)
{
    char frame[] = "01 00";
    memcpy(frame + 3, byte, 2);
    return silent(number == F25L008A ? "50" : "06") && silent(frame) && (number == F25L008A || waited(5000)) && status(byte);
}

static bool unprotected(void)
{
    return status_written(F25L008A, "00");
}

/* erased, and not protected */
static bool blank(uint8_t number)
{
    return erased(number) && (number == F25L05PA || unprotected());
}

/* ---- the sessions of 01 */

static bool new_status(void)
{
    return erased(F25L008A) && sent("05 00 00", "FF 1C 1C", "00 01 01");
}

static bool jedec(void)
{
    return erased(F25L008A) && sent("9F 00 00 00 00", "FF 8C 20 14 FF", "00 01 01 01 00");
}

static bool signature(void)
{
    return erased(F25L05PA) && sent("AB 00 00 00 00", "FF FF FF FF 05", "00 00 00 00 01");
}

static bool identity(void)
{
    return erased(F25L008A) && sent("90 00 00 01 00 00 00", "FF FF FF FF 13 8C 13", "00 00 00 00 01 01 01");
}

static bool protection(void)
{
    return erased(F25L008A) && silent("50") && silent("01 04") && silent("06")
        && silent("02 0F 00 00 00") && status("06")                               /* protected: ignored */
        && becomes(0x0EFFFF, 0x00) && silent("02 0E FF FF 00") && status("07");   /* not protected: taken */
}

static bool old_and_new(void)
{
    return erased(F25L008A) && unprotected()
        && silent("06") && becomes(0x01234, 0xA5) && silent("02 00 12 34 A5") && waited(7)
        && silent("06") && becomes(0x01234, 0x05) && silent("02 00 12 34 0F") && waited(7)
        && erased(F25L05PA)
        && silent("06") && becomes(0x1234, 0xA5) && silent("02 00 12 34 A5") && waited(1500)
        && silent("06") && becomes(0x1234, 0x05) && silent("02 00 12 34 0F") && waited(1500);
}

static bool word_at_odd_address(void)
{
    return erased(F25L008A) && unprotected() && silent("06")
        && becomes(0x012344, 0x11) && becomes(0x012345, 0x22) && silent("AD 01 23 45 11 22");
}

static bool page_goes_round(void)
{
    return erased(F25L05PA) && silent("06") && becomes(0x00FF, 0x01) && becomes(0x0000, 0x02) && silent("02 00 00 FF 01 02")
        && waited(1499) && status("03") && waited(1) && status("00");
}

static bool chip_erase_by_bp2(void)
{
    bool taken = fresh(F25L05PA, 0x00) && status_written(F25L05PA, "10") && silent("06") && status("12");
    memset(expected, 0xFF, size);
    taken = taken && silent("C7") && status("13") && waited(1000000) && status("10");
    return taken && fresh(F25L008A, 0x00) && silent("50") && silent("01 10") && silent("06") && silent("C7") && status("12");
}

static bool word_at_the_top(void)
{
    return erased(F25L008A) && unprotected() && silent("06")
        && becomes(0x0FFFFE, 0x12) && becomes(0x0FFFFF, 0x34) && silent("AD 0F FF FE 12 34")
        && waited(6) && status("43") && waited(1) && status("00");
}

static bool status_between(void)
{
    return erased(F25L008A) && silent("50") && status("1C") && silent("01 00") && status("1C");
}

static bool longest_frame(void)
{
    bool ran = erased(F25L05PA);
    memset(input, 0x00, sizeof input);
    input[0] = 0x05;
    memset(to_show, 0x00, LONGEST_FRAME);
    to_show[0] = 0xFF;
    memset(to_drive, 0x01, LONGEST_FRAME);
    to_drive[0] = 0x00;
    ran = ran && runs(input, LONGEST_FRAME) && gave(to_show, to_drive, LONGEST_FRAME);
    zeradok_state before = chip;
    fill_slices();
    return ran
        && zeradok_frame(&chip, wp_high, array, size, input, LONGEST_FRAME + 1, output, LONGEST_FRAME + 1, driven, LONGEST_FRAME + 1) == 3
        && same_state(chip, before) && gave_nothing() && memcmp(array, expected, size) == 0;
}

static bool read_over_the_top(void)
{
    bool ready = erased(F25L05PA);
    array[0xFFFF] = expected[0xFFFF] = 0x12;
    array[0x0000] = expected[0x0000] = 0x34;
    return ready && sent("03 00 FF FF 00 00", "FF FF FF FF 12 34", "00 00 00 00 01 01");
}

/* ---- plans and scripts: 01's plan, one of a page, and the script of the listing */

static const uint8_t plan[] = {
    0x5A, 0x46, 0x00, 0x01, 0x06,
    0x5A, 0x46, 0x00, 0x06, 0xAD, 0x01, 0x23, 0x44, 0xFF, 0xFE,
    0x5A, 0x57, 0x00, 0x00, 0x00, 0x07,
    0x5A, 0x46, 0x00, 0x01, 0x04,
};
static const uint8_t page_plan[] = {
    0x5A, 0x46, 0x00, 0x01, 0x06,
    0x5A, 0x46, 0x00, 0x07, 0x02, 0x00, 0x12, 0x34, 0x0F, 0xFF, 0xF0,
    0x5A, 0x57, 0x00, 0x00, 0x05, 0xDC,
};
static const uint8_t listing[] = {
    0x5A, 0x46, 0x00, 0x04, 0x9F, 0x00, 0x00, 0x00,
    0x5A, 0x46, 0x00, 0x01, 0x06,
    0x5A, 0x46, 0x00, 0x05, 0x02, 0x00, 0x01, 0x00, 0xA5,
    0x5A, 0x57, 0x00, 0x00, 0x05, 0xDC,
    0x5A, 0x46, 0x00, 0x02, 0x05, 0x00,
    0x5A, 0x46, 0x00, 0x06, 0x03, 0x00, 0x01, 0x00, 0x00, 0x00,
};
static const uint8_t listed[] = {
    0xFF, 0x8C, 0x30, 0x10,
    0xFF,
    0xFF, 0xFF, 0xFF, 0xFF, 0xFF,
    0xFF, 0x00,
    0xFF, 0xFF, 0xFF, 0xFF, 0xA5, 0xFF,
};
static const uint8_t listed_driven[] = {
    0x00, 0x01, 0x01, 0x01,
    0x00,
    0x00, 0x00, 0x00, 0x00, 0x00,
    0x00, 0x01,
    0x00, 0x00, 0x00, 0x00, 0x01, 0x01,
};
static uint8_t buffer[ZERADOK_WORST_BYTES];

static void fill_buffers(void)
{
    memset(buffer, 0xA5, sizeof buffer);
    memset(untouched, 0xA5, sizeof untouched);
}

/* the answer of a plan, its state aside, and behind its script the A5 of the buffer: where it is refused all of them */
static bool answers(zeradok_planned p, zeradok_planned answer)
{
    return p.number == answer.number && same_state(p.state, chip) && p.length == answer.length && p.frames == answer.frames
        && p.microseconds == answer.microseconds && memcmp(buffer + p.length, untouched, sizeof buffer - p.length) == 0
        && memcmp(array, expected, size) == 0;
}

/* plans for the wanted bytes, or none, in so much room */
static bool plans(size_t start, const uint8_t *wanted, size_t count, size_t room, zeradok_planned answer)
{
    fill_buffers();
    return answers(zeradok_plan(chip, wp_high, array, size, start, wanted, count, buffer, room), answer);
}

static bool plan_refused(uint32_t number, size_t start, const uint8_t *wanted, size_t count, size_t room)
{
    return plans(start, wanted, count, room, (zeradok_planned){.number = number});
}

/* the script is refused, and neither the array nor what is lent for output is changed */
static bool run_refused(uint32_t number, size_t offset, const uint8_t *script, size_t length, size_t output_length, size_t driven_length)
{
    fill_slices();
    zeradok_ran r = zeradok_run(chip, wp_high, array, size, script, length, output, output_length, driven, driven_length);
    return r.number == number && same_state(r.state, chip) && r.frames == 0 && r.microseconds == 0 && r.offset == offset && gave_nothing()
        && memcmp(array, expected, size) == 0;
}

/* what so many bytes of frames give is looked at afterwards */
static bool runs_script(const uint8_t *script, size_t length, size_t count, uint32_t frames, uint64_t microseconds)
{
    fill_slices();
    zeradok_ran r = zeradok_run(chip, wp_high, array, size, script, length, output, count, driven, count);
    chip = r.state;
    return r.number == 0 && r.frames == frames && r.microseconds == microseconds && r.offset == 0 && memcmp(array, expected, size) == 0;
}

/* runs the plan in the buffer, in whose frames the chip drives nothing, to what the array should become */
static bool carried_out(zeradok_planned p)
{
    const size_t count = zeradok_survey(buffer, p.length).output;
    return runs_script(buffer, p.length, count, p.frames, p.microseconds) && gave_silence(count);
}

static bool planned_word(void)
{
    const uint8_t wanted = 0xFE;
    return erased(F25L008A) && unprotected()
        && plans(0x012345, &wanted, 1, 26, (zeradok_planned){.length = 26, .frames = 3, .microseconds = 7}) && memcmp(buffer, plan, 26) == 0
        && becomes(0x012345, 0xFE) && runs_script(buffer, 26, 8, 3, 7) && gave_silence(8) && status("00");
}

/* the byte between doesn't change and goes along; after the run nothing is left to plan */
static bool planned_page(void)
{
    const uint8_t wanted[] = {0x0F, 0xFF, 0xF0};
    return erased(F25L05PA)
        && plans(0x1234, wanted, 3, 22, (zeradok_planned){.length = 22, .frames = 2, .microseconds = 1500}) && memcmp(buffer, page_plan, 22) == 0
        && becomes(0x1234, 0x0F) && becomes(0x1236, 0xF0) && runs_script(buffer, 22, 8, 2, 1500) && gave_silence(8) && status("00")
        && plans(0x1234, wanted, 3, 0, (zeradok_planned){0});
}

static bool plan_refusals(void)
{
    const uint8_t low = 0xFE, high = 0xFF;
    bool good = erased(F25L008A) && unprotected() && plan_refused(10, 0x012345, &low, 1, 25) && plan_refused(10, 0x012345, &low, 1, 0)
        && plans(size, NULL, 0, 0, (zeradok_planned){0}) && plan_refused(6, size, &low, 1, 64)
        && plans(0x012345, &high, 1, 0, (zeradok_planned){0});
    array[0x012345] = expected[0x012345] = 0xF0;
    good = good && plan_refused(8, 0x012345, &low, 1, 64) && silent("50") && silent("01 9C") && status("9C");
    wp_high = false;
    good = good && plan_refused(9, 0x012346, &low, 1, 64);
    return good && erased(F25L008A) && unprotected() && silent("06") && becomes(0, 0) && silent("02 00 00 00 00")
        && plan_refused(7, 0x012346, &low, 1, 64);
}

static bool listing_whole(void)
{
    return erased(F25L05PA) && becomes(0x0100, 0xA5) && runs_script(listing, sizeof listing, sizeof listed, 5, 1500)
        && gave(listed, listed_driven, sizeof listed) && status("00") && runs_script(NULL, 0, 0, 0, 0) && gave_nothing();
}

static bool surveys(const uint8_t *script, size_t length, zeradok_surveyed answer)
{
    zeradok_surveyed s = zeradok_survey(script, length);
    return s.number == answer.number && s.frames == answer.frames && s.microseconds == answer.microseconds && s.offset == answer.offset
        && s.output == answer.output;
}

static bool surveyed(void)
{
    return surveys(listing, sizeof listing, (zeradok_surveyed){0, 5, 1500, 0, sizeof listed}) && surveys(plan, 26, (zeradok_surveyed){0, 3, 7, 0, 8})
        && surveys(NULL, 0, (zeradok_surveyed){0});
}

/* a script typed by hand: what a survey says of it, and a run with the output that the survey asks for; the chip drives nothing in it */
static bool typed_by_hand(const char *hex, uint32_t number, size_t offset)
{
    static uint8_t script[64];
    size_t length = bytes_of(hex, script);
    zeradok_surveyed s = zeradok_survey(script, length);
    fill_slices();
    zeradok_ran r = zeradok_run(chip, wp_high, array, size, script, length, output, s.output, driven, s.output);
    chip = r.state;
    return s.number == number && s.offset == offset && r.number == number && r.offset == offset && r.frames == s.frames
        && r.microseconds == s.microseconds && gave_silence(s.output) && memcmp(array, expected, size) == 0;
}

static bool bad_records(void)
{
    return erased(F25L05PA) && typed_by_hand("5A 46 00 01 06 5A 46 00 01 04", 0, 0)
        && typed_by_hand("5A", 14, 0) && typed_by_hand("00", 14, 0)                               /* one byte is left */
        && typed_by_hand("5A 58 00 00", 12, 0) && typed_by_hand("5A 46 00 01 06 46 5A", 12, 5)    /* an unknown mark */
        && typed_by_hand("5A 46 10", 14, 0) && typed_by_hand("5A 46 00 01 06 5A 57 00 00", 14, 5) /* no whole length, no whole wait */
        && typed_by_hand("5A 46 00 00", 13, 0) && typed_by_hand("5A 57 00 00 00 07 5A 46 10 06", 13, 6)
        && typed_by_hand("5A 46 10 05 06", 14, 0) && typed_by_hand("5A 46 00 01 06 5A 46 00 02 05", 14, 5) /* the frame goes on */
        && typed_by_hand("5A 46 00 00 00 00", 13, 0) && typed_by_hand("00 00 5A 46 00 00", 12, 0) /* the first bad one counts */
        && status("00");
}

static bool script_refusals(void)
{
    static uint8_t long_script[LONGEST_SCRIPT + 1];
    bool good = erased(F25L05PA) && run_refused(11, 0, long_script, LONGEST_SCRIPT + 1, 0, 0)
        && run_refused(12, 0, long_script, LONGEST_SCRIPT, 0, 0)
        && surveys(long_script, LONGEST_SCRIPT + 1, (zeradok_surveyed){.number = 11})
        && surveys(long_script, LONGEST_SCRIPT, (zeradok_surveyed){.number = 12})
        && run_refused(14, 34, listing, sizeof listing - 1, sizeof listed, sizeof listed)
        && run_refused(14, 34, listing, sizeof listing - 1, sizeof listed, 0) && run_refused(14, 34, listing, sizeof listing - 1, 0, 0)
        && run_refused(4, 0, listing, sizeof listing, sizeof listed + 1, sizeof listed + 1);
    size--;
    good = good && run_refused(2, 0, listing, sizeof listing - 1, sizeof listed, sizeof listed + 1);
    size++;
    chip.bp = 8; /* not a state of the chip */
    return good && run_refused(1, 0, listing, sizeof listing - 1, sizeof listed, sizeof listed + 1);
}

static bool reads(const uint8_t *script, size_t length, size_t offset, zeradok_record answer)
{
    zeradok_record r = zeradok_read(script, length, offset);
    return r.number == answer.number && r.kind == answer.kind && r.start == answer.start && r.length == answer.length
        && r.microseconds == answer.microseconds && r.next == answer.next;
}

static bool records(void)
{
    static uint8_t long_script[LONGEST_SCRIPT + 1];
    return reads(plan, 26, 0, (zeradok_record){0, 1, 4, 1, 0, 5}) && reads(plan, 26, 5, (zeradok_record){0, 1, 9, 6, 0, 15})
        && reads(plan, 26, 15, (zeradok_record){0, 2, 0, 0, 7, 21}) && reads(plan, 26, 21, (zeradok_record){0, 1, 25, 1, 0, 26})
        && reads(plan, 26, 26, (zeradok_record){0, 3, 0, 0, 0, 26}) && reads(NULL, 0, 0, (zeradok_record){0, 3, 0, 0, 0, 0})
        && reads(plan, 25, 21, (zeradok_record){14, 0, 0, 0, 0, 21}) && reads(plan, 26, 27, (zeradok_record){14, 0, 0, 0, 0, 27})
        && reads(plan, 26, 1, (zeradok_record){12, 0, 0, 0, 0, 1}) && reads(plan, 26, 25, (zeradok_record){14, 0, 0, 0, 0, 25})
        && reads((const uint8_t[]){0x5A, 0x46, 0x10, 0x06}, 4, 0, (zeradok_record){13, 0, 0, 0, 0, 0})
        && reads(long_script, LONGEST_SCRIPT, 0, (zeradok_record){12, 0, 0, 0, 0, 0})
        && reads(long_script, LONGEST_SCRIPT + 1, 0, (zeradok_record){11, 0, 0, 0, 0, 0})
        && reads(long_script, LONGEST_SCRIPT + 1, LONGEST_SCRIPT + 2, (zeradok_record){11, 0, 0, 0, 0, LONGEST_SCRIPT + 2});
}

/* the listing again, its records read and run one by one */
static bool listing_by_records(void)
{
    bool good = erased(F25L05PA);
    size_t offset = 0, laid = 0;
    for (;;) {
        zeradok_record r = zeradok_read(listing, sizeof listing, offset);
        if (r.kind == 1) {
            if (listing[r.start] == 0x02) becomes(0x0100, 0xA5);
            good = good && runs(listing + r.start, r.length) && gave(listed + laid, listed_driven + laid, r.length);
            laid += r.length;
        } else if (r.kind == 2) {
            good = good && waited(r.microseconds);
        } else {
            return good && r.kind == 3 && laid == sizeof listed && status("00");
        }
        offset = r.next;
    }
}

/* ---- power, and a cut */

static bool power(void)
{
    zeradok_answer a;
    if (!(erased(F25L008A) && unprotected() && silent("06"))) return false;
    a = zeradok_power_up(chip);
    if (a.number != 0 || !same_state(a.state, zeradok_new(F25L008A).state)) return false;
    if (!(erased(F25L05PA) && status_written(F25L05PA, "A4") && silent("B9"))) return false;
    a = zeradok_power_up(chip);
    chip = a.state;
    return a.number == 0 && status("A4");
}

/* the power goes in the frame; what it gives is looked at afterwards */
static bool cut_in(const uint8_t *frame, size_t count, const uint8_t *mask, size_t mask_length)
{
    fill_slices();
    return zeradok_cut_frame(&chip, wp_high, array, size, frame, count, output, count, driven, count, mask, mask_length) == 0
        && memcmp(array, expected, size) == 0;
}

static bool cut(void)
{
    const uint8_t frame[] = {0x02, 0x00, 0x00, 0xFF, 0x00, 0x00}, mask[] = {0x0F, 0xF0};
    return erased(F25L05PA) && silent("06")
        && becomes(0x0000, 0xF0) && becomes(0x00FF, 0x0F) /* the mask goes by rising address */
        && cut_in(frame, 6, mask, 2) && gave_silence(6) && same_state(chip, zeradok_new(F25L05PA).state)
        && cut_in((const uint8_t[]){0x05}, 1, NULL, 0) && gave_silence(1);
}

/* ---- which bytes the chip drives: an FF is its own where driven has 01, and nobody's where it has 00 */

/* an erased byte is the chip's own FF; a frame that ends with the address is silent, and the longest read is driven to its end, over the top */
static bool drives_read(uint8_t number)
{
    bool good = erased(number) && sent("03 00 00 00 00 00 00", "FF FF FF FF FF FF FF", "00 00 00 00 01 01 01") && silent("03 00 00 00")
        && silent("03") && sent("03 FF FF FF 00", "FF FF FF FF FF", "00 00 00 00 01")
        && stands(0x1000, "12 FF 00 01") && sent("03 00 10 00 00 00 00 00", "FF FF FF FF 12 FF 00 01", "00 00 00 00 01 01 01 01");
    memset(input, 0xFF, LONGEST_FRAME);
    input[0] = 0x03;
    memset(to_show, 0xFF, LONGEST_FRAME);
    memset(to_drive, 0x00, 4);
    memset(to_drive + 4, 0x01, LONGEST_FRAME - 4);
    return good && runs(input, LONGEST_FRAME) && gave(to_show, to_drive, LONGEST_FRAME);
}

/* byte 4, the dummy, is silent */
static bool drives_fast_read(uint8_t number)
{
    return erased(number) && sent("0B 00 00 00 00 00 00", "FF FF FF FF FF FF FF", "00 00 00 00 00 01 01") && silent("0B 00 00 00 00")
        && silent("0B 00 00 00") && sent("0B 00 10 00 00 00", "FF FF FF FF FF FF", "00 00 00 00 00 01")
        && stands(0x1000, "12 FF 00") && sent("0B 00 10 00 00 00 00 00", "FF FF FF FF FF 12 FF 00", "00 00 00 00 00 01 01 01");
}

/* three bytes, and no FF behind them */
static bool drives_jedec(uint8_t number)
{
    const bool is_008a = number == F25L008A;
    return erased(number) && silent("9F") && sent("9F 00", "FF 8C", "00 01")
        && sent("9F 00 00 00", is_008a ? "FF 8C 20 14" : "FF 8C 30 10", "00 01 01 01")
        && sent("9F 00 00 00 00", is_008a ? "FF 8C 20 14 FF" : "FF 8C 30 10 FF", "00 01 01 01 00")
        && sent("9F 00 00 00 00 00 00 00", is_008a ? "FF 8C 20 14 FF FF FF FF" : "FF 8C 30 10 FF FF FF FF", "00 01 01 01 00 00 00 00");
}

static bool drives_signature(uint8_t number)
{
    if (number == F25L008A)
        return erased(number) && silent("AB") && sent("AB 00", "FF 13", "00 01")
            && sent("AB 00 00 00 00 00", "FF 13 13 13 13 13", "00 01 01 01 01 01");
    return erased(number) && silent("AB") && silent("AB 00 00 00") && sent("AB 00 00 00 00", "FF FF FF FF 05", "00 00 00 00 01")
        && sent("AB 00 00 00 00 00", "FF FF FF FF 05 05", "00 00 00 00 01 01");
}

static bool drives_identity(uint8_t number)
{
    const bool is_008a = number == F25L008A;
    return erased(number) && silent("90") && silent("90 00 00 01") && sent("90 00 00 00 00", "FF FF FF FF 8C", "00 00 00 00 01")
        && sent("90 00 00 00 00 00 00", is_008a ? "FF FF FF FF 8C 13 8C" : "FF FF FF FF 8C 05 8C", "00 00 00 00 01 01 01")
        && sent("90 00 00 01 00 00", is_008a ? "FF FF FF FF 13 8C" : "FF FF FF FF 05 8C", "00 00 00 00 01 01");
}

/* all that drives at rest, but 05 and AB */
static bool reads_are_silent(void)
{
    return silent("03 00 00 00 00 00") && silent("0B 00 00 00 00 00") && silent("9F 00 00 00 00") && silent("90 00 00 00 00 00");
}

static bool drives_while_busy(uint8_t number)
{
    const uint32_t time = number == F25L008A ? 7 : 1500;
    return blank(number) && silent("06") && becomes(0, 0x00) && silent("02 00 00 00 00")
        && reads_are_silent() && silent("AB 00 00 00 00 00") && sent("05 00 00", "FF 03 03", "00 01 01")
        && waited(time - 1) && reads_are_silent() && silent("AB 00 00 00 00 00") && sent("05 00 00", "FF 03 03", "00 01 01")
        && waited(1) && sent("03 00 00 00 00 00", "FF FF FF FF 00 FF", "00 00 00 00 01 01") && sent("05 00 00", "FF 00 00", "00 01 01");
}

/* busy with its first word, then not busy and still in AAI */
static bool drives_in_aai(void)
{
    return blank(F25L008A) && silent("06") && becomes(0, 0x12) && becomes(1, 0x34) && silent("AD 00 00 00 12 34")
        && reads_are_silent() && silent("AB 00 00 00 00 00") && sent("05 00 00", "FF 43 43", "00 01 01")
        && waited(7) && reads_are_silent() && silent("AB 00 00 00 00 00") && sent("05 00 00", "FF 42 42", "00 01 01")
        && becomes(2, 0x56) && becomes(3, 0x78) && silent("AD 56 78") && waited(7) && silent("04")
        && sent("03 00 00 00 00 00 00 00", "FF FF FF FF 12 34 56 78", "00 00 00 00 01 01 01 01");
}

/* AB is answered, and ends it */
static bool drives_in_power_down(void)
{
    return erased(F25L05PA) && silent("B9") && silent("05") && silent("05 00 00") && reads_are_silent() && silent("05 00 00")
        && sent("AB 00 00 00 00 00", "FF FF FF FF 05 05", "00 00 00 00 01 01") && sent("05 00 00", "FF 00 00", "00 01 01")
        && sent("03 00 00 00 00 00", "FF FF FF FF FF FF", "00 00 00 00 01 01")
        && silent("B9") && silent("03 00 00 00 00 00") && silent("AB") && sent("03 00 00 00 00", "FF FF FF FF FF", "00 00 00 00 01");
}

/* every other opcode, unknown ones too, in a frame of eight bytes; then the known ones in frames that are taken */
static bool drives_nothing_else(uint8_t number)
{
    static const uint8_t six[] = {0x03, 0x05, 0x0B, 0x90, 0x9F, 0xAB};
    bool good = erased(number);
    memset(input, 0x00, sizeof input);
    for (int opcode = 0; opcode < 256; opcode++) {
        input[0] = (uint8_t)opcode;
        if (memchr(six, opcode, sizeof six) == NULL) good = good && runs(input, 8) && gave_silence(8);
    }
    good = good && status_written(number, "00") && silent("06") && silent("04")
        && silent("06") && becomes(0, 0x00) && silent("02 00 00 00 00") && waited(1500)
        && silent("06") && becomes(0, 0xFF) && silent("20 00 00 00") && waited(90000)
        && silent("06") && silent("D8 00 00 00") && waited(1000000) && silent("06") && silent("60") && waited(8000000)
        && silent("06") && silent("C7") && waited(8000000) && status("00");
    if (number == F25L05PA) return good && silent("B9");
    return good && silent("06") && becomes(0, 0x12) && becomes(1, 0x34) && silent("AD 00 00 00 12 34") && status("43");
}

/* ignored by a chip at rest: wrong lengths, no WEL, not armed, protected, and locked by BPL with WP low */
static bool drives_nothing_ignored(uint8_t number)
{
    const char *arm = number == F25L008A ? "50" : "06";
    bool good = blank(number) && silent("06 00") && silent("20 00 00") && silent("02 00 00 00") && silent("02 00 00 00 00") && silent("20 00 00 00")
        && silent("C7") && silent("01 9C") && status("00") && status_written(number, "9C")
        && silent("06") && silent("02 00 00 00 00") && silent("20 00 00 00") && silent("C7") && status("9E");
    wp_high = false;
    return good && silent(arm) && silent("01 00") && status("9E");
}

/* a frame that programs nothing and erases nothing, with the power cut in it */
static bool cut_sent(const char *frame, const char *shows, const char *drives)
{
    size_t count = bytes_of(frame, input);
    return bytes_of(shows, to_show) == count && bytes_of(drives, to_drive) == count && cut_in(input, count, NULL, 0)
        && gave(to_show, to_drive, count);
}

/* as in the whole frame: of the chip before the cut, and to the frame's end; the F25L008A is protected after it */
static bool drives_cut(uint8_t number)
{
    const bool is_008a = number == F25L008A;
    const char *after = is_008a ? "FF 1C" : "FF 00";
    bool good = blank(number) && stands(0, "12 FF") && cut_sent("03 00 00 00 00 00", "FF FF FF FF 12 FF", "00 00 00 00 01 01")
        && cut_sent("0B 00 00 00 00 00 00", "FF FF FF FF FF 12 FF", "00 00 00 00 00 01 01")
        && cut_sent("9F 00 00 00 00", is_008a ? "FF 8C 20 14 FF" : "FF 8C 30 10 FF", "00 01 01 01 00")
        && cut_sent("AB 00 00 00 00", is_008a ? "FF 13 13 13 13" : "FF FF FF FF 05", is_008a ? "00 01 01 01 01" : "00 00 00 00 01")
        && cut_sent("90 00 00 00 00 00", is_008a ? "FF FF FF FF 8C 13" : "FF FF FF FF 8C 05", "00 00 00 00 01 01")
        && silent("06") && cut_sent("05 00", is_008a ? "FF 1E" : "FF 02", "00 01") && cut_sent("05 00", after, "00 01")
        && cut_sent("06", "FF", "00") && cut_sent("00 00 00 00 00 00", "FF FF FF FF FF FF", "00 00 00 00 00 00");
    good = good && blank(number) && silent("06") && becomes(0, 0x00) && silent("02 00 00 00 00")
        && cut_sent("03 00 00 00 00", "FF FF FF FF FF", "00 00 00 00 00") && cut_sent("03 00 00 00 00", "FF FF FF FF 00", "00 00 00 00 01");
    if (is_008a) return good;
    return good && silent("B9") && cut_sent("05 00", "FF FF", "00 00") && cut_sent("05 00", "FF 00", "00 01") && silent("B9")
        && cut_sent("AB 00 00 00 00", "FF FF FF FF 05", "00 00 00 00 01");
}

static bool script_sent(const char *hex, const char *shows, const char *drives, uint32_t frames, uint64_t microseconds)
{
    static uint8_t script[128];
    const size_t length = bytes_of(hex, script), count = bytes_of(shows, to_show);
    return bytes_of(drives, to_drive) == count && runs_script(script, length, count, frames, microseconds) && gave(to_show, to_drive, count);
}

/* frames of every sort, and waits between them that take no room */
static bool drives_script_008a(void)
{
    return erased(F25L008A) && stands(0, "12 FF")
        && script_sent("5A 46 00 02 05 00  5A 46 00 05 9F 00 00 00 00  5A 57 00 00 00 07  5A 46 00 06 03 00 00 00 00 00"
                       "  5A 46 00 01 06  5A 46 00 06 0B 00 00 00 00 00  5A 46 00 02 AB 00  5A 57 00 00 00 01  5A 46 00 02 00 00"
                       "  5A 46 00 06 90 00 00 00 00 00",
                       "FF 1C  FF 8C 20 14 FF  FF FF FF FF 12 FF  FF  FF FF FF FF FF 12  FF 13  FF FF  FF FF FF FF 8C 13",
                       "00 01  00 01 01 01 00  00 00 00 00 01 01  00  00 00 00 00 00 01  00 01  00 00  00 00 00 00 01 01", 8, 8);
}

/* a read while busy and one when it is over, a status in power-down and one behind it */
static bool drives_script_05pa(void)
{
    return erased(F25L05PA) && becomes(0, 0xFE)
        && script_sent("5A 46 00 01 06  5A 46 00 05 02 00 00 00 FE  5A 46 00 05 03 00 00 00 00  5A 46 00 02 05 00  5A 57 00 00 05 DC"
                       "  5A 46 00 06 03 00 00 00 00 00  5A 46 00 01 B9  5A 46 00 02 05 00  5A 46 00 05 AB 00 00 00 00  5A 46 00 02 05 00",
                       "FF  FF FF FF FF FF  FF FF FF FF FF  FF 03  FF FF FF FF FE FF  FF  FF FF  FF FF FF FF 05  FF 00",
                       "00  00 00 00 00 00  00 00 00 00 00  00 01  00 00 00 00 01 01  00  00 00  00 00 00 00 01  00 01", 9, 1500);
}

/* ---- the flag book: the scenes 0 and 9 in the first sector, the last scene in the last one, all scenes at once */

enum { SCENES = 4096, USED = 512, SECTOR = 4096 };

static const uint32_t two_scenes[] = {0, 9, 9}, last_scene[] = {SCENES - 1};
static const uint8_t two_by_page[] = {
    0x5A, 0x46, 0x00, 0x01, 0x06,
    0x5A, 0x46, 0x00, 0x06, 0x02, 0x00, 0x00, 0x00, 0xFE, 0xFD,
    0x5A, 0x57, 0x00, 0x00, 0x05, 0xDC,
};
static const uint8_t two_by_word[] = {
    0x5A, 0x46, 0x00, 0x01, 0x06,
    0x5A, 0x46, 0x00, 0x06, 0xAD, 0x00, 0x00, 0x00, 0xFE, 0xFD,
    0x5A, 0x57, 0x00, 0x00, 0x00, 0x07,
    0x5A, 0x46, 0x00, 0x01, 0x04,
};
static const uint8_t last_by_page[] = {
    0x5A, 0x46, 0x00, 0x01, 0x06,
    0x5A, 0x46, 0x00, 0x05, 0x02, 0x00, 0xF1, 0xFF, 0x7F,
    0x5A, 0x57, 0x00, 0x00, 0x05, 0xDC,
};
static const uint8_t last_by_word[] = {
    0x5A, 0x46, 0x00, 0x01, 0x06,
    0x5A, 0x46, 0x00, 0x06, 0xAD, 0x0F, 0xF1, 0xFE, 0xFF, 0x7F,
    0x5A, 0x57, 0x00, 0x00, 0x00, 0x07,
    0x5A, 0x46, 0x00, 0x01, 0x04,
};

static bool tells(zeradok_told told, uint32_t number, uint32_t value)
{
    return told.number == number && same_state(told.state, chip) && told.value == value && memcmp(array, expected, size) == 0;
}

static bool is_read(size_t sector, uint32_t scene)
{
    return tells(zeradok_book_is_read(chip, array, size, sector, scene), 0, 1);
}

static bool is_unread(size_t sector, uint32_t scene)
{
    return tells(zeradok_book_is_read(chip, array, size, sector, scene), 0, 0);
}

static bool counts(uint32_t value, size_t sector)
{
    return tells(zeradok_book_count(chip, array, size, sector), 0, value);
}

/* plans the marking in so much room */
static bool marks(size_t sector, const uint32_t *scenes, size_t count, size_t room, zeradok_planned answer)
{
    fill_buffers();
    return answers(zeradok_book_mark(chip, wp_high, array, size, sector, scenes, count, room ? buffer : NULL, room), answer);
}

static bool mark_refused(uint32_t number, size_t sector, const uint32_t *scenes, size_t count, size_t room)
{
    return marks(sector, scenes, count, room, (zeradok_planned){.number = number});
}

/* just enough room, after a byte too few; where the script is given the plan has it */
static bool marks_by(const uint8_t *script, size_t sector, const uint32_t *scenes, size_t count, zeradok_planned answer)
{
    return mark_refused(10, sector, scenes, count, 0) && mark_refused(10, sector, scenes, count, answer.length - 1)
        && marks(sector, scenes, count, answer.length, answer) && (script == NULL || memcmp(buffer, script, answer.length) == 0);
}

/* the plan with a status write in front and one behind; on an F25L05PA each has its wait */
static zeradok_planned unprotecting(uint8_t number, zeradok_planned p)
{
    p.length += 22;
    p.frames += 4;
    if (number == F25L05PA) p.length += 12, p.microseconds += 10000;
    return p;
}

/* the plan of one word, or of one page with so many bytes */
static zeradok_planned one_write(uint8_t number, uint32_t bytes, bool unprotects)
{
    zeradok_planned p = {.length = 19 + bytes, .frames = 2, .microseconds = 1500};
    if (number == F25L008A) p = (zeradok_planned){.length = 26, .frames = 3, .microseconds = 7};
    return unprotects ? unprotecting(number, p) : p;
}

/* runs the plan made last; then nothing is left to mark */
static bool marked(size_t sector, const uint32_t *scenes, size_t count, zeradok_planned p)
{
    return carried_out(p) && marks(sector, scenes, count, 0, (zeradok_planned){0});
}

/* from an armed chip: no call but the run changes the state */
static bool book_first(uint8_t number)
{
    const bool words = number == F25L008A;
    const zeradok_planned p = one_write(number, 2, false);
    return blank(number) && silent(words ? "50" : "06") && counts(0, 0) && is_unread(0, 0) && is_unread(0, 9)
        && marks_by(words ? two_by_word : two_by_page, 0, two_scenes, 3, p)
        && becomes(0, 0xFE) && becomes(1, 0xFD) && marked(0, two_scenes, 3, p)
        && counts(2, 0) && is_read(0, 0) && is_unread(0, 1) && is_unread(0, 8) && is_read(0, 9) && is_unread(0, 10)
        && counts(0, SECTOR) && is_unread(SECTOR, 0);
}

static bool book_last(uint8_t number)
{
    const zeradok_planned p = one_write(number, 1, false);
    bool ready = blank(number);
    const size_t sector = size - SECTOR;
    return ready && marks_by(number == F25L008A ? last_by_word : last_by_page, sector, last_scene, 1, p)
        && becomes(sector + USED - 1, 0x7F) && marked(sector, last_scene, 1, p)
        && counts(1, sector) && is_read(sector, SCENES - 1) && is_unread(sector, SCENES - 2) && counts(0, 0);
}

/* scene 0 as often as there are scenes, then all of them: 512 bytes, by one run of words or by two pages */
static bool book_whole(uint8_t number)
{
    static uint32_t scenes[2 * SCENES];
    zeradok_planned p = {.length = 2 * 275, .frames = 4, .microseconds = 3000};
    if (number == F25L008A) p = (zeradok_planned){.length = 26 + 255 * 13, .frames = 3 + 255, .microseconds = 256 * 7};
    for (uint32_t scene = 0; scene < SCENES; scene++) scenes[SCENES + scene] = scene;
    bool good = blank(number) && marks_by(NULL, SECTOR, scenes, 2 * SCENES, p);
    memset(expected + SECTOR, 0x00, USED);
    good = good && marked(SECTOR, scenes, 2 * SCENES, p) && counts(SCENES, SECTOR) && is_read(SECTOR, 0) && is_read(SECTOR, SCENES - 1);
    scenes[2 * SCENES - 1] = SCENES;
    return good && mark_refused(15, SECTOR, scenes, 2 * SCENES, sizeof buffer);
}

/* its 512 bytes are erased, and all around them is 00 */
static bool book_alone(uint8_t number)
{
    const zeradok_planned p = one_write(number, 1, number == F25L008A);
    bool good = fresh(number, 0x00);
    memset(array + SECTOR, 0xFF, USED);
    memset(expected + SECTOR, 0xFF, USED);
    return good && counts(0, SECTOR) && is_unread(SECTOR, 0) && is_unread(SECTOR, SCENES - 1) && counts(SCENES, 0) && is_read(0, SCENES - 1)
        && marks_by(NULL, SECTOR, last_scene, 1, p) && becomes(SECTOR + USED - 1, 0x7F) && marked(SECTOR, last_scene, 1, p) && counts(1, SECTOR);
}

/* an empty list, and scenes that are read already */
static bool book_nothing_to_do(uint8_t number)
{
    const zeradok_planned nothing = {0};
    return blank(number) && marks(0, NULL, 0, 0, nothing) && marks(size - SECTOR, two_scenes, 0, 64, nothing)
        && fresh(number, 0x00) && marks(0, two_scenes, 3, 0, nothing) && marks(size - SECTOR, last_scene, 1, 64, nothing);
}

/* 15, asked for and marked */
static bool no_such(size_t sector, uint32_t scene)
{
    return tells(zeradok_book_is_read(chip, array, size, sector, scene), 15, 0) && mark_refused(15, sector, &scene, 1, 64);
}

static bool no_such_sector(size_t sector)
{
    return no_such(sector, 0) && tells(zeradok_book_count(chip, array, size, sector), 15, 0) && mark_refused(15, sector, NULL, 0, 0);
}

/* 65,541 cut to 16 bits is scene 5; the last but one of the starts has its sector's end at 0, and the last cut to 32 bits is 0 */
static bool book_outside(uint8_t number)
{
    const uint32_t listed[] = {0, 9, SCENES}, in_front[] = {SCENES, 0, 9};
    return blank(number) && no_such(0, SCENES) && no_such(0, 65541) && no_such(0, 0x80000000) && no_such(0, UINT32_MAX)
        && mark_refused(15, 0, listed, 3, 64) && mark_refused(15, 0, in_front, 3, 64)
        && no_such_sector(1) && no_such_sector(USED) && no_such_sector(SECTOR - 1) && no_such_sector(size - 1) && no_such_sector(size - USED)
        && no_such_sector(size) && no_such_sector(size + SECTOR) && no_such_sector(SIZE_MAX) && no_such_sector(SIZE_MAX - (SECTOR - 1))
        && no_such_sector((size_t)1 << 32);
}

/* all three calls, with a scene and a sector that would be a 15 */
static bool book_refused(uint32_t number)
{
    return tells(zeradok_book_is_read(chip, array, size, 1, SCENES), number, 0) && tells(zeradok_book_count(chip, array, size, 1), number, 0)
        && mark_refused(number, 1, (const uint32_t[]){SCENES}, 1, 64);
}

static bool book_not_lent(uint8_t number)
{
    bool good = erased(number);
    size--;
    good = good && book_refused(2);
    size++;
    good = good && book_refused(15);
    chip.bp = 8; /* not a state of the chip */
    size--;
    good = good && book_refused(1);
    size++;
    chip.bp = 0;
    chip.chip = 7; /* no chip */
    return good && book_refused(1);
}

/* byte 0 is 00: the questions are answered, and marking is a 7, of nothing too; 15 comes before it */
static bool only_questions(void)
{
    return is_read(0, 7) && is_unread(0, 8) && counts(8, 0) && mark_refused(7, 0, two_scenes, 3, 64) && mark_refused(7, 0, NULL, 0, 0)
        && no_such(0, SCENES) && no_such_sector(size);
}

static bool book_not_at_rest(void)
{
    bool busy = blank(F25L05PA) && silent("06") && becomes(0, 0x00) && silent("02 00 00 00 00") && only_questions();
    bool rests = waited(1500) && marks(0, last_scene, 1, 64, one_write(F25L05PA, 1, false));
    bool powered_down = silent("B9") && only_questions();
    bool in_aai = blank(F25L008A) && silent("06") && becomes(0, 0x00) && silent("AD 00 00 00 00 FF") && waited(7) && only_questions();
    return busy && rests && powered_down && in_aai && silent("04") && marks(0, last_scene, 1, 64, one_write(F25L008A, 1, false));
}

/* BPL 1 and all protected: with WP low it is a 9, unless nothing has to change; with WP high the plan unprotects and protects again */
static bool book_protected(uint8_t number)
{
    const zeradok_planned p = one_write(number, 2, true);
    bool good = erased(number) && status_written(number, "9C");
    wp_high = false;
    good = good && mark_refused(9, 0, two_scenes, 3, 64) && mark_refused(9, 0, two_scenes, 3, 0) && no_such(0, SCENES)
        && marks(0, NULL, 0, 0, (zeradok_planned){0});
    wp_high = true;
    return good && marks_by(NULL, 0, two_scenes, 3, p) && becomes(0, 0xFE) && becomes(1, 0xFD) && marked(0, two_scenes, 3, p) && status("9C");
}

/* the power goes while both bytes are written, and of each only bit 0 is through: scene 0 is read, 9 isn't yet, and 8 isn't at all */
static bool book_cut(uint8_t number)
{
    const uint8_t mask[] = {0x01, 0x01};
    const zeradok_planned p = one_write(number, 2, false), again = one_write(number, 1, number == F25L008A);
    return blank(number) && marks(0, two_scenes, 3, p.length, p) && silent("06") && becomes(0, 0xFE)
        && cut_in(buffer + 9, 6, mask, 2) && gave_silence(6)
        && is_read(0, 0) && is_unread(0, 1) && is_unread(0, 8) && is_unread(0, 9) && counts(1, 0)
        && marks(0, two_scenes, 3, p.length + 22, again) && becomes(1, 0xFD) && marked(0, two_scenes, 3, again)
        && is_read(0, 0) && is_unread(0, 1) && is_unread(0, 8) && is_read(0, 9) && counts(2, 0);
}

/* ---- name sectors salvaged: an image is laid piece by piece, and with it the records that are to be kept */

enum { CUT_TO_SECTOR = 65536 + SECTOR }; /* cut to 16 bits it is a sector's length */

static uint8_t image[CUT_TO_SECTOR], lent[CUT_TO_SECTOR], kept[CUT_TO_SECTOR], to_keep[SECTOR], to_drop[ZERADOK_LONGEST_DROPPED];
static size_t laid, to_keep_length;

/* one byte throughout, behind the sector too */
static bool filled(uint8_t filling)
{
    memset(image, filling, sizeof image);
    memset(to_keep, 0xFF, SECTOR);
    laid = to_keep_length = 0;
    return true;
}

/* where the next piece is laid */
static bool from(size_t place)
{
    laid = place;
    return true;
}

static bool raw(const char *hex)
{
    laid += bytes_of(hex, image + laid);
    return true;
}

/* a record's bytes, good or not; the mark's first byte is given */
static bool name_record(uint8_t first, const char *name)
{
    size_t count = strlen(name);
    const uint8_t front[] = {first, 0x52, (uint8_t)count};
    memcpy(image + laid, front, 3);
    memcpy(image + laid + 3, name, count);
    laid += 3 + count;
    return true;
}

static bool damaged(const char *name)
{
    return name_record(0x4C, name);
}

static bool with_mark(const char *name)
{
    return name_record(0x4E, name);
}

/* of what is laid already, so many bytes from this place on are to be kept */
static bool keeps_from(size_t place, size_t count)
{
    memcpy(to_keep + to_keep_length, image + place, count);
    to_keep_length += count;
    return true;
}

static bool keeps(const char *name)
{
    const size_t place = laid;
    return with_mark(name) && keeps_from(place, laid - place);
}

static zeradok_salvaged salvage(size_t sector_length, size_t kept_length, size_t room)
{
    fill_buffers();
    memset(kept, 0xA5, sizeof kept);
    memcpy(lent, image, sizeof lent);
    return zeradok_salvage(sector_length ? lent : NULL, sector_length, kept_length ? kept : NULL, kept_length, room ? buffer : NULL, room);
}

/* the sector is as it was, and so is each buffer behind its first so many bytes */
static bool untouched_behind(size_t kept_bytes, size_t list_bytes)
{
    return memcmp(kept + kept_bytes, untouched, SECTOR + 1 - kept_bytes) == 0
        && memcmp(buffer + list_bytes, untouched, sizeof buffer - list_bytes) == 0 && memcmp(lent, image, sizeof lent) == 0;
}

static bool salvage_refused(uint32_t number, size_t sector_length, size_t kept_length, size_t room)
{
    zeradok_salvaged s = salvage(sector_length, kept_length, room);
    return s.number == number && s.length == 0 && s.kept == 0 && untouched_behind(0, 0);
}

static bool salvaged_in(size_t room, size_t length)
{
    zeradok_salvaged s = salvage(SECTOR, SECTOR, room);
    return s.number == 0 && s.length == length && s.kept == to_keep_length && memcmp(kept, to_keep, SECTOR) == 0
        && memcmp(buffer, to_drop, length) == 0 && untouched_behind(SECTOR, length);
}

/* the list has so many bytes: refused in one byte fewer and in none, taken in just enough room and in more */
static bool salvaged(size_t length)
{
    return (length == 0 || (salvage_refused(10, SECTOR, SECTOR, length - 1) && salvage_refused(10, SECTOR, SECTOR, 0)))
        && salvaged_in(length, length) && salvaged_in(length + 3, length) && salvaged_in(sizeof buffer, length);
}

static bool drops(const char *list)
{
    return salvaged(bytes_of(list, to_drop));
}

/* the first mark, the middle one; a mark with nothing behind it, a bad byte in a name, and a mark's second byte */
static bool salvage_damaged(void)
{
    return filled(0xFF) && damaged("prologue") && keeps("station at night") && keeps("letter") && drops("00 00 00 0B")
        && filled(0xFF) && keeps("prologue") && damaged("station at night") && keeps("letter") && drops("00 0B 00 13")
        && filled(0xFF) && raw("4E 52") && keeps("letter") && raw("4E 52 03 61 0A 62") && keeps("prologue") && raw("4E 50 01 61") && keeps("b")
        && drops("00 00 00 02 00 0B 00 06 00 1C 00 04");
}

/* the stretch that is stepped over has FF at its front, at its end or all through; those at the sector's end are in none */
static bool salvage_ff_inside(void)
{
    return filled(0xFF) && from(3) && keeps("a") && raw("FF FF 00") && keeps("b") && raw("00 FF") && keeps("c") && raw("FF 00 FF FF")
        && drops("00 00 00 03 00 07 00 03 00 0E 00 02 00 14 00 02")
        && filled(0xFF) && keeps("a") && from(256) && keeps("b") && from(4095) && raw("7F") && drops("00 04 00 FC 01 04 0E FC");
}

static bool salvage_at_the_end(void)
{
    return filled(0xFF) && from(4085) && keeps("prologue") && drops("00 00 0F F5")
        && filled(0x00) && from(4092) && keeps("a") && drops("00 00 0F FC");
}

/* by the sector's end, with the rest lying behind it, from the last byte missing to all but the first; and by the erased stretch */
static bool salvage_cut_off(void)
{
    bool dropped = true;
    for (size_t place = 4092; place < SECTOR; place++)
        dropped = dropped && filled(0x00) && from(place) && raw("4E 52 02 61 62") && drops("00 00 10 00");
    return dropped && filled(0xFF) && keeps("a") && raw("4E 52 08 70 72 6F 6C 6F 67 75") && drops("00 04 00 0A")
        && filled(0xFF) && raw("4E") && drops("00 00 00 01");
}

static bool salvage_one_byte_throughout(void)
{
    return filled(0xFF) && drops("") && filled(0x00) && drops("00 00 10 00") && filled(0x4E) && drops("00 00 10 00")
        && filled(0xFF) && from(4095) && raw("FE") && drops("00 00 10 00") && filled(0xFF) && raw("FE") && drops("00 00 00 01");
}

/* 1,024 records just fill a sector; then one of them is damaged */
static bool salvage_full(void)
{
    bool whole = filled(0xFF);
    while (laid < SECTOR) whole = whole && keeps("a");
    whole = whole && to_keep_length == SECTOR && drops("");
    image[0x0800] = 0xFF;
    to_keep_length -= 4;
    memset(to_keep + to_keep_length, 0xFF, 4);
    return whole && drops("08 00 00 04");
}

/* lengths 0, 1, 32 and 33, and the bytes 1F, 20, 7E and 7F */
static bool salvage_edges(void)
{
    const char *of_33 = "abcdefghijklmnopqrstuvwxyz0123456", *of_32 = of_33 + 1;
    return filled(0xFF) && with_mark("") && keeps("a") && keeps(of_32) && with_mark(of_33) && drops("00 00 00 03 00 2A 00 24")
        && filled(0xFF) && keeps(" ") && keeps("~") && with_mark("\x1F") && keeps(" ~") && with_mark("\x7F") && drops("00 08 00 04 00 11 00 04")
        && filled(0xFF) && keeps("a") && with_mark("a\x80") && keeps("a") && with_mark("\xFF") && drops("00 04 00 05 00 0D 00 03");
}

/* the step is a byte: not over a mark, nor over what a bad record takes for its name */
static bool salvage_bytewise(void)
{
    return filled(0xFF) && raw("4E") && keeps("a") && raw("4E 52") && keeps("b") && raw("4E 52 05 61 62") && keeps("c")
        && raw("4E 52 20") && keeps("d") && drops("00 00 00 01 00 05 00 02 00 0B 00 05 00 14 00 03");
}

/* In a good record it is a name and no more. In a damaged one it can begin a record with a name of 32 bytes, which go on into the next record: not
 * where that has the length 6, but where it has 32, and then that record is lost, good as it was. */
static bool salvage_inside(void)
{
    const char *inside = "NR abcdefghijklmnopqrstuvwxyz012", *of_32 = "station at night, in the rain...";
    return filled(0xFF) && keeps(inside) && keeps("letter") && drops("")
        && filled(0xFF) && damaged(inside) && keeps("letter") && drops("00 00 00 23")
        && filled(0xFF) && damaged(inside) && with_mark(of_32) && keeps_from(3, 35) && keeps("letter") && drops("00 00 00 03 00 26 00 20");
}

static bool salvage_equal_names(void)
{
    return filled(0xFF) && keeps("letter") && keeps("letter") && damaged("letter") && keeps("letter") && drops("00 12 00 09");
}

/* a bad byte in front of each record of one letter, and one at the sector's end: no list is longer. 3,279 bytes are too few for it */
static bool salvage_longest_list(void)
{
    bool ready = filled(0xFF) && raw("00");
    size_t length = 0;
    while (laid < SECTOR) ready = ready && keeps("a") && raw("00");
    for (size_t start = 0; start < SECTOR; start += 5) {
        const uint8_t stretch[] = {(uint8_t)(start >> 8), (uint8_t)start, 0x00, 0x01};
        memcpy(to_drop + length, stretch, 4);
        length += 4;
    }
    return ready && laid == SECTOR && length == ZERADOK_LONGEST_DROPPED && salvaged(3280);
}

/* one slice or both of another length than 4,096: a 2, where the list doesn't fit and where it does */
static bool salvage_refusals(void)
{
    static const size_t lengths[] = {SECTOR - 1, SECTOR + 1, 2 * SECTOR, CUT_TO_SECTOR, 1, 0};
    bool refused = filled(0xFF) && damaged("prologue") && keeps("letter");
    for (size_t i = 0; i < sizeof lengths / sizeof *lengths; i++)
        for (size_t room = 0; room <= 4; room++)
            refused = refused && salvage_refused(2, lengths[i], SECTOR, room) && salvage_refused(2, SECTOR, lengths[i], room)
                && salvage_refused(2, lengths[i], lengths[i], room);
    return refused && salvage_refused(10, SECTOR, SECTOR, 0) && salvage_refused(10, SECTOR, SECTOR, 3) && drops("00 00 00 0B");
}

/* ---- flags by name: a record each, by two plans; NAMES, BOOK and THIRD are sectors */

enum { NAMES = 0x1000, BOOK = 0x3000, THIRD = 0x5000 };

static const uint8_t rooftop_by_word[] = {
    0x5A, 0x46, 0x00, 0x01, 0x06,
    0x5A, 0x46, 0x00, 0x06, 0xAD, 0x00, 0x10, 0x02, 0x07, 0x72,
    0x5A, 0x57, 0x00, 0x00, 0x00, 0x07,
    0x5A, 0x46, 0x00, 0x03, 0xAD, 0x6F, 0x6F,
    0x5A, 0x57, 0x00, 0x00, 0x00, 0x07,
    0x5A, 0x46, 0x00, 0x03, 0xAD, 0x66, 0x74,
    0x5A, 0x57, 0x00, 0x00, 0x00, 0x07,
    0x5A, 0x46, 0x00, 0x03, 0xAD, 0x6F, 0x70,
    0x5A, 0x57, 0x00, 0x00, 0x00, 0x07,
    0x5A, 0x46, 0x00, 0x01, 0x04,
};
static const uint8_t mark_by_word[] = {
    0x5A, 0x46, 0x00, 0x01, 0x06,
    0x5A, 0x46, 0x00, 0x06, 0xAD, 0x00, 0x10, 0x00, 0x4E, 0x52,
    0x5A, 0x57, 0x00, 0x00, 0x00, 0x07,
    0x5A, 0x46, 0x00, 0x01, 0x04,
};
static const uint8_t rooftop_by_page[] = {
    0x5A, 0x46, 0x00, 0x01, 0x06,
    0x5A, 0x46, 0x00, 0x0C, 0x02, 0x00, 0x10, 0x02, 0x07, 0x72, 0x6F, 0x6F, 0x66, 0x74, 0x6F, 0x70,
    0x5A, 0x57, 0x00, 0x00, 0x05, 0xDC,
};
static const uint8_t mark_by_page[] = {
    0x5A, 0x46, 0x00, 0x01, 0x06,
    0x5A, 0x46, 0x00, 0x06, 0x02, 0x00, 0x10, 0x00, 0x4E, 0x52,
    0x5A, 0x57, 0x00, 0x00, 0x05, 0xDC,
};

/* records of one letter, an "x" each, from the sector's start up to the place, a multiple of 4 */
static bool stand_up_to(size_t sector, size_t place)
{
    bool laid_out = true;
    for (size_t at = 0; at < place; at += 4) laid_out = laid_out && stands(sector + at, "4E 52 01 78");
    return laid_out;
}

static bool asked(uint32_t number, uint32_t value, size_t sector, const char *name, size_t length)
{
    return tells(zeradok_names_is_read(chip, array, size, sector, length ? (const uint8_t *)name : NULL, length), number, value);
}

static bool has_name(size_t sector, const char *name)
{
    return asked(0, 1, sector, name, strlen(name));
}

static bool has_no(size_t sector, const char *name)
{
    return asked(0, 0, sector, name, strlen(name));
}

/* plans the next script of a marking, of a name with so many bytes, in so much room */
static bool marks_name(size_t sector, const char *name, size_t length, size_t room, zeradok_planned answer)
{
    fill_buffers();
    return answers(zeradok_names_mark(chip, wp_high, array, size, sector, length ? (const uint8_t *)name : NULL, length, room ? buffer : NULL, room),
                   answer);
}

static bool name_refused(uint32_t number, size_t sector, const char *name)
{
    return marks_name(sector, name, strlen(name), sizeof buffer, (zeradok_planned){.number = number})
        && marks_name(sector, name, strlen(name), 0, (zeradok_planned){.number = number});
}

/* nothing is left to mark */
static bool name_stands(size_t sector, const char *name)
{
    return has_name(sector, name) && marks_name(sector, name, strlen(name), 0, (zeradok_planned){0});
}

/* just enough room, after a byte too few */
static bool name_plans(size_t sector, const char *name, zeradok_planned answer)
{
    const zeradok_planned short_of_room = {.number = 10};
    const size_t length = strlen(name);
    return marks_name(sector, name, length, 0, short_of_room) && marks_name(sector, name, length, answer.length - 1, short_of_room)
        && marks_name(sector, name, length, answer.length, answer);
}

/* the plan of so many words in so many runs, or of one page with so many bytes */
static zeradok_planned writes(uint8_t number, uint32_t words, uint32_t runs_of_words, uint32_t page_bytes)
{
    if (number == F25L05PA) return one_write(number, page_bytes, false);
    return (zeradok_planned){.length = 13 * (words + runs_of_words), .frames = words + 2 * runs_of_words, .microseconds = 7 * words};
}

/* on an F25L008A, which is protected after a cut */
static zeradok_planned after_a_cut(uint8_t number, zeradok_planned p)
{
    return number == F25L008A ? unprotecting(number, p) : p;
}

/* each script is the one written out; behind the first the name isn't read */
static bool names_first(uint8_t number)
{
    const bool words = number == F25L008A;
    const zeradok_planned first = writes(number, 4, 1, 8), second = writes(number, 1, 1, 2);
    return blank(number) && silent(words ? "50" : "06") && has_no(NAMES, "rooftop")
        && name_plans(NAMES, "rooftop", first) && memcmp(buffer, words ? rooftop_by_word : rooftop_by_page, first.length) == 0
        && will_be(NAMES + 2, "07 72 6F 6F 66 74 6F 70") && carried_out(first) && has_no(NAMES, "rooftop")
        && name_plans(NAMES, "rooftop", second) && memcmp(buffer, words ? mark_by_word : mark_by_page, second.length) == 0
        && will_be(NAMES, "4E 52") && carried_out(second) && name_stands(NAMES, "rooftop") && has_no(0, "rooftop") && has_no(NAMES, "x")
        && name_plans(NAMES, "x", second) && will_be(NAMES + 12, "01 78") && carried_out(second) && has_no(NAMES, "x")
        && name_plans(NAMES, "x", second) && will_be(NAMES + 10, "4E 52") && carried_out(second)
        && name_stands(NAMES, "x") && name_stands(NAMES, "rooftop");
}

/* The first place without a whole good record ends them: a mark that is damaged, in either byte, a length that is none, a byte that is none. A record
 * may end with the sector and not behind it, though the next sector goes on with the name. */
static bool names_records(uint8_t number)
{
    static const char *const bad[] = {"4C 52 01 62", "4E 50 01 62", "4E 52 00 62", "4E 52 21 62", "4E 52 01 1F", "4E 52 01 7F", "FF FF 01 62", "FF"};
    bool good = true;
    for (size_t i = 0; i < sizeof bad / sizeof *bad; i++)
        good = good && erased(number) && stands(0, "4E 52 01 61") && stands(4, bad[i]) && stands(8, "4E 52 01 63")
            && has_name(0, "a") && has_no(0, "b") && has_no(0, "c");
    return good && erased(number) && stands(0, "4E 52 01 61 4E 52 01 62 4E 52 01 61 4E 52 01 63") && has_name(0, "a") && has_name(0, "b")
        && has_name(0, "c") && erased(number) && stand_up_to(NAMES, 4092) && stands(NAMES + 4092, "4E 52 01 79 4E 52 01 7A")
        && has_name(NAMES, "y") && has_no(NAMES, "z")
        && stands(NAMES + 4092, "4E 52 02 79 7A") && has_no(NAMES, "yz") && has_no(NAMES, "y") && has_name(NAMES, "x")
        && has_no(NAMES + SECTOR, "z") && has_no(0, "x");
}

/* not the name's front, nor a name that begins with it, nor one with other capitals, with a space or with its last byte changed; the name may be lent
 * from the array itself */
static bool names_compared(uint8_t number)
{
    return blank(number) && stands(NAMES, "4E 52 07 72 6F 6F 66 74 6F 70 4E 52 01 78") && name_stands(NAMES, "rooftop") && name_stands(NAMES, "x")
        && has_no(NAMES, "roofto") && has_no(NAMES, "rooftops") && has_no(NAMES, "Rooftop") && has_no(NAMES, "rooftop ") && has_no(NAMES, "rooftoq")
        && has_no(NAMES, "r") && has_no(NAMES, "NR") && has_no(NAMES, "X") && has_no(NAMES, "xx")
        && marks_name(NAMES, "roof", 4, 64, writes(number, 3, 1, 5)) && will_be(NAMES + 16, "04 72 6F 6F 66") && carried_out(writes(number, 3, 1, 5))
        && marks_name(NAMES, "rooftop\0", 7, 0, (zeradok_planned){0}) && marks_name(NAMES, (const char *)array + NAMES + 3, 7, 0, (zeradok_planned){0})
        && asked(0, 1, NAMES, (const char *)array + NAMES + 3, 7) && asked(0, 0, NAMES, (const char *)array + NAMES + 3, 6);
}

static bool bad_name(const char *name, size_t length)
{
    return asked(18, 0, NAMES, name, length) && marks_name(NAMES, name, length, sizeof buffer, (zeradok_planned){.number = 18});
}

/* lengths 0, 1, 32, 33 and one that is 1 in its low byte; the bytes 1F, 20, 7E and 7F, in front, in the middle and at the end */
static bool names_bad(uint8_t number)
{
    static char of_257[257];
    const char *of_33 = "abcdefghijklmnopqrstuvwxyz0123456", *of_32 = of_33 + 1;
    memset(of_257, 'a', sizeof of_257);
    return blank(number) && bad_name("", 0) && bad_name(of_33, 33) && bad_name(of_257, 257) && bad_name("\x1F", 1) && bad_name("\x7F", 1)
        && bad_name("\x1F" "ab", 3) && bad_name("a\x7F" "b", 3) && bad_name("ab\xFF", 3) && bad_name("a\0", 2) && bad_name("\x80", 1)
        && has_no(NAMES, " ~") && marks_name(NAMES, " ~", 2, 64, writes(number, 2, 1, 3)) && has_no(NAMES, of_32)
        && marks_name(NAMES, of_32, 32, sizeof buffer, writes(number, 17, 1, 33)) && has_no(NAMES, "a")
        && marks_name(NAMES, "a", 1, 64, writes(number, 1, 1, 2));
}

/* ---- moving a book and going back: a list is laid name by name */

static uint8_t list[SECTOR * 33 + 64];
static size_t list_length;

static bool lists(const char *hex)
{
    list_length = bytes_of(hex, list);
    return true;
}

static bool lists_name(const char *name)
{
    const size_t length = strlen(name);
    list[list_length] = (uint8_t)length;
    memcpy(list + list_length + 1, name, length);
    list_length += 1 + length;
    return true;
}

static bool five_scenes(void)
{
    return lists("") && lists_name("prologue") && lists_name("station at night") && lists_name("letter") && lists_name("harbour")
        && lists_name("rooftop");
}

static bool moves_in(size_t room, size_t book, size_t sector, zeradok_planned answer)
{
    fill_buffers();
    return answers(zeradok_names_move(chip, wp_high, array, size, book, sector, list_length ? list : NULL, list_length, room ? buffer : NULL, room),
                   answer);
}

static bool move_refused(uint32_t number, size_t book, size_t sector)
{
    return moves_in(sizeof buffer, book, sector, (zeradok_planned){.number = number})
        && moves_in(0, book, sector, (zeradok_planned){.number = number});
}

/* just enough room, after a byte too few */
static bool move_plans(size_t book, size_t sector, zeradok_planned answer)
{
    return moves_in(answer.length - 1, book, sector, (zeradok_planned){.number = 10}) && moves_in(answer.length, book, sector, answer);
}

static bool backs_in(size_t room, size_t sector, size_t book, zeradok_planned answer, uint32_t unlisted)
{
    fill_buffers();
    zeradok_returned r
        = zeradok_names_back(chip, wp_high, array, size, sector, book, list_length ? list : NULL, list_length, room ? buffer : NULL, room);
    return r.unlisted == unlisted && answers((zeradok_planned){r.number, r.state, r.length, r.frames, r.microseconds}, answer);
}

static bool back_refused(uint32_t number, size_t sector, size_t book)
{
    return backs_in(sizeof buffer, sector, book, (zeradok_planned){.number = number}, 0)
        && backs_in(0, sector, book, (zeradok_planned){.number = number}, 0);
}

static bool back_plans(size_t sector, size_t book, zeradok_planned answer, uint32_t unlisted)
{
    return backs_in(answer.length - 1, sector, book, (zeradok_planned){.number = 10}, 0) && backs_in(answer.length, sector, book, answer, unlisted);
}

/* all four calls; in the two with two sectors either is the one that isn't there, and both */
static bool no_such_names(size_t sector)
{
    return asked(15, 0, sector, "x", 1) && name_refused(15, sector, "x") && move_refused(15, sector, NAMES) && move_refused(15, BOOK, sector)
        && move_refused(15, sector, sector) && back_refused(15, sector, BOOK) && back_refused(15, NAMES, sector) && back_refused(15, sector, sector);
}

static bool names_outside(uint8_t number)
{
    return blank(number) && five_scenes() && no_such_names(1) && no_such_names(USED) && no_such_names(SECTOR - 1) && no_such_names(size - 1)
        && no_such_names(size) && no_such_names(size + SECTOR) && no_such_names(SIZE_MAX) && no_such_names(SIZE_MAX - (SECTOR - 1))
        && no_such_names((size_t)1 << 32) && has_no(size - SECTOR, "x") && moves_in(0, BOOK, size - SECTOR, (zeradok_planned){0})
        && moves_in(0, size - SECTOR, 0, (zeradok_planned){0}) && backs_in(0, size - SECTOR, 0, (zeradok_planned){0}, 0);
}

/* all four calls, with what would be refused by every later number */
static bool names_refused(uint32_t number, size_t sector)
{
    return asked(number, 0, sector, "", 0) && marks_name(sector, "", 0, 0, (zeradok_planned){.number = number})
        && move_refused(number, sector, sector)
        && back_refused(number, sector, sector);
}

/* In NAMES stand records up to byte 4,088 and then 00, so that a name of six letters is a 20 and one of five an 8. Taken for a book, BOOK, which
 * also holds records, has read scenes behind the third; THIRD has the first three alone (F8). All is wrong at first, and then mended, refusal by
 * refusal. */
static bool names_order(uint8_t number)
{
    bool good = blank(number) && stand_up_to(NAMES, 4088) && stands(NAMES + 4088, "00") && stand_up_to(BOOK, 4088) && stands(THIRD, "F8")
        && lists("01 61 01 62 01 61 00") && silent("06") && becomes(0, 0x00) && silent("02 00 00 00 00");
    const zeradok_state busy = chip;
    chip.bp = 8; /* not a state of the chip */
    size--;
    good = good && names_refused(1, 1);
    chip = busy;
    chip.chip = 7; /* no chip */
    good = good && names_refused(1, 1);
    chip = busy;
    good = good && names_refused(2, 1);
    size++;
    good = good && names_refused(15, 1) && move_refused(6, NAMES, NAMES) && back_refused(6, NAMES, NAMES)
        && asked(18, 0, NAMES, "", 0) && marks_name(NAMES, "", 0, 0, (zeradok_planned){.number = 18}) && move_refused(18, BOOK, NAMES)
        && back_refused(18, BOOK, NAMES) && lists("01 61 01 62 01 61") && move_refused(18, BOOK, NAMES) && back_refused(19, BOOK, NAMES)
        && move_refused(19, THIRD, NAMES) && name_refused(20, NAMES, "letter") && name_refused(7, NAMES, "abcde") && name_refused(7, NAMES, "x")
        && lists("01 61 01 62 01 63") && move_refused(7, THIRD, NAMES) && back_refused(7, BOOK, NAMES);
    chip.left = 0; /* not busy any more */
    chip.wel = false;
    return good && name_refused(8, NAMES, "abcde") && move_refused(8, THIRD, NAMES) && back_refused(8, BOOK, NAMES) && name_stands(NAMES, "x");
}

/* the questions are answered, and all else is a 7, where nothing has to change too; bad names and lists come before it */
static bool only_asked(void)
{
    return has_name(NAMES, "x") && has_no(NAMES, "y") && name_refused(7, NAMES, "x") && name_refused(7, NAMES, "y") && name_refused(18, NAMES, "\x7F")
        && lists("01 78") && move_refused(7, BOOK, THIRD) && move_refused(7, NAMES + SECTOR, THIRD) && back_refused(7, NAMES, THIRD)
        && lists("00") && move_refused(18, BOOK, THIRD) && back_refused(18, NAMES, THIRD);
}

static bool names_not_at_rest(uint8_t number)
{
    const bool words = number == F25L008A;
    bool good = blank(number) && stands(NAMES, "4E 52 01 78") && stands(BOOK, "FE") && silent("06") && becomes(0, 0x00)
        && silent(words ? "AD 00 00 00 00 FF" : "02 00 00 00 00") && only_asked() && waited(words ? 7 : 1500);
    if (words) good = good && only_asked() && silent("04"); /* AAI */
    return good && name_stands(NAMES, "x") && (words || (silent("B9") && only_asked() && silent("AB")))
        && lists("01 78") && backs_in(64, NAMES, THIRD, one_write(number, 1, false), 0);
}

/* BPL 1 and all protected: with WP low it is a 9, unless nothing has to change; with WP high each plan unprotects and protects again */
static bool names_protected(uint8_t number)
{
    const zeradok_planned p = unprotecting(number, writes(number, 1, 1, 2)), one = one_write(number, 1, true);
    bool good = erased(number) && stands(NAMES, "4E 52 01 78") && stands(BOOK, "FE") && lists("01 79") && status_written(number, "9C");
    wp_high = false;
    good = good && name_refused(9, NAMES, "y") && name_stands(NAMES, "x") && move_refused(9, BOOK, THIRD) && lists("01 78")
        && back_refused(9, NAMES, THIRD) && lists("") && backs_in(0, NAMES, THIRD, (zeradok_planned){0}, 1);
    wp_high = true;
    return good && name_plans(NAMES, "y", p) && will_be(NAMES + 6, "01 79") && carried_out(p) && status("9C")
        && name_plans(NAMES, "y", p) && will_be(NAMES + 4, "4E 52") && carried_out(p) && name_stands(NAMES, "y")
        && lists("01 78") && move_plans(BOOK, THIRD, p) && back_plans(NAMES, THIRD, one, 1) && will_be(THIRD, "FE") && carried_out(one)
        && status("9C");
}

/* Of "ab" behind "x", at byte 4: what a cut can have left goes on, by the plan that is due; a mark before its name, a wrong bit in the mark, in the
 * length or in the name, and anything behind the record are an 8. A name that is read has nothing to plan, whatever stands behind. */
static bool names_dirt(uint8_t number)
{
    static const char *const left_by_a_cut[] = {"FF FF FF FF FF", "FF FF 02 FF FF", "FF FF FF 61 FF", "FF FF 07 71 FF"};
    static const char *const marks_missing[] = {"FF FF 02 61 62", "4E FF 02 61 62", "FF 52 02 61 62", "6F FF 02 61 62"};
    static const char *const wrong[] = {"4E 52 FF FF FF", "4E FF 02 61 FF", "FF 52 FF 61 62", "FF 7F 02 61 FF", "4C FF 02 61 62", "FF 50 02 61 62",
        "FF FF 01 61 62", "FF FF 02 60 62", "FF FF 02 61 62 7F", "FF FF 02 61 62 FF 4E", "00", "4E 52 02 61 7F", "FF FF 03 61 62 63"};
    bool good = true;
    for (size_t i = 0; i < 4; i++) {
        good = good && blank(number) && stands(NAMES, "4E 52 01 78") && stands(NAMES + 4, left_by_a_cut[i]) && has_no(NAMES, "ab");
        zeradok_planned p = zeradok_names_mark(chip, wp_high, array, size, NAMES, (const uint8_t *)"ab", 2, buffer, sizeof buffer);
        good = good && p.number == 0 && will_be(NAMES + 4, "FF FF 02 61 62") && carried_out(p) && has_no(NAMES, "ab");
    }
    for (size_t i = 0; i < 4; i++) {
        good = good && blank(number) && stands(NAMES, "4E 52 01 78") && stands(NAMES + 4, marks_missing[i]) && has_no(NAMES, "ab");
        zeradok_planned p = zeradok_names_mark(chip, wp_high, array, size, NAMES, (const uint8_t *)"ab", 2, buffer, sizeof buffer);
        good = good && p.number == 0 && will_be(NAMES + 4, "4E 52 02 61 62") && carried_out(p) && name_stands(NAMES, "ab");
    }
    for (size_t i = 0; i < sizeof wrong / sizeof *wrong; i++)
        good = good && blank(number) && stands(NAMES, "4E 52 01 78") && stands(NAMES + 4, wrong[i]) && name_refused(8, NAMES, "ab")
            && name_stands(NAMES, "x");
    return good && blank(number) && stands(NAMES, "4E 52 01 78") && stands(NAMES + SECTOR - 1, "FE") && name_refused(8, NAMES, "ab")
        && name_stands(NAMES, "x");
}

/* sends 06 and the plan's first programming frame, with the power cut in it: what it leaves is given */
static bool cut_at(const char *mask, size_t address, const char *leaves)
{
    static uint8_t bits[256];
    const size_t count = bytes_of(mask, bits), length = (size_t)buffer[7] * 256 + buffer[8];
    return silent("06") && will_be(address, leaves) && cut_in(buffer + 9, length, bits, count) && gave_silence(length);
}

/* Of the first word or page some bits are through, 07 72 being C7 F3 by the mask 3C; then all the rest. Of the mark only its first byte is. At no
 * time is the name read, nor another; the earlier one stays. */
static bool names_cut(uint8_t number)
{
    const bool words = number == F25L008A;
    const zeradok_planned first = writes(number, 4, 1, 8), second = writes(number, 1, 1, 2), again = after_a_cut(number, first),
                          rest = after_a_cut(number, one_write(number, 1, false));
    return blank(number) && stands(NAMES, "4E 52 01 78") && name_plans(NAMES, "rooftop", first)
        && cut_at(words ? "3C 3C" : "3C 3C 00 00 00 00 00 01", NAMES + 6, words ? "C7 F3" : "C7 F3 FF FF FF FF FF FE")
        && has_no(NAMES, "rooftop") && has_name(NAMES, "x") && name_refused(8, NAMES, "y")
        && marks_name(NAMES, "rooftop", 7, first.length + 22, again) && will_be(NAMES + 6, "07 72 6F 6F 66 74 6F 70") && carried_out(again)
        && has_no(NAMES, "rooftop") && (number == F25L05PA || (silent("50") && silent("01 00"))) && name_plans(NAMES, "rooftop", second)
        && cut_at("FF 00", NAMES + 4, "4E FF") && has_no(NAMES, "rooftop") && has_name(NAMES, "x") && name_refused(8, NAMES, "y")
        && marks_name(NAMES, "rooftop", 7, second.length + 22, rest) && will_be(NAMES + 5, "52") && carried_out(rest)
        && name_stands(NAMES, "rooftop") && name_stands(NAMES, "x");
}

/* A cut leaves the last two letters of "ANR", which are a mark, and neither the length nor the A. "Y" would end just in front of them, and the next
 * name would then stand behind a mark already: it is an 8, as is every name but "ANR". (Words are written one after another: on an F25L008A it
 * isn't by a plan that the bytes come there.) */
static bool names_anr(uint8_t number)
{
    const zeradok_planned first = writes(number, 2, 1, 4), rest = writes(number, 1, 1, 2);
    bool good = blank(number) && name_plans(NAMES, "ANR", first);
    if (number == F25L05PA) good = good && cut_at("00 00 FF FF", NAMES + 4, "4E 52");
    else good = good && stands(NAMES + 4, "4E 52");
    return good && has_no(NAMES, "ANR") && name_refused(8, NAMES, "Y") && name_refused(8, NAMES, "A") && name_refused(8, NAMES, "ANS")
        && name_plans(NAMES, "ANR", rest) && will_be(NAMES + 2, "03 41") && carried_out(rest) && has_no(NAMES, "ANR")
        && name_plans(NAMES, "ANR", rest) && will_be(NAMES, "4E 52") && carried_out(rest) && name_stands(NAMES, "ANR") && has_no(NAMES, "A")
        && name_plans(NAMES, "Y", rest) && will_be(NAMES + 8, "01 59") && carried_out(rest) && has_no(NAMES, "Y")
        && name_plans(NAMES, "Y", rest) && will_be(NAMES + 6, "4E 52") && carried_out(rest) && name_stands(NAMES, "Y");
}

/* 12 bytes are left: for "prologue!", and not for ten letters; then none is. All around the sector is 00 */
static bool names_full(uint8_t number)
{
    const zeradok_planned first = after_a_cut(number, writes(number, 5, 1, 10)), second = after_a_cut(number, writes(number, 1, 1, 2));
    bool good = fresh(number, 0x00);
    const size_t sector = size - SECTOR;
    memset(array + sector, 0xFF, SECTOR);
    memset(expected + sector, 0xFF, SECTOR);
    good = good && has_no(sector, "x") && stand_up_to(sector, 4084) && name_refused(20, sector, "prologue 2") && has_no(sector, "prologue 2");
    return good && name_plans(sector, "prologue!", first) && will_be(sector + 4086, "09 70 72 6F 6C 6F 67 75 65 21") && carried_out(first)
        && has_no(sector, "prologue!") && name_refused(20, sector, "prologue 2") && name_refused(8, sector, "prologue?")
        && name_plans(sector, "prologue!", second) && will_be(sector + 4084, "4E 52") && carried_out(second)
        && name_stands(sector, "prologue!") && name_stands(sector, "x") && name_refused(20, sector, "y");
}

/* Scenes 0, 2 and 4 are read: EA. Their records are at bytes 0, 11 and 20 of the name sector. */
static bool names_there_and_back(uint8_t number)
{
    const zeradok_planned first = writes(number, 13, 2, 28), second = writes(number, 4, 3, 22), back = one_write(number, 1, false), nothing = {0};
    return blank(number) && five_scenes() && stands(BOOK, "EA") && move_plans(BOOK, NAMES, first)
        && will_be(NAMES + 2, "08 70 72 6F 6C 6F 67 75 65 FF FF 06 6C 65 74 74 65 72 FF FF 07 72 6F 6F 66 74 6F 70") && carried_out(first)
        && has_no(NAMES, "prologue") && has_no(NAMES, "letter") && has_no(NAMES, "rooftop") && backs_in(0, NAMES, THIRD, nothing, 0)
        && move_plans(BOOK, NAMES, second) && will_be(NAMES, "4E 52") && will_be(NAMES + 11, "4E 52") && will_be(NAMES + 20, "4E 52")
        && carried_out(second) && moves_in(0, BOOK, NAMES, nothing) && name_stands(NAMES, "prologue") && name_stands(NAMES, "letter")
        && name_stands(NAMES, "rooftop") && has_no(NAMES, "station at night") && has_no(NAMES, "harbour")
        && back_plans(NAMES, THIRD, back, 0) && will_be(THIRD, "EA") && carried_out(back) && backs_in(0, NAMES, THIRD, nothing, 0)
        && backs_in(0, NAMES, BOOK, nothing, 0) && counts(3, THIRD) && is_read(THIRD, 0) && is_unread(THIRD, 1) && is_read(THIRD, 2)
        && is_unread(THIRD, 3) && is_read(THIRD, 4) && is_unread(THIRD, 5);
}

/* Scenes 0 to 2 are read, "a", "b" and "c": four bytes a record. The cut marks may be whole in any order, and what is read is the first few names. */
static bool names_move_cut(uint8_t number)
{
    const bool words = number == F25L008A;
    const zeradok_planned p = writes(number, 3, 3, 10), again = after_a_cut(number, p), rest = words ? again : one_write(number, 1, false);
    bool good = blank(number) && lists("01 61 01 62 01 63") && stands(BOOK, "F8") && move_plans(BOOK, NAMES, p)
        && cut_at(words ? "0F 00" : "0F 00 00 00 FF FF 00 00 00 00", NAMES + 2, words ? "F1 FF" : "F1 FF FF FF 01 62 FF FF FF FF")
        && has_no(NAMES, "a") && has_no(NAMES, "b") && has_no(NAMES, "c") && moves_in(p.length + 22, BOOK, NAMES, again)
        && will_be(NAMES + 2, "01 61 FF FF 01 62 FF FF 01 63") && carried_out(again) && has_no(NAMES, "a") && has_no(NAMES, "b")
        && has_no(NAMES, "c");
    if (words) good = good && silent("50") && silent("01 00");
    good = good && move_plans(BOOK, NAMES, p)
        && cut_at(words ? "FF 00" : "FF FF 00 00 FF 00 00 00 FF FF", NAMES, words ? "4E FF" : "4E 52 01 61 4E FF 01 62 4E 52")
        && (words ? has_no(NAMES, "a") : has_name(NAMES, "a")) && has_no(NAMES, "b") && has_no(NAMES, "c");
    return good && moves_in(p.length + 22, BOOK, NAMES, rest) && will_be(NAMES, "4E 52 01 61 4E 52 01 62 4E 52 01 63") && carried_out(rest)
        && moves_in(0, BOOK, NAMES, (zeradok_planned){0}) && has_name(NAMES, "a") && has_name(NAMES, "b") && has_name(NAMES, "c");
}

/* one bit at the sector's end or behind the book, a mark before its name, a name marked since the move, a scene that has no record: each an 8 */
static bool names_unerased(uint8_t number)
{
    const zeradok_planned nothing = {0};
    return blank(number) && lists("01 61") && stands(BOOK, "FE") && stands(NAMES + SECTOR - 1, "7F") && move_refused(8, BOOK, NAMES)
        && stands(NAMES + SECTOR - 1, "FF") && stands(NAMES, "4E") && move_refused(8, BOOK, NAMES)
        && stands(NAMES, "FF 52 01 61") && moves_in(64, BOOK, NAMES, one_write(number, 1, false))
        && stands(NAMES, "4E 52 01 61") && moves_in(0, BOOK, NAMES, nothing)
        && stands(NAMES + 4, "4E 52 01 7A") && move_refused(8, BOOK, NAMES) && stands(BOOK, "FF") && move_refused(8, BOOK, NAMES)
        && stands(THIRD + USED, "FE") && back_refused(8, NAMES, THIRD) && stands(THIRD + USED, "FF") && stands(THIRD + SECTOR - 1, "7F")
        && back_refused(8, NAMES, THIRD) && stands(THIRD + SECTOR - 1, "FF") && stands(THIRD, "FC") && back_refused(8, NAMES, THIRD)
        && stands(THIRD, "FE") && backs_in(0, NAMES, THIRD, nothing, 1);
}

/* good, where no scene is read; the bytes behind the book aren't looked at */
static bool names_empty_list(uint8_t number)
{
    const zeradok_planned nothing = {0};
    return blank(number) && lists("") && stands(BOOK + USED, "00") && moves_in(0, BOOK, NAMES, nothing) && backs_in(0, NAMES, THIRD, nothing, 0)
        && stands(BOOK, "FE") && move_refused(18, BOOK, NAMES) && stands(BOOK, "FF") && stands(BOOK + USED - 1, "7F") && move_refused(18, BOOK, NAMES)
        && stands(BOOK + USED - 1, "FF") && stands(NAMES, "4E 52 01 61") && move_refused(8, BOOK, NAMES) && backs_in(0, NAMES, THIRD, nothing, 1)
        && stands(THIRD, "FE") && back_refused(8, NAMES, THIRD);
}

/* whatever is wrong with it: a length, a byte, a name cut short, at the front and at the end; and a read scene behind the last name, for a move
 * only */
static bool names_bad_lists(uint8_t number)
{
    static const char *const bad[] = {"00", "01", "20", "21", "FF", "02 61", "01 1F", "01 7F", "01 80", "01 FF", "01 00", "00 01 61", "01 61 00",
        "01 61 01", "01 61 02 62", "01 61 01 1F 01 62", "02 61 7F", "03 7F 61 62"};
    const char *of_33 = "abcdefghijklmnopqrstuvwxyz0123456", *of_32 = of_33 + 1;
    const zeradok_planned nothing = {0};
    bool good = blank(number);
    for (size_t i = 0; i < sizeof bad / sizeof *bad; i++)
        good = good && lists(bad[i]) && move_refused(18, BOOK, NAMES) && back_refused(18, NAMES, THIRD);
    good = good && lists("") && lists_name(of_33) && move_refused(18, BOOK, NAMES) && back_refused(18, NAMES, THIRD)
        && lists("01 20 01 7E") && lists_name(of_32) && moves_in(0, BOOK, NAMES, nothing) && backs_in(0, NAMES, THIRD, nothing, 0);
    list_length--;
    good = good && move_refused(18, BOOK, NAMES) && back_refused(18, NAMES, THIRD);
    return good && lists("01 61 01 62") && stands(BOOK, "FB") && move_refused(18, BOOK, NAMES) && backs_in(0, NAMES, THIRD, nothing, 0)
        && stands(BOOK, "FC") && moves_in(64, BOOK, NAMES, writes(number, 2, 2, 6)) && stands(BOOK + USED - 1, "7F") && move_refused(18, BOOK, NAMES)
        && stands(BOOK + USED - 1, "FF") && stands(BOOK + 1, "FE") && move_refused(18, BOOK, NAMES);
}

/* a name of two letters for so many scenes, each another one: the last of 4,096 is "oo" */
static bool lists_many(size_t count)
{
    list_length = 0;
    for (size_t i = 0; i < count; i++) {
        const char name[] = {(char)(0x30 + i / 64), (char)(0x30 + i % 64), 0};
        lists_name(name);
    }
    return true;
}

/* Only the last scene is read. 4,097 names are an 18, though one stands twice, as is a read scene without a name; else one that stands twice is a
 * 19, in front, at the end, far apart, and read or not. "a" and "ab" aren't equal, nor are "a" and "A". */
static bool names_many(uint8_t number)
{
    const zeradok_planned first = writes(number, 2, 1, 3), second = writes(number, 1, 1, 2), one = one_write(number, 1, false);
    bool good = blank(number) && stands(BOOK + USED - 1, "7F") && lists_many(SCENES) && move_plans(BOOK, NAMES, first)
        && will_be(NAMES + 2, "02 6F 6F") && carried_out(first) && move_plans(BOOK, NAMES, second) && will_be(NAMES, "4E 52") && carried_out(second)
        && name_stands(NAMES, "oo") && back_plans(NAMES, THIRD, one, 0) && will_be(THIRD + USED - 1, "7F") && carried_out(one)
        && counts(1, THIRD) && is_read(THIRD, SCENES - 1) && lists_name("oo") && move_refused(18, BOOK, THIRD) && back_refused(18, NAMES, BOOK)
        && lists_many(SCENES) && lists_name("a") && move_refused(18, BOOK, THIRD) && back_refused(18, NAMES, BOOK)
        && lists_many(SCENES - 1) && lists_name("00") && move_refused(19, BOOK, THIRD) && back_refused(19, NAMES, BOOK)
        && lists_many(SCENES - 2) && lists_name("00") && move_refused(18, BOOK, THIRD) && back_refused(19, NAMES, BOOK);
    return good && blank(number) && lists("01 61 01 61") && move_refused(19, BOOK, NAMES) && back_refused(19, NAMES, BOOK)
        && lists("01 61 02 61 62 01 41 01 62 02 61 62") && move_refused(19, BOOK, NAMES) && back_refused(19, NAMES, BOOK)
        && lists("01 61 02 61 62 01 41 01 62 02 62 61") && moves_in(0, BOOK, NAMES, (zeradok_planned){0})
        && backs_in(0, NAMES, BOOK, (zeradok_planned){0}, 0);
}

/* the planner's own script for the wanted sector, then the move's: the same, byte for byte; it is run */
static bool moves_as_planned(size_t book, size_t sector, const uint8_t *wanted)
{
    static uint8_t script[ZERADOK_WORST_BYTES];
    const zeradok_planned p = zeradok_plan(chip, wp_high, array, size, sector, wanted, SECTOR, script, sizeof script);
    memcpy(expected + sector, array + sector, SECTOR);
    bool good = p.number == 0 && p.length > 0 && move_plans(book, sector, p) && memcmp(buffer, script, p.length) == 0;
    memcpy(expected + sector, wanted, SECTOR);
    return good && carried_out(p);
}

/* 116 names of 32 letters and two of 15, all read, are 4,096 bytes: taken, and back again. One letter more is a 20, unless a scene isn't read. */
static bool names_move_full(uint8_t number)
{
    static uint8_t first[SECTOR], second[SECTOR];
    char name[33];
    size_t at = 0;
    bool good = blank(number) && lists("") && stands(BOOK, "00 00 00 00 00 00 00 00 00 00 00 00 00 00 C0");
    for (int i = 0; i < 118; i++) {
        const int length = snprintf(name, sizeof name, "%0*d", i < 116 ? 32 : 15, i);
        lists_name(name);
        memcpy(first + at, (const uint8_t[]){0xFF, 0xFF, (uint8_t)length}, 3);
        memcpy(second + at, (const uint8_t[]){0x4E, 0x52, (uint8_t)length}, 3);
        memcpy(first + at + 3, name, (size_t)length);
        memcpy(second + at + 3, name, (size_t)length);
        at += 3 + (size_t)length;
    }
    const zeradok_planned back = writes(number, 8, 1, 15);
    good = good && at == SECTOR && moves_as_planned(BOOK, NAMES, first) && has_no(NAMES, name) && moves_as_planned(BOOK, NAMES, second)
        && moves_in(0, BOOK, NAMES, (zeradok_planned){0}) && name_stands(NAMES, name) && name_refused(20, NAMES, "x")
        && back_plans(NAMES, THIRD, back, 0) && will_be(THIRD, "00 00 00 00 00 00 00 00 00 00 00 00 00 00 C0") && carried_out(back)
        && counts(118, THIRD);
    list[list_length - 16]++; /* the last name has a letter more */
    list[list_length++] = 'a';
    return good && move_refused(20, BOOK, 0) && stands(BOOK, "80") && moves_in(1, BOOK, 0, (zeradok_planned){.number = 10});
}

/* Records, and not different names: "x" twice and "old" are not on the list, "letter" twice is. It is told with an empty script, and not by a
 * refusal. */
static bool names_unlisted(uint8_t number)
{
    const zeradok_planned one = one_write(number, 1, false), nothing = {0};
    return blank(number) && lists("06 6C 65 74 74 65 72 03 61 6E 72 01 79")
        && stands(NAMES, "4E 52 01 78 4E 52 06 6C 65 74 74 65 72 4E 52 01 78 4E 52 03 6F 6C 64 4E 52 06 6C 65 74 74 65 72 4E 52 01 79")
        && back_plans(NAMES, THIRD, one, 3) && will_be(THIRD, "FA") && carried_out(one) && backs_in(0, NAMES, THIRD, nothing, 3)
        && is_read(THIRD, 0) && is_unread(THIRD, 1) && is_read(THIRD, 2) && counts(2, THIRD) && back_refused(15, NAMES, 1)
        && lists("01 61") && back_refused(8, NAMES, THIRD) && backs_in(0, NAMES, BOOK, nothing, 6) && lists("")
        && backs_in(0, NAMES, BOOK, nothing, 6)
        && lists("01 78") && back_plans(NAMES, BOOK, one, 4);
}

/* "a" at byte 5, on an F25L008A: its length stands already, and of the first plan, a word, all bits are through when the power goes. The second plan
 * comes next, of two words on a chip that is protected now: 22 bytes more than the cut plan had are too few. */
static bool names_room(void)
{
    const zeradok_planned rest = writes(F25L008A, 1, 1, 0), second = unprotecting(F25L008A, writes(F25L008A, 2, 1, 0));
    return blank(F25L008A) && stands(NAMES, "4E 52 02 78 79 FF FF 01") && name_plans(NAMES, "a", rest) && cut_at("FF FF", NAMES + 8, "61")
        && marks_name(NAMES, "a", 1, rest.length + 22, (zeradok_planned){.number = 10}) && name_plans(NAMES, "a", second)
        && will_be(NAMES + 5, "4E 52") && carried_out(second) && name_stands(NAMES, "a");
}

/* ---- refusals: nothing is changed */

/* a frame in hex, whole and cut, and the lengths that are lent with it */
static bool refused(uint32_t number, const char *hex, size_t array_length, size_t output_length, size_t driven_length, size_t mask_length)
{
    const uint8_t mask[2] = {0xFF, 0xFF};
    const size_t length = bytes_of(hex, input);
    const uint8_t *frame = length ? input : NULL;
    uint8_t *shows = output_length ? output : NULL, *drives = driven_length ? driven : NULL;
    zeradok_state before = chip;
    fill_slices();
    bool whole = number == 5
        || zeradok_frame(&chip, wp_high, array, array_length, frame, length, shows, output_length, drives, driven_length) == number;
    return whole
        && zeradok_cut_frame(&chip, wp_high, array, array_length, frame, length, shows, output_length, drives, driven_length, mask, mask_length)
            == number
        && same_state(chip, before) && gave_nothing() && memcmp(array, expected, size) == 0;
}

static bool refusals(void)
{
    const char *frame = "02 00 00 00 00";
    zeradok_answer unknown = zeradok_new(7);
    if (unknown.number != 1 || !same_state(unknown.state, zeradok_new(F25L05PA).state)) return false;
    if (!(erased(F25L05PA) && silent("06"))) return false;
    if (!(refused(2, frame, size - 1, 5, 5, 1) && refused(3, "", size, 0, 0, 1) && refused(4, frame, size, 6, 6, 1))) return false;
    if (!refused(5, frame, size, 5, 5, 2)) return false;
    chip.tb = true;
    chip.aai = true; /* no AAI on the F25L05PA: not a state of the chip */
    zeradok_answer up = zeradok_power_up(chip), later = zeradok_wait(chip, 1);
    return refused(1, "", size - 1, 6, 6, 2) && up.number == 1 && same_state(up.state, chip) && later.number == 1
        && same_state(later.state, chip);
}

/* one slice alone is too short or too long, by a byte, by all of it or by so much that it is right when cut to 8 or 16 bits; or both are, some with
 * the right sum */
static const size_t wrong_lengths[][2] = {
    {5, 4}, {5, 6}, {4, 5}, {6, 5}, {5, 0}, {0, 5}, {5, 5 + 256}, {5 + 256, 5}, {5, 5 + 65536}, {5 + 65536, 5},
    {4, 6}, {6, 4}, {4, 4}, {6, 6}, {0, 10}, {10, 0}, {0, 0}, {5 + 65536, 5 + 65536},
};

/* a frame of five bytes, and a script of it */
static bool slices_refused(const char *frame, size_t mask_length)
{
    uint8_t script[9] = {0x5A, 0x46, 0x00, 0x05};
    bool good = bytes_of(frame, script + 4) == 5;
    for (size_t i = 0; i < sizeof wrong_lengths / sizeof *wrong_lengths; i++) {
        const size_t *lent_lengths = wrong_lengths[i];
        good = good && refused(4, frame, size, lent_lengths[0], lent_lengths[1], mask_length)
            && run_refused(4, 0, script, sizeof script, lent_lengths[0], lent_lengths[1]);
    }
    return good;
}

/* a frame that programs, three that read, of which the last is too short to drive a byte, and one that is ignored; 4 comes before 5, and behind 1 to
 * 3 and 11 to 14 */
static bool either_slice(uint8_t number)
{
    const char *program = "02 00 00 00 00";
    bool good = blank(number) && silent("06") && slices_refused(program, 1) && slices_refused("03 00 00 00 00", 0)
        && slices_refused("05 00 00 00 00", 0) && slices_refused("0B 00 00 00 00", 0) && slices_refused("00 00 00 00 00", 0)
        && refused(4, program, size, 5, 4, 2) && refused(4, program, size, 4, 5, 0) && refused(2, program, size - 1, 5, 4, 1)
        && refused(3, "", size, 0, 1, 0) && refused(3, "", size, 1, 0, 0)
        && run_refused(4, 0, NULL, 0, 0, 1) && run_refused(4, 0, NULL, 0, 1, 0)
        && run_refused(4, 0, listing, sizeof listing, sizeof listed, sizeof listed - 1)
        && run_refused(4, 0, listing, sizeof listing, sizeof listed, sizeof listed + 1)
        && run_refused(4, 0, listing, sizeof listing, sizeof listed, sizeof listing)
        && run_refused(14, 34, listing, sizeof listing - 1, sizeof listed, sizeof listed - 1);
    chip.bp = 8; /* not a state of the chip */
    good = good && refused(1, program, size, 5, 4, 1) && run_refused(1, 0, listing, sizeof listing, sizeof listed, sizeof listed - 1);
    chip.bp = 0;
    return good && sent("05 00", "FF 02", "00 01");
}

/* ---- the F25L05PA's status write: a cycle of 5,000 microseconds, in which the old bits are seen and in force */

enum { SETTABLE = 0xBC, LONG_MASK = 65537 }; /* BP, TB and BPL, bits 2 to 5 and 7; a mask's length that is 1 when it is cut to 16 bits */

/* an F25L05PA at rest with these bits of its status */
static zeradok_state resting(uint8_t bits)
{
    zeradok_state state = zeradok_new(F25L05PA).state;
    state.bp = bits >> 2 & 7;
    state.tb = bits & 0x20;
    state.bpl = bits & 0x80;
    return state;
}

/* the same while a status write runs that sets these others */
static zeradok_state writing(uint8_t old, uint8_t bits, uint32_t left)
{
    zeradok_state state = resting(old);
    state.wel = state.pending = true;
    state.pending_bits = bits;
    state.left = left;
    return state;
}

static bool chip_is(zeradok_state state)
{
    return same_state(chip, state);
}

static bool status_is(uint8_t byte)
{
    char hex[3];
    snprintf(hex, sizeof hex, "%02X", byte);
    return status(hex);
}

static bool powers_up(void)
{
    zeradok_answer a = zeradok_power_up(chip);
    chip = a.state;
    return a.number == 0;
}

/* the last microsecond alone ends it; a longer wait does no more */
static bool status_write_time(void)
{
    const uint32_t enough[] = {5000, 5001, UINT32_MAX};
    bool good = erased(F25L05PA) && silent("06") && silent("01 1C") && chip_is(writing(0x00, 0x1C, 5000)) && status("03") && waited(0)
        && chip_is(writing(0x00, 0x1C, 5000)) && waited(4999) && chip_is(writing(0x00, 0x1C, 1)) && status("03") && waited(1)
        && chip_is(resting(0x1C)) && status("1C");
    for (size_t i = 0; i < 3; i++)
        good = good && erased(F25L05PA) && silent("06") && silent("01 1C") && waited(enough[i]) && chip_is(resting(0x1C)) && status("1C");
    return good;
}

/* at once, also armed by 06, and nothing is pending */
static bool status_write_at_once(void)
{
    zeradok_state open = zeradok_new(F25L008A).state, locked = open;
    open.bp = 0;
    locked.bp = 1;
    locked.bpl = true;
    return erased(F25L008A) && silent("50") && silent("01 00") && chip_is(open) && status("00") && silent("06") && silent("01 E7") && chip_is(locked)
        && status("84") && waited(5000) && chip_is(locked);
}

/* every byte, from a chip whose bits are all the other way round: seen are the old ones, then the new */
static bool status_write_bits(void)
{
    bool good = erased(F25L05PA);
    for (unsigned byte = 0; byte < 256; byte++) {
        const uint8_t frame[] = {0x01, (uint8_t)byte}, bits = byte & SETTABLE, old = bits ^ SETTABLE;
        chip = resting(old);
        good = good && silent("06") && runs(frame, 2) && gave_silence(2) && chip_is(writing(old, bits, 5000)) && status_is(old | 0x03)
            && waited(5000) && chip_is(resting(bits)) && status_is(bits);
    }
    return good;
}

/* the old bits stay, in the last microsecond too, and whether all are pending or none */
static bool status_write_power_up(void)
{
    bool good = erased(F25L05PA) && silent("06") && silent("01 1C") && powers_up() && chip_is(resting(0x00)) && status("00")
        && silent("06") && silent("01 1C") && waited(4999) && powers_up() && chip_is(resting(0x00)) && status("00")
        && silent("06") && silent("01 1C") && waited(5000) && powers_up() && chip_is(resting(0x1C)) && status("1C");
    chip = resting(0xA4);
    return good && silent("06") && silent("01 00") && powers_up() && chip_is(resting(0xA4)) && silent("06") && silent("01 BC") && powers_up()
        && chip_is(resting(0xA4)) && status("A4");
}

/* each opcode but 05, alone and in frames as long as one that is taken has */
static bool status_write_ignores(void)
{
    static const size_t lengths[] = {1, 2, 4, 5, 6};
    bool good = erased(F25L05PA) && silent("06") && silent("01 1C");
    memset(input, 0x00, sizeof input);
    for (int opcode = 0; opcode < 256; opcode++) {
        input[0] = (uint8_t)opcode;
        for (size_t i = 0; i < 5 && opcode != 0x05; i++)
            good = good && runs(input, lengths[i]) && gave_silence(lengths[i]) && chip_is(writing(0x00, 0x1C, 5000));
    }
    return good && sent("05 00 00", "FF 03 03", "00 01 01") && chip_is(writing(0x00, 0x1C, 5000)) && waited(5000) && chip_is(resting(0x1C));
}

/* from its end on the new bits protect, let through and lock, and not before: a 06 that comes too early is lost */
static bool status_write_in_force(void)
{
    bool good = erased(F25L05PA) && status_written(F25L05PA, "1C") && silent("06") && silent("01 00") && silent("06") && silent("02 00 00 00 00")
        && waited(4999) && silent("06") && silent("02 00 00 00 00") && waited(1) && silent("02 00 00 00 00") && status("00")
        && silent("06") && becomes(0, 0x00) && silent("02 00 00 00 00") && waited(1500)
        && status_written(F25L05PA, "04") && silent("06") && silent("02 00 00 01 00") && status("06");
    wp_high = false;
    return good && status_written(F25L05PA, "80") && silent("06") && silent("01 00") && status("82");
}

static bool status_write_scripts(void)
{
    return erased(F25L05PA)
        && script_sent("5A 46 00 01 06  5A 46 00 02 01 1C  5A 46 00 02 05 00  5A 57 00 00 13 87  5A 46 00 02 05 00  5A 57 00 00 00 01"
                       "  5A 46 00 02 05 00",
                       "FF  FF FF  FF 03  FF 03  FF 1C", "00  00 00  00 01  00 01  00 01", 5, 5000)
        && chip_is(resting(0x1C))
        /* without a wait all behind the 01 is ignored, and the script leaves it pending; the next one goes on from there */
        && script_sent("5A 46 00 01 06  5A 46 00 02 01 00  5A 46 00 01 06  5A 46 00 05 02 00 00 00 FE", "FF  FF FF  FF  FF FF FF FF FF",
                       "00  00 00  00  00 00 00 00 00", 4, 0)
        && chip_is(writing(0x1C, 0x00, 5000)) && becomes(0, 0xFE)
        && script_sent("5A 57 00 00 13 88  5A 46 00 01 06  5A 46 00 05 02 00 00 00 FE  5A 46 00 02 05 00", "FF  FF FF FF FF FF  FF 03",
                       "00  00 00 00 00 00  00 01", 3, 5000);
}

/* ---- the power goes in a status write */

/* every byte, cut with 00: the old bits, and with FF: the new */
static bool status_write_cut(void)
{
    const uint8_t none = 0x00, all = 0xFF;
    bool good = erased(F25L05PA);
    for (unsigned byte = 0; byte < 256; byte++) {
        const uint8_t frame[] = {0x01, (uint8_t)byte}, bits = byte & SETTABLE, old = bits ^ SETTABLE;
        chip = resting(old);
        good = good && silent("06") && cut_in(frame, 2, &none, 1) && gave_silence(2) && chip_is(resting(old)) && status_is(old)
            && silent("06") && cut_in(frame, 2, &all, 1) && gave_silence(2) && chip_is(resting(bits)) && status_is(bits);
    }
    return good;
}

/* refusal 5, and nothing is changed */
static bool mask_refused(const char *hex, const uint8_t *mask, size_t mask_length)
{
    const size_t length = bytes_of(hex, input);
    const zeradok_state before = chip;
    fill_slices();
    return zeradok_cut_frame(&chip, wp_high, array, size, input, length, output, length, driven, length, mask, mask_length) == 5
        && chip_is(before) && gave_nothing() && memcmp(array, expected, size) == 0;
}

/* any value but 00 and FF, and any length but 1, whatever the bytes; 4 comes before it */
static bool status_write_masks(void)
{
    static const size_t lengths[] = {0, 2, 3, 256, 257, 65536, LONG_MASK};
    static uint8_t none[LONG_MASK], all[LONG_MASK];
    memset(all, 0xFF, sizeof all);
    bool good = erased(F25L05PA) && silent("06") && mask_refused("01 1C", NULL, 0);
    for (unsigned value = 0x01; value < 0xFF; value++) good = good && mask_refused("01 1C", (const uint8_t[]){(uint8_t)value}, 1);
    for (size_t i = 0; i < sizeof lengths / sizeof *lengths; i++)
        good = good && mask_refused("01 1C", none, lengths[i]) && mask_refused("01 1C", all, lengths[i]);
    return good && mask_refused("01 1C", (const uint8_t[]){0x00, 0xFF}, 2) && mask_refused("01 1C", (const uint8_t[]){0xFF, 0x00}, 2)
        && refused(4, "01 1C", size, 2, 3, 2) && refused(4, "01 1C", size, 3, 2, 0) && cut_in(input, 2, all, 1) && chip_is(resting(0x1C));
}

/* each mask of a byte is a 5; without one the chip is silent, powers up and shows this status */
static bool has_no_mask(const char *frame, const char *after)
{
    const uint8_t bytes[] = {0x00, 0xFF, 0x01};
    bool good = mask_refused(frame, bytes, 1) && mask_refused(frame, bytes + 1, 1) && mask_refused(frame, bytes + 2, 1)
        && mask_refused(frame, bytes, 2);
    const size_t count = bytes_of(frame, input);
    return good && cut_in(input, count, NULL, 0) && gave_silence(count) && status(after);
}

/* not armed, disarmed by 05, too short, too long, busy, locked; the F25L008A is protected after each */
static bool status_write_ignored_cut(uint8_t number)
{
    const char *arm = number == F25L008A ? "50" : "06", *after = number == F25L008A ? "1C" : "00";
    bool good = erased(number) && has_no_mask("01 A4", after) && silent(arm) && sent("05", "FF", "00") && has_no_mask("01 A4", after)
        && silent(arm) && has_no_mask("01", after) && silent(arm) && has_no_mask("01 A4 00", after)
        && blank(number) && silent("06") && becomes(0, 0x00) && silent("02 00 00 00 00") && has_no_mask("01 A4", after)
        && status_written(number, "80");
    wp_high = false;
    return good && silent(arm) && has_no_mask("01 00", number == F25L008A ? "1C" : "80");
}

/* in power-down; and while a status write runs another, and a 05, which shows the old bits, as does the chip behind the cut */
static bool status_write_running_cut(void)
{
    const uint8_t all = 0xFF;
    return erased(F25L05PA) && status_written(F25L05PA, "A4") && silent("B9") && has_no_mask("01 00", "A4")
        && silent("06") && silent("01 18") && has_no_mask("01 00", "A4") && silent("06") && silent("01 18") && mask_refused("05 00", &all, 1)
        && cut_sent("05 00", "FF A7", "00 01") && chip_is(resting(0xA4)) && status("A4");
}

/* taken, with 50 and with 06, and ignored in AAI */
static bool status_write_cut_at_once(void)
{
    return erased(F25L008A) && silent("50") && has_no_mask("01 00", "1C") && silent("06") && has_no_mask("01 80", "1C")
        && chip_is(zeradok_new(F25L008A).state) && unprotected() && silent("06") && becomes(0, 0x12) && becomes(1, 0x34)
        && silent("AD 00 00 00 12 34") && waited(7) && has_no_mask("01 80", "1C");
}

/* ---- states with a status write pending: which are sound */

/* every call that takes a state refuses this one and gives it back */
static bool no_such_state(zeradok_state state)
{
    chip = state;
    const zeradok_answer up = zeradok_power_up(chip), later = zeradok_wait(chip, 5000);
    return up.number == 1 && chip_is(up.state) && later.number == 1 && chip_is(later.state) && refused(1, "05 00", size, 2, 2, 0)
        && run_refused(1, 0, listing, sizeof listing, sizeof listed, sizeof listed) && plan_refused(1, 0, NULL, 0, 0) && book_refused(1)
        && names_refused(1, NAMES);
}

/* it comes back from a wait of nothing, and its bits are in force when it has ended */
static bool ends(zeradok_state state)
{
    const uint8_t bits = state.pending_bits;
    chip = state;
    return waited(0) && chip_is(state) && status_is((uint8_t)(state.bp << 2 | state.tb << 5 | state.bpl << 7 | 0x03)) && waited(state.left)
        && chip_is(resting(bits));
}

/* pending at rest, bits without pending, and bits that no status write sets */
static bool pending_bits_unsound(void)
{
    bool good = erased(F25L05PA) && lists("");
    zeradok_state at_rest = writing(0x00, 0x1C, 0), none_at_rest = writing(0x00, 0x00, 0);
    good = good && no_such_state(at_rest) && no_such_state(none_at_rest);
    at_rest.wel = none_at_rest.wel = false;
    good = good && no_such_state(at_rest) && no_such_state(none_at_rest);
    for (unsigned bits = 0; bits < 256; bits++) {
        zeradok_state running = writing(0xA4, (uint8_t)bits, 5000), other = running, rest = resting(0xA4);
        other.pending = false; /* busy with something else */
        rest.pending_bits = (uint8_t)bits;
        good = good && ((bits & ~SETTABLE) == 0 ? ends(running) : no_such_state(running));
        if (bits != 0) good = good && no_such_state(other) && no_such_state(rest);
    }
    return good;
}

/* as for every busy chip: at most 1,000,000 microseconds left, WEL 1, not armed, not in power-down */
static bool pending_is_busy(void)
{
    zeradok_state disabled = writing(0x00, 0x1C, 5000), armed = disabled, asleep = disabled;
    disabled.wel = false;
    armed.armed = true;
    asleep.power_down = true;
    return erased(F25L05PA) && lists("") && ends(writing(0x00, 0x1C, 1)) && ends(writing(0xBC, 0x00, 5000)) && ends(writing(0x1C, 0xBC, 5001))
        && ends(writing(0x00, 0x1C, 1000000)) && no_such_state(writing(0x00, 0x1C, 1000001)) && no_such_state(disabled) && no_such_state(armed)
        && no_such_state(asleep);
}

/* not while it is busy, in AAI or at rest, and no bits without it */
static bool never_pending(void)
{
    bool good = blank(F25L008A) && lists("");
    const zeradok_state open = chip;
    zeradok_state busy = open;
    busy.wel = true;
    busy.left = 7;
    zeradok_state in_aai = busy;
    in_aai.aai = true;
    in_aai.next = 2;
    const zeradok_state states[] = {open, busy, in_aai};
    for (size_t i = 0; i < 3; i++) {
        zeradok_state both = states[i], bits = both, pending = both;
        both.pending = pending.pending = true;
        both.pending_bits = bits.pending_bits = 0x1C;
        good = good && no_such_state(both) && no_such_state(bits) && no_such_state(pending);
        chip = states[i];
        good = good && waited(0);
    }
    return good;
}

/* ---- plans of the F25L05PA that unprotect it: each status write has its wait */

static const uint8_t protected_plan[] = {
    0x5A, 0x46, 0x00, 0x01, 0x06,
    0x5A, 0x46, 0x00, 0x02, 0x01, 0x00,
    0x5A, 0x57, 0x00, 0x00, 0x13, 0x88,
    0x5A, 0x46, 0x00, 0x01, 0x06,
    0x5A, 0x46, 0x00, 0x05, 0x02, 0x00, 0x12, 0x34, 0xFE,
    0x5A, 0x57, 0x00, 0x00, 0x05, 0xDC,
    0x5A, 0x46, 0x00, 0x01, 0x06,
    0x5A, 0x46, 0x00, 0x02, 0x01, 0x1C,
    0x5A, 0x57, 0x00, 0x00, 0x13, 0x88,
};
enum { FIRST_01 = 5, FIRST_WAIT = 11, PROGRAM = 22, PAGE_WAIT = 31, LAST_01 = 42, LAST_WAIT = 48, FRONT = 4 }; /* of its records; a frame's front */

/* FE at 1234, in the room of the script written out */
static bool plans_protected(void)
{
    const uint8_t wanted = 0xFE;
    return plan_refused(10, 0x1234, &wanted, 1, 53)
        && plans(0x1234, &wanted, 1, 54, (zeradok_planned){.length = 54, .frames = 6, .microseconds = 11500});
}

/* nothing is left to do */
static bool plan_done(void)
{
    const uint8_t wanted = 0xFE;
    return becomes(0x1234, 0xFE) && plans(0x1234, &wanted, 1, 0, (zeradok_planned){0});
}

/* the state is the given one again; TB and BPL go along in both status writes */
static bool planned_protected(void)
{
    const zeradok_planned p = one_write(F25L05PA, 1, true);
    bool good = erased(F25L05PA) && status_written(F25L05PA, "1C") && plans_protected() && memcmp(buffer, protected_plan, 54) == 0
        && becomes(0x1234, 0xFE) && carried_out(p) && chip_is(resting(0x1C)) && plan_done();
    uint8_t with_tb_and_bpl[54];
    memcpy(with_tb_and_bpl, protected_plan, 54);
    with_tb_and_bpl[FIRST_WAIT - 1] = 0xA0;
    with_tb_and_bpl[LAST_WAIT - 1] = 0xA8;
    return good && erased(F25L05PA) && status_written(F25L05PA, "A8") && plans_protected() && memcmp(buffer, with_tb_and_bpl, 54) == 0
        && becomes(0x1234, 0xFE) && carried_out(p) && chip_is(resting(0xA8)) && plan_done();
}

/* 4,096 bytes in 17 pages, all of which change */
static bool planned_worst(void)
{
    static const uint8_t wanted[4096];
    const zeradok_planned p = {.length = 4453, .frames = 38, .microseconds = ZERADOK_WORST_MICROSECONDS};
    bool good = erased(F25L05PA) && status_written(F25L05PA, "1C") && plan_refused(10, 0x1001, wanted, 4096, 4452)
        && plans(0x1001, wanted, 4096, 4453, p);
    memset(expected + 0x1001, 0x00, 4096);
    return good && carried_out(p) && chip_is(resting(0x1C)) && plans(0x1001, wanted, 4096, 0, (zeradok_planned){0});
}

/* a protected chip has run the plan up to this record, and so many microseconds more */
static bool plan_run_to(size_t record, uint32_t microseconds)
{
    const zeradok_surveyed s = zeradok_survey(protected_plan, record);
    return erased(F25L05PA) && status_written(F25L05PA, "1C") && (record <= PROGRAM || becomes(0x1234, 0xFE))
        && runs_script(protected_plan, record, s.output, s.frames, s.microseconds) && gave_silence(s.output) && waited(microseconds);
}

/* Powered up the chip has these bits. Planned again in 22 bytes more room the script is as long as this, no longer than the first one, and finishes;
 * where the byte is written already it is empty. */
static bool plan_goes_on(uint8_t bits, uint32_t length)
{
    const uint8_t wanted = 0xFE;
    const zeradok_planned p = length == 0 ? (zeradok_planned){0} : one_write(F25L05PA, 1, length == 54);
    return chip_is(resting(bits)) && length == p.length && plans(0x1234, &wanted, 1, 54 + 22, p) && becomes(0x1234, 0xFE) && carried_out(p)
        && chip_is(resting(bits)) && plan_done();
}

static bool cut_in_wait(size_t record, uint32_t microseconds, uint8_t bits, uint32_t length)
{
    return plan_run_to(record, microseconds) && powers_up() && plan_goes_on(bits, length);
}

/* at its start, in its last microsecond and at its end: a status write's bits come with the end */
static bool plan_cut_in_waits(void)
{
    return cut_in_wait(FIRST_WAIT, 0, 0x1C, 54) && cut_in_wait(FIRST_WAIT, 4999, 0x1C, 54) && cut_in_wait(FIRST_WAIT, 5000, 0x00, 20)
        && cut_in_wait(PAGE_WAIT, 0, 0x00, 0) && cut_in_wait(PAGE_WAIT, 1499, 0x00, 0) && cut_in_wait(PAGE_WAIT, 1500, 0x00, 0)
        && cut_in_wait(LAST_WAIT, 0, 0x00, 0) && cut_in_wait(LAST_WAIT, 4999, 0x00, 0) && cut_in_wait(LAST_WAIT, 5000, 0x1C, 0);
}

static bool cut_in_frame(size_t record, size_t count, uint8_t mask, uint8_t bits, uint32_t length)
{
    return plan_run_to(record, 0) && cut_in(protected_plan + record + FRONT, count, &mask, 1) && gave_silence(count) && plan_goes_on(bits, length);
}

/* both status writes, and the page between them, of which no bit is through */
static bool plan_cut_in_frames(void)
{
    return cut_in_frame(FIRST_01, 2, 0x00, 0x1C, 54) && cut_in_frame(FIRST_01, 2, 0xFF, 0x00, 20) && cut_in_frame(PROGRAM, 5, 0x00, 0x00, 20)
        && cut_in_frame(LAST_01, 2, 0x00, 0x00, 0) && cut_in_frame(LAST_01, 2, 0xFF, 0x1C, 0);
}

/* the questions are answered, and every plan is a 7 */
static bool only_asked_while_pending(void)
{
    const uint8_t wanted = 0xFE;
    return only_questions() && only_asked() && plan_refused(7, 0x1234, &wanted, 1, 64) && plan_refused(7, 0x1234, NULL, 0, 0);
}

static bool pending_not_at_rest(void)
{
    return erased(F25L05PA) && stands(0, "00") && stands(NAMES, "4E 52 01 78") && stands(BOOK, "FE") && silent("06") && silent("01 1C")
        && only_asked_while_pending() && waited(4999) && only_asked_while_pending() && waited(1) && plans_protected();
}

static const struct {
    const char *name;
    bool (*holds)(void);
} samples[] = {
    {"new 008A: status 1C", new_status},
    {"008A: JEDEC 8C 20 14", jedec},
    {"05PA: signature 05", signature},
    {"008A: 90 from address 1", identity},
    {"008A, BP 001: 0F0000 protected, 0EFFFF not", protection},
    {"A5 programmed 0F: 05", old_and_new},
    {"008A: AD at 012345", word_at_odd_address},
    {"05PA: page at 0000FF goes round", page_goes_round},
    {"C7 with only BP2: 05PA taken, 008A ignored", chip_erase_by_bp2},
    {"008A: AAI word at 0FFFFE, 43 then 00", word_at_the_top},
    {"new 008A: 50, 05, 01", status_between},
    {"frame of 4,101 runs, 4,102 is refused", longest_frame},
    {"05PA: read of two at FFFF", read_over_the_top},
    {"008A: plan of FE at 012345, and its run", planned_word},
    {"05PA: plan of a page at 1234, and its run", planned_page},
    {"refusals 6 to 10 of a plan, and empty plans", plan_refusals},
    {"the listing's script, whole", listing_whole},
    {"the listing's script, record by record", listing_by_records},
    {"scripts looked through", surveyed},
    {"scripts typed by hand, and what is wrong with them", bad_records},
    {"refusals 1, 2, 4, 11, 12 and 14 of a script", script_refusals},
    {"records of a plan, one by one", records},
    {"power-up of both chips", power},
    {"a cut page", cut},
    {"driven in AAI: 05 alone", drives_in_aai},
    {"driven in power-down: AB alone, not 05", drives_in_power_down},
    {"driven in a script, 008A", drives_script_008a},
    {"driven in a script, 05PA", drives_script_05pa},
    {"book: questions while busy, in power-down and in AAI, and refusal 7", book_not_at_rest},
    {"salvage: damaged records in front of good ones", salvage_damaged},
    {"salvage: FF inside", salvage_ff_inside},
    {"salvage: a record that ends at byte 4,095", salvage_at_the_end},
    {"salvage: a record cut off by the end", salvage_cut_off},
    {"salvage: all FF, no FF, one byte throughout", salvage_one_byte_throughout},
    {"salvage: a sector full of records", salvage_full},
    {"salvage: the edges of lengths and of names", salvage_edges},
    {"salvage: byte by byte to the next record", salvage_bytewise},
    {"salvage: NR and a space in a name", salvage_inside},
    {"salvage: equal names are all kept", salvage_equal_names},
    {"salvage: 820 stretches, 3,280 bytes of list", salvage_longest_list},
    {"salvage: refusal 2, before 10", salvage_refusals},
    {"names: the second plan in the room of a cut one", names_room},
    {"refusals 1 to 5 change nothing", refusals},
    {"05PA: a status write, 03 for 5,000 microseconds, then 1C", status_write_time},
    {"008A: a status write at once", status_write_at_once},
    {"status write: every byte, and which bits it sets", status_write_bits},
    {"status write: power-up while it runs", status_write_power_up},
    {"status write: while it runs 05 alone", status_write_ignores},
    {"status write: the new bits in force from its end on", status_write_in_force},
    {"status write: in scripts", status_write_scripts},
    {"status write: every byte cut, 00 the old bits, FF the new", status_write_cut},
    {"status write: refusal 5, any other mask", status_write_masks},
    {"status write: running, and a cut in another or in 05", status_write_running_cut},
    {"008A: a cut status write has no mask", status_write_cut_at_once},
    {"pending: at rest, without it, and bits that it never sets", pending_bits_unsound},
    {"pending: sound as every busy state is", pending_is_busy},
    {"008A: never pending", never_pending},
    {"pending: questions, and refusal 7", pending_not_at_rest},
    {"05PA: plan of a protected byte, and its run", planned_protected},
    {"05PA: the plan of the worst case, and its run", planned_worst},
    {"05PA: the plan of a protected byte cut in each wait", plan_cut_in_waits},
    {"05PA: the plan of a protected byte cut in each status write", plan_cut_in_frames},
};

/* on each chip */
static const struct {
    const char *name;
    bool (*holds)(uint8_t number);
} on_each_chip[] = {
    {"driven: 03 from byte 4, an erased FF too", drives_read},
    {"driven: 0B from byte 5, not its dummy", drives_fast_read},
    {"driven: 9F bytes 1 to 3, not byte 4", drives_jedec},
    {"driven: AB from byte 1 or 4", drives_signature},
    {"driven: 90 from byte 4", drives_identity},
    {"driven while busy: 05 alone", drives_while_busy},
    {"driven: nothing else", drives_nothing_else},
    {"driven: nothing in frames that are ignored", drives_nothing_ignored},
    {"driven in frames that are cut", drives_cut},
    {"refusal 4 by either slice", either_slice},
    {"status write: a cut one that is ignored has no mask", status_write_ignored_cut},
    {"book: scenes 0, 9 and 9", book_first},
    {"book: scene 4,095 in the last sector", book_last},
    {"book: every scene, by a list of 8,192", book_whole},
    {"book: the bytes around it aren't looked at", book_alone},
    {"book: an empty list, and scenes read already", book_nothing_to_do},
    {"book: refusal 15, scenes and sectors that aren't there", book_outside},
    {"book: refusals 1 and 2, before 15", book_not_lent},
    {"book: refusal 9, and a plan that unprotects", book_protected},
    {"book: a marking cut, and marked again", book_cut},
    {"names: rooftop by two plans, and a second name", names_first},
    {"names: which records count", names_records},
    {"names: equal bytes are equal names, and nothing else", names_compared},
    {"names: refusal 18 and the edges of a name", names_bad},
    {"names: refusal 15, sectors that aren't there", names_outside},
    {"names: refusals in their order", names_order},
    {"names: questions while not at rest, and refusal 7", names_not_at_rest},
    {"names: refusal 9, and plans that unprotect", names_protected},
    {"names: what stands behind the records", names_dirt},
    {"names: both plans cut, and marked again", names_cut},
    {"names: ANR cut, Y refused", names_anr},
    {"names: the last sector filled to its last byte, and refusal 20", names_full},
    {"names: a move of three scenes of five, and back", names_there_and_back},
    {"names: a move cut, and moved again", names_move_cut},
    {"names: a move into what isn't erased", names_unerased},
    {"names: the empty list", names_empty_list},
    {"names: refusal 18, bad lists", names_bad_lists},
    {"names: 4,096 names, 4,097 names, and refusal 19", names_many},
    {"names: a move of just 4,096 bytes, and refusal 20", names_move_full},
    {"names: unlisted records", names_unlisted},
};

static unsigned passed, failed;

static void tally(const char *name, bool holds)
{
    if (holds) {
        passed++;
    } else {
        failed++;
        printf("failed: %s\n", name);
    }
}

int main(void)
{
    for (size_t i = 0; i < sizeof samples / sizeof *samples; i++) tally(samples[i].name, samples[i].holds());
    for (size_t i = 0; i < sizeof on_each_chip / sizeof *on_each_chip; i++)
        tally(on_each_chip[i].name, on_each_chip[i].holds(F25L008A) && on_each_chip[i].holds(F25L05PA));
    printf("C samples: %u passed, %u failed\n", passed, failed);
    return failed != 0;
}
