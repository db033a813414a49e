/* The structs of include/zeradok.h lie in memory as the library has them, and its numbers are those of 02, of the worst case (A8) and of the longest
 * list of dropped stretches (A9), in C and in C++: it is compiled and never run. tests/zeradok/src/layout.rs says the same of the Rust binding. */
#include "zeradok.h"

#include <assert.h>

#define SIZE(type, bytes) static_assert(sizeof(type) == (bytes), #type)
#define FIELD(type, field, offset) static_assert(offsetof(type, field) == (offset), #type "." #field)

SIZE(zeradok_state, 20);
FIELD(zeradok_state, chip, 0);
FIELD(zeradok_state, bp, 1);
FIELD(zeradok_state, tb, 2);
FIELD(zeradok_state, bpl, 3);
FIELD(zeradok_state, wel, 4);
FIELD(zeradok_state, aai, 5);
FIELD(zeradok_state, armed, 6);
FIELD(zeradok_state, power_down, 7);
FIELD(zeradok_state, pending, 8);
FIELD(zeradok_state, pending_bits, 9);
FIELD(zeradok_state, left, 12);
FIELD(zeradok_state, next, 16);

SIZE(zeradok_answer, 24);
FIELD(zeradok_answer, number, 0);
FIELD(zeradok_answer, state, 4);

SIZE(zeradok_ran, 48);
FIELD(zeradok_ran, number, 0);
FIELD(zeradok_ran, state, 4);
FIELD(zeradok_ran, frames, 24);
FIELD(zeradok_ran, microseconds, 32);
FIELD(zeradok_ran, offset, 40);

SIZE(zeradok_surveyed, 32);
FIELD(zeradok_surveyed, number, 0);
FIELD(zeradok_surveyed, frames, 4);
FIELD(zeradok_surveyed, microseconds, 8);
FIELD(zeradok_surveyed, offset, 16);
FIELD(zeradok_surveyed, output, 24);

SIZE(zeradok_planned, 36);
FIELD(zeradok_planned, number, 0);
FIELD(zeradok_planned, state, 4);
FIELD(zeradok_planned, length, 24);
FIELD(zeradok_planned, frames, 28);
FIELD(zeradok_planned, microseconds, 32);

SIZE(zeradok_record, 40);
FIELD(zeradok_record, number, 0);
FIELD(zeradok_record, kind, 4);
FIELD(zeradok_record, start, 8);
FIELD(zeradok_record, length, 16);
FIELD(zeradok_record, microseconds, 24);
FIELD(zeradok_record, next, 32);

SIZE(zeradok_told, 28);
FIELD(zeradok_told, number, 0);
FIELD(zeradok_told, state, 4);
FIELD(zeradok_told, value, 24);

SIZE(zeradok_returned, 40);
FIELD(zeradok_returned, number, 0);
FIELD(zeradok_returned, state, 4);
FIELD(zeradok_returned, length, 24);
FIELD(zeradok_returned, frames, 28);
FIELD(zeradok_returned, microseconds, 32);
FIELD(zeradok_returned, unlisted, 36);

SIZE(zeradok_salvaged, 12);
FIELD(zeradok_salvaged, number, 0);
FIELD(zeradok_salvaged, length, 4);
FIELD(zeradok_salvaged, kept, 8);

static_assert(ZERADOK_WORST_BYTES == 26672, "ZERADOK_WORST_BYTES");
static_assert(ZERADOK_WORST_FRAMES == 3079, "ZERADOK_WORST_FRAMES");
static_assert(ZERADOK_WORST_MICROSECONDS == 35500, "ZERADOK_WORST_MICROSECONDS");
static_assert(ZERADOK_LONGEST_DROPPED == 3280, "ZERADOK_LONGEST_DROPPED");
