/* The lowering of door charts, in C: link target/staticlib/libol_lower.a.
 *
 * A call reads `length` bytes at `pack`. A lowering may write `room` bytes at `output` and `report_room` at `report`; the
 * three must not overlap. Nothing else is asked of the caller, and a call needs less than 1 MiB of stack. */
#ifndef OL_LOWER_H
#define OL_LOWER_H

#include <stddef.h>
#include <stdint.h>

#ifdef __cplusplus
extern "C" {
#endif

/* The most bytes of a pack, and so of a lowered one. */
#define OL_PACK_MOST 65536

/* The numbers; the value of each stands behind it. */
enum {
    OL_DONE = 0,        /* bytes written; of a check the pack's length */
    OL_TOO_LONG = 1,    /* 65,536: the pack is longer */
    OL_ENDS_EARLY = 2,  /* the pack's length */
    OL_ILLEGAL = 3,     /* offset of the field */
    OL_TOO_DEEP = 4,    /* offset of the region of level 9 */
    OL_BYTES_AFTER = 5, /* offset of the first byte after the origins */
    OL_REFUSED = 6,     /* bytes of the report that was written */
    OL_REPORT_ROOM = 7, /* bytes that the report needs */
    OL_TOO_LARGE = 8,   /* 0: a made name is over 255 bytes, or the lowered pack over 65,536 */
    OL_OUTPUT_ROOM = 9  /* bytes that the output needs */
};

/* A report: how many definitions are refused (two bytes, the lower first), then of each its kind (a byte) and its names,
 * each after its length (a byte). The names of each kind stand behind it; README.md says what to do. */
enum {
    OL_KIND_NO_STATES = 1,                 /* machine */
    OL_KIND_UNKNOWN_INITIAL_STATE = 2,     /* machine, initial state */
    OL_KIND_UNKNOWN_TARGET = 3,            /* machine, state, target */
    OL_KIND_OUTPUT_UNASSIGNED = 4,         /* machine, output, state */
    OL_KIND_DUPLICATE_STATE = 5,           /* machine, state */
    OL_KIND_UNKNOWN_REFINE = 6,            /* machine, state, refined machine */
    OL_KIND_REFINE_CYCLE = 7,              /* machine, refined machine */
    OL_KIND_UNKNOWN_OWNER = 8,             /* machine, owner */
    OL_KIND_NO_BRANCHES = 9,               /* activation */
    OL_KIND_NO_OUTPUTS = 10,               /* activation */
    OL_KIND_BRANCH_OUTPUT_UNASSIGNED = 11, /* activation, output, branch */
    OL_KIND_DUPLICATE_BRANCH = 12,         /* activation, branch */
    OL_KIND_UNKNOWN_ACTIVATION_OWNER = 13, /* activation, owner */
    OL_KIND_LAST_ARGS = 14,                /* activation */
    OL_KIND_LAST_UNKNOWN = 15,             /* activation, variable */
    OL_KIND_LAST_NEEDS_INIT = 16,          /* activation, variable */
    OL_KIND_TOO_LARGE = 17,                /* machine */
    OL_KIND_EMPTY_LEFT = 18                /* activation */
};

/* Every call returns one word: the number times 2^32 plus the value. */
static inline uint32_t ol_number(uint64_t word) { return (uint32_t)(word >> 32); }
static inline uint32_t ol_value(uint64_t word) { return (uint32_t)word; }

/* Checks a pack: numbers 0 to 5. */
uint64_t ol_pack_check(const uint8_t *pack, size_t length);

/* Lower the machines, the activations of a pack. OL_DONE leaves the lowered pack in `output`, OL_REFUSED a report in
 * `report`; all other bytes of the two buffers stay as they were. */
uint64_t ol_lower_state_machines(const uint8_t *pack, size_t length, uint8_t *output, size_t room, uint8_t *report,
                                 size_t report_room);
uint64_t ol_lower_activations(const uint8_t *pack, size_t length, uint8_t *output, size_t room, uint8_t *report,
                              size_t report_room);

#ifdef __cplusplus
}
#endif

#endif
