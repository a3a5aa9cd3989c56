/* The kernel for programs in C: link the archive that `./meter library` builds and names.
 *
 * A block is kept by the caller as METER_BYTES bytes; other lengths are no whole block, and get 15. No function asks anything of its
 * arguments but that pointers lead to as many bytes as is said, and that what is written overlaps nothing else. A refusal writes nothing. */
#ifndef METER_H
#define METER_H

#include <stddef.h>
#include <stdint.h>

#ifdef __cplusplus
extern "C" {
#endif

enum {
    METER_BYTES = 1899,     /* of a block */
    METER_ROOM = 2097152,   /* for the runner's longest output */
    METER_POINTS = 64       /* the most points of a plan; the most tasks of a table */
};

/* What an accepted call answers. */
enum {
    METER_RUNNING,  /* the running task; 0 nobody */
    METER_MOVES,    /* the moves of the call */
    METER_MARGIN,   /* 0 no margin; 1 a margin of 0 or more; 2 the job was late */
    METER_TICKS,    /* the margin's ticks, before or behind the deadline */
    METER_NUMBERS
};

/* refusals */
/* The numbers given back. */
enum {
    METER_TABLE_SIZE = 1,          /* table empty or above 64 tasks */
    METER_OUT_OF_RANGE = 2,        /* C, D or T out of range */
    METER_OUT_OF_ORDER = 3,        /* not C <= D <= T */
    METER_OVERLOAD = 4,            /* load above 1000 */
    METER_COUNTER_WENT_BACK = 5,   /* counter went back */
    METER_CLOCK_FULL = 6,          /* clock would pass 2^40 */
    METER_NO_SUCH_TASK = 7,        /* task 0 or above the table's count */
    METER_TASK_ACTIVE = 8,         /* release: the task is active */
    METER_TOO_SOON = 9,            /* release: sooner than T after its last */
    METER_NOT_RUNNING = 10,        /* done: the task is not running */
    METER_BUFFER_TOO_SHORT = 11,   /* listing: buffer too short */
    METER_UNREADABLE = 12,         /* unknown mark, or a record cut off */
    METER_TASK_BEHIND_EVENT = 13,  /* task record behind an event */
    METER_INPUT_TOO_LONG = 14,     /* input above 65,536 bytes */
    METER_NOT_WHOLE = 15           /* the block is not whole */
};
/* end of refusals */

/* The runner's whole output for a stream; its length. 0, and nothing is written, where there are less than METER_ROOM bytes. */
size_t meter_run(const uint8_t *stream, size_t length, uint8_t *out, size_t room);

/* A block from the task records of a stream. 0; or the refusal's number, and 256 times the task or offset with it. */
size_t meter_start(const uint8_t *stream, size_t length, uint32_t reading, uint8_t *block, size_t bytes);

/* A call on the block: 0, or the refusal's number. */
uint8_t meter_release(uint8_t *block, size_t bytes, uint32_t reading, uint8_t task, uint64_t answer[METER_NUMBERS]);
uint8_t meter_done(uint8_t *block, size_t bytes, uint32_t reading, uint8_t task, uint64_t answer[METER_NUMBERS]);
uint8_t meter_clock(uint8_t *block, size_t bytes, uint32_t reading, uint64_t answer[METER_NUMBERS]);

/* The waiting jobs, a byte level and a byte task each. Their number; or 256 times the refusal's number. */
size_t meter_listing(const uint8_t *block, size_t bytes, uint8_t *buffer, size_t length);

/* A task's plan: of each point the ticks after the release, and the level. The number of points; or 256 times the refusal's number. */
size_t meter_plan(const uint8_t *block, size_t bytes, uint8_t task, uint32_t points[METER_POINTS][2]);

/* 1 where the block is whole, else 0. */
uint8_t meter_whole(const uint8_t *block, size_t bytes);

#ifdef __cplusplus
}
#endif

#endif
