/* The kernel from C, by the paper's example: a table, its plans, twelve calls and their answers, refusals, the runner's whole output.
 *
 *     cc -std=c99 -Iinclude examples/meter.c "$(./meter library)" -o example && ./example
 *
 * It says what happens, line by line; it returns 1, and says what differs, where an answer is not the one that stands here beside it. */
#include <stdio.h>
#include <string.h>

#include "meter.h"

static uint8_t block[METER_BYTES];      /* kept for the kernel's whole life, and handed to each call */
static uint8_t stream[256];             /* records */
static size_t length;                   /* .. so many bytes of them */
static uint8_t output[METER_ROOM];      /* the runner's */

/* ---- what is expected */

static int differences;

static void expect(const char *what, long want, long got)
{
    if (want == got)
        return;
    printf("  DIFFERENT: %s is %ld, expected %ld\n", what, got, want);
    differences++;
}

/* ---- refusals */

static const char *words(size_t number)
{
    switch (number) {
    case METER_TABLE_SIZE: return "the table has no task, or too many";
    case METER_OUT_OF_RANGE: return "C, D or T of a task is out of range";
    case METER_OUT_OF_ORDER: return "a task does not have C <= D <= T";
    case METER_OVERLOAD: return "the load is too high";
    case METER_COUNTER_WENT_BACK: return "the counter went back";
    case METER_CLOCK_FULL: return "the clock would pass its end";
    case METER_NO_SUCH_TASK: return "the table has no such task";
    case METER_TASK_ACTIVE: return "the task's last job is not done yet";
    case METER_TOO_SOON: return "too soon after the task's last release";
    case METER_NOT_RUNNING: return "the task is not running";
    case METER_BUFFER_TOO_SHORT: return "the buffer is too short";
    case METER_UNREADABLE: return "unknown mark, or a record is cut off";
    case METER_TASK_BEHIND_EVENT: return "a task record stands behind an event";
    case METER_INPUT_TOO_LONG: return "the stream is too long";
    case METER_NOT_WHOLE: return "the block is not whole";
    default: return "no such number";
    }
}

static void refused(size_t want, size_t got)
{
    printf("refused, %u: %s\n", (unsigned)got, words(got));
    expect("the number", (long)want, (long)got);
}

/* ---- records: a mark of two letters, then numbers, the lowest byte first */

static void put8(uint8_t n)
{
    stream[length++] = n;
}

static void put32(uint32_t n)
{
    for (int i = 0; i < 4; i++)
        put8((uint8_t)(n >> 8 * i));
}

static void put_mark(const char *mark)
{
    put8((uint8_t)mark[0]);
    put8((uint8_t)mark[1]);
}

/* C, the longest run time; D, the deadline, counted from the release; T, the least time between two releases. */
static void put_task(uint32_t c, uint32_t d, uint32_t t)
{
    put_mark("TK");
    put32(c);
    put32(d);
    put32(t);
}

static void put_event(const char *mark, uint32_t reading, uint8_t task)
{
    put_mark(mark);
    put32(reading);
    put8(task);
}

/* ---- start */

static void start(void)
{
    expect("what start says", 0, (long)meter_start(stream, length, 0, block, sizeof block));
    expect("whole", 1, meter_whole(block, sizeof block));
}

/* A start says which refusal, and 256 times the task or offset that is wrong. */
static void start_refused(size_t bytes, size_t number, size_t with)
{
    size_t said = meter_start(stream, bytes, 0, block, sizeof block);

    printf("start from %u bytes: ", (unsigned)bytes);
    refused(number, said % 256);
    expect("with it", (long)with, (long)(said / 256));
}

/* ---- plans: when a job is promoted, and to which level */

struct plan {
    uint8_t task;
    uint8_t count;
    uint32_t points[2][2];      /* ticks after the release, level */
};

static const struct plan plans[] = {
    {1, 0, {{0, 0}, {0, 0}}},
    {2, 1, {{5, 1}, {0, 0}}},
    {3, 2, {{3, 2}, {8, 1}}},
};

static void plan(const struct plan *want)
{
    uint32_t points[METER_POINTS][2];
    size_t count = meter_plan(block, sizeof block, want->task, points);

    printf("plan of task %u: %u points", want->task, (unsigned)count);
    for (size_t i = 0; i < count && i < want->count; i++)
        printf("; level %u after %u ticks", (unsigned)points[i][1], (unsigned)points[i][0]);
    printf("\n");
    expect("the number of points", want->count, (long)count);
    expect("the points, compared", 0, memcmp(points, want->points, want->count * sizeof points[0]));
}

/* ---- calls */

enum { NONE = 1000 };           /* no margin */

struct call {
    const char *mark;           /* RL release, DN done, TM clock */
    uint32_t reading;           /* of the hardware counter */
    uint8_t task;
    uint8_t number;             /* 0 accepted, else the refusal */
    uint8_t running;            /* 0 nobody */
    uint8_t moves;
    uint8_t waiting;
    int margin;
};

/* The paper's twelve events, and behind the task what its E line says of each. */
static const struct call paper[] = {
    {"RL", 0, 1, 0, 1, 0, 0, NONE},
    {"RL", 0, 2, 0, 1, 0, 1, NONE},
    {"RL", 0, 3, 0, 1, 0, 2, NONE},
    {"DN", 1, 1, 0, 2, 0, 1, 1},
    {"RL", 4, 1, 0, 1, 1, 2, NONE},
    {"DN", 5, 1, 0, 2, 1, 1, 1},
    {"DN", 6, 2, 0, 3, 0, 0, 1},
    {"RL", 8, 1, 0, 3, 0, 1, NONE},
    {"RL", 8, 2, 0, 3, 0, 2, NONE},
    {"DN", 9, 3, 0, 1, 0, 1, 1},
    {"RL", 10, 3, METER_TOO_SOON, 1, 0, 1, NONE},
    {"DN", 10, 2, METER_NOT_RUNNING, 1, 0, 1, NONE},
};

/* Then the timer fires at task 2's point, and task 1 ends three ticks late. */
static const struct call later[] = {
    {"TM", 13, 0, 0, 1, 1, 1, NONE},
    {"DN", 13, 1, 0, 2, 0, 0, -3},
};

static uint8_t made(const struct call *call, uint64_t answer[METER_NUMBERS])
{
    switch (call->mark[0]) {
    case 'R': return meter_release(block, sizeof block, call->reading, call->task, answer);
    case 'D': return meter_done(block, sizeof block, call->reading, call->task, answer);
    default: return meter_clock(block, sizeof block, call->reading, answer);
    }
}

/* The margin in one number: less than 0 where the job was late. */
static long margin(const uint64_t answer[METER_NUMBERS])
{
    switch (answer[METER_MARGIN]) {
    case 0: return NONE;
    case 1: return (long)answer[METER_TICKS];
    default: return -(long)answer[METER_TICKS];
    }
}

static void tell(const uint64_t answer[METER_NUMBERS])
{
    printf("task %u runs, moves %u", (unsigned)answer[METER_RUNNING], (unsigned)answer[METER_MOVES]);
    if (margin(answer) != NONE)
        printf(", margin %ld", margin(answer));
}

/* Who waits, the lowest level first: a byte level and a byte task each. The number waiting. */
static size_t listing(void)
{
    uint8_t jobs[2 * METER_POINTS];
    size_t waiting = meter_listing(block, sizeof block, jobs, sizeof jobs);

    for (size_t i = 0; i < waiting && 2 * i < sizeof jobs; i++)
        printf("; task %u waits at level %u", jobs[2 * i + 1], jobs[2 * i]);
    printf("\n");
    return waiting;
}

static void call(const struct call *want)
{
    uint64_t answer[METER_NUMBERS];
    uint8_t before[METER_BYTES], number;

    memcpy(before, block, sizeof block);
    number = made(want, answer);
    printf("%s %2u %u: ", want->mark, (unsigned)want->reading, want->task);
    if (number != 0) {
        refused(want->number, number);
        expect("the block, compared", 0, memcmp(before, block, sizeof block));
        return;
    }
    tell(answer);
    expect("waiting", want->waiting, (long)listing());
    expect("the number", want->number, number);
    expect("running", want->running, (long)answer[METER_RUNNING]);
    expect("moves", want->moves, (long)answer[METER_MOVES]);
    expect("the margin", want->margin, margin(answer));
}

/* ---- asked wrongly: each refusal leaves block, buffer and points as they were */

static void asked_wrongly(void)
{
    uint64_t answer[METER_NUMBERS];
    uint32_t points[METER_POINTS][2];
    uint8_t jobs[1];

    printf("plan of task 4: ");
    refused(METER_NO_SUCH_TASK, meter_plan(block, sizeof block, 4, points) / 256);
    expect("what a release says", 0, meter_release(block, sizeof block, 16, 3, answer));
    printf("listing into 1 byte: ");
    refused(METER_BUFFER_TOO_SHORT, meter_listing(block, sizeof block, jobs, sizeof jobs) / 256);
    printf("release of a task that waits: ");
    refused(METER_TASK_ACTIVE, meter_release(block, sizeof block, 32, 3, answer));
    printf("a reading of before: ");
    refused(METER_COUNTER_WENT_BACK, meter_clock(block, sizeof block, 15, answer));

    memset(block, 0, sizeof block);
    expect("whole", 0, meter_whole(block, sizeof block));
    printf("a block that was lost: ");
    refused(METER_NOT_WHOLE, meter_clock(block, sizeof block, 17, answer));
}

/* ---- the runner: a whole stream at once */

static const char expected[] =
    "P 1 1\n"
    "P 2 2 5:1\n"
    "P 3 3 3:2 8:1\n"
    "E 1 0 1 0 0 -\n"
    "E 2 0 1 0 1 -\n"
    "E 3 0 1 0 2 -\n"
    "E 4 0 2 0 1 1\n"
    "E 5 0 1 1 2 -\n"
    "E 6 0 2 1 1 1\n"
    "E 7 0 3 0 0 1\n"
    "E 8 0 3 0 1 -\n"
    "E 9 0 3 0 2 -\n"
    "E 10 0 1 0 1 1\n"
    "E 11 9 1 0 1 -\n"
    "E 12 10 1 0 1 -\n"
    "S 2 4\n";

static void run(void)
{
    size_t written = meter_run(stream, length, output, sizeof output);

    printf("the runner, over all %u bytes:\n%.*s", (unsigned)length, (int)written, (const char *)output);
    expect("the length of the output", (long)strlen(expected), (long)written);
    expect("the output, compared", 0, memcmp(output, expected, strlen(expected)));
}

#define COUNT(array) (sizeof(array) / sizeof(array)[0])

int main(void)
{
    put_task(1, 2, 4);
    put_task(4, 7, 8);
    put_task(3, 10, 16);

    start_refused(0, METER_TABLE_SIZE, 0);
    start_refused(length - 1, METER_UNREADABLE, 28);
    start();
    for (size_t i = 0; i < COUNT(plans); i++)
        plan(&plans[i]);
    for (size_t i = 0; i < COUNT(paper); i++)
        call(&paper[i]);
    for (size_t i = 0; i < COUNT(later); i++)
        call(&later[i]);
    asked_wrongly();

    for (size_t i = 0; i < COUNT(paper); i++)
        put_event(paper[i].mark, paper[i].reading, paper[i].task);
    run();

    puts(differences == 0 ? "all as expected" : "NOT as expected");
    return differences != 0;
}
