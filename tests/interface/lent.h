/* What the test program of the C interface stands on: checks that are counted, jobs built from rows, and lent memory with leftovers in it
 * and guard bytes around it. */
#ifndef LENT_H
#define LENT_H

#include "hurdlesong.h"

/* Where a check stands in the program, and the case it is part of. */
struct where {
    const char *file;
    int line;
    const char *name;
};

#define HERE(name) ((struct where){__FILE__, __LINE__, (name)})

/* Each of these is one check, however many bytes it looks at. A failed one is printed with what was wanted and got. */
void check_number(struct where at, const char *what, size_t wanted, size_t got);
void check_bytes(struct where at, const char *what, const void *wanted, const void *got, size_t length);
void check_zero(struct where at, const char *what, const void *got, size_t length);

/* Prints the last line and gives the program's status: 1 where a check failed, or there was none. */
int checks_end(void);

/* A job block with room for the too long ones. */
struct job {
    size_t length;
    uint8_t bytes[HURDLESONG_JOB_BYTES + 64];
};

/* Puts a number of 16 bits where it belongs in a block, low byte first. */
void put(uint8_t *block, size_t at, size_t number);

/* The job of so many rows, which lie one behind the other in `states`. No weights at all: each is 1. */
struct job job_of(size_t rows, size_t width, const char *states, const uint16_t *weights, size_t epsilon);

/* The job P5 of RULES 16.1, its result block (16 + 6t + (t - s)m + 6l bytes) and its text. */
enum { P5_USED = 16 + 6 * 4 + 1 * 3 + 6 * 3 };
extern const uint8_t P5_BLOCK[];
extern const char P5_TEXT[];
struct job job_p5(void);

/* Memory to lend: FILLINGS ways to leave something in it. */
enum { FILLINGS = 2 };

struct area {
    uint8_t *bytes;
    size_t length;
};

struct area lend(size_t length, int filling);

/* Looks at the guard bytes and frees the memory. */
void give_back(struct where at, const char *what, struct area area);

/* What a call is lent, each counted in its own elements. */
enum { RESULT, STATES, DISTANCES, LINKS, AREAS };

struct counts {
    size_t of[AREAS];
};

extern const struct counts LEAST;
extern const struct counts MORE;

/* What is wanted of a call. `block` has `used` bytes. */
struct wanted {
    size_t number;
    size_t place;
    size_t used;
    const uint8_t *block;
    const char *text;
};

/* Calls once for each filling, looks at all that was lent, and prints each answer. */
void check_call(struct where at, const struct job *job, struct counts counts, const struct wanted *wanted);

/* Prints once for each filling into memory of this length, and looks at all of it. `text` is what is wanted, or NULL where `refusal` is. */
void check_text(struct where at, const struct job *job, struct area block, struct hurdlesong_told answer, size_t length, size_t refusal,
                const char *text);

/* The refusals of a call and of a text, one of each. */
void check_refusals(void);

#endif
