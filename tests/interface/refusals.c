/* The refusals through the C interface, one of each: its number and place, the memory it leaves, and its line of text. Number 10 is never
 * given, so no job can ask for it; every answer is compared with the one number that is wanted. */
#include "lent.h"

#include <stdio.h>
#include <string.h>

static void refused_over(struct where at, const struct job *job, struct counts counts, size_t number, size_t place)
{
    char text[64];
    snprintf(text, sizeof text, "refused %zu %zu\n", number, place);
    const struct wanted wanted = {number, place, 0, NULL, text};
    check_call(at, job, counts, &wanted);
}

/* A refusal over memory of the least lengths and over longer memory. */
static void refused(struct where at, const struct job *job, size_t number, size_t place)
{
    refused_over(at, job, LEAST, number, place);
    refused_over(at, job, MORE, number, place);
}

/* P5 with another number at this byte. */
static struct job altered(size_t at, size_t number)
{
    struct job job = job_p5();
    put(job.bytes, at, number);
    return job;
}

/* P5 with another count of bytes lent. */
static struct job lent_as(size_t length)
{
    struct job job = job_p5();
    job.length = length;
    return job;
}

/* Each area in turn is one element short. It is tried first: a job without a header is refused for the area too. */
static void areas(void)
{
    const struct job good = job_p5();
    const struct job none = lent_as(0);
    for (size_t i = 0; i < AREAS; i++) {
        struct counts counts = LEAST;
        counts.of[i]--;
        refused_over(HERE("area one short"), &good, counts, HURDLESONG_AREA, 0);
        counts.of[i] = 0;
        refused_over(HERE("area of no length, no job"), &none, counts, HURDLESONG_AREA, 0);
    }
}

static void headers(void)
{
    char states[257];
    memset(states, 'A', sizeof states);
    struct job job = lent_as(0);
    refused(HERE("no byte"), &job, HURDLESONG_HEAD, 0);
    job = lent_as(11);
    refused(HERE("11 bytes"), &job, HURDLESONG_HEAD, 0);
    job = job_of(0, 3, states, NULL, 0);
    refused(HERE("0 rows"), &job, HURDLESONG_ROWS, 0);
    job = job_of(257, 1, states, NULL, 0);
    refused(HERE("257 rows"), &job, HURDLESONG_ROWS, 0);
    job = job_of(3, 0, states, NULL, 0);
    refused(HERE("width 0"), &job, HURDLESONG_WIDTHS, 2);
    job = job_of(3, 65, states, NULL, 0);
    refused(HERE("width 65"), &job, HURDLESONG_WIDTHS, 2);
}

static void layouts(void)
{
    struct job job = altered(6, 13);
    refused(HERE("offset of the weights"), &job, HURDLESONG_LAYOUT, 6);
    job = altered(8, 17);
    refused(HERE("offset of the states"), &job, HURDLESONG_LAYOUT, 8);
    job = altered(10, 28);
    refused(HERE("whole length"), &job, HURDLESONG_LAYOUT, 10);
    job = lent_as(26);
    refused(HERE("a byte fewer"), &job, HURDLESONG_LAYOUT, 12);
    job = lent_as(28);
    refused(HERE("a byte more"), &job, HURDLESONG_LAYOUT, 12);
}

static void contents(void)
{
    struct job job = altered(12, 0);
    refused(HERE("weight 0 in column 0"), &job, HURDLESONG_WEIGHT, 0);
    job = altered(12, 1001);
    refused(HERE("weight 1,001 in column 0"), &job, HURDLESONG_WEIGHT, 0);
    job = altered(16, 0);
    refused(HERE("weight 0 in column 2"), &job, HURDLESONG_WEIGHT, 2);
    job = altered(16, 1001);
    refused(HERE("weight 1,001 in column 2"), &job, HURDLESONG_WEIGHT, 2);
    job = job_of(3, 3, "1101 1011", NULL, 0);
    refused(HERE("state 32 in row 1"), &job, HURDLESONG_STATE, 4);
    job = job_of(3, 3, "11010\x7f" "011", NULL, 0);
    refused(HERE("state 127 in row 1"), &job, HURDLESONG_STATE, 5);
}

/* All rows of `high` states in column 0 and `low` in column 1, with `behind` in the columns after them. Gives the bytes written. */
static size_t grid(char *states, int high, int low, const char *behind)
{
    size_t length = 0;
    for (int i = 0; i < high; i++) {
        for (int j = 0; j < low; j++) {
            length += (size_t)sprintf(states + length, "%c%c%s", 'A' + i, 'A' + j, behind);
        }
    }
    return length;
}

/* R2 and R4 of RULES 16.2. */
static void rooms(void)
{
    char states[1024];
    size_t length = grid(states, 8, 16, "");
    strcpy(states + length, "ZZ");
    struct job job = job_of(129, 2, states, NULL, 0);
    refused(HERE("R2: 129 types"), &job, HURDLESONG_TYPES, 128);
    length = grid(states, 5, 25, "000");
    strcpy(states + length, "AA110AA101AA011");
    job = job_of(128, 5, states, NULL, 0);
    refused(HERE("R4: no room in round 1"), &job, HURDLESONG_ROOM, 1);
}

/* Too little memory for a text, be it of a network or of a refusal; and a block that is not one of the job. */
static void texts(void)
{
    const struct job job = job_p5();
    const struct job other = job_of(2, 2, "ACAC", NULL, 0);
    const struct hurdlesong_told done = {HURDLESONG_DONE, 0, P5_USED};
    const struct hurdlesong_told refusal = {HURDLESONG_STATE, 4, 0};
    const size_t least = HURDLESONG_TEXT_BYTES;
    uint8_t bytes[P5_USED];
    memcpy(bytes, P5_BLOCK, P5_USED);
    const struct area block = {bytes, P5_USED};
    check_text(HERE("text one byte short"), &job, block, done, least - 1, HURDLESONG_TEXT_ROOM, NULL);
    check_text(HERE("text of no length"), &job, block, done, 0, HURDLESONG_TEXT_ROOM, NULL);
    check_text(HERE("refusal's text one byte short"), &job, block, refusal, least - 1, HURDLESONG_TEXT_ROOM, NULL);
    check_text(HERE("longer text memory"), &job, block, done, least + 129, HURDLESONG_DONE, P5_TEXT);
    check_text(HERE("refusal's text"), &job, block, refusal, least + 129, HURDLESONG_DONE, "refused 7 4\n");
    check_text(HERE("another job"), &other, block, done, least, HURDLESONG_TEXT_BLOCK, NULL);
    check_text(HERE("no block"), &job, (struct area){bytes, 0}, done, least, HURDLESONG_TEXT_BLOCK, NULL);
    check_text(HERE("block cut short"), &job, (struct area){bytes, P5_USED - 1}, done, least + 1, HURDLESONG_TEXT_BLOCK, NULL);
    check_bytes(HERE("texts"), "block afterwards", P5_BLOCK, bytes, P5_USED);
    put(bytes, 4, 2);
    check_text(HERE("damaged block"), &job, block, done, least, HURDLESONG_TEXT_BLOCK, NULL);
}

void check_refusals(void)
{
    areas();
    headers();
    layouts();
    contents();
    rooms();
    texts();
}
