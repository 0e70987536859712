/* The test program of the C interface: it runs the archive's three functions from C and checks the answers, the memory they leave, and the
 * header's constants. Expected values are those of docs/RULES.md, written by hand. It prints each failed check, then a last line with the
 * counts, and ends with status 1 where a check failed.
 *
 * P5 and the row lookup stand here, the refusals in refusals.c, and lent memory in lent.c. */
#include "lent.h"

#include <string.h>

_Static_assert(HURDLESONG_RESULT_BYTES == 57680, "the result's least length");
_Static_assert(HURDLESONG_STATE_BYTES == 8192, "the state area's least length");
_Static_assert(HURDLESONG_DISTANCES == 16384, "the distance area's least length");
_Static_assert(HURDLESONG_LINKS == 8128, "the link table's least length");
_Static_assert(HURDLESONG_TEXT_BYTES == 172718, "the text's least length");
_Static_assert(HURDLESONG_JOB_BYTES == 16524, "the largest job");
_Static_assert(HURDLESONG_WIDTH == 64, "the largest width");

_Static_assert(HURDLESONG_DONE == 0 && HURDLESONG_AREA == 1 && HURDLESONG_HEAD == 2 && HURDLESONG_ROWS == 3, "numbers 0 to 3");
_Static_assert(HURDLESONG_WIDTHS == 4 && HURDLESONG_LAYOUT == 5 && HURDLESONG_WEIGHT == 6 && HURDLESONG_STATE == 7, "numbers 4 to 7");
_Static_assert(HURDLESONG_TYPES == 8 && HURDLESONG_ROOM == 9 && HURDLESONG_SPLIT == 10, "numbers 8 to 10");
_Static_assert(HURDLESONG_TEXT_ROOM == 80 && HURDLESONG_TEXT_BLOCK == 81, "the numbers of a text");
_Static_assert(HURDLESONG_NOWHERE == 0 && HURDLESONG_IN_JOB == 1 && HURDLESONG_IN_RESULT == 2, "the sources");

_Static_assert(sizeof(size_t) == 8, "a length has 64 bits");
_Static_assert(sizeof(struct hurdlesong_told) == 24, "told has no gap");
_Static_assert(offsetof(struct hurdlesong_told, number) == 0, "number");
_Static_assert(offsetof(struct hurdlesong_told, place) == 8, "place");
_Static_assert(offsetof(struct hurdlesong_told, used) == 16, "used");
_Static_assert(sizeof(struct hurdlesong_link) == 6 && _Alignof(struct hurdlesong_link) == 2, "a link has no gap");
_Static_assert(offsetof(struct hurdlesong_link, low) == 0, "low");
_Static_assert(offsetof(struct hurdlesong_link, high) == 2, "high");
_Static_assert(offsetof(struct hurdlesong_link, length) == 4, "length of a link");
_Static_assert(sizeof(struct hurdlesong_place) == 24, "a place has no gap");
_Static_assert(offsetof(struct hurdlesong_place, source) == 0, "source");
_Static_assert(offsetof(struct hurdlesong_place, at) == 8, "at");
_Static_assert(offsetof(struct hurdlesong_place, length) == 16, "length of a place");

const uint8_t P5_BLOCK[] = {
    0x04, 0, 0x03, 0, 0x03, 0, 0x03, 0, 0x01, 0, 0x10, 0, 0x28, 0, 0x2b, 0, /* t, s, m, l, rounds, and the three offsets */
    0x01, 0, 0x00, 0, 0x00, 0, 0x01, 0, 0x01, 0, 0x00, 0, 0x01, 0, 0x02, 0, 0x00, 0, /* the sampled types 0 to 2 */
    0x00, 0, 0x00, 0, 0x01, 0, /* the inferred type 3, of round 1 */
    0x31, 0x31, 0x31, /* its states */
    0x00, 0, 0x03, 0, 0x01, 0, 0x01, 0, 0x03, 0, 0x01, 0, 0x02, 0, 0x03, 0, 0x01, 0, /* links 0-3, 1-3, 2-3 of length 1 */
};
_Static_assert(sizeof P5_BLOCK == P5_USED && P5_USED == 61, "P5's block is written out whole");

const char P5_TEXT[] = "types 4 sampled 3 links 3 rounds 1\n"
                       "T 0 S 1 110\n"
                       "T 1 S 1 101\n"
                       "T 2 S 1 011\n"
                       "T 3 I 1 111\n"
                       "L 0 3 1\n"
                       "L 1 3 1\n"
                       "L 2 3 1\n";

struct job job_p5(void)
{
    const uint16_t weights[3] = {1, 1, 1};
    return job_of(3, 3, "110" "101" "011", weights, 0);
}

/* The job is built as it stands in FORMAT.md, and answered over memory of the least lengths and over longer memory. */
static void p5(void)
{
    const uint8_t bytes[27] = {
        0x03, 0, 0x03, 0, 0x00, 0, 0x0c, 0, 0x12, 0, 0x1b, 0, /* n, m, epsilon, the two offsets, the length */
        0x01, 0, 0x01, 0, 0x01, 0,                            /* the weights */
        0x31, 0x31, 0x30, 0x31, 0x30, 0x31, 0x30, 0x31, 0x31, /* the rows */
    };
    const struct job job = job_p5();
    const struct wanted wanted = {HURDLESONG_DONE, 0, P5_USED, P5_BLOCK, P5_TEXT};
    check_number(HERE("P5"), "length of the job", sizeof bytes, job.length);
    check_bytes(HERE("P5"), "bytes of the job", bytes, job.bytes, sizeof bytes);
    check_call(HERE("P5"), &job, LEAST, &wanted);
    check_call(HERE("P5, more lent"), &job, MORE, &wanted);
}

/* The job P2 of RULES 16.1, so that P5 is not the only network: two equal rows are one type. */
static void p2(void)
{
    const uint8_t block[] = {1, 0, 1, 0, 2, 0, 0, 0, 0, 0, 16, 0, 22, 0, 22, 0, 2, 0, 0, 0, 0, 0};
    const struct job job = job_of(2, 2, "AC" "AC", NULL, 0);
    const struct wanted wanted = {HURDLESONG_DONE, 0, sizeof block, block, "types 1 sampled 1 links 0 rounds 0\nT 0 S 2 AC\n"};
    check_call(HERE("P2"), &job, LEAST, &wanted);
}

static void look_up(struct where at, const struct job *job, struct area block, size_t number, struct hurdlesong_place wanted)
{
    struct hurdlesong_place got = hurdlesong_states(job->bytes, job->length, block.bytes, block.length, number);
    check_number(at, "source", wanted.source, got.source);
    check_number(at, "at", wanted.at, got.at);
    check_number(at, "length", wanted.length, got.length);
}

static void nowhere(struct where at, const struct job *job, struct area block, size_t number)
{
    look_up(at, job, block, number, (struct hurdlesong_place){HURDLESONG_NOWHERE, 0, 0});
}

static void nowhere_for_all(struct where at, const struct job *job, struct area block)
{
    for (size_t number = 0; number < 5; number++) {
        nowhere(at, job, block, number);
    }
}

/* The types of P5: three in the job, one in the result, no fifth one. */
static void lookup_p5(const struct job *job, struct area block)
{
    for (size_t number = 0; number < 3; number++) {
        look_up(HERE("a sampled type"), job, block, number, (struct hurdlesong_place){HURDLESONG_IN_JOB, 18 + 3 * number, 3});
    }
    look_up(HERE("the inferred type"), job, block, 3, (struct hurdlesong_place){HURDLESONG_IN_RESULT, 40, 3});
    nowhere(HERE("no such type"), job, block, 4);
    nowhere(HERE("the largest number"), job, block, SIZE_MAX);
    check_bytes(HERE("type 0"), "states", "110", job->bytes + 18, 3);
    check_bytes(HERE("type 1"), "states", "101", job->bytes + 21, 3);
    check_bytes(HERE("type 2"), "states", "011", job->bytes + 24, 3);
    check_bytes(HERE("type 3"), "states", "111", block.bytes + 40, 3);
}

/* Each field of the header that the lookup reads is damaged in turn; then a record's place. */
static void lookup_damaged(const struct job *job, struct area block)
{
    const struct { size_t at, wrong; } fields[] = {{0, 3}, {0, 129}, {2, 0}, {2, 5}, {4, 2}, {10, 17}, {12, 39}, {14, 44}};
    for (size_t i = 0; i < sizeof fields / sizeof fields[0]; i++) {
        memcpy(block.bytes, P5_BLOCK, P5_USED);
        put(block.bytes, fields[i].at, fields[i].wrong);
        nowhere_for_all(HERE("damaged header"), job, block);
    }
    memcpy(block.bytes, P5_BLOCK, P5_USED);
    put(block.bytes, 18, 3);
    nowhere(HERE("type 0 in a row that is not there"), job, block, 0);
    put(block.bytes, 36, 1);
    nowhere(HERE("type 3 in an inferred row that is not there"), job, block, 3);
    look_up(HERE("type 1 beside damaged ones"), job, block, 1, (struct hurdlesong_place){HURDLESONG_IN_JOB, 21, 3});
    memcpy(block.bytes, P5_BLOCK, P5_USED);
}

/* A block is read up to its links, and a job must be one of the block's width. */
static void lookup_others(struct area block)
{
    const struct job narrow = job_of(2, 2, "AC" "AC", NULL, 0);
    const struct job shorter = job_of(2, 3, "110" "101", NULL, 0);
    const struct job wrong = job_of(3, 3, "1101 1011", NULL, 0);
    const struct job job = job_p5();
    nowhere_for_all(HERE("no block"), &job, (struct area){block.bytes, 0});
    nowhere_for_all(HERE("part of a header"), &job, (struct area){block.bytes, 15});
    nowhere_for_all(HERE("block cut before its links"), &job, (struct area){block.bytes, 42});
    look_up(HERE("block without its links"), &job, (struct area){block.bytes, 43}, 3, (struct hurdlesong_place){HURDLESONG_IN_RESULT, 40, 3});
    nowhere_for_all(HERE("job of another width"), &narrow, block);
    nowhere_for_all(HERE("job that is refused"), &wrong, block);
    nowhere(HERE("job with too few rows"), &shorter, block, 2);
    look_up(HERE("job with just enough rows"), &shorter, block, 1, (struct hurdlesong_place){HURDLESONG_IN_JOB, 21, 3});
}

/* The block as a call has left it, with zeros behind it, and the block alone. */
static void lookup(void)
{
    const struct job job = job_p5();
    uint8_t bytes[P5_USED + 100] = {0};
    memcpy(bytes, P5_BLOCK, P5_USED);
    lookup_p5(&job, (struct area){bytes, P5_USED});
    lookup_p5(&job, (struct area){bytes, sizeof bytes});
    lookup_damaged(&job, (struct area){bytes, P5_USED});
    lookup_others((struct area){bytes, P5_USED});
    check_bytes(HERE("lookup"), "block afterwards", P5_BLOCK, bytes, P5_USED);
    check_bytes(HERE("lookup"), "job afterwards", job_p5().bytes, job.bytes, job.length);
}

int main(void)
{
    p5();
    p2();
    lookup();
    check_refusals();
    return checks_end();
}
