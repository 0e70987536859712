/* Hurdlesong for C: haplotype networks, proved. The functions are in libhurdlesong_c.a (x86-64-v2, Linux), which scripts/archive.sh makes.
 *
 * Each function answers for every input, however damaged, and alters nothing but what it is lent as writable. What holds of them is proved of
 * the library's source; that a caller keeps to the following is checked by nothing:
 * - a pointer and the length behind it are memory that can be read, or read and written where it is not const; no pointer is NULL, also
 *   where the length is 0; distances and links are aligned as their types;
 * - memory that is lent as writable overlaps no other memory of the same call.
 * Nothing is kept between calls: any number of threads may call at once, each over memory of its own. Of the C library only memcpy and
 * memset are needed. hurdlesong_call takes some 151 KB of stack, the others less than 1 KB.
 *
 * docs/FORMAT.md has the blocks, the text, and each refusal with its cause and its remedy.
 */
#ifndef HURDLESONG_H
#define HURDLESONG_H

#include <stddef.h>
#include <stdint.h>

#ifdef __cplusplus
extern "C" {
#endif

/* The least that is to be lent. Longer memory is welcome and is cleared to its end too. */
#define HURDLESONG_RESULT_BYTES 57680
#define HURDLESONG_STATE_BYTES 8192
#define HURDLESONG_DISTANCES 16384
#define HURDLESONG_LINKS 8128
#define HURDLESONG_TEXT_BYTES 172718

/* The largest job block, and a row's most states. */
#define HURDLESONG_JOB_BYTES 16524
#define HURDLESONG_WIDTH 64

/* The numbers of an answer. The refusals 1 to 10 are those of a call, in the order in which they are tried; 80 and 81 those of a text, 80
 * first. HURDLESONG_WIDTHS is WIDTH of the rules, RULES 4.3. */
enum {
    HURDLESONG_DONE = 0,
    HURDLESONG_AREA = 1,
    HURDLESONG_HEAD = 2,
    HURDLESONG_ROWS = 3,
    HURDLESONG_WIDTHS = 4,
    HURDLESONG_LAYOUT = 5,
    HURDLESONG_WEIGHT = 6,
    HURDLESONG_STATE = 7,
    HURDLESONG_TYPES = 8,
    HURDLESONG_ROOM = 9,
    HURDLESONG_SPLIT = 10,
    HURDLESONG_TEXT_ROOM = 80,
    HURDLESONG_TEXT_BLOCK = 81
};

/* What is told of an answer: its number, its place, and the bytes used, 0 for a refusal. */
struct hurdlesong_told {
    size_t number;
    size_t place;
    size_t used;
};

/* A record of the link table. */
struct hurdlesong_link {
    uint16_t low;
    uint16_t high;
    uint16_t length;
};

/* Where the states of a type lie: source is one of the three below; so many bytes from byte `at` on. */
struct hurdlesong_place {
    size_t source;
    size_t at;
    size_t length;
};

enum { HURDLESONG_NOWHERE = 0, HURDLESONG_IN_JOB = 1, HURDLESONG_IN_RESULT = 2 };

/* Answers a job. Number 0: the result holds the network's block in its first `used` bytes and zeros behind them. Any other number is a
 * refusal: the result is zero throughout. Either way states, distances and links are zero to their ends, and what lay in any of the memory
 * before makes no difference. The job is only read. */
struct hurdlesong_told hurdlesong_call(const uint8_t *job, size_t job_length,
                                       uint8_t *result, size_t result_length,
                                       uint8_t *states, size_t states_length,
                                       uint16_t *distances, size_t distances_length,
                                       struct hurdlesong_link *links, size_t links_length);

/* The row lookup: where the states of the type with this number lie, in the job for a sampled type, in the result block for an inferred
 * one. Nowhere, at 0, of length 0, where the job fails checks 2 to 7, the block's header is not one of the job's width, or the type is not
 * there. The block may be the whole result, or end before its links. */
struct hurdlesong_place hurdlesong_states(const uint8_t *job, size_t job_length,
                                          const uint8_t *block, size_t block_length,
                                          size_t number);

/* The printed text of an answer, by the number and the place that were told of it: for number 0 the network in job and result block, for
 * any other number the line of a refusal with this number and place. Number 0: `used` bytes of text, and zeros behind them. 80: less than
 * HURDLESONG_TEXT_BYTES are lent; 81: a network is to be printed, and job and block do not fit (docs/FORMAT.md says what is looked at); both
 * leave zeros throughout. The block may be the whole result. The text of what a call has left holds no zero byte: where at least one byte more
 * is lent than HURDLESONG_TEXT_BYTES, it is a C string. */
struct hurdlesong_told hurdlesong_text(const uint8_t *job, size_t job_length,
                                       const uint8_t *block, size_t block_length,
                                       size_t number, size_t place,
                                       uint8_t *out, size_t out_length);

#ifdef __cplusplus
}
#endif

#endif
