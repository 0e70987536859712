/* Checks that are counted, jobs built from rows, and lent memory with leftovers in it and guard bytes around it, for the test program of the
 * C interface. */
#include "lent.h"

#include <stdio.h>
#include <stdlib.h>
#include <string.h>

enum { GUARD = 64, GUARD_BYTE = 0xa5 };

static unsigned long checks;
static unsigned long failed;

const struct counts LEAST = {{HURDLESONG_RESULT_BYTES, HURDLESONG_STATE_BYTES, HURDLESONG_DISTANCES, HURDLESONG_LINKS}};
const struct counts MORE = {{HURDLESONG_RESULT_BYTES + 1, HURDLESONG_STATE_BYTES + 77, HURDLESONG_DISTANCES + 3, HURDLESONG_LINKS + 129}};

static const char *const AREA_NAMES[AREAS] = {"result", "states", "distances", "links"};
static const size_t ELEMENT_BYTES[AREAS] = {1, 1, sizeof(uint16_t), sizeof(struct hurdlesong_link)};

void check_number(struct where at, const char *what, size_t wanted, size_t got)
{
    checks++;
    if (wanted != got) {
        failed++;
        printf("%s:%d: %s: %s: wanted %zu, got %zu\n", at.file, at.line, at.name, what, wanted, got);
    }
}

/* One check over all the bytes: the first that differs is told. Without wanted bytes, zeros are wanted. */
static void compare(struct where at, const char *what, const uint8_t *wanted, const uint8_t *got, size_t length)
{
    checks++;
    for (size_t i = 0; i < length; i++) {
        unsigned byte = wanted == NULL ? 0 : wanted[i];
        if (got[i] != byte) {
            failed++;
            printf("%s:%d: %s: %s: byte %zu of %zu: wanted 0x%02x, got 0x%02x\n", at.file, at.line, at.name, what, i, length, byte, got[i]);
            return;
        }
    }
}

void check_bytes(struct where at, const char *what, const void *wanted, const void *got, size_t length)
{
    compare(at, what, wanted, got, length);
}

void check_zero(struct where at, const char *what, const void *got, size_t length)
{
    compare(at, what, NULL, got, length);
}

int checks_end(void)
{
    printf("%lu checks, %lu failed\n", checks, failed);
    return failed != 0 || checks == 0;
}

void put(uint8_t *block, size_t at, size_t number)
{
    block[at] = (uint8_t)(number % 256);
    block[at + 1] = (uint8_t)(number / 256);
}

struct job job_of(size_t rows, size_t width, const char *states, const uint16_t *weights, size_t epsilon)
{
    struct job job = {.length = 12 + 2 * width + rows * width};
    if (job.length > sizeof job.bytes) {
        abort();
    }
    const size_t header[6] = {rows, width, epsilon, 12, 12 + 2 * width, job.length};
    for (size_t i = 0; i < 6; i++) {
        put(job.bytes, 2 * i, header[i]);
    }
    for (size_t i = 0; i < width; i++) {
        put(job.bytes, 12 + 2 * i, weights == NULL ? 1 : weights[i]);
    }
    memcpy(job.bytes + 12 + 2 * width, states, rows * width);
    return job;
}

struct area lend(size_t length, int filling)
{
    uint8_t *memory = malloc(length + 2 * GUARD);
    if (memory == NULL) {
        abort();
    }
    memset(memory, GUARD_BYTE, length + 2 * GUARD);
    struct area area = {memory + GUARD, length};
    for (size_t i = 0; i < length; i++) {
        area.bytes[i] = (uint8_t)(filling == 0 ? 0xff : i * 89 + 7);
    }
    return area;
}

void give_back(struct where at, const char *what, struct area area)
{
    uint8_t guard[GUARD];
    char name[64];
    memset(guard, GUARD_BYTE, GUARD);
    snprintf(name, sizeof name, "guard before %s", what);
    check_bytes(at, name, guard, area.bytes - GUARD, GUARD);
    snprintf(name, sizeof name, "guard behind %s", what);
    check_bytes(at, name, guard, area.bytes + area.length, GUARD);
    free(area.bytes - GUARD);
}

static struct hurdlesong_told call(const struct job *job, const struct area lent[AREAS], struct counts counts)
{
    return hurdlesong_call(job->bytes, job->length, lent[RESULT].bytes, counts.of[RESULT], lent[STATES].bytes, counts.of[STATES],
                           (void *)lent[DISTANCES].bytes, counts.of[DISTANCES], (void *)lent[LINKS].bytes, counts.of[LINKS]);
}

/* Looks at one answer and at all that was lent for it, to the last byte. */
static void check_answer(struct where at, struct hurdlesong_told told, const struct area lent[AREAS], const struct wanted *wanted)
{
    check_number(at, "number", wanted->number, told.number);
    check_number(at, "place", wanted->place, told.place);
    check_number(at, "used", wanted->used, told.used);
    check_bytes(at, "block", wanted->block, lent[RESULT].bytes, wanted->used);
    check_zero(at, "result behind the block", lent[RESULT].bytes + wanted->used, lent[RESULT].length - wanted->used);
    for (size_t i = STATES; i < AREAS; i++) {
        check_zero(at, AREA_NAMES[i], lent[i].bytes, lent[i].length);
    }
}

void check_call(struct where at, const struct job *job, struct counts counts, const struct wanted *wanted)
{
    struct area lent[FILLINGS][AREAS];
    for (int filling = 0; filling < FILLINGS; filling++) {
        const struct job before = *job;
        for (size_t i = 0; i < AREAS; i++) {
            lent[filling][i] = lend(counts.of[i] * ELEMENT_BYTES[i], filling);
        }
        struct hurdlesong_told told = call(job, lent[filling], counts);
        check_answer(at, told, lent[filling], wanted);
        check_text(at, job, (struct area){lent[filling][RESULT].bytes, wanted->used}, told, HURDLESONG_TEXT_BYTES, HURDLESONG_DONE, wanted->text);
        check_bytes(at, "job", before.bytes, job->bytes, sizeof before.bytes);
    }
    for (size_t i = 0; i < AREAS; i++) {
        check_bytes(at, "the same for both fillings", lent[0][i].bytes, lent[1][i].bytes, lent[0][i].length);
        give_back(at, AREA_NAMES[i], lent[0][i]);
        give_back(at, AREA_NAMES[i], lent[1][i]);
    }
}

void check_text(struct where at, const struct job *job, struct area block, struct hurdlesong_told answer, size_t length, size_t refusal,
                const char *text)
{
    size_t used = text == NULL ? 0 : strlen(text);
    for (int filling = 0; filling < FILLINGS; filling++) {
        struct area out = lend(length, filling);
        struct hurdlesong_told told =
            hurdlesong_text(job->bytes, job->length, block.bytes, block.length, answer.number, answer.place, out.bytes, out.length);
        check_number(at, "number of the text", refusal, told.number);
        check_number(at, "place of the text", 0, told.place);
        check_number(at, "used of the text", used, told.used);
        check_bytes(at, "text", text, out.bytes, used);
        check_zero(at, "memory behind the text", out.bytes + used, length - used);
        give_back(at, "text", out);
    }
}
