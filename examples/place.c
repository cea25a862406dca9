/* Places a block and checks the answer.
 *
 *     (cd crates/capi && rt lib) && mkdir -p target
 *     cc -O2 examples/place.c -Iinclude crates/capi/out/libcapi.a -o target/place
 *     target/place blocks/question.block
 *
 * It prints each word's time, what the plan's gap is, and what places_check makes of the same plan and prices. A refused block prints 'refused' and
 * the number. The status is 0 where there is a plan whose check gives the same gap. */
#include <places.h>

#include <inttypes.h>
#include <stdio.h>
#include <stdlib.h>

/* The most of each that a block may have. */
enum { WORDS = 32, LISTS = 8 + 16, PRICES = LISTS + 1 };

/* The longest answer: each field has a header of 3 bytes. */
enum { ANSWER = 3 + 4 * WORDS + 3 + 8 * PRICES + 3 + 8 + 3 + 2 };

/* The tags of the answer's fields, in this order. */
enum { TIMES = 17, PRICES_TAG = 18, GAP = 19, PASSES = 20 };

struct plan {
    int32_t times[WORDS];
    size_t words;
    int64_t prices[PRICES];
    size_t lists; /* prices, the cap's included */
    int64_t gap;
    unsigned passes;
};

/* The number of so many bytes, low byte first. */
static uint64_t number(const uint8_t *bytes, size_t count)
{
    uint64_t value = 0;
    while (count-- > 0) {
        value = value << 8 | bytes[count];
    }
    return value;
}

/* The body of the field at *at, which must have this tag, with its length; *at moves past it. A null pointer where there is no such field. */
static const uint8_t *field(const uint8_t **at, const uint8_t *end, int tag, size_t *length)
{
    const uint8_t *header = *at;
    if (end - header < 3 || header[0] != tag) {
        return NULL;
    }
    *length = (size_t)number(header + 1, 2);
    if ((size_t)(end - header) - 3 < *length) {
        return NULL;
    }
    *at = header + 3 + *length;
    return header + 3;
}

/* Reads an answer file; 0 where it is none. */
static int read_answer(const uint8_t *answer, size_t length, struct plan *plan)
{
    const uint8_t *at = answer, *end = answer + length, *body;
    size_t bytes;
    if (!(body = field(&at, end, TIMES, &bytes)) || bytes % 4 != 0 || bytes / 4 > WORDS) {
        return 0;
    }
    plan->words = bytes / 4;
    for (size_t i = 0; i < plan->words; i++) {
        plan->times[i] = (int32_t)(uint32_t)number(body + 4 * i, 4);
    }
    if (!(body = field(&at, end, PRICES_TAG, &bytes)) || bytes % 8 != 0 || bytes / 8 > PRICES) {
        return 0;
    }
    plan->lists = bytes / 8;
    for (size_t i = 0; i < plan->lists; i++) {
        plan->prices[i] = (int64_t)number(body + 8 * i, 8);
    }
    if (!(body = field(&at, end, GAP, &bytes)) || bytes != 8) {
        return 0;
    }
    plan->gap = (int64_t)number(body, 8);
    if (!(body = field(&at, end, PASSES, &bytes)) || bytes != 2) {
        return 0;
    }
    plan->passes = (unsigned)number(body, 2);
    return at == end;
}

/* The bytes of a whole file, to be freed, or a null pointer. */
static uint8_t *read_file(const char *name, size_t *length)
{
    FILE *file = fopen(name, "rb");
    if (!file) {
        return NULL;
    }
    size_t room = 4096;
    uint8_t *bytes = malloc(room);
    *length = 0;
    while (bytes) {
        *length += fread(bytes + *length, 1, room - *length, file);
        if (*length < room) {
            break;
        }
        uint8_t *more = realloc(bytes, room *= 2);
        if (!more) {
            free(bytes);
        }
        bytes = more;
    }
    if (ferror(file)) {
        free(bytes);
        bytes = NULL;
    }
    fclose(file);
    return bytes;
}

/* Prints the plan and its check; 1 where they agree. */
static int report(const uint8_t *block, size_t length, const struct plan *plan)
{
    for (size_t i = 0; i < plan->words; i++) {
        printf("word %zu: sample %" PRId32 ", %.3f seconds\n", i, plan->times[i], plan->times[i] / 16000.0);
    }
    printf("gap %" PRId64 ", rounds %u\n", plan->gap, plan->passes);

    int64_t gap = 0;
    uint32_t refusal = places_check(block, length, plan->times, plan->words, plan->prices, plan->lists, &gap);
    if (refusal != 0) {
        printf("check: refused %" PRIu32 "\n", refusal);
        return 0;
    }
    printf("check: gap %" PRId64 "\n", gap);
    return gap == plan->gap;
}

int main(int count, char **arguments)
{
    if (count != 2) {
        fprintf(stderr, "usage: place BLOCK\n");
        return 2;
    }
    size_t length;
    uint8_t *block = read_file(arguments[1], &length);
    if (!block) {
        perror(arguments[1]);
        return 2;
    }
    uint8_t answer[ANSWER];
    uint64_t written = 0;
    int good = 0;
    uint32_t refusal = places_place(block, length, answer, sizeof answer, &written);
    struct plan plan;
    if (refusal != 0) {
        printf("refused %" PRIu32 "\n", refusal);
    } else if (read_answer(answer, (size_t)written, &plan)) {
        good = report(block, length, &plan);
    }
    free(block);
    return good ? 0 : 1;
}
