/* Reads a job from standard input and prints its offers, or why it is refused: `requests N`, then for each offer the
 * request, family, place, b or -, skew, and tag=bits for each setting.
 *
 *     cc offers.c $(pkg-config --cflags --libs stemhook) -o offers && ./offers [READING] <JOB
 *
 * READING is 0, as where it is left out, for the slant numbers of fonts as they are stored; or 1, for their sense in
 * OpenType. Any other word is no reading, nor are several.
 */
#include <inttypes.h>
#include <stdio.h>
#include <stdlib.h>
#include <string.h>

#include "stemhook.h"

static unsigned half_at(const uint8_t *bytes)
{
    return (unsigned)bytes[0] << 8 | bytes[1];
}

static void print_offer(unsigned request, const uint8_t *out)
{
    const uint8_t *slot = out + STEMHOOK_AT_SETTINGS;
    unsigned i;

    printf("%u %u %u %c %d", request, half_at(out + STEMHOOK_AT_FAMILY), half_at(out + STEMHOOK_AT_PLACE),
           out[STEMHOOK_AT_EMBOLDEN] ? 'b' : '-', (int8_t)out[STEMHOOK_AT_SKEW]);
    for (i = 0; i < out[STEMHOOK_AT_SETTING_COUNT]; i++, slot += 8)
        printf(" %.4s=%02x%02x%02x%02x", (const char *)slot, slot[4], slot[5], slot[6], slot[7]);
    printf("\n");
}

/* The number of requests: the first that the offer call does not find. */
static unsigned request_count(const uint8_t *job, size_t length, uint32_t reading)
{
    uint8_t out[STEMHOOK_OFFER_BYTES];
    unsigned count = 0;

    while (stemhook_offer(job, length, reading, count, UINT32_MAX, out, sizeof out) == STEMHOOK_PAST_LIST)
        count++;
    return count;
}

static void print_job(const uint8_t *job, size_t length, uint32_t reading)
{
    uint64_t checked = stemhook_check(job, length);
    uint8_t out[STEMHOOK_OFFER_BYTES];
    unsigned requests, request;
    uint32_t offer;

    if (reading != STEMHOOK_READING_AS_STORED && reading != STEMHOOK_READING_OPENTYPE) {
        /* The check call takes no reading. The offer call refuses it before anything of the job but its length. */
        printf("refused %" PRIu32 " 0\n", stemhook_offer(job, length, reading, 0, 0, out, sizeof out));
        return;
    }
    if (checked != 0) {
        printf("refused %" PRIu32 " %" PRIu32 "\n", STEMHOOK_REFUSAL(checked), STEMHOOK_POSITION(checked));
        return;
    }
    requests = request_count(job, length, reading);
    printf("requests %u\n", requests);
    for (request = 0; request < requests; request++) {
        offer = 0;
        while (stemhook_offer(job, length, reading, request, offer, out, sizeof out) == STEMHOOK_OFFERED) {
            print_offer(request, out);
            offer++;
        }
    }
}

/* The reading that the words after the program's name say. */
static uint32_t reading_of(int count, char **words)
{
    if (count == 0 || (count == 1 && strcmp(words[0], "0") == 0))
        return STEMHOOK_READING_AS_STORED;
    if (count == 1 && strcmp(words[0], "1") == 0)
        return STEMHOOK_READING_OPENTYPE;
    return UINT32_MAX;
}

int main(int count, char **arguments)
{
    /* One byte more than a job may have, so that a longer one is refused. */
    size_t space = (size_t)STEMHOOK_JOB_BYTES + 1;
    uint8_t *job = (uint8_t *)malloc(space);
    size_t length;

    if (job == NULL) {
        fprintf(stderr, "offers: out of memory\n");
        return 1;
    }
    length = fread(job, 1, space, stdin);
    if (ferror(stdin)) {
        perror("offers: standard input");
        free(job);
        return 1;
    }
    print_job(job, length, reading_of(count - 1, arguments + 1));
    free(job);
    if (fflush(stdout) != 0 || ferror(stdout)) {
        perror("offers: standard output");
        return 1;
    }
    return 0;
}
