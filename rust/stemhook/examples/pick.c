/* Builds a job from font files, one family of them and a request for a weight, and prints the faces that are offered,
 * best first: file, embolden, skew, the offset of the cmap subtable in the file, and the axis settings.
 *
 *     cc pick.c $(pkg-config --cflags --libs stemhook) -o pick && ./pick 700 FILE...
 *     ./pick --reading opentype --oblique 12 700 FILE...
 *
 * --oblique DEGREES asks for an oblique that leans right by so many degrees, or left below zero; else the style is
 * normal. --reading says which way the slant numbers of the fonts count: stored, as where it is left out, or opentype.
 *
 * All fonts of a collection (.ttc) are faces of the family, and are called FILE#N, by their numbers from 0. FILE#N as an
 * argument takes one of them, unless there is a file of that very name.
 *
 * Ends with 0; with 1 where a file cannot be read or is refused; with 2 where the arguments are wrong.
 */
#include <errno.h>
#include <inttypes.h>
#include <math.h>
#include <stdio.h>
#include <stdlib.h>
#include <string.h>

#include "stemhook.h"

/* ---- bytes that grow, to write a job into */

enum failure { NO_FAILURE, NO_MEMORY, TOO_LONG };

/* Starts all zero and ends with free(bytes). After a failure nothing more is put: one test at the end is enough. */
struct buffer {
    uint8_t *bytes;
    size_t length;
    size_t room;
    enum failure failure;
};

static void put(struct buffer *buffer, const void *bytes, size_t count)
{
    if (buffer->failure != NO_FAILURE || count == 0)
        return;
    if (count > STEMHOOK_JOB_BYTES - buffer->length) {
        buffer->failure = TOO_LONG;
        return;
    }
    if (count > buffer->room - buffer->length) {
        size_t room = 2 * (buffer->length + count);
        uint8_t *grown = (uint8_t *)realloc(buffer->bytes, room);

        if (grown == NULL) {
            buffer->failure = NO_MEMORY;
            return;
        }
        buffer->bytes = grown;
        buffer->room = room;
    }
    memcpy(buffer->bytes + buffer->length, bytes, count);
    buffer->length += count;
}

static void put_byte(struct buffer *buffer, unsigned value)
{
    uint8_t byte = (uint8_t)(value & 0xff);

    put(buffer, &byte, 1);
}

static void put_half(struct buffer *buffer, unsigned value)
{
    put_byte(buffer, value >> 8);
    put_byte(buffer, value);
}

static void put_word(struct buffer *buffer, uint32_t value)
{
    put_half(buffer, value >> 16);
    put_half(buffer, value);
}

static void put_single(struct buffer *buffer, float value)
{
    uint32_t bits;

    memcpy(&bits, &value, sizeof bits);
    put_word(buffer, bits);
}

/* Puts what is left of a stream; 0 where it cannot be read, with errno set. */
static int put_stream(struct buffer *buffer, FILE *stream)
{
    uint8_t block[65536];
    size_t count;

    do {
        count = fread(block, 1, sizeof block, stream);
        put(buffer, block, count);
    } while (count == sizeof block && buffer->failure == NO_FAILURE);
    return !ferror(stream);
}

/* ---- the big-endian fields of a job or an offer */

static unsigned half_at(const uint8_t *bytes)
{
    return (unsigned)bytes[0] << 8 | bytes[1];
}

static uint32_t word_at(const uint8_t *bytes)
{
    return (uint32_t)half_at(bytes) << 16 | half_at(bytes + 2);
}

static float single_at(const uint8_t *bytes)
{
    uint32_t bits = word_at(bytes);
    float value;

    memcpy(&value, &bits, sizeof value);
    return value;
}

/* ---- the job */

/* A face: its file, as far as that is named by the first bytes of an argument, and the font's number in it. */
struct face {
    const char *name;
    int name_length;
    int collection;
    unsigned number;
    /* Where its entry in the job begins and ends. */
    size_t start, end;
};

struct faces {
    unsigned count;
    struct face list[STEMHOOK_FAMILY_FACES];
};

/* Why nothing more could be put; `name` is the file that was being read, or NULL. */
static void tell_failure(enum failure failure, const char *name)
{
    fprintf(stderr, "pick: %s%s", name ? name : "", name ? ": " : "");
    if (failure == TOO_LONG)
        fprintf(stderr, "the job would be over %d bytes long (STEMHOOK_JOB_BYTES)\n", STEMHOOK_JOB_BYTES);
    else
        fprintf(stderr, "out of memory\n");
}

/* The name of a face; of a font of a collection, with its number. */
static void print_name(FILE *stream, const struct face *face)
{
    fprintf(stream, "%.*s", face->name_length, face->name);
    if (face->collection)
        fprintf(stream, "#%u", face->number);
}

/* Parts FILE#N; 0 where the name does not end so, or the number has over 16 bits. */
static int part_number(const char *name, int *name_length, unsigned *number)
{
    const char *mark = strrchr(name, '#'), *digit;

    if (mark == NULL || mark == name || mark[1] == '\0')
        return 0;
    *number = 0;
    for (digit = mark + 1; *digit != '\0'; digit++) {
        if (*digit < '0' || *digit > '9')
            return 0;
        *number = 10 * *number + (unsigned)(*digit - '0');
        if (*number > UINT16_MAX)
            return 0;
    }
    *name_length = (int)(mark - name);
    return 1;
}

/* Opens FILE, or FILE of FILE#N: `numbered` says which it was. NULL where it cannot be opened, with errno set. */
static FILE *open_file(const char *name, struct face *face, int *numbered)
{
    FILE *stream = fopen(name, "rb");
    char *start;
    int error;

    face->name = name;
    face->name_length = (int)strlen(name);
    face->number = 0;
    *numbered = stream == NULL && part_number(name, &face->name_length, &face->number);
    if (!*numbered)
        return stream;
    start = (char *)malloc((size_t)face->name_length + 1);
    if (start == NULL)
        return NULL;
    memcpy(start, name, (size_t)face->name_length);
    start[face->name_length] = '\0';
    stream = fopen(start, "rb");
    error = errno;
    free(start);
    errno = error;
    return stream;
}

/* Puts a face, which is held, and notes it. */
static void put_face(struct buffer *job, struct faces *faces, struct face face, const struct buffer *file)
{
    face.start = job->length;
    put_byte(job, 1);
    put_word(job, (uint32_t)file->length);
    put(job, file->bytes, file->length);
    if (face.collection)
        put_half(job, face.number);
    face.end = job->length;
    faces->list[faces->count++] = face;
}

/* How many fonts a collection has; one where it has none, or not all its offsets, for the picker to refuse. */
static uint32_t count_fonts(const struct buffer *file)
{
    uint32_t fonts = file->length < 12 ? 0 : word_at(file->bytes + 8);

    return fonts == 0 || fonts > (file->length - 12) / 4 ? 1 : fonts;
}

/* Puts the fonts of a file that was read: all, or the one of a number; 0 where they cannot be, which is told. */
static int put_fonts(struct buffer *job, struct faces *faces, struct face face, int numbered, const struct buffer *file)
{
    uint32_t fonts;

    face.collection = file->length >= 4 && memcmp(file->bytes, "ttcf", 4) == 0;
    fonts = face.collection && !numbered ? count_fonts(file) : 1;
    /* The picker refuses fewer than 12 bytes, whatever the number. */
    if (numbered && !face.collection && face.number != 0 && file->length >= 12) {
        /* A lone font is a collection of one, and a job has no number for it. */
        fprintf(stderr, "pick: %s: refused %d: %s\n", face.name, STEMHOOK_REFUSED_NO_SUCH_FONT,
                stemhook_meaning(STEMHOOK_REFUSED_NO_SUCH_FONT));
        return 0;
    }
    if (fonts > STEMHOOK_FAMILY_FACES - faces->count) {
        fprintf(stderr, "pick: %s: with its fonts (%" PRIu32 ") the family has more than %d faces\n", face.name, fonts,
                STEMHOOK_FAMILY_FACES);
        return 0;
    }
    for (; fonts > 0; fonts--, face.number++)
        put_face(job, faces, face, file);
    return 1;
}

/* Puts the faces of an argument; 0 where it fails, which is told. */
static int put_argument(struct buffer *job, struct faces *faces, const char *name)
{
    struct buffer file = {NULL, 0, 0, NO_FAILURE};
    struct face face = {NULL, 0, 0, 0, 0, 0};
    int numbered, done = 0;
    FILE *stream = open_file(name, &face, &numbered);

    if (stream == NULL || !put_stream(&file, stream))
        fprintf(stderr, "pick: %s: %s\n", name, strerror(errno));
    else if (file.failure != NO_FAILURE)
        tell_failure(file.failure, name);
    else
        done = put_fonts(job, faces, face, numbered, &file);
    if (done && job->failure != NO_FAILURE) {
        tell_failure(job->failure, name);
        done = 0;
    }
    if (stream != NULL)
        fclose(stream);
    free(file.bytes);
    return done;
}

/* Faces, all held, and no overrides. */
static int put_faces(struct buffer *job, struct faces *faces, char **names, unsigned count)
{
    unsigned i;

    put_half(job, 0);
    for (i = 0; i < count; i++)
        if (!put_argument(job, faces, names[i]))
            return 0;
    /* Their count is known now. */
    job->bytes[0] = (uint8_t)(faces->count >> 8);
    job->bytes[1] = (uint8_t)faces->count;
    put_half(job, 0);
    return 1;
}

/* One family of all faces, in their order. */
static void put_family(struct buffer *job, unsigned faces)
{
    unsigned face;

    put_half(job, 1);
    put_half(job, faces);
    for (face = 0; face < faces; face++)
        put_half(job, face);
}

/* What is asked for. */
struct asked {
    float weight;
    /* Whether the style is oblique, and its angle; zero where it is not. */
    int oblique;
    float degrees;
    /* No part of the job: it is given with the offer call. */
    uint32_t reading;
};

/* One request: of width 1, for the family 0, without fallbacks. */
static void put_request(struct buffer *job, unsigned most, const struct asked *asked)
{
    put_half(job, 1);
    put_half(job, most);
    put_single(job, 1.0f);
    put_byte(job, asked->oblique ? 3 : 0);
    put_single(job, asked->degrees);
    put_single(job, asked->weight);
    put_byte(job, 1);
    put_half(job, 0);
    put_byte(job, 0);
}

/* Writes the whole job; 0 where it fails, which is told. */
static int put_job(struct buffer *job, struct faces *faces, char **names, unsigned count, const struct asked *asked)
{
    if (!put_faces(job, faces, names, count))
        return 0;
    put_family(job, faces->count);
    put_request(job, UINT16_MAX, asked);
    if (job->failure != NO_FAILURE) {
        tell_failure(job->failure, NULL);
        return 0;
    }
    return 1;
}

/* ---- the answers */

/* Tells a refusal of the check call, with the face's name where it is of its entry. */
static void tell_refusal(const struct faces *faces, uint64_t answer)
{
    uint32_t refusal = STEMHOOK_REFUSAL(answer), position = STEMHOOK_POSITION(answer);
    unsigned i = 0;

    while (i < faces->count && (position < faces->list[i].start || position >= faces->list[i].end))
        i++;
    fprintf(stderr, "pick: ");
    if (i < faces->count)
        print_name(stderr, &faces->list[i]);
    else
        fprintf(stderr, "at byte %" PRIu32, position);
    fprintf(stderr, ": refused %" PRIu32 ": %s\n", refusal, stemhook_meaning(refusal));
}

static void print_offer(const struct faces *faces, const uint8_t *out)
{
    const uint8_t *slot = out + STEMHOOK_AT_SETTINGS;
    unsigned i;

    /* The family lists the faces in their order: a place is a face's number. */
    print_name(stdout, &faces->list[half_at(out + STEMHOOK_AT_PLACE)]);
    printf(": embolden %d, skew %d, cmap %" PRIu32, out[STEMHOOK_AT_EMBOLDEN], (int8_t)out[STEMHOOK_AT_SKEW],
           word_at(out + STEMHOOK_AT_CHARMAP_OFFSET));
    for (i = 0; i < out[STEMHOOK_AT_SETTING_COUNT]; i++, slot += 8)
        printf(", %.4s=%.9g", (const char *)slot, (double)single_at(slot + 4));
    printf("\n");
}

/* Prints the offers of the request 0; 0 where the job is refused, which is told. */
static int print_offers(const struct buffer *job, const struct faces *faces, uint32_t reading)
{
    uint64_t checked = stemhook_check(job->bytes, job->length);
    uint8_t out[STEMHOOK_OFFER_BYTES];
    uint32_t number, answer;

    if (checked != 0) {
        tell_refusal(faces, checked);
        return 0;
    }
    for (number = 0;; number++) {
        answer = stemhook_offer(job->bytes, job->length, reading, 0, number, out, sizeof out);
        if (answer != STEMHOOK_OFFERED)
            break;
        print_offer(faces, out);
    }
    /* What the check call accepts is not refused here: this would be a wrong reading, request or output length. */
    if (answer != STEMHOOK_PAST_LIST)
        fprintf(stderr, "pick: refused %" PRIu32 ": %s\n", answer, stemhook_meaning(answer));
    return answer == STEMHOOK_PAST_LIST;
}

/* ---- the program */

/* Reads a finite number; 0 where the text is none, which is told with the name of what it is for. */
static int read_number(const char *name, const char *text, float *number)
{
    char *end;

    *number = strtof(text, &end);
    if (end != text && *end == '\0' && isfinite(*number))
        return 1;
    fprintf(stderr, "pick: %s: \"%s\" is no finite number\n", name, text);
    return 0;
}

static int is_option(const char *word)
{
    return strcmp(word, "--reading") == 0 || strcmp(word, "--oblique") == 0;
}

/* Reads an option's value; 0 where it is wrong, which is told. */
static int read_option(const char *name, const char *value, struct asked *asked)
{
    if (strcmp(name, "--oblique") == 0) {
        asked->oblique = 1;
        return read_number(name, value, &asked->degrees);
    }
    if (strcmp(value, "stored") == 0) {
        asked->reading = STEMHOOK_READING_AS_STORED;
    } else if (strcmp(value, "opentype") == 0) {
        asked->reading = STEMHOOK_READING_OPENTYPE;
    } else {
        fprintf(stderr, "pick: --reading: \"%s\" is not stored or opentype\n", value);
        return 0;
    }
    return 1;
}

/* Reads the options and the weight, and looks at how many files follow. Answers where those begin, or 0 where the words
 * are wrong, which is told.
 */
static int read_arguments(int count, char **arguments, struct asked *asked)
{
    int at = 1;

    for (; at + 1 < count && is_option(arguments[at]); at += 2)
        if (!read_option(arguments[at], arguments[at + 1], asked))
            return 0;
    if (count - at < 2) {
        fprintf(stderr, "usage: pick [--reading stored|opentype] [--oblique DEGREES] WEIGHT FILE...\n");
        return 0;
    }
    if (!read_number("WEIGHT", arguments[at], &asked->weight))
        return 0;
    at++;
    if (count - at > STEMHOOK_FAMILY_FACES) {
        fprintf(stderr, "pick: FILE: %d are given, and a family has at most %d\n", count - at, STEMHOOK_FAMILY_FACES);
        return 0;
    }
    return at;
}

int main(int count, char **arguments)
{
    struct buffer job = {NULL, 0, 0, NO_FAILURE};
    struct asked asked = {0.0f, 0, 0.0f, STEMHOOK_READING_AS_STORED};
    struct faces faces;
    int files = read_arguments(count, arguments, &asked), done;

    if (files == 0)
        return 2;
    faces.count = 0;
    done = put_job(&job, &faces, arguments + files, (unsigned)(count - files), &asked) &&
           print_offers(&job, &faces, asked.reading);
    free(job.bytes);
    if (fflush(stdout) != 0 || ferror(stdout)) {
        perror("pick: standard output");
        return 1;
    }
    return done ? 0 : 1;
}
