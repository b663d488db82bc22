/* The calls of the proved font face picker Stemhook, for C and C++.
 *
 * Link libstemhook.a: -lstemhook, or the flags of `pkg-config --cflags --libs stemhook`. It is for x86-64 Linux. The
 * library keeps nothing between calls and allocates nothing: calls may run at the same time in several threads. An
 * offer call takes less than 8 KiB of stack, as measured, whatever the job.
 *
 * A job is big-endian bytes: faces, overrides, families and requests, each section after a 16-bit count.
 *
 *   face      held byte: 1, or 0 for a face that takes part in the choice but is not offered; 32-bit length; font file;
 *             and, only behind a file that starts with `ttcf`, a collection: 16-bit number of the font in it
 *   override  16-bit face; mask byte (1 width, 2 style, 4 weight); ratio; style; weight; pair count byte; pairs of tag
 *             and value. It replaces what the font says of itself: the masked fields, and the defaults of the axes of
 *             those tags. Fields that are not in the mask are zero. Overrides apply in their order.
 *   family    16-bit face count; 16-bit face numbers. A face's place is where it stands here.
 *   request   16-bit most offers, after which the list is cut; ratio; style; weight; families; fallbacks: each a count
 *             byte and 16-bit numbers. A number that no family has is passed over.
 *
 * A ratio is a width, from 0 to 16, 1 for normal. A style is a kind byte (0 normal, 1 italic, 2 oblique unstated, 3
 * oblique with an angle) and an angle in degrees, above zero for a lean to the right, zero unless the kind is 3. Ratio,
 * angle, weight and value are the 32 bits of a single (IEEE 754 binary32), which is finite. Everything counts from 0.
 */
#ifndef STEMHOOK_H
#define STEMHOOK_H

#include <stddef.h>
#include <stdint.h>

#ifdef __cplusplus
extern "C" {
#endif

/* Limits of a job. */
#define STEMHOOK_JOB_BYTES 16777216
#define STEMHOOK_FACES 256
#define STEMHOOK_OVERRIDES 256
#define STEMHOOK_FAMILIES 64
#define STEMHOOK_FAMILY_FACES 64
#define STEMHOOK_REQUESTS 256

/* The readings: which way the slant numbers of fonts count.
 *
 * A stem like / leans right, as italics do in Latin script. A font counts that below zero, in its post table and on its
 * axis slnt; a request, an override and the skew count it above zero. STEMHOOK_READING_OPENTYPE turns a font's number
 * where it meets a request's: the post angle when the font is read, the value of slnt when it is set. So a request for
 * oblique 12 gets the face that leans right, and sets slnt to -12. STEMHOOK_READING_AS_STORED copies the numbers: the
 * same face then ranks as one that leans left, and slnt is set to 12.
 *
 * Take STEMHOOK_READING_OPENTYPE for new work, and STEMHOOK_READING_AS_STORED for what has to come out as before, for a
 * comparison with fontique, or where overrides set the angles of the fonts and the program turns slnt itself. The
 * angles of requests and overrides, the numbers of axes and the skew are the same under both.
 */
#define STEMHOOK_READING_AS_STORED 0
#define STEMHOOK_READING_OPENTYPE 1

/* Answers of stemhook_offer that are no refusal. */
#define STEMHOOK_OFFERED 0   /* the 40 bytes are written */
#define STEMHOOK_PAST_LIST 1 /* the request has no offer of that number */

/* Refusals. The first that is met counts: 16 and 17, then 25 for an unknown reading, then what is met in the job, from
 * left to right, then 28. For one field they come in this order, save that 31 comes between 21 and 22. Of a collection,
 * the lack of its 12 header bytes (21) comes first, then its font number (18, 30), then its offsets or the font's offset
 * past the file (21), then the font (21, 31, 22, 23).
 */
#define STEMHOOK_REFUSED_OUTPUT_LENGTH 16
#define STEMHOOK_REFUSED_JOB_LENGTH 17
#define STEMHOOK_REFUSED_PAST_END 18
#define STEMHOOK_REFUSED_COUNT_OVER_LIMIT 19
#define STEMHOOK_REFUSED_HELD_BYTE 20
#define STEMHOOK_REFUSED_FONT_DIRECTORY 21
#define STEMHOOK_REFUSED_NO_CHARMAP 22
#define STEMHOOK_REFUSED_TOO_MANY_AXES 23
#define STEMHOOK_REFUSED_NO_SUCH_FACE 24
#define STEMHOOK_REFUSED_UNKNOWN_OR_SPARE 25
#define STEMHOOK_REFUSED_NUMBER_OUTSIDE 26
#define STEMHOOK_REFUSED_BYTES_LEFT 27
#define STEMHOOK_REFUSED_NO_SUCH_REQUEST 28
#define STEMHOOK_REFUSED_FOURTH_SETTING 29
#define STEMHOOK_REFUSED_NO_SUCH_FONT 30
#define STEMHOOK_REFUSED_DAMAGED_TABLE 31

/* What a refusal is given for. */
static inline const char *stemhook_meaning(uint32_t refusal)
{
    switch (refusal) {
    case STEMHOOK_REFUSED_OUTPUT_LENGTH:
        return "the output is not 40 bytes long";
    case STEMHOOK_REFUSED_JOB_LENGTH:
        return "the job is over 16777216 bytes long";
    case STEMHOOK_REFUSED_PAST_END:
        return "a field runs past the job's end";
    case STEMHOOK_REFUSED_COUNT_OVER_LIMIT:
        return "a count is over its limit";
    case STEMHOOK_REFUSED_HELD_BYTE:
        return "a held byte is not 0 or 1";
    case STEMHOOK_REFUSED_FONT_DIRECTORY:
        return "the font has a bad start, or its directory runs past the file";
    case STEMHOOK_REFUSED_NO_CHARMAP:
        return "the font has no qualifying cmap record";
    case STEMHOOK_REFUSED_TOO_MANY_AXES:
        return "the font has over 16 axes";
    case STEMHOOK_REFUSED_NO_SUCH_FACE:
        return "a face number is not in the job";
    case STEMHOOK_REFUSED_UNKNOWN_OR_SPARE:
        return "the reading, a mask or a style kind is unknown, or a spare field is not zero";
    case STEMHOOK_REFUSED_NUMBER_OUTSIDE:
        return "a number is not finite, or a width ratio not from 0 to 16";
    case STEMHOOK_REFUSED_BYTES_LEFT:
        return "bytes are left after the job's end";
    case STEMHOOK_REFUSED_NO_SUCH_REQUEST:
        return "the request is not in the job";
    case STEMHOOK_REFUSED_FOURTH_SETTING:
        return "synthesis would give a fourth setting";
    case STEMHOOK_REFUSED_NO_SUCH_FONT:
        return "the font number is not below the collection's count";
    case STEMHOOK_REFUSED_DAMAGED_TABLE:
        return "a table that the font's attributes need is damaged";
    default:
        return "not in the table of this version";
    }
}

/* The check call: 0 for an accepted job, else the position of the refused field times 256, plus the refusal (17 to 27,
 * 30 or 31). A font's position is that of its length field; that of 30 is the font number; that of 27 is the first byte
 * left; 17 has position 0.
 *
 * `job` points at `length` bytes and is not NULL, even for length 0.
 */
uint64_t stemhook_check(const uint8_t *job, size_t length);

/* The parts of what stemhook_check answers. */
#define STEMHOOK_REFUSAL(answer) ((uint32_t)((answer) & 0xff))
#define STEMHOOK_POSITION(answer) ((uint32_t)((answer) >> 8))

/* Bytes of an offer, and where its fields stand. All are big-endian.
 *
 *    0  family, 16 bits
 *    2  place in the family, 16 bits
 *    4  embolden, 0 or 1
 *    5  skew in degrees, two's complement, above zero to the right
 *    6  setting count, 0 to 3
 *    7  zero
 *    8  three slots of 8 bytes: tag, and value as the 32 bits of a single; zero where unused
 *   32  offset of the cmap subtable from the start of the font file, 32 bits
 *   36  symbol subtable, 0 or 1
 *   37  Mac Roman subtable, 0 or 1
 *   38  two zero bytes
 */
#define STEMHOOK_OFFER_BYTES 40
#define STEMHOOK_AT_FAMILY 0
#define STEMHOOK_AT_PLACE 2
#define STEMHOOK_AT_EMBOLDEN 4
#define STEMHOOK_AT_SKEW 5
#define STEMHOOK_AT_SETTING_COUNT 6
#define STEMHOOK_AT_SETTINGS 8
#define STEMHOOK_AT_CHARMAP_OFFSET 32
#define STEMHOOK_AT_SYMBOL 36
#define STEMHOOK_AT_MAC_ROMAN 37

/* The offer call: writes offer number `offer` of a request and answers STEMHOOK_OFFERED; or writes nothing and answers
 * STEMHOOK_PAST_LIST or a refusal (16 to 28, 30 or 31; 29 is proved never to be given). It reads the whole job each
 * time.
 *
 * `reading` is STEMHOOK_READING_AS_STORED or STEMHOOK_READING_OPENTYPE. Any other is refused with 25, whatever the job
 * is; only 16 and 17 come before that.
 *
 * `job` points at `length` bytes and `out` at `out_length` bytes; neither is NULL, and they do not overlap. An
 * `out_length` other than 40 is refused.
 */
uint32_t stemhook_offer(const uint8_t *job, size_t length, uint32_t reading, uint32_t request, uint32_t offer,
                        uint8_t *out, size_t out_length);

#ifdef __cplusplus
}
#endif

#endif
