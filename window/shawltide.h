/* Shawltide's calls for C, in libhost.a for x86-64 Linux: ids to row numbers, with no two ids on one row, and their index as bytes to keep on disk.
 *
 * The version. A program has to be compiled with the header of the version that made libhost.a, since the calls of another version may have other
 * parameters.
 *
 * The result. Each call answers with one number: a value, SHAWLTIDE_NONE for none, SHAWLTIDE_REFUSED(r) for refusal r of the list below. Every
 * input is answered; no call traps, allocates, keeps a pointer or runs on.
 *
 * What the host must pass. A store is a pointer to uint64_t and its length in places, not bytes; an image is a pointer to uint8_t and its length in
 * bytes. For each:
 *   - the pointer is not null, even where the length is 0, and aligned for its type;
 *   - the length is true: so many places or bytes can be read, and written where the pointer is not const;
 *   - a store that a call may write overlaps no other store of the same call, and no other thread uses it meanwhile.
 * Beyond that nothing is asked of the host: contents, numbers and lengths are checked by the calls.
 *
 * Threads. The calls keep nothing between two of them: any number of threads may call at once, each with stores of its own to write, and read the
 * same index.
 *
 * What each word means, and what to do about each refusal, says docs/REFERENCE.md.
 */
#ifndef SHAWLTIDE_H
#define SHAWLTIDE_H

#include <stddef.h>
#include <stdint.h>

#ifdef __cplusplus
extern "C" {
#endif

/* ---- Bounds ---- */

/* A gamma that serves most; gamma is above MIN_GAMMA and at most MAX_GAMMA. */
#define SHAWLTIDE_GAMMA 1.7
#define SHAWLTIDE_MIN_GAMMA 1.01
#define SHAWLTIDE_MAX_GAMMA 16.0

/* The most ids of an index; the fewest and the most bits of a level; MAX_BITS is also the largest capacity of a set. */
#define SHAWLTIDE_MAX_IDS 1048576
#define SHAWLTIDE_MIN_BITS 255
#define SHAWLTIDE_MAX_BITS 16777216

/* How many levels a build runs at most; how many sizes a head's list has; the most levels that a head may name. */
#define SHAWLTIDE_LEVEL_LIMIT 100
#define SHAWLTIDE_HEAD_SIZES 100
#define SHAWLTIDE_MAX_LEVELS 100

/* A sample stands for so many words, and so many bits. */
#define SHAWLTIDE_SAMPLE_WORDS 8
#define SHAWLTIDE_SAMPLE_BITS (64 * SHAWLTIDE_SAMPLE_WORDS)

/* Bytes of a block of an image; how many of its 64 words are content; the fewest bytes of an image. */
#define SHAWLTIDE_BLOCK_BYTES 512
#define SHAWLTIDE_BLOCK_CONTENT 62
#define SHAWLTIDE_MIN_IMAGE (2 * SHAWLTIDE_BLOCK_BYTES)

/* Places of a head (kind, id count, level count, sizes), and what out of a build or a reading and place of a lookup need at least. */
#define SHAWLTIDE_HEAD (SHAWLTIDE_HEAD_SIZES + 3)
#define SHAWLTIDE_OUT (SHAWLTIDE_HEAD + 1)
#define SHAWLTIDE_PLACE 2

/* ---- Kinds of hash, by which an index gives ids their places ---- */

/* The plain mixer, the public SplitMix64 step. Every other number is refused with 16. */
#define SHAWLTIDE_KIND_PLAIN 0

/* ---- Results ---- */

/* The result for none, and that for refusal r. */
#define SHAWLTIDE_NONE UINT64_MAX
#define SHAWLTIDE_REFUSED(r) (SHAWLTIDE_NONE - (uint64_t)(r))

/* Whether a result is a refusal; and which: its number, or 0 where it is none. A value is never above MAX_BITS, so no other result is read as one. The
 * argument may be a call: it is evaluated once. */
#define SHAWLTIDE_IS_REFUSAL(result) (shawltide_refusal(result) != 0)
#define SHAWLTIDE_REFUSAL(result) shawltide_refusal(result)
static inline uint64_t shawltide_refusal(uint64_t result) {
    return result > SHAWLTIDE_MAX_BITS ? SHAWLTIDE_NONE - result : 0;
}

/* Refusals, with what a refused call leaves. Where it does not say otherwise, all stores are as they were, but for out of a build or a reading (there).
 * Where several apply, 16 counts first, and else the smallest; but sets are asked 10 before 9, images 11 last, and an image that is read 16 only after
 * 13, 14 and the first word of its content (15). Before all of them a short out of a build or a reading, or place of a lookup, is found (11), and then a
 * head of another length (7). */

/* Gamma is not above 1.01, or is NaN. */
#define SHAWLTIDE_GAMMA_TOO_SMALL 1
/* Gamma is above 16. */
#define SHAWLTIDE_GAMMA_TOO_LARGE 2
/* More than MAX_IDS ids. */
#define SHAWLTIDE_TOO_MANY_IDS 3
/* rest has fewer places than there are ids, or collide fewer than level 0 has words. */
#define SHAWLTIDE_SHORT_WORK_STORE 4
/* words or samples has no room for a level, whose number is in out[0]; words, samples, collide and rest are all 0. */
#define SHAWLTIDE_NO_ROOM_FOR_LEVEL 5
/* Ids remain after the last level, how many is in out[0]; words, samples, collide and rest are all 0. An id given twice always remains. */
#define SHAWLTIDE_IDS_REMAIN 6
/* The head is not HEAD numbers or does not fit its bounds, or words or samples is too short for it. */
#define SHAWLTIDE_UNFIT_HEAD 7
/* A lookup finds a set bit, but its sample or its row cannot be: the index is damaged. */
#define SHAWLTIDE_UNFIT_ROW 8
/* The bit is not below the capacity; for eq_left, it is above either capacity. */
#define SHAWLTIDE_BIT_OUTSIDE 9
/* The capacity is above MAX_BITS, words is too short for it, or words has a bit at or past it; for insert_all, the capacities are unequal. */
#define SHAWLTIDE_UNFIT_SET 10
/* A store for answers is too short: out, place, rows or marks; image of a writing; words or samples of a reading. */
#define SHAWLTIDE_SHORT_OUTPUT 11
/* The ids are not those of the index: rows as they were, the needed marks are 0. */
#define SHAWLTIDE_WRONG_IDS 12
/* The image is shorter than MIN_IMAGE, or not whole blocks. */
#define SHAWLTIDE_UNFIT_LENGTH 13
/* A block of the image has a wrong number or a wrong check: the first is in out[0]. */
#define SHAWLTIDE_BAD_BLOCK 14
/* The blocks of the image are sound, but hold no index; or a head that is to be written has a size past its levels that is not 0. */
#define SHAWLTIDE_UNFIT_CONTENT 15
/* The kind of a build, of a head or of an image is not known: a newer version may know it. */
#define SHAWLTIDE_UNKNOWN_KIND 16

/* ---- Room, in places, and bytes of images. Arguments of these macros are evaluated more than once. ---- */

/* Words of a level or set of so many bits, and samples of a level: rounded up. A row list of n ids needs WORDS(n) marks. */
#define SHAWLTIDE_WORDS(bits) ((uint64_t)(bits) / 64 + ((uint64_t)(bits) % 64 > 0))
#define SHAWLTIDE_SAMPLES(bits) ((SHAWLTIDE_WORDS(bits) + SHAWLTIDE_SAMPLE_WORDS - 1) / SHAWLTIDE_SAMPLE_WORDS)

/* Bits of level 0 of n ids, the largest level: gamma * n, rounded down, but at least MIN_BITS. What is out of bounds, NaN too, is cut to them. */
#define SHAWLTIDE_FIRST_BITS(n, gamma)                                                                       \
    ((gamma) * (double)(n) >= SHAWLTIDE_MAX_BITS   ? (uint64_t)SHAWLTIDE_MAX_BITS                            \
     : (gamma) * (double)(n) >= SHAWLTIDE_MIN_BITS ? (uint64_t)((gamma) * (double)(n)) : (uint64_t)SHAWLTIDE_MIN_BITS)

/* What collide needs. rest needs n. */
#define SHAWLTIDE_COLLIDE(n, gamma) SHAWLTIDE_WORDS(SHAWLTIDE_FIRST_BITS(n, gamma))

/* What words and samples of n different ids likely need, and more: three times level 0, and LEVEL_LIMIT of the smallest levels. A million ids take 0.6
 * of it at gamma 1.7. Where a build is refused with 5 all the same, build again in the room below. */
#define SHAWLTIDE_LIKELY_WORDS(n, gamma) \
    (3 * SHAWLTIDE_COLLIDE(n, gamma) + SHAWLTIDE_LEVEL_LIMIT * SHAWLTIDE_WORDS(SHAWLTIDE_MIN_BITS))
#define SHAWLTIDE_LIKELY_SAMPLES(n, gamma) \
    (3 * SHAWLTIDE_SAMPLES(SHAWLTIDE_FIRST_BITS(n, gamma)) + SHAWLTIDE_LEVEL_LIMIT * SHAWLTIDE_SAMPLES(SHAWLTIDE_MIN_BITS))

/* What is enough for any n ids: no build in it is refused with 5. It is up to 33 times as much; for a few ids it is a little less, which does no
 * harm. */
#define SHAWLTIDE_ENOUGH_WORDS(n, gamma) (SHAWLTIDE_LEVEL_LIMIT * SHAWLTIDE_COLLIDE(n, gamma))
#define SHAWLTIDE_ENOUGH_SAMPLES(n, gamma) (SHAWLTIDE_LEVEL_LIMIT * SHAWLTIDE_SAMPLES(SHAWLTIDE_FIRST_BITS(n, gamma)))

/* Bytes of the image of an index that uses so many words and samples; with the lengths of longer stores, enough. MAX_IMAGE is that of the largest index
 * that a head can name: no file that is longer holds an image. */
#define SHAWLTIDE_IMAGE_BYTES(words, samples)                                                             \
    ((1 + SHAWLTIDE_HEAD + (uint64_t)(words) + (uint64_t)(samples) + SHAWLTIDE_BLOCK_CONTENT - 1) \
     / SHAWLTIDE_BLOCK_CONTENT * SHAWLTIDE_BLOCK_BYTES)
#define SHAWLTIDE_MAX_IMAGE                                                               \
    SHAWLTIDE_IMAGE_BYTES(SHAWLTIDE_MAX_LEVELS * SHAWLTIDE_WORDS(SHAWLTIDE_MAX_BITS), \
                          SHAWLTIDE_MAX_LEVELS * SHAWLTIDE_SAMPLES(SHAWLTIDE_MAX_BITS))

/* What is enough for the words and the samples of an image of so many bytes: no level has more samples to its words than the smallest, one to four. */
#define SHAWLTIDE_IMAGE_WORDS(bytes) ((uint64_t)(bytes) / SHAWLTIDE_BLOCK_BYTES * SHAWLTIDE_BLOCK_CONTENT)
#define SHAWLTIDE_IMAGE_SAMPLES(bytes) (SHAWLTIDE_IMAGE_WORDS(bytes) / 5)

/* ---- Sets. A set is a capacity of at most MAX_BITS and words: WORDS(capacity) of them or more, of which bit b is bit b % 64 of words[b / 64]. Words
 * past those are neither read nor changed. ---- */

/* Makes the empty set: 0. words may hold anything. Refused: 10. */
uint64_t shawltide_set_empty(uint64_t capacity, uint64_t *words, size_t words_len);

/* Makes the set of every number below the capacity: 0. words may hold anything. Refused: 10. */
uint64_t shawltide_set_ones(uint64_t capacity, uint64_t *words, size_t words_len);

/* 1 if the set has no number, else 0. Refused: 10. */
uint64_t shawltide_set_is_empty(uint64_t capacity, const uint64_t *words, size_t words_len);

/* How many numbers the set has. Refused: 10. */
uint64_t shawltide_set_len(uint64_t capacity, const uint64_t *words, size_t words_len);

/* 1 if the bit is in the set, else 0. Refused: 10, 9. */
uint64_t shawltide_set_contains(uint64_t capacity, const uint64_t *words, size_t words_len, uint64_t bit);

/* Puts the bit into the set: 1 if it is new, else 0. Refused: 10, 9. */
uint64_t shawltide_set_insert(uint64_t capacity, uint64_t *words, size_t words_len, uint64_t bit);

/* Takes the bit out of the set: 1 if it was there, else 0. Refused: 10, 9. */
uint64_t shawltide_set_remove(uint64_t capacity, uint64_t *words, size_t words_len, uint64_t bit);

/* Puts every number of the other set into the set: 1 if anything changed, else 0. Refused: 10, of either set. */
uint64_t shawltide_set_insert_all(uint64_t capacity, uint64_t *words, size_t words_len,
                                  uint64_t other_capacity, const uint64_t *other, size_t other_len);

/* 1 if both sets have the same numbers below the bit, else 0; bit may be as large as the smaller capacity. Refused: 10, of either set; 9. */
uint64_t shawltide_set_eq_left(uint64_t capacity, const uint64_t *words, size_t words_len,
                               uint64_t other_capacity, const uint64_t *other, size_t other_len, uint64_t bit);

/* Writes the members, in rising order, to the front of out: how many. out has a place for each; later places stay. Refused: 10, 11. */
uint64_t shawltide_set_members(uint64_t capacity, const uint64_t *words, size_t words_len, uint64_t *out, size_t out_len);

/* ---- The index. A level for r ids has gamma * r bits, rounded down, but at least MIN_BITS; level 0 has all ids, and no level is larger. A level of s
 * bits takes WORDS(s) words and SAMPLES(s) samples. ---- */

/* Builds an index of the ids, in any order: 0. kind is SHAWLTIDE_KIND_PLAIN; gamma is above 1.01 and at most 16.
 * words, samples: as many places as the levels take together, or more. They may hold anything; then they hold the index, and 0 past it.
 * collide: as many places as level 0 has words, or more. rest: as many as there are ids, or more. Both may hold anything and are then all 0.
 * out: SHAWLTIDE_OUT places or more. out[0] is the value that refusal 5 or 6 carries, else 0; out[1] to out[HEAD] are the head, or zeros where the
 *      build is refused; later places stay. A short out stays as it was.
 * Refused: 11, for out; 16, 1, 2, 3, 4, 5, 6. */
uint64_t shawltide_build(uint64_t kind, double gamma, const uint64_t *ids, size_t ids_len, uint64_t *words, size_t words_len,
                         uint64_t *samples, size_t samples_len, uint64_t *collide, size_t collide_len,
                         uint64_t *rest, size_t rest_len, uint64_t *out, size_t out_len);

/* The id's row, below the id count; or none. An id that the index was not built of gets none or a row of another: a row is no proof of membership.
 * head: the SHAWLTIDE_HEAD numbers of a build, from out[1] on. words, samples: as the build left them, or their used part.
 * place: SHAWLTIDE_PLACE places or more. It gets the level and the position of a row, and is else unchanged; later places stay.
 * Refused: 11, for place; 7, for the length of the head; 16, 7, 8. */
uint64_t shawltide_lookup(const uint64_t *head, size_t head_len, const uint64_t *words, size_t words_len,
                          const uint64_t *samples, size_t samples_len, uint64_t id, uint64_t *place, size_t place_len);

/* Writes at each row the id that lookup sends there: 0. ids: those of the index, in any order.
 * head, words, samples: as for a lookup.
 * rows: as many places as the head's id count, head[1], or more; later places stay. marks: WORDS(head[1]) places or more; those are then 0, later
 *      ones stay.
 * Refused: 7, for the length of the head; 16, 7, 11, 12. */
uint64_t shawltide_rows(const uint64_t *head, size_t head_len, const uint64_t *words, size_t words_len,
                        const uint64_t *samples, size_t samples_len, const uint64_t *ids, size_t ids_len,
                        uint64_t *rows, size_t rows_len, uint64_t *marks, size_t marks_len);

/* ---- The image: an index as bytes, in blocks of BLOCK_BYTES that have a number and a check each, the same on every machine. docs/REFERENCE.md has its
 * form. To keep it in a file, write a new file beside the old one, fsync it, rename it over the old one, and fsync the folder. ---- */

/* Writes the index to the front of the image: how many blocks. Bytes past them stay.
 * head, words, samples: as for a lookup; what is past their used part is not read.
 * image: IMAGE_BYTES(words_len, samples_len) bytes or more, or what the used part takes. It may hold anything.
 * Refused: 7, for the length of the head; 16, 7, 15, 11. */
uint64_t shawltide_image_write(const uint64_t *head, size_t head_len, const uint64_t *words, size_t words_len,
                               const uint64_t *samples, size_t samples_len, uint8_t *image, size_t image_len);

/* Reads an image, a slice whose length is exactly that of its blocks: 0. Whichever one word of an image is changed, it is refused with 14. An image of
 * the form before kinds is read as one of SHAWLTIDE_KIND_PLAIN; written again, it has the form of today, which is one word longer. One of more than 32
 * levels that version 0.2.0 or an earlier one made has to be built again, and nothing in it says so; none is known.
 * words, samples: IMAGE_WORDS(image_len) and IMAGE_SAMPLES(image_len) places or more, or as many as the index uses. They may hold anything; then they
 *      hold the index, and 0 past it.
 * out: SHAWLTIDE_OUT places or more. out[0] is the block that refusal 14 carries, else 0; out[1] to out[HEAD] are the head, or zeros where the reading
 *      is refused; later places stay. A short out stays as it was.
 * Refused: 11, for out; 13, 14; 15, for the first word of the content; 16; 15, for the rest of it; 11, for words and samples. */
uint64_t shawltide_image_read(const uint8_t *image, size_t image_len, uint64_t *words, size_t words_len,
                              uint64_t *samples, size_t samples_len, uint64_t *out, size_t out_len);

#ifdef __cplusplus
}
#endif

#endif
