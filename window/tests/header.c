/* shawltide.h: each declaration called, each macro used. With the word `numbers` it writes what the header's macros come to, in the lines that
 * window/examples/numbers.rs writes of the crate. */
#include "../shawltide.h"

#include <math.h>
#include <stdio.h>
#include <stdlib.h>
#include <string.h>

static int failed;

static void check(int holds, const char *what, int line) {
    if (!holds) {
        fprintf(stderr, "header: line %d: not so: %s\n", line, what);
        failed = 1;
    }
}

#define CHECK(condition) check(condition, #condition, __LINE__)

static void results(void) {
    const uint64_t values[3] = {0, 1, SHAWLTIDE_MAX_BITS};
    for (int i = 0; i < 3; i++) {
        CHECK(!SHAWLTIDE_IS_REFUSAL(values[i]));
        CHECK(SHAWLTIDE_REFUSAL(values[i]) == 0);
    }
    CHECK(!SHAWLTIDE_IS_REFUSAL(SHAWLTIDE_NONE));
    CHECK(SHAWLTIDE_REFUSAL(SHAWLTIDE_NONE) == 0);
    for (uint64_t number = SHAWLTIDE_GAMMA_TOO_SMALL; number <= SHAWLTIDE_UNKNOWN_KIND; number++) {
        CHECK(SHAWLTIDE_IS_REFUSAL(SHAWLTIDE_REFUSED(number)));
        CHECK(SHAWLTIDE_REFUSAL(SHAWLTIDE_REFUSED(number)) == number);
    }
    uint64_t calls = 0;
    CHECK(SHAWLTIDE_IS_REFUSAL((calls++, SHAWLTIDE_REFUSED(9))) && SHAWLTIDE_REFUSAL((calls++, SHAWLTIDE_REFUSED(9))) == 9);
    CHECK(calls == 2);
}

static void sets(void) {
    uint64_t words[SHAWLTIDE_WORDS(255)], other[SHAWLTIDE_WORDS(255)], members[2] = {7, 7};
    CHECK(shawltide_set_ones(255, other, 4) == 0);
    CHECK(shawltide_set_len(255, other, 4) == 255);
    CHECK(shawltide_set_empty(255, words, 4) == 0);
    CHECK(shawltide_set_is_empty(255, words, 4) == 1);
    CHECK(shawltide_set_insert(255, words, 4, 200) == 1);
    CHECK(shawltide_set_contains(255, words, 4, 200) == 1);
    CHECK(SHAWLTIDE_REFUSAL(shawltide_set_contains(255, words, 4, 255)) == SHAWLTIDE_BIT_OUTSIDE);
    CHECK(shawltide_set_members(255, words, 4, members, 2) == 1 && members[0] == 200 && members[1] == 7);
    CHECK(shawltide_set_eq_left(255, words, 4, 255, other, 4, 0) == 1);
    CHECK(shawltide_set_eq_left(255, words, 4, 255, other, 4, 1) == 0);
    CHECK(shawltide_set_insert_all(255, words, 4, 255, other, 4) == 1);
    CHECK(shawltide_set_remove(255, words, 4, 3) == 1 && words[0] == UINT64_MAX - 8);
    CHECK(SHAWLTIDE_REFUSAL(shawltide_set_len(255, words, 3)) == SHAWLTIDE_UNFIT_SET);
}

/* A short out of members is found after 10, a short out of a build before 16 and 1. */
static void short_outs(void) {
    uint64_t words[1] = {2}, out[1] = {9};
    CHECK(SHAWLTIDE_REFUSAL(shawltide_set_members(1, words, 1, out, 0)) == SHAWLTIDE_UNFIT_SET);
    CHECK(SHAWLTIDE_REFUSAL(shawltide_set_members(2, words, 1, out, 0)) == SHAWLTIDE_SHORT_OUTPUT);
    CHECK(SHAWLTIDE_REFUSAL(shawltide_build(1, 0, words, 1, words, 0, words, 0, words, 0, words, 0, out, 1)) == SHAWLTIDE_SHORT_OUTPUT);
    CHECK(words[0] == 2 && out[0] == 9);
}

static int all(const uint64_t *store, size_t places, uint64_t number) {
    for (size_t i = 0; i < places; i++)
        if (store[i] != number)
            return 0;
    return 1;
}

/* A build that is refused with 16 or 1 to 4 changes nothing but out: 0 and a head of zeros. With 5 and 6 the value stands there, and the stores are 0. */
static void refused_builds(void) {
    const uint64_t ids[2] = {7, 7}, refusals[6] = {16, 1, 2, 4, 5, 6}, values[6] = {0, 0, 0, 0, 1, 2};
    const double gammas[6] = {1, 1, 17, 2, 2, 2};
    const size_t rests[6] = {1, 2, 2, 1, 2, 2}, lengths[6] = {4, 400, 400, 400, 4, 400};
    static uint64_t words[400], samples[100], many[SHAWLTIDE_MAX_IDS + 1];
    uint64_t collide[4], rest[2], out[SHAWLTIDE_OUT + 1];
    for (int i = 0; i < 6; i++) {
        memset(words, 1, sizeof words), memset(samples, 1, sizeof samples), memset(collide, 1, sizeof collide);
        memset(rest, 1, sizeof rest), memset(out, 1, sizeof out);
        const uint64_t before = out[0], after = i < 4 ? before : 0, kind = i == 0 ? 1 : SHAWLTIDE_KIND_PLAIN;
        CHECK(SHAWLTIDE_REFUSAL(shawltide_build(kind, gammas[i], ids, 2, words, lengths[i], samples, 100, collide, 4, rest, rests[i], out, SHAWLTIDE_OUT + 1)) == refusals[i]);
        CHECK(out[0] == values[i] && all(out + 1, SHAWLTIDE_HEAD, 0) && out[SHAWLTIDE_OUT] == before);
        CHECK(all(words, lengths[i], after) && all(samples, 100, after) && all(collide, 4, after) && all(rest, rests[i], after));
    }
    memset(words, 1, sizeof words), memset(out, 1, sizeof out);
    const uint64_t before = out[0];
    CHECK(SHAWLTIDE_REFUSAL(shawltide_build(SHAWLTIDE_KIND_PLAIN, 2, many, SHAWLTIDE_MAX_IDS + 1, words, 400, samples, 100, collide, 4, rest, 2, out, SHAWLTIDE_OUT)) == SHAWLTIDE_TOO_MANY_IDS);
    CHECK(all(out, SHAWLTIDE_OUT, 0) && all(words, 400, before));
}

static uint64_t *store(size_t places) {
    uint64_t *store = malloc(places * sizeof *store);
    if (store == NULL) {
        fprintf(stderr, "header: no memory\n");
        exit(1);
    }
    memset(store, 0xA5, places * sizeof *store);
    return store;
}

/* The result of a build in so much room. Where there is one, the index is asked for each id and its row list. */
static uint64_t built(double gamma, const uint64_t *ids, size_t n, size_t words_len, size_t samples_len, uint64_t *value) {
    size_t collide_len = SHAWLTIDE_COLLIDE(n, gamma), marks_len = SHAWLTIDE_WORDS(n);
    uint64_t *words = store(words_len), *samples = store(samples_len), *collide = store(collide_len), *rest = store(n + 1);
    uint64_t *rows = store(n + 1), *marks = store(marks_len + 1), out[SHAWLTIDE_OUT], place[SHAWLTIDE_PLACE], *head = out + 1;
    uint64_t result = shawltide_build(SHAWLTIDE_KIND_PLAIN, gamma, ids, n, words, words_len, samples, samples_len, collide, collide_len, rest, n, out, SHAWLTIDE_OUT);
    *value = out[0];
    if (result == 0) {
        CHECK(head[0] == SHAWLTIDE_KIND_PLAIN && head[1] == n && head[2] <= SHAWLTIDE_MAX_LEVELS && SHAWLTIDE_WORDS(head[3]) == collide_len);
        CHECK(shawltide_rows(head, SHAWLTIDE_HEAD, words, words_len, samples, samples_len, ids, n, rows, n, marks, marks_len) == 0);
        for (uint64_t row = 0; row < n; row++) {
            CHECK(shawltide_lookup(head, SHAWLTIDE_HEAD, words, words_len, samples, samples_len, rows[row], place, SHAWLTIDE_PLACE) == row);
            CHECK(place[0] < head[2] && place[1] < head[3 + place[0]]);
        }
    }
    free(words), free(samples), free(collide), free(rest), free(rows), free(marks);
    return result;
}

static uint64_t likely(double gamma, const uint64_t *ids, size_t n, uint64_t *value) {
    return built(gamma, ids, n, SHAWLTIDE_LIKELY_WORDS(n, gamma), SHAWLTIDE_LIKELY_SAMPLES(n, gamma), value);
}

static uint64_t enough(double gamma, const uint64_t *ids, size_t n, uint64_t *value) {
    return built(gamma, ids, n, SHAWLTIDE_ENOUGH_WORDS(n, gamma), SHAWLTIDE_ENOUGH_SAMPLES(n, gamma), value);
}

/* Different ids are built in either room, also the few for which the likely one is the larger. Each id given twice does not fit the likely room, and then remains. */
static void rooms(void) {
    static uint64_t ids[4000];
    const double gammas[4] = {1.0100000000000002, SHAWLTIDE_GAMMA, 2, SHAWLTIDE_MAX_GAMMA};
    uint64_t value;
    for (size_t i = 0; i < 4000; i++)
        ids[i] = (i + 1) * UINT64_C(0x9E3779B97F4A7C15);
    CHECK(SHAWLTIDE_LIKELY_WORDS(1, 2.0) > SHAWLTIDE_ENOUGH_WORDS(1, 2.0));
    for (int i = 0; i < 4; i++)
        for (size_t n = 0; n <= 4000; n = 3 * n + 1) {
            CHECK(likely(gammas[i], ids, n, &value) == 0);
            CHECK(enough(gammas[i], ids, n, &value) == 0);
        }
    memcpy(ids + 2000, ids, 2000 * sizeof *ids);
    CHECK(SHAWLTIDE_REFUSAL(likely(1.7, ids, 4000, &value)) == SHAWLTIDE_NO_ROOM_FOR_LEVEL && value < SHAWLTIDE_LEVEL_LIMIT);
    CHECK(SHAWLTIDE_REFUSAL(enough(1.7, ids, 4000, &value)) == SHAWLTIDE_IDS_REMAIN && value == 4000);
    CHECK(SHAWLTIDE_REFUSAL(enough(SHAWLTIDE_MIN_GAMMA, ids, 9, &value)) == SHAWLTIDE_GAMMA_TOO_SMALL);
    CHECK(SHAWLTIDE_REFUSAL(enough(16.5, ids, 9, &value)) == SHAWLTIDE_GAMMA_TOO_LARGE);
}

/* The smallest index, of no ids: its head, its words, which are all 0, and its sample. */
static const uint64_t no_ids[SHAWLTIDE_HEAD] = {SHAWLTIDE_KIND_PLAIN, 0, 1, SHAWLTIDE_MIN_BITS}, clear[4];

/* It takes two blocks, whose bytes past the blocks' numbers, the form and the head are 0 but for the checks. */
static void images(void) {
    uint8_t image[SHAWLTIDE_MIN_IMAGE + 1];
    uint64_t words[SHAWLTIDE_IMAGE_WORDS(SHAWLTIDE_MIN_IMAGE)], samples[SHAWLTIDE_IMAGE_SAMPLES(SHAWLTIDE_MIN_IMAGE)], out[SHAWLTIDE_OUT + 1];
    memset(image, 7, sizeof image), memset(words, 7, sizeof words), memset(samples, 7, sizeof samples), memset(out, 7, sizeof out);
    const uint64_t later = out[SHAWLTIDE_OUT];
    CHECK(SHAWLTIDE_IMAGE_BYTES(4, 1) == SHAWLTIDE_MIN_IMAGE);
    CHECK(shawltide_image_write(no_ids, SHAWLTIDE_HEAD, clear, 4, clear, 1, image, sizeof image) == 2);
    CHECK(image[0] == 0 && image[8] == 2 && image[16] == SHAWLTIDE_KIND_PLAIN && image[24] == 0 && image[32] == 1 && image[40] == 255 && image[48] == 0);
    CHECK(image[SHAWLTIDE_BLOCK_BYTES] == 1 && image[SHAWLTIDE_BLOCK_BYTES + 8] == 0 && image[SHAWLTIDE_MIN_IMAGE] == 7);
    CHECK(shawltide_image_read(image, SHAWLTIDE_MIN_IMAGE, words, 124, samples, 24, out, SHAWLTIDE_OUT + 1) == 0);
    CHECK(out[0] == 0 && memcmp(out + 1, no_ids, sizeof no_ids) == 0 && out[SHAWLTIDE_OUT] == later);
    CHECK(all(words, 124, 0) && all(samples, 24, 0));
}

/* A refused writing changes no byte. */
static void refused_writings(void) {
    uint8_t image[SHAWLTIDE_MIN_IMAGE];
    uint64_t stray[SHAWLTIDE_HEAD] = {SHAWLTIDE_KIND_PLAIN, 0, 1, SHAWLTIDE_MIN_BITS, 1};
    memset(image, 7, sizeof image);
    CHECK(SHAWLTIDE_REFUSAL(shawltide_image_write(no_ids, SHAWLTIDE_HEAD - 1, clear, 4, clear, 1, image, sizeof image)) == SHAWLTIDE_UNFIT_HEAD);
    CHECK(SHAWLTIDE_REFUSAL(shawltide_image_write(stray, SHAWLTIDE_HEAD, clear, 3, clear, 1, image, 0)) == SHAWLTIDE_UNFIT_HEAD);
    CHECK(SHAWLTIDE_REFUSAL(shawltide_image_write(stray, SHAWLTIDE_HEAD, clear, 4, clear, 1, image, 0)) == SHAWLTIDE_UNFIT_CONTENT);
    CHECK(SHAWLTIDE_REFUSAL(shawltide_image_write(no_ids, SHAWLTIDE_HEAD, clear, 4, clear, 1, image, sizeof image - 1)) == SHAWLTIDE_SHORT_OUTPUT);
    for (size_t i = 0; i < sizeof image; i++)
        CHECK(image[i] == 7);
}

/* A refused reading changes out alone: the block of 14, else 0, and a head of zeros. A short out stays too. The image is of three blocks, with the first
 * once more behind them. */
static void refused_readings(void) {
    const uint64_t head[SHAWLTIDE_HEAD] = {SHAWLTIDE_KIND_PLAIN, 0, 1, 2000}, refusals[7] = {13, 13, 13, 14, 14, 15, 11}, blocks[7] = {0, 0, 0, 3, 1, 0, 0};
    const size_t lengths[7] = {0, 1023, 1537, 2048, 1536, 1024, 1536};
    static uint8_t image[4 * SHAWLTIDE_BLOCK_BYTES];
    uint64_t words[SHAWLTIDE_WORDS(2000)] = {0}, samples[SHAWLTIDE_SAMPLES(2000)] = {0}, out[SHAWLTIDE_OUT];
    CHECK(shawltide_image_write(head, SHAWLTIDE_HEAD, words, 32, samples, 4, image, sizeof image) == 3);
    memcpy(image + 3 * SHAWLTIDE_BLOCK_BYTES, image, SHAWLTIDE_BLOCK_BYTES);
    memset(words, 1, sizeof words), memset(samples, 1, sizeof samples);
    const uint64_t before = words[0];
    for (int i = 0; i < 7; i++) {
        memset(out, 1, sizeof out);
        image[600] = i == 4;
        CHECK(SHAWLTIDE_REFUSAL(shawltide_image_read(image, lengths[i], words, 31, samples, 4, out, SHAWLTIDE_OUT)) == refusals[i]);
        CHECK(out[0] == blocks[i] && all(out + 1, SHAWLTIDE_HEAD, 0) && all(words, 32, before) && all(samples, 4, before));
    }
    memset(out, 1, sizeof out);
    CHECK(SHAWLTIDE_REFUSAL(shawltide_image_read(image, 0, words, 32, samples, 4, out, SHAWLTIDE_OUT - 1)) == SHAWLTIDE_SHORT_OUTPUT);
    CHECK(all(out, SHAWLTIDE_OUT, before));
}

/* Two blocks with this content, which begins the first; numbers and checks are right. On x86-64 words have the bytes of an image. */
static void seal(uint64_t blocks[2][64], const uint64_t *content, size_t len) {
    memset(blocks, 0, 2 * sizeof *blocks);
    memcpy(blocks[0] + 1, content, len * sizeof *content);
    for (int i = 0; i < 2; i++) {
        blocks[i][0] = i;
        for (int j = 0; j < 63; j++) {
            uint64_t z = (blocks[i][63] ^ blocks[i][j]) + UINT64_C(0x9E3779B97F4A7C15);
            z = (z ^ (z >> 30)) * UINT64_C(0xBF58476D1CE4E5B9);
            z = (z ^ (z >> 27)) * UINT64_C(0x94D049BB133111EB);
            blocks[i][63] = z ^ (z >> 31);
        }
    }
}

/* Images of no ids that are written here: of today's form, where a kind that is not known is refused and nothing changes but out, and of the form before
 * kinds. */
static void forms(void) {
    const uint64_t kinds[5] = {1, 2, 256, UINT64_C(1) << 32, UINT64_MAX}, older[4] = {1, 0, 1, SHAWLTIDE_MIN_BITS};
    uint64_t content[5] = {2, SHAWLTIDE_KIND_PLAIN, 0, 1, SHAWLTIDE_MIN_BITS}, blocks[2][64], words[4], samples[1], out[SHAWLTIDE_OUT];
    const uint8_t *image = (const uint8_t *)blocks;
    memset(words, 1, sizeof words), memset(samples, 1, sizeof samples);
    const uint64_t before = words[0];
    for (int i = 0; i < 5; i++) {
        content[1] = kinds[i];
        seal(blocks, content, 5), memset(out, 1, sizeof out);
        CHECK(SHAWLTIDE_REFUSAL(shawltide_image_read(image, sizeof blocks, words, 4, samples, 1, out, SHAWLTIDE_OUT)) == SHAWLTIDE_UNKNOWN_KIND);
        CHECK(all(out, SHAWLTIDE_OUT, 0) && all(words, 4, before) && all(samples, 1, before));
    }
    content[1] = SHAWLTIDE_KIND_PLAIN;
    for (int i = 0; i < 2; i++) {
        seal(blocks, i == 0 ? content : older, i == 0 ? 5 : 4);
        memset(words, 1, sizeof words), memset(samples, 1, sizeof samples), memset(out, 1, sizeof out);
        CHECK(shawltide_image_read(image, sizeof blocks, words, 4, samples, 1, out, SHAWLTIDE_OUT) == 0);
        CHECK(out[0] == 0 && memcmp(out + 1, no_ids, sizeof no_ids) == 0 && all(words, 4, 0) && all(samples, 1, 0));
    }
}

/* A build, a lookup, a row list and a writing refuse a kind that is not known before all but the length of out, place and head; nothing changes but out, as
 * above. */
static void unknown_kinds(void) {
    const uint64_t kinds[5] = {1, 2, 256, UINT64_C(1) << 32, UINT64_MAX};
    uint64_t head[SHAWLTIDE_HEAD] = {0}, out[SHAWLTIDE_OUT], place[SHAWLTIDE_PLACE] = {9, 9}, rows[1] = {9}, marks[1] = {9};
    uint8_t image[1] = {7};
    for (int i = 0; i < 5; i++) {
        head[0] = kinds[i];
        memset(out, 1, sizeof out);
        CHECK(SHAWLTIDE_REFUSAL(shawltide_build(kinds[i], NAN, rows, 1, rows, 0, rows, 0, rows, 0, rows, 0, out, SHAWLTIDE_OUT)) == SHAWLTIDE_UNKNOWN_KIND);
        CHECK(all(out, SHAWLTIDE_OUT, 0));
        CHECK(SHAWLTIDE_REFUSAL(shawltide_lookup(head, SHAWLTIDE_HEAD, clear, 0, clear, 0, 5, place, SHAWLTIDE_PLACE)) == SHAWLTIDE_UNKNOWN_KIND);
        CHECK(SHAWLTIDE_REFUSAL(shawltide_lookup(head, SHAWLTIDE_HEAD - 1, clear, 0, clear, 0, 5, place, SHAWLTIDE_PLACE)) == SHAWLTIDE_UNFIT_HEAD);
        CHECK(SHAWLTIDE_REFUSAL(shawltide_lookup(head, 0, clear, 0, clear, 0, 5, place, 1)) == SHAWLTIDE_SHORT_OUTPUT);
        CHECK(SHAWLTIDE_REFUSAL(shawltide_rows(head, SHAWLTIDE_HEAD, clear, 0, clear, 0, clear, 4, rows, 0, marks, 0)) == SHAWLTIDE_UNKNOWN_KIND);
        CHECK(SHAWLTIDE_REFUSAL(shawltide_image_write(head, SHAWLTIDE_HEAD, clear, 0, clear, 0, image, 0)) == SHAWLTIDE_UNKNOWN_KIND);
    }
    CHECK(place[0] == 9 && place[1] == 9 && rows[0] == 9 && marks[0] == 9 && image[0] == 7);
}

#define NUMBER(name) printf("%s %.17g\n", #name, (double)SHAWLTIDE_##name)

static void bounds(void) {
    NUMBER(GAMMA), NUMBER(MIN_GAMMA), NUMBER(MAX_GAMMA), NUMBER(MAX_IDS), NUMBER(MIN_BITS), NUMBER(MAX_BITS);
    NUMBER(LEVEL_LIMIT), NUMBER(HEAD_SIZES), NUMBER(MAX_LEVELS), NUMBER(SAMPLE_WORDS), NUMBER(SAMPLE_BITS);
    NUMBER(HEAD), NUMBER(OUT), NUMBER(PLACE), NUMBER(KIND_PLAIN), NUMBER(BLOCK_BYTES), NUMBER(BLOCK_CONTENT), NUMBER(MIN_IMAGE), NUMBER(MAX_IMAGE);
}

static void refusals(void) {
    NUMBER(GAMMA_TOO_SMALL), NUMBER(GAMMA_TOO_LARGE), NUMBER(TOO_MANY_IDS), NUMBER(SHORT_WORK_STORE), NUMBER(NO_ROOM_FOR_LEVEL);
    NUMBER(IDS_REMAIN), NUMBER(UNFIT_HEAD), NUMBER(UNFIT_ROW), NUMBER(BIT_OUTSIDE), NUMBER(UNFIT_SET), NUMBER(SHORT_OUTPUT), NUMBER(WRONG_IDS);
    NUMBER(UNFIT_LENGTH), NUMBER(BAD_BLOCK), NUMBER(UNFIT_CONTENT), NUMBER(UNKNOWN_KIND);
}

#define PLACES(number) printf(" %llu", (unsigned long long)(number))

static void level_numbers(void) {
    const uint64_t bits[8] = {0, 1, 64, 65, SHAWLTIDE_SAMPLE_BITS, SHAWLTIDE_SAMPLE_BITS + 1, SHAWLTIDE_MAX_BITS, UINT64_MAX};
    for (int i = 0; i < 8; i++) {
        printf("level of %llu bits:", (unsigned long long)bits[i]);
        PLACES(SHAWLTIDE_WORDS(bits[i])), PLACES(SHAWLTIDE_SAMPLES(bits[i]));
        printf("\n");
    }
}

static void room_numbers(void) {
    const uint64_t counts[10] = {0, 1, 150, 151, 512, 513, 1000, 1000000, SHAWLTIDE_MAX_IDS, SHAWLTIDE_MAX_IDS + 1};
    const double gammas[8] = {1.0100000000000002, 1.1, SHAWLTIDE_GAMMA, 2, SHAWLTIDE_MAX_GAMMA, 1e300, -1, NAN};
    for (int i = 0; i < 10; i++)
        for (int j = 0; j < 8; j++) {
            uint64_t n = counts[i];
            double gamma = gammas[j];
            printf("room of %llu ids, gamma %d:", (unsigned long long)n, j);
            PLACES(SHAWLTIDE_COLLIDE(n, gamma));
            PLACES(SHAWLTIDE_LIKELY_WORDS(n, gamma)), PLACES(SHAWLTIDE_LIKELY_SAMPLES(n, gamma));
            PLACES(SHAWLTIDE_ENOUGH_WORDS(n, gamma)), PLACES(SHAWLTIDE_ENOUGH_SAMPLES(n, gamma));
            printf("\n");
        }
}

static void image_numbers(void) {
    const uint64_t words[8] = {0, 4, 20, 21, 82, 83, 1000, UINT64_C(1) << 40};
    const uint64_t bytes[6] = {0, 511, 512, SHAWLTIDE_MIN_IMAGE, 2560, UINT64_C(1) << 40};
    for (int i = 0; i < 8; i++) {
        printf("image of %llu words:", (unsigned long long)words[i]);
        PLACES(SHAWLTIDE_IMAGE_BYTES(words[i], words[i] / 8));
        printf("\n");
    }
    for (int i = 0; i < 6; i++) {
        printf("room of an image of %llu bytes:", (unsigned long long)bytes[i]);
        PLACES(SHAWLTIDE_IMAGE_WORDS(bytes[i])), PLACES(SHAWLTIDE_IMAGE_SAMPLES(bytes[i]));
        printf("\n");
    }
}

int main(int words, char **word) {
    if (words == 2 && strcmp(word[1], "numbers") == 0) {
        bounds();
        refusals();
        level_numbers();
        room_numbers();
        image_numbers();
        return 0;
    }
    results();
    sets();
    short_outs();
    refused_builds();
    rooms();
    images();
    refused_writings();
    refused_readings();
    forms();
    unknown_kinds();
    return failed;
}
