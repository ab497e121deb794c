/*
 * The calls from C, on one path: document 01's example 5, with and without point
 * numbers, and how far a vertex reaches on a few more; then vertex records, why
 * its edges are there, kerbs, the oldest chunks, many outlines in one chunk,
 * two outlines side by side, and what is salvaged from a spoiled one.
 * One line for each check; the exit status is 1 if one of them fails.
 */
#include "sehmelir.h"

#include <math.h>
#include <stdbool.h>
#include <stdio.h>
#include <string.h>

enum {
    PATH = 6,      /* numbers of the path */
    EDGES = 16,    /* its edges */
    NUMBERS = 64,  /* numbers of its edges */
    OUTLINE = 320, /* bytes of its outline */
    POINTS = 64,   /* bytes of an outline of two vertices without edges */
    ONCE = 312,    /* bytes of its outline as it was kept in edition 1 */
    RETIRED = 216, /* bytes of that at grade 1 */
    SPARE = 9,     /* lent beyond the result */
    CANARIES = 16  /* not lent, before and after each lent buffer */
};

static const int32_t path[PATH] = {0, 0, 5, 20, 0, 5};

/* a path without edges */
static const int32_t thin[PATH] = {0, 0, 1, 20, 0, 1};

/* at grade 2 */
static const int32_t edges[EDGES][4] = {
    {20, 5, 0, 5},    {0, -5, 20, -5},  {0, 5, -2, 4},    {-2, 4, -4, 3},
    {-4, 3, -5, 1},   {-5, 1, -5, -2},  {-5, -2, -3, -4}, {-3, -4, -1, -5},
    {-1, -5, 0, -5},  {20, -5, 22, -4}, {22, -4, 24, -3}, {24, -3, 25, -1},
    {25, -1, 25, 2},  {25, 2, 23, 4},   {23, 4, 21, 5},   {21, 5, 20, 5},
};

/* the words of the outline before its edges */
static const int32_t words[16] = {2, 0, 2,  2, 16, 0, 0, 5,
                                  0, 0, 20, 0, 5,  0, 9, 7};

/* its outline of edition 1 and grade 1, which is retired: example 5 itself */
static const int32_t retired[RETIRED / 4] = {
    1,  0,  1,  2,  10, 0,  0,  5,  0,  20, 0,  5,  6,  4,  20, 5,  0,  5,
    0,  -5, 20, -5, 0,  5,  -4, 3,  -4, 3,  -5, -1, -5, -1, -2, -5, -2, -5,
    0,  -5, 20, -5, 24, -3, 24, -3, 25, 1,  25, 1,  22, 5,  22, 5,  20, 5,
};

/* Lent memory, canaries on both sides. */
struct numbers {
    int32_t before[CANARIES];
    int32_t lent[NUMBERS + SPARE];
    int32_t after[CANARIES];
};

struct bytes {
    uint8_t before[CANARIES];
    uint8_t lent[OUTLINE + SPARE];
    uint8_t after[CANARIES];
};

static bool failed = false;

static void check(bool holds, const char *what) {
    printf("%s: %s\n", holds ? "ok" : "FAILED", what);
    if (!holds)
        failed = true;
}

static void check_reply(struct sehmelir_reply given, uint32_t reply,
                        uint64_t number, uint32_t grade, const char *what) {
    bool same =
        given.reply == reply && given.number == number && given.grade == grade;
    check(same, what);
    if (!same)
        printf("  reply %lu number %llu grade %lu\n",
               (unsigned long)given.reply, (unsigned long long)given.number,
               (unsigned long)given.grade);
}

/* The same of a reading, which tells of a path no style. */
static void check_path(struct sehmelir_path given, uint32_t reply,
                       uint64_t number, uint32_t grade, const char *what) {
    struct sehmelir_reply front = {given.reply, given.grade, given.number};
    check_reply(front, reply, number, grade, what);
    if (given.kind != 0 || given.radius != 0 || given.join != 0 ||
        given.closed != 0)
        check(false, "  with kind 0 and no style");
}

/* Something in every place, different from its neighbours. */
static void fill(void *memory, size_t size) {
    for (size_t index = 0; index < size; index++)
        ((uint8_t *)memory)[index] = (uint8_t)(index % 251 + 1);
}

static void put_word(uint8_t *at, int32_t word) {
    for (int index = 0; index < 4; index++)
        at[index] = (uint8_t)((uint32_t)word >> 8 * index);
}

/* The outline of the path, by hand. */
static void put_outline(uint8_t *at) {
    for (int index = 0; index < 16; index++)
        put_word(at + 4 * index, words[index]);
    for (int index = 0; index < NUMBERS; index++)
        put_word(at + POINTS + 4 * index, edges[index / 4][index % 4]);
}

/* The outline of the path in edition 1: no number in an entry. */
static void put_once(uint8_t *at) {
    static const size_t kept[3][3] = {{4, 4, 28}, {32, 36, 16}, {48, 56, OUTLINE - 56}};
    uint8_t now[OUTLINE];
    put_outline(now);
    put_word(at, 1);
    for (int part = 0; part < 3; part++)
        memcpy(at + kept[part][0], now + kept[part][1], kept[part][2]);
}

/* The bytes of the outline of a path of two vertices, by its edges. */
static uint64_t bytes_of(const int32_t two[PATH]) {
    int32_t none = 0;
    return POINTS + 16 * sehmelir_draw(two, PATH, 2, &none, 0).number;
}

static void check_draw(void) {
    struct numbers out, expected;
    fill(&out, sizeof out);
    expected = out;

    check_reply(sehmelir_draw(path, PATH, 2, out.lent, 0), SEHMELIR_NO_ROOM,
                EDGES, 0, "draw without room tells the edges needed");
    check_reply(sehmelir_draw(path, PATH, 2, out.lent, NUMBERS - 1),
                SEHMELIR_NO_ROOM, EDGES, 0, "draw is refused one number short");
    check_reply(sehmelir_draw(path, PATH - 1, 1, out.lent, NUMBERS),
                SEHMELIR_UNEVEN, PATH - 1, 0, "draw of five numbers");
    check_reply(sehmelir_draw(path, PATH, 9, out.lent, NUMBERS), SEHMELIR_GRADE,
                9, 0, "draw at grade 9");
    check_reply(sehmelir_draw(path, PATH, 1, out.lent, NUMBERS), SEHMELIR_GRADE,
                1, 0, "draw at grade 1");
    static const int32_t many[3 * (SEHMELIR_MOST_VERTICES + 1)];
    check_reply(sehmelir_draw(many, 3 * (SEHMELIR_MOST_VERTICES + 1), 2, out.lent, NUMBERS),
                SEHMELIR_TOO_MANY, 4097, 0, "draw of 4,097 vertices");
    static const int32_t outside[PATH] = {
        0, 0, 5, SEHMELIR_MOST_COORDINATE + 1, 0, 5};
    check_reply(sehmelir_draw(outside, PATH, 2, out.lent, NUMBERS),
                SEHMELIR_OUTSIDE, 1, 0, "draw of a vertex outside the limits");
    check_reply(sehmelir_draw(thin, PATH, 2, out.lent, NUMBERS),
                SEHMELIR_WITHOUT_EDGES, 2, 0, "draw of a path without edges");
    check(memcmp(&out, &expected, sizeof out) == 0,
          "draw's refusals change nothing");

    check_reply(sehmelir_draw(path, PATH, 2, out.lent, NUMBERS + SPARE),
                SEHMELIR_DONE, EDGES, 0, "draw gives sixteen edges");
    memcpy(expected.lent, edges, sizeof edges);
    check(memcmp(&out, &expected, sizeof out) == 0,
          "draw writes the edges and nothing else");

    int32_t none = 0;
    check_reply(sehmelir_draw(&none, 0, 2, &none, 0), SEHMELIR_DONE, 0, 0,
                "draw of no vertices without room");
}

/* The same path as records with point numbers, between canaries. */
static void check_records(void) {
    struct sehmelir_vertex records[4] = {
        {-1, -2, -3, 7}, {0, 0, 5, 411}, {20, 0, 5, 4294967295}, {-4, -5, -6, 8}};
    const struct sehmelir_vertex *hedge = records + 1;
    struct sehmelir_vertex before[4];
    memcpy(before, records, sizeof before);

    check(sizeof(struct sehmelir_vertex) == 16 &&
              offsetof(struct sehmelir_vertex, radius) == 8 &&
              offsetof(struct sehmelir_vertex, number) == 12,
          "a record is four 32-bit numbers");

    struct numbers out, expected;
    fill(&out, sizeof out);
    expected = out;
    check_reply(sehmelir_draw_records(hedge, 2, 2, out.lent, NUMBERS - 1),
                SEHMELIR_NO_ROOM, EDGES, 0,
                "draw of records is refused one number short");
    check_reply(sehmelir_draw_records(hedge, 2, 9, out.lent, NUMBERS),
                SEHMELIR_GRADE, 9, 0, "draw of records at grade 9");
    check_reply(sehmelir_draw_records(hedge, 2, 1, out.lent, NUMBERS),
                SEHMELIR_GRADE, 1, 0, "draw of records at grade 1");
    check_reply(sehmelir_draw_records(hedge, 3, 2, out.lent, NUMBERS),
                SEHMELIR_OUTSIDE, 2, 0,
                "draw of records, one outside the limits");
    static const struct sehmelir_vertex many[SEHMELIR_MOST_VERTICES + 1];
    check_reply(sehmelir_draw_records(many, SEHMELIR_MOST_VERTICES + 1, 2,
                                      out.lent, NUMBERS),
                SEHMELIR_TOO_MANY, 4097, 0, "draw of 4,097 records");
    check_reply(sehmelir_draw_records(many, SEHMELIR_MOST_VERTICES, 2, out.lent,
                                      NUMBERS),
                SEHMELIR_WITHOUT_EDGES, 4096, 0, "draw of records without edges");
    check(memcmp(&out, &expected, sizeof out) == 0,
          "refusals of records change nothing");
    check_reply(
        sehmelir_draw_records(hedge, 2, 2, out.lent, NUMBERS + SPARE),
        SEHMELIR_DONE, EDGES, 0, "draw of records gives sixteen edges");
    memcpy(expected.lent, edges, sizeof edges);
    check(memcmp(&out, &expected, sizeof out) == 0,
          "draw of records writes the edges and nothing else");

    struct bytes kept, outline;
    fill(&kept, sizeof kept);
    outline = kept;
    check_reply(sehmelir_keep_records(hedge, 2, 2, kept.lent, OUTLINE - 1),
                SEHMELIR_NO_ROOM, OUTLINE, 0,
                "keep of records is refused one byte short");
    check(memcmp(&kept, &outline, sizeof kept) == 0,
          "a refused keep of records changes nothing");
    check_reply(sehmelir_keep_records(hedge, 2, 2, kept.lent, OUTLINE),
                SEHMELIR_DONE, OUTLINE, 0, "keep of records gives the outline");
    put_outline(outline.lent);
    put_word(outline.lent + 32, 411);
    put_word(outline.lent + 52, -1);
    check(memcmp(&kept, &outline, sizeof kept) == 0,
          "keep of records writes the outline with its numbers, nothing else");
    check(memcmp(records, before, sizeof before) == 0, "records are only read");
}

static void check_keep(void) {
    struct bytes out, expected;
    fill(&out, sizeof out);
    expected = out;

    check(SEHMELIR_OUTLINE_BYTES(2, EDGES) == OUTLINE,
          "the header tells an outline's bytes");
    check_reply(sehmelir_keep(path, PATH, 2, out.lent, 0), SEHMELIR_NO_ROOM,
                OUTLINE, 0, "keep without room tells the bytes needed");
    check_reply(sehmelir_keep(path, PATH, 2, out.lent, OUTLINE - 1),
                SEHMELIR_NO_ROOM, OUTLINE, 0, "keep is refused one byte short");
    check_reply(sehmelir_keep(path, PATH, 0, out.lent, OUTLINE), SEHMELIR_GRADE,
                0, 0, "keep at grade 0");
    check_reply(sehmelir_keep(path, PATH, 1, out.lent, OUTLINE), SEHMELIR_GRADE,
                1, 0, "keep at grade 1");
    check_reply(sehmelir_keep(thin, PATH, 2, out.lent, POINTS),
                SEHMELIR_WITHOUT_EDGES, 2, 0, "keep of a path without edges");
    check_reply(sehmelir_keep(thin, PATH, 2, out.lent, POINTS - 1),
                SEHMELIR_WITHOUT_EDGES, 2, 0, "  whose outline had no room");
    check(memcmp(&out, &expected, sizeof out) == 0,
          "keep's refusals change nothing");

    check_reply(sehmelir_keep(path, PATH, 2, out.lent, OUTLINE + SPARE),
                SEHMELIR_DONE, OUTLINE, 0, "keep gives 320 bytes");
    put_outline(expected.lent);
    check(memcmp(&out, &expected, sizeof out) == 0,
          "keep writes the outline and nothing else");
}

static void check_read(void) {
    struct bytes store, same;
    struct numbers out, expected;
    fill(&store, sizeof store);
    put_outline(store.lent);
    same = store;
    fill(&out, sizeof out);
    expected = out;

    check_path(sehmelir_read(store.lent, OUTLINE, out.lent, PATH - 1),
                SEHMELIR_NO_ROOM, 2, 0, "read is refused one number short");
    check_path(sehmelir_read(store.lent, OUTLINE - 1, out.lent, PATH),
                SEHMELIR_NOT_OUTLINE, 0, 0, "read of a store one byte short");
    check_path(sehmelir_read(store.lent, 0, out.lent, PATH),
                SEHMELIR_NOT_OUTLINE, 0, 0, "read of an empty store");
    check(memcmp(&out, &expected, sizeof out) == 0,
          "read's refusals change nothing");

    check_path(
        sehmelir_read(store.lent, OUTLINE + SPARE, out.lent, NUMBERS + SPARE),
        SEHMELIR_DONE, 2, 2, "read gives two vertices and grade 2");
    memcpy(expected.lent, path, sizeof path);
    check(memcmp(&out, &expected, sizeof out) == 0,
          "read writes the path and nothing else");
    check(memcmp(&store, &same, sizeof store) == 0,
          "read leaves the store as it was");
}

static void check_replace(void) {
    struct bytes store, expected;
    fill(&store, sizeof store);
    put_outline(store.lent);
    expected = store;
    size_t whole = OUTLINE + SPARE;

    check_reply(sehmelir_replace(store.lent, whole, 2, 0, 0, 0),
                SEHMELIR_NO_VERTEX, 2, 0, "replace of a third vertex");
    check_reply(sehmelir_replace(store.lent, whole, 1, 0, 0, -1),
                SEHMELIR_OUTSIDE, 1, 0, "replace by a radius below 0");
    check(memcmp(&store, &expected, sizeof store) == 0,
          "replace's refusals change nothing");

    static const int32_t narrow_start[PATH] = {0, 0, 1, 20, 0, 5};
    uint64_t narrow = bytes_of(narrow_start);
    check_reply(sehmelir_replace(store.lent, whole, 0, 0, 0, 1), SEHMELIR_DONE,
                narrow, 0, "replace by a smaller radius");
    check_reply(sehmelir_keep(narrow_start, PATH, 2, expected.lent, whole),
                SEHMELIR_DONE, narrow, 0, "keep of the changed path");
    memset(expected.lent + narrow, 0, OUTLINE - narrow);
    check(memcmp(&store, &expected, sizeof store) == 0,
          "zeros follow up to the old end, and no farther");
    check_reply(sehmelir_replace(store.lent, whole, 1, 20, 0, 1),
                SEHMELIR_WITHOUT_EDGES, 2, 0, "replace that leaves no edges");
    check(memcmp(&store, &expected, sizeof store) == 0,
          "that refusal changes nothing");

    /* an outline without edges, as they were kept once */
    static const int32_t points[16] = {2, 0, 2,  2, 0, 0, 0, 1,
                                       0, 0, 20, 0, 1, 0, 0, 0};
    for (int index = 0; index < 16; index++) {
        put_word(store.lent + 4 * index, points[index]);
        put_word(expected.lent + 4 * index, points[index]);
    }
    int32_t still[PATH];
    check_path(sehmelir_read(store.lent, POINTS, still, PATH), SEHMELIR_DONE,
               2, 2, "an outline without edges still reads");
    check(memcmp(still, thin, sizeof thin) == 0, "  and gives its path");

    static const int32_t narrow_end[PATH] = {0, 0, 5, 20, 0, 1};
    uint64_t needed = bytes_of(narrow_end);
    check_reply(sehmelir_replace(store.lent, POINTS, 0, 0, 0, 5),
                SEHMELIR_NO_ROOM, needed, 0,
                "replace is refused where the outline would outgrow its store");
    check_reply(sehmelir_replace(store.lent, needed - 1, 0, 0, 0, 5),
                SEHMELIR_NO_ROOM, needed, 0,
                "replace is refused one byte short");
    check(memcmp(&store, &expected, sizeof store) == 0,
          "these refusals change nothing");

    sehmelir_replace(store.lent, whole, 0, 0, 0, 5);
    check_reply(sehmelir_replace(store.lent, whole, 1, 20, 0, 5), SEHMELIR_DONE,
                OUTLINE, 0, "replace back to the first path");
    put_outline(expected.lent);
    check(memcmp(&store, &expected, sizeof store) == 0,
          "the outline is again what keep gave, and nothing else changed");
}

/* Point numbers: of edition 2 what stands there, of edition 1 zeros. */
static void check_numbers(void) {
    struct bytes store, same;
    fill(&store, sizeof store);
    put_outline(store.lent);
    put_word(store.lent + 32, 411);
    put_word(store.lent + 52, -1);
    same = store;
    uint32_t out[5] = {7, 7, 7, 7, 7};

    check_reply(sehmelir_numbers(store.lent, OUTLINE, out + 1, 1),
                SEHMELIR_NO_ROOM, 2, 0, "numbers are refused one short");
    check_reply(sehmelir_numbers(store.lent, OUTLINE - 1, out + 1, 3),
                SEHMELIR_NOT_OUTLINE, 0, 0, "numbers of a store one byte short");
    check(out[0] == 7 && out[1] == 7 && out[2] == 7 && out[3] == 7,
          "these refusals change nothing");
    check_reply(sehmelir_numbers(store.lent, OUTLINE + SPARE, out + 1, 3),
                SEHMELIR_DONE, 2, 0, "two numbers are read");
    check(out[0] == 7 && out[1] == 411 && out[2] == 4294967295 &&
              out[3] == 7 && out[4] == 7,
          "they and nothing else are written");
    check(memcmp(&store, &same, sizeof store) == 0,
          "numbers leaves the store as it was");

    check_reply(sehmelir_replace(store.lent, OUTLINE, 1, 20, 0, 5),
                SEHMELIR_DONE, OUTLINE, 0, "a vertex is replaced by itself");
    check(memcmp(&store, &same, sizeof store) == 0, "and keeps its number");

    put_once(store.lent);
    same = store;
    check_reply(sehmelir_numbers(store.lent, ONCE, out + 1, 2), SEHMELIR_DONE,
                2, 0, "edition 1 is read");
    check(out[1] == 0 && out[2] == 0, "its numbers are 0");
    int32_t still[PATH];
    check_path(sehmelir_read(store.lent, ONCE, still, PATH), SEHMELIR_DONE, 2,
               2, "and so are its vertices");
    check(memcmp(still, path, sizeof path) == 0, "which are the path");
    check_reply(sehmelir_replace(store.lent, ONCE, 1, 20, 0, 5), SEHMELIR_DONE,
                ONCE, 0, "a vertex of edition 1 is replaced");
    check(memcmp(&store, &same, sizeof store) == 0,
          "and the outline stays of edition 1");
}

/* An outline of grade 1: read and explained as before, not replaced, and converted
 * to what the outline of edition 1 is at grade 2. */
static void check_retired(void) {
    struct bytes store, same;
    fill(&store, sizeof store);
    for (int index = 0; index < RETIRED / 4; index++)
        put_word(store.lent + 4 * index, retired[index]);
    same = store;
    int32_t still[PATH];
    check_path(sehmelir_read(store.lent, RETIRED, still, PATH), SEHMELIR_DONE, 2,
               1, "an outline of grade 1 is read");
    check(memcmp(still, path, sizeof path) == 0, "and gives its path");
    check_reply(sehmelir_replace(store.lent, RETIRED, 9, 0, 0, -1),
                SEHMELIR_GRADE, 1, 0, "and has no vertex replaced");
    store.lent[100] ^= 1;
    check_reply(sehmelir_replace(store.lent, RETIRED, 9, 0, 0, -1),
                SEHMELIR_NOT_SOUND, 100, 0, "unless it is not sound, first");
    store.lent[100] ^= 1;
    check_reply(sehmelir_convert(store.lent, ONCE, 1), SEHMELIR_GRADE, 1, 0,
                "nothing is converted to grade 1");
    check_reply(sehmelir_convert(store.lent, ONCE - 1, 2), SEHMELIR_NO_ROOM,
                ONCE, 0, "convert is refused one byte short");
    check_reply(sehmelir_convert(store.lent, RETIRED - 1, 9),
                SEHMELIR_NOT_OUTLINE, 0, 0, "convert of a store that is cut");
    check(memcmp(&store, &same, sizeof store) == 0, "it stays as it was");

    check_reply(sehmelir_convert(store.lent, OUTLINE + SPARE, 2), SEHMELIR_DONE,
                ONCE, 0, "it is converted to grade 2");
    put_once(same.lent);
    check(memcmp(&store, &same, sizeof store) == 0,
          "in its edition, and nothing else changed");
}

/* An outline of grade 3 converted to grade 2, where it is shorter; and a kerb. */
static void check_convert(void) {
    struct {
        uint8_t before[CANARIES];
        uint8_t lent[2 * OUTLINE];
        uint8_t after[CANARIES];
    } store, expected;
    fill(&store, sizeof store);
    uint64_t fine =
        sehmelir_keep(path, PATH, 3, store.lent, sizeof store.lent).number;
    expected = store;
    check(fine > OUTLINE && fine < sizeof store.lent,
          "the outline of grade 3 is longer");
    check_reply(sehmelir_convert(store.lent, sizeof store.lent, 2),
                SEHMELIR_DONE, OUTLINE, 0, "it is converted to grade 2");
    put_outline(expected.lent);
    memset(expected.lent + OUTLINE, 0, fine - OUTLINE);
    check(memcmp(&store, &expected, sizeof store) == 0,
          "zeros follow up to its old end, and no farther");

    static const int32_t straight[4] = {0, 0, 20, 0};
    uint8_t kerb[SEHMELIR_KERB_BYTES(2, 4)], other[sizeof kerb];
    sehmelir_keep_kerb(straight, 4, 3, 5, SEHMELIR_ROUND, 0, kerb, sizeof kerb);
    sehmelir_keep_kerb(straight, 4, 8, 5, SEHMELIR_ROUND, 0, other,
                       sizeof other);
    check_reply(sehmelir_convert(kerb, sizeof kerb, 8), SEHMELIR_DONE,
                sizeof kerb, 0, "a kerb is converted");
    check(memcmp(kerb, other, sizeof kerb) == 0, "to what is kept at that grade");
}

/* How far a vertex of a path reaches that is kept in a store. */
static void check_reach_of(const int32_t *numbers, size_t count, size_t index,
                           uint64_t reached, const char *what) {
    static uint8_t store[4096];
    sehmelir_keep(numbers, count, 2, store, sizeof store);
    check_reply(sehmelir_reach(store, sizeof store, index), SEHMELIR_DONE,
                reached, 0, what);
}

static void check_reach(void) {
    struct bytes store, same;
    fill(&store, sizeof store);
    put_outline(store.lent);
    same = store;

    check_reply(sehmelir_reach(store.lent, OUTLINE + SPARE, 0), SEHMELIR_DONE,
                2, 0, "reach of the first of two vertices");
    check_reply(sehmelir_reach(store.lent, OUTLINE, 1), SEHMELIR_DONE, 2, 0,
                "reach of the last vertex");
    check_reply(sehmelir_reach(store.lent, OUTLINE, 2), SEHMELIR_NO_VERTEX, 2,
                0, "reach of a third vertex");
    check_reply(sehmelir_reach(store.lent, OUTLINE, SIZE_MAX),
                SEHMELIR_NO_VERTEX, SIZE_MAX, 0, "reach of the largest index");
    check_reply(sehmelir_reach(store.lent, OUTLINE - 1, 0),
                SEHMELIR_NOT_OUTLINE, 0, 0, "reach in a store one byte short");
    check(memcmp(&store, &same, sizeof store) == 0,
          "reach leaves the store as it was");

    static const int32_t drawn[12] = {0, 0, 5, 20, 0, 5, 40, 0, 5, 60, 0, 5};
    check_reach_of(drawn, 12, 1, 3, "reach past a drawn step");
    static const int32_t broken[9] = {0, 0, 5, 20, 0, 1, 20, 0, 1};
    check_reach_of(broken, 9, 0, 2, "reach past a broken step");
    static const int32_t gap[12] = {0, 0, 5, 20, 0, 1, 40, 0, 1, 60, 0, 5};
    check_reach_of(gap, 12, 0, 3, "reach over a thin step");
    check_reach_of(gap, 9, 0, 3, "reach where only a thin step follows");
}

static void check_reason(struct sehmelir_reason given, uint32_t reply,
                         uint64_t number, const size_t why[5],
                         const char *what) {
    struct sehmelir_reply front = {given.reply, 0, given.number};
    check_reply(front, reply, number, 0, what);
    if (given.reason != why[0] || given.vertex != why[1] ||
        given.place != why[2])
        check(false, "  with its reason, vertex and place");
    if (given.start_exact != why[3] || given.end_exact != why[4])
        check(false, "  and with which of its ends are exact");
}

/* beside a refusal */
static const size_t unnamed[5] = {0, 0, 0, 0, 0};

static void check_explain(void) {
    static const size_t whys[EDGES][5] = {
        {SEHMELIR_LEFT_SIDE, 1, 0, 1, 1}, {SEHMELIR_RIGHT_SIDE, 1, 0, 1, 1},
        {SEHMELIR_START_CAP, 1, 0, 0, 0}, {SEHMELIR_START_CAP, 1, 1, 0, 0},
        {SEHMELIR_START_CAP, 1, 2, 0, 0}, {SEHMELIR_START_CAP, 1, 3, 0, 0},
        {SEHMELIR_START_CAP, 1, 4, 0, 0}, {SEHMELIR_START_CAP, 1, 5, 0, 0},
        {SEHMELIR_START_CAP, 1, 6, 0, 0}, {SEHMELIR_END_CAP, 2, 0, 0, 0},
        {SEHMELIR_END_CAP, 2, 1, 0, 0},   {SEHMELIR_END_CAP, 2, 2, 0, 0},
        {SEHMELIR_END_CAP, 2, 3, 0, 0},   {SEHMELIR_END_CAP, 2, 4, 0, 0},
        {SEHMELIR_END_CAP, 2, 5, 0, 0},   {SEHMELIR_END_CAP, 2, 6, 0, 0},
    };
    struct bytes store, same;
    fill(&store, sizeof store);
    put_outline(store.lent);
    same = store;

    for (size_t edge = 0; edge < EDGES; edge++)
        check_reason(sehmelir_explain(store.lent, OUTLINE + SPARE, edge),
                     SEHMELIR_DONE, edge, whys[edge], "an edge is explained");
    check_reason(sehmelir_explain(store.lent, OUTLINE, EDGES),
                 SEHMELIR_NO_EDGE, EDGES, unnamed, "there is no seventeenth edge");
    check_reason(sehmelir_explain(store.lent, OUTLINE, SIZE_MAX),
                 SEHMELIR_NO_EDGE, SIZE_MAX, unnamed,
                 "nor one of the largest number");
    check_reason(sehmelir_explain(store.lent, OUTLINE - 1, 0),
                 SEHMELIR_NOT_OUTLINE, 0, unnamed,
                 "explain in a store one byte short");

    size_t out[CANARIES + 5 * EDGES + CANARIES];
    size_t expected[CANARIES + 5 * EDGES + CANARIES];
    fill(out, sizeof out);
    memcpy(expected, out, sizeof out);
    check_reply(sehmelir_list(store.lent, OUTLINE, out + CANARIES, 0),
                SEHMELIR_NO_ROOM, EDGES, 0, "a list without room");
    check_reply(
        sehmelir_list(store.lent, OUTLINE, out + CANARIES, 5 * EDGES - 1),
        SEHMELIR_NO_ROOM, EDGES, 0, "a list one number short");
    check(memcmp(out, expected, sizeof out) == 0,
          "these refusals change nothing");
    check_reply(sehmelir_list(store.lent, OUTLINE, out + CANARIES, 5 * EDGES),
                SEHMELIR_DONE, EDGES, 0, "all edges are listed");
    check_reply(
        sehmelir_list(store.lent, OUTLINE, out + CANARIES, 5 * EDGES + 2),
        SEHMELIR_DONE, EDGES, 0, "and again, with room to spare");
    memcpy(expected + CANARIES, whys, sizeof whys);
    check(memcmp(out, expected, sizeof out) == 0,
          "each with its reason, and nothing else changed");
    check(memcmp(&store, &same, sizeof store) == 0,
          "the store is as it was");

    /* the radius of 0 at the end is exact, the contacts at the start are not */
    static const int32_t point[6] = {0, 0, 5, 7, 2, 0};
    static const size_t left[5] = {SEHMELIR_LEFT_SIDE, 1, 0, 1, 0};
    static const size_t right[5] = {SEHMELIR_RIGHT_SIDE, 1, 0, 0, 1};
    uint8_t kept[1024];
    size_t bytes = sehmelir_keep(point, 6, 2, kept, sizeof kept).number;
    check_reason(sehmelir_explain(kept, bytes, 0), SEHMELIR_DONE, 0, left,
                 "a left side runs to the first vertex");
    check_reason(sehmelir_explain(kept, bytes, 1), SEHMELIR_DONE, 1, right,
                 "a right side runs from it");
}

/* The outline with one word changed: the calls over a store refuse it alike. */
static void check_damaged(int place, int32_t word, uint32_t reply,
                          uint64_t number, const char *what) {
    struct bytes store, damaged;
    struct numbers out, same;
    fill(&store, sizeof store);
    put_outline(store.lent);
    put_word(store.lent + 4 * place, word);
    damaged = store;
    fill(&out, sizeof out);
    same = out;

    check_path(sehmelir_read(store.lent, OUTLINE, out.lent, PATH), reply,
               number, 0, what);
    check_reply(sehmelir_replace(store.lent, OUTLINE, 0, 0, 0, 1), reply,
                number, 0, "  and replace refuses it alike");
    check_reply(sehmelir_reach(store.lent, OUTLINE, 9), reply, number, 0,
                "  and so does reach");
    uint32_t word_out = 7;
    check_reply(sehmelir_numbers(store.lent, OUTLINE, &word_out, 1), reply,
                number, 0, "  and numbers");
    check_reason(sehmelir_explain(store.lent, OUTLINE, 99), reply, number,
                 unnamed, "  and explain");
    size_t none = 0;
    check_reply(sehmelir_list(store.lent, OUTLINE, &none, 0), reply, number, 0,
                "  and list");
    check(memcmp(&store, &damaged, sizeof store) == 0 &&
              memcmp(&out, &same, sizeof out) == 0 && word_out == 7,
          "  and nothing is changed");
}

static void check_damage(void) {
    check_damaged(0, 3, SEHMELIR_NOT_OUTLINE, 0, "read of edition 3");
    check_damaged(0, 1, SEHMELIR_NOT_SOUND, 16, "read of edition 2 as 1");
    check_damaged(1, 2, SEHMELIR_KIND, 2, "read of kind 2");
    check_damaged(2, 9, SEHMELIR_GRADE, 9, "read of grade 9");
    check_damaged(3, 4097, SEHMELIR_TOO_MANY, 4097, "read of 4,097 vertices");
    check_damaged(4, 17, SEHMELIR_NOT_OUTLINE, 0, "read of one edge too many");
    check_damaged(10, -268435457, SEHMELIR_OUTSIDE, 1,
                  "read of a vertex outside the limits");
    check_damaged(4, 15, SEHMELIR_NOT_SOUND, 16, "read of one edge too few");
    check_damaged(14, 7, SEHMELIR_NOT_SOUND, 56, "read of a wrong edge count");
    check_damaged(79, 5 + 256, SEHMELIR_NOT_SOUND, 317,
                  "read of a wrong last edge");
}

/* A kerb of two points, its edges and its words before them. */
static const int32_t line[4] = {0, 0, 20, 0};

static const int32_t sides[16] = {20, 5, 0, 5,  0,  -5, 20, -5,
                                  0,  5, 0, -5, 20, -5, 20, 5};

static const int32_t kerb_words[15] = {1, 1, 3,  2, 4, 5, 1, 0,
                                       0, 0, 20, 0, 2, 0, 2};

static void check_draw_kerb(void) {
    struct numbers out, expected;
    fill(&out, sizeof out);
    expected = out;
    check_reply(sehmelir_draw_kerb(line, 3, 3, 5, 1, 0, out.lent, 16),
                SEHMELIR_UNEVEN, 3, 0, "a kerb of three numbers");
    check_reply(sehmelir_draw_kerb(line, 4, 9, 268435457, 2, 2, out.lent, 16),
                SEHMELIR_GRADE, 9, 0, "a kerb at grade 9");
    check_reply(sehmelir_draw_kerb(line, 4, 3, 268435457, 2, 2, out.lent, 16),
                SEHMELIR_STYLE_WORD, 5, 0, "a kerb's radius past its range");
    check_reply(sehmelir_draw_kerb(line, 4, 3, 5, 2, 2, out.lent, 16),
                SEHMELIR_STYLE_WORD, 6, 0, "a kerb's join past its range");
    check_reply(sehmelir_draw_kerb(line, 4, 3, 5, 1, 2, out.lent, 16),
                SEHMELIR_STYLE_WORD, 7, 0, "a kerb's closed past its range");
    check_reply(sehmelir_draw_kerb(line, 4, 3, 1, 1, 1, out.lent, 16),
                SEHMELIR_WITHOUT_EDGES, 2, 0, "a kerb without edges");
    check_reply(sehmelir_draw_kerb(line, 4, 3, 5, 1, 0, out.lent, 15),
                SEHMELIR_NO_ROOM, 4, 0, "a kerb one number short");
    check(memcmp(&out, &expected, sizeof out) == 0,
          "these refusals change nothing");
    check_reply(sehmelir_draw_kerb(line, 4, 3, 5, SEHMELIR_ROUND, 0, out.lent,
                                   NUMBERS + SPARE),
                SEHMELIR_DONE, 4, 0, "a kerb of four edges");
    memcpy(expected.lent, sides, sizeof sides);
    check(memcmp(&out, &expected, sizeof out) == 0,
          "it writes the edges and nothing else");
}

static void check_keep_kerb(void) {
    struct bytes store, expected;
    struct numbers out, same;
    fill(&store, sizeof store);
    expected = store;
    size_t bytes = SEHMELIR_KERB_BYTES(2, 4);
    check(bytes == 124, "the header tells a kerb's bytes");
    check_reply(sehmelir_keep_kerb(line, 4, 3, 5, 1, 0, store.lent, 123),
                SEHMELIR_NO_ROOM, 124, 0, "a kept kerb one byte short");
    check(memcmp(&store, &expected, sizeof store) == 0,
          "that refusal changes nothing");
    check_reply(sehmelir_keep_kerb(line, 4, 3, 5, 1, 0, store.lent,
                                   OUTLINE + SPARE),
                SEHMELIR_DONE, 124, 0, "a kept kerb of 124 bytes");
    for (int index = 0; index < 15; index++)
        put_word(expected.lent + 4 * index, kerb_words[index]);
    for (int index = 0; index < 16; index++)
        put_word(expected.lent + 60 + 4 * index, sides[index]);
    check(memcmp(&store, &expected, sizeof store) == 0,
          "it writes the outline and nothing else");

    fill(&out, sizeof out);
    same = out;
    struct sehmelir_path read = sehmelir_read(store.lent, 124, out.lent, 3);
    check(read.reply == SEHMELIR_NO_ROOM && read.number == 2 &&
              read.grade == 0 && read.kind == 0 && read.radius == 0 &&
              read.join == 0 && read.closed == 0,
          "a kerb's reading one number short");
    read = sehmelir_read(store.lent, OUTLINE + SPARE, out.lent, 5);
    check(read.reply == SEHMELIR_DONE && read.number == 2 &&
              read.grade == 3 && read.kind == 1 && read.radius == 5 &&
              read.join == SEHMELIR_ROUND && read.closed == 0,
          "a kerb's reading tells its style");
    memcpy(same.lent, line, sizeof line);
    check(memcmp(&out, &same, sizeof out) == 0,
          "it writes the points and nothing else");
    check_reply(sehmelir_replace(store.lent, 124, 9, 0, 0, 5),
                SEHMELIR_OTHER_KIND, 1, 0, "a kerb's vertex is not replaced");
    check_reply(sehmelir_reach(store.lent, 124, 9), SEHMELIR_OTHER_KIND, 1, 0,
                "and does not reach");
    check_reason(sehmelir_explain(store.lent, 124, 99), SEHMELIR_OTHER_KIND, 1,
                 unnamed, "a kerb's edge is not explained");
    size_t none = 0;
    check_reply(sehmelir_list(store.lent, 124, &none, 0), SEHMELIR_OTHER_KIND,
                1, 0, "nor are its edges listed");
    check(memcmp(&store, &expected, sizeof store) == 0,
          "the store is as it was");
}

static void check_taken(struct sehmelir_taken given, uint32_t reason,
                        int32_t whole, const char *what) {
    bool same = given.reason == reason && given.whole == whole;
    check(same, what);
    if (!same)
        printf("  reason %lu whole %ld\n", (unsigned long)given.reason,
               (long)given.whole);
}

static void check_take(void) {
    check_taken(sehmelir_take_coordinate(-1500.0f), SEHMELIR_TAKEN, -1500,
                "a coordinate is taken");
    check_taken(sehmelir_take_coordinate(-0.0f), SEHMELIR_TAKEN, 0,
                "minus zero counts as zero");
    check_taken(sehmelir_take_coordinate(268435456.0f), SEHMELIR_TAKEN,
                268435456, "the limit is taken");
    check_taken(sehmelir_take_coordinate(268435488.0f), SEHMELIR_TOO_LARGE, 0,
                "the float after it is too large");
    check_taken(sehmelir_take_coordinate(NAN), SEHMELIR_NOT_A_NUMBER, 0,
                "NaN is not a number");
    check_taken(sehmelir_take_coordinate(-INFINITY), SEHMELIR_INFINITE, 0,
                "minus infinity is infinite");
    check_taken(sehmelir_take_coordinate(8388607.5f), SEHMELIR_FRACTION, 0,
                "a half is a fraction");
    check_taken(sehmelir_take_width(650.0f), SEHMELIR_TAKEN, 325,
                "a width is taken as the radius");
    check_taken(sehmelir_take_width(536870912.0f), SEHMELIR_TAKEN, 268435456,
                "the widest width is taken");
    check_taken(sehmelir_take_width(-1e30f), SEHMELIR_TOO_LARGE, 0,
                "too large comes before negative");
    check_taken(sehmelir_take_width(-3.0f), SEHMELIR_NEGATIVE_WIDTH, 0,
                "negative comes before odd");
    check_taken(sehmelir_take_width(3.0f), SEHMELIR_ODD_WIDTH, 0,
                "an odd width is not taken");
}

/* Lent floats, canaries on both sides. */
struct floats {
    float before[CANARIES];
    float lent[PATH + SPARE];
    float after[CANARIES];
};

static const float old[PATH] = {-0.0f, 0.0f, 10.0f, 20.0f, 0.0f, 10.0f};

static void check_import(void) {
    struct numbers out, expected;
    fill(&out, sizeof out);
    expected = out;

    check_reply(sehmelir_import(old, PATH - 1, out.lent, 0),
                SEHMELIR_UNEVEN, PATH - 1, 0, "import of five numbers");
    static const float many[3 * 4097] = {0.5f};
    check_reply(sehmelir_import(many, 3 * 4097, out.lent, 0), SEHMELIR_TOO_MANY,
                4097, 0, "import of 4,097 vertices");
    static const float odd[PATH] = {0, 0, 10, 20, 0, 7};
    check_reply(sehmelir_import(odd, PATH, out.lent, 0), SEHMELIR_NOT_TAKEN, 5,
                0, "import of an odd width");
    check_reply(sehmelir_import(old, PATH, out.lent, PATH - 1),
                SEHMELIR_NO_ROOM, 2, 0, "import is refused one number short");
    check(memcmp(&out, &expected, sizeof out) == 0,
          "import's refusals change nothing");

    check_reply(sehmelir_import(old, PATH, out.lent, NUMBERS + SPARE),
                SEHMELIR_DONE, 2, 0, "import gives two vertices");
    memcpy(expected.lent, path, sizeof path);
    check(memcmp(&out, &expected, sizeof out) == 0,
          "import writes the path and nothing else");
}

static void check_export(void) {
    struct floats out, expected;
    fill(&out, sizeof out);
    expected = out;

    check_reply(sehmelir_export(path, PATH - 1, out.lent, 0),
                SEHMELIR_UNEVEN, PATH - 1, 0, "export of five numbers");
    static const int32_t many[3 * 4097] = {16777217};
    check_reply(sehmelir_export(many, 3 * 4097, out.lent, 0), SEHMELIR_TOO_MANY,
                4097, 0, "export of 4,097 vertices");
    static const int32_t inexact[PATH] = {0, 0, 5, 0, 16777217, -1};
    check_reply(sehmelir_export(inexact, PATH, out.lent, 0), SEHMELIR_NOT_TAKEN,
                4, 0, "export of a number that no float is");
    static const int32_t outside[3] = {268435488, 0, 5};
    check_reply(sehmelir_export(outside, 3, out.lent, 0), SEHMELIR_NOT_TAKEN, 0,
                0, "export of a number outside the limits");
    check_reply(sehmelir_export(path, PATH, out.lent, PATH - 1),
                SEHMELIR_NO_ROOM, 2, 0, "export is refused one float short");
    check(memcmp(&out, &expected, sizeof out) == 0,
          "export's refusals change nothing");

    check_reply(sehmelir_export(path, PATH, out.lent, PATH + SPARE),
                SEHMELIR_DONE, 2, 0, "export gives two vertices");
    memcpy(expected.lent, old, sizeof old);
    expected.lent[0] = 0.0f;
    check(memcmp(&out, &expected, sizeof out) == 0,
          "export writes the floats, zero for minus zero, and nothing else");
}

/* Room for the table of two entries, the outline twice, and a gap. */
enum { TABLE = SEHMELIR_TABLE_BYTES(2), CHUNK = TABLE + 2 * OUTLINE + 8 };

/* A lent chunk, canaries on both sides. */
struct chunk {
    uint8_t before[CANARIES];
    uint8_t lent[CHUNK];
    uint8_t after[CANARIES];
};

static void check_part(struct sehmelir_part given, uint32_t reply,
                       uint64_t number, uint64_t offset, uint64_t length,
                       const char *what) {
    bool same = given.reply == reply && given.zero == 0 &&
                given.number == number && given.offset == offset &&
                given.length == length;
    check(same, what);
    if (!same)
        printf("  reply %lu zero %lu number %llu offset %llu length %llu\n",
               (unsigned long)given.reply, (unsigned long)given.zero,
               (unsigned long long)given.number,
               (unsigned long long)given.offset,
               (unsigned long long)given.length);
}

/* An entry of the table, by hand. */
static void put_entry(struct chunk *chunk, size_t place, uint32_t key,
                      uint32_t offset, uint32_t length) {
    uint8_t *at = chunk->lent + SEHMELIR_TABLE_BYTES(place);
    put_word(at, (int32_t)key);
    put_word(at + 4, (int32_t)offset);
    put_word(at + 8, (int32_t)length);
}

static void check_chunk_refusals(void) {
    struct chunk chunk, expected;
    uint8_t none = 0;
    fill(&chunk, sizeof chunk);
    expected = chunk;

    check_reply(sehmelir_chunk_make(chunk.lent, CHUNK, 1025), SEHMELIR_DAMAGED,
                0, 0, "a chunk of 1,025 entries");
    check_reply(sehmelir_chunk_make(chunk.lent, TABLE - 1, 2), SEHMELIR_DAMAGED,
                0, 0, "a table that runs past the chunk");
    memset(chunk.lent, 255, 4);
    memset(expected.lent, 255, 4);
    check_reply(sehmelir_chunk_add(chunk.lent, CHUNK, 7, &none, 0),
                SEHMELIR_DAMAGED, 0, 0, "adding to a damaged table");
    check_part(sehmelir_chunk_find(chunk.lent, CHUNK, 7), SEHMELIR_DAMAGED, 0,
               0, 0, "finding in a damaged table");
    check_reply(sehmelir_chunk_remove(chunk.lent, CHUNK, 7), SEHMELIR_DAMAGED,
                0, 0, "removing from a damaged table");
    check_reply(sehmelir_chunk_compact(chunk.lent, 3), SEHMELIR_DAMAGED, 0, 0,
                "compacting three bytes");
    check(memcmp(&chunk, &expected, sizeof chunk) == 0,
          "refusals of a damaged table change nothing");
}

static void check_chunk(void) {
    struct chunk chunk, expected;
    uint8_t store[OUTLINE];
    put_outline(store);
    fill(&chunk, sizeof chunk);
    expected = chunk;

    check_reply(sehmelir_chunk_make(chunk.lent, CHUNK, 2), SEHMELIR_DONE, TABLE,
                0, "a chunk of two entries is made");
    memset(expected.lent, 0, TABLE);
    expected.lent[0] = 2;
    check(memcmp(&chunk, &expected, sizeof chunk) == 0,
          "making writes the table and nothing else");

    check_reply(sehmelir_chunk_add(chunk.lent, CHUNK, 7, store, OUTLINE - 1),
                SEHMELIR_NOT_OUTLINE, 0, 0, "a cut outline is not added");
    check_reply(sehmelir_chunk_add(chunk.lent, CHUNK, 7, store, OUTLINE),
                SEHMELIR_DONE, OUTLINE, 0, "an outline is added");
    put_entry(&expected, 0, 7, TABLE, OUTLINE);
    memcpy(expected.lent + TABLE, store, OUTLINE);
    check_reply(sehmelir_chunk_add(chunk.lent, CHUNK, 7, store, OUTLINE),
                SEHMELIR_KEY_THERE, 7, 0, "no key is added twice");
    check_reply(sehmelir_chunk_add(chunk.lent, CHUNK - 9, 8, store, OUTLINE),
                SEHMELIR_NO_ROOM, OUTLINE, 0, "adding is refused one byte short");
    check_reply(sehmelir_chunk_add(chunk.lent, CHUNK, 8, store, OUTLINE),
                SEHMELIR_DONE, OUTLINE, 0, "a second one is added");
    put_entry(&expected, 1, 8, TABLE + OUTLINE, OUTLINE);
    memcpy(expected.lent + TABLE + OUTLINE, store, OUTLINE);
    check_reply(sehmelir_chunk_add(chunk.lent, CHUNK, 9, store, OUTLINE),
                SEHMELIR_TABLE_FULL, 2, 0, "a full table takes no third");
    check(memcmp(&chunk, &expected, sizeof chunk) == 0,
          "adding writes entry and outline and nothing else");

    check_part(sehmelir_chunk_find(chunk.lent, CHUNK, 8), SEHMELIR_DONE, OUTLINE,
               TABLE + OUTLINE, OUTLINE, "the second is found");
    check_part(sehmelir_chunk_find(chunk.lent, CHUNK, 9), SEHMELIR_KEY_MISSING,
               9, 0, 0, "a key that is not there is not found");
    check_reply(sehmelir_chunk_remove(chunk.lent, CHUNK, 7), SEHMELIR_DONE,
                OUTLINE, 0, "the first is removed");
    put_entry(&expected, 0, 0, 0, 0);
    memset(expected.lent + TABLE, 0, OUTLINE);
    check_reply(sehmelir_chunk_remove(chunk.lent, CHUNK, 7),
                SEHMELIR_KEY_MISSING, 7, 0, "it is not removed twice");
    check(memcmp(&chunk, &expected, sizeof chunk) == 0,
          "removing zeroes entry and outline and nothing else");

    check_reply(sehmelir_chunk_compact(chunk.lent, CHUNK), SEHMELIR_DONE,
                TABLE + OUTLINE, 0, "the chunk is compacted");
    put_entry(&expected, 1, 8, TABLE, OUTLINE);
    memcpy(expected.lent + TABLE, store, OUTLINE);
    memset(expected.lent + TABLE + OUTLINE, 0, CHUNK - TABLE - OUTLINE);
    check(memcmp(&chunk, &expected, sizeof chunk) == 0,
          "compacting moves the outline and zeroes the gap");
}

/* The outline of edition 2 and that of edition 1 side by side: their bodies. */
static void check_side(void) {
    struct bytes before, after, same;
    fill(&before, sizeof before);
    put_outline(before.lent);
    same = before;
    fill(&after, sizeof after);
    put_once(after.lent);

    check_part(sehmelir_side(before.lent, OUTLINE, after.lent, ONCE, false, 0),
               SEHMELIR_DONE, 0, POINTS, 0, "the first body is empty");
    check_part(sehmelir_side(before.lent, OUTLINE, after.lent, ONCE, false, 1),
               SEHMELIR_DONE, 9, POINTS, 144, "the second body before");
    check_part(sehmelir_side(before.lent, OUTLINE, after.lent, ONCE, true, 1),
               SEHMELIR_DONE, 9, ONCE - 256, 144, "the second body after");
    check(memcmp(before.lent + POINTS, after.lent + ONCE - 256, 144) == 0,
          "they hold the same edges");
    check_part(sehmelir_side(before.lent, OUTLINE + SPARE, after.lent, ONCE,
                             false, 2),
               SEHMELIR_DONE, 7, POINTS + 144, 112, "the closing body");
    check_part(sehmelir_side(before.lent, OUTLINE, after.lent, ONCE, true, 3),
               SEHMELIR_NO_VERTEX, 3, 0, 0, "a body after the closing one");
    check_part(sehmelir_side(before.lent, OUTLINE, after.lent, ONCE - 1, false,
                             3),
               SEHMELIR_NOT_OUTLINE, 0, 0, 0, "a later outline that is cut");
    before.lent[70] ^= 1;
    check_part(sehmelir_side(before.lent, OUTLINE, after.lent, ONCE - 1, true,
                             3),
               SEHMELIR_NOT_SOUND, 70, 0, 0, "an earlier one that is not sound");
    before.lent[70] ^= 1;

    static const int32_t line[4] = {0, 0, 20, 0};
    uint8_t kerb[SEHMELIR_KERB_BYTES(2, 4)];
    check_reply(sehmelir_keep_kerb(line, 4, 2, 5, SEHMELIR_BEVEL, 0, kerb,
                                   sizeof kerb),
                SEHMELIR_DONE, sizeof kerb, 0, "a kerb beside it");
    check_part(sehmelir_side(before.lent, OUTLINE, kerb, sizeof kerb, false, 3),
               SEHMELIR_OTHER_KIND, 1, 0, 0, "has no bodies of vertices");
    check(memcmp(&before, &same, sizeof before) == 0,
          "both are left as they were");
}

static void check_salvaged(struct sehmelir_salvaged given, uint32_t reply,
                           uint64_t number, uint64_t entries,
                           const char *what) {
    bool same = given.reply == reply && given.zero == 0 &&
                given.number == number && given.entries == entries;
    check(same, what);
    if (!same)
        printf("  reply %lu number %llu entries %llu\n",
               (unsigned long)given.reply, (unsigned long long)given.number,
               (unsigned long long)given.entries);
}

/* A sound outline, and the same with other counts, another edge and total. */
static void check_salvage(void) {
    struct bytes store, out, same, expected;
    uint32_t list[9], notes[9];
    fill(&store, sizeof store);
    put_outline(store.lent);
    put_word(store.lent + 32, 411);
    same = store;
    fill(&out, sizeof out);
    expected = out;
    fill(list, sizeof list);
    memcpy(notes, list, sizeof notes);

    check_salvaged(sehmelir_salvage(store.lent, OUTLINE, out.lent, OUTLINE - 1,
                                    list + 1, 7),
                   SEHMELIR_NO_ROOM, OUTLINE, 0,
                   "salvage is refused one byte short");
    check_salvaged(sehmelir_salvage(store.lent, POINTS - 1, out.lent, OUTLINE,
                                    list + 1, 7),
                   SEHMELIR_NOT_OUTLINE, 0, 0,
                   "salvage of a store that ends before its closing count");
    put_word(store.lent + 4, 1);
    check_salvaged(sehmelir_salvage(store.lent, POINTS, out.lent, OUTLINE,
                                    list + 1, 7),
                   SEHMELIR_OTHER_KIND, 1, 0, "salvage of a kerb");
    put_word(store.lent + 4, 2);
    check_salvaged(sehmelir_salvage(store.lent, POINTS, out.lent, OUTLINE,
                                    list + 1, 7),
                   SEHMELIR_KIND, 2, 0, "salvage of kind 2");
    put_word(store.lent + 4, 0);
    put_word(store.lent + 8, 9);
    check_salvaged(sehmelir_salvage(store.lent, POINTS, out.lent, OUTLINE,
                                    list + 1, 7),
                   SEHMELIR_GRADE, 9, 0, "salvage at grade 9");
    put_word(store.lent + 8, words[2]);
    put_word(store.lent + 48, -1);
    check_salvaged(sehmelir_salvage(store.lent, OUTLINE, out.lent, OUTLINE,
                                    list + 1, 7),
                   SEHMELIR_OUTSIDE, 1, 0, "salvage of a vertex outside");
    store = same;

    /* count and edges of the closing body, and the total: two entries */
    put_word(store.lent + 16, 99);
    put_word(store.lent + 60, 3);
    put_word(store.lent + POINTS + 16 * words[14], 7);
    struct bytes spoiled = store;
    check_salvaged(sehmelir_salvage(store.lent, OUTLINE, out.lent, OUTLINE,
                                    list + 1, 3),
                   SEHMELIR_NO_LIST_ROOM, 2, 0,
                   "salvage is refused one word short");
    check(memcmp(&out, &expected, sizeof out) == 0 &&
              memcmp(list, notes, sizeof list) == 0,
          "salvage's refusals change nothing");
    check_salvaged(sehmelir_salvage(store.lent, OUTLINE + SPARE, out.lent,
                                    OUTLINE + SPARE, list + 1, 7),
                   SEHMELIR_DONE, OUTLINE, 2, "a spoiled outline is salvaged");
    memcpy(expected.lent, same.lent, OUTLINE);
    check(memcmp(&out, &expected, sizeof out) == 0,
          "the sound outline and nothing else is written");
    notes[1] = 2, notes[2] = SEHMELIR_BOTH_DIFFER;
    notes[3] = 3, notes[4] = SEHMELIR_TOTAL_DIFFERS;
    check(memcmp(list, notes, sizeof list) == 0,
          "the list has the closing body and the total, and nothing else");
    check(memcmp(&store, &spoiled, sizeof store) == 0,
          "salvage leaves the store as it was");

    store = same;
    check_salvaged(sehmelir_salvage(store.lent, OUTLINE, out.lent, OUTLINE,
                                    list, 0),
                   SEHMELIR_DONE, OUTLINE, 0,
                   "a sound outline needs no room for a list");
    check(memcmp(&out, &expected, sizeof out) == 0 &&
              memcmp(list, notes, sizeof list) == 0,
          "and comes through unchanged");
}

int main(void) {
    setvbuf(stdout, NULL, _IOLBF, BUFSIZ);
    check(sizeof(struct sehmelir_reply) == 16 &&
              offsetof(struct sehmelir_reply, grade) == 4 &&
              offsetof(struct sehmelir_reply, number) == 8,
          "a reply is two 32-bit numbers and a 64-bit one");
    check_draw();
    check_keep();
    check_records();
    check_read();
    check_replace();
    check_numbers();
    check_retired();
    check_convert();
    check_reach();
    check(sizeof(struct sehmelir_reason) == 40 &&
              offsetof(struct sehmelir_reason, reason) == 4 &&
              offsetof(struct sehmelir_reason, number) == 8 &&
              offsetof(struct sehmelir_reason, vertex) == 16 &&
              offsetof(struct sehmelir_reason, place) == 24 &&
              offsetof(struct sehmelir_reason, start_exact) == 32 &&
              offsetof(struct sehmelir_reason, end_exact) == 36,
          "a reason is two 32-bit numbers, three 64-bit and two 32-bit ones");
    check_explain();
    check_damage();
    check_draw_kerb();
    check_keep_kerb();
    check(sizeof(struct sehmelir_taken) == 8 &&
              offsetof(struct sehmelir_taken, whole) == 4,
          "what a float is taken for is two 32-bit numbers");
    check_take();
    check_import();
    check_export();
    check(sizeof(struct sehmelir_part) == 32 &&
              offsetof(struct sehmelir_part, number) == 8 &&
              offsetof(struct sehmelir_part, offset) == 16 &&
              offsetof(struct sehmelir_part, length) == 24,
          "a part is two 32-bit numbers and three 64-bit ones");
    check_chunk_refusals();
    check_chunk();
    check_side();
    check(sizeof(struct sehmelir_salvaged) == 24 &&
              offsetof(struct sehmelir_salvaged, number) == 8 &&
              offsetof(struct sehmelir_salvaged, entries) == 16,
          "what is salvaged is two 32-bit numbers and two 64-bit ones");
    check_salvage();
    puts(failed ? "tests/c: FAILED" : "tests/c: all checks hold");
    return failed;
}
