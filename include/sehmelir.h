/*
 * Sehmelir: the boundary of a line that has a radius at each of its points.
 *
 * Link with libsehmelir.a, which `tools/archive` writes to target/archive/ for
 * Linux on x86-64 (x86-64-v2, as processors are since 2009). Of other libraries
 * it needs only C's memcpy and memset.
 *
 * A PATH is lent as 32-bit numbers, three for each vertex: x, y, radius.
 * x and y go from -268,435,456 to 268,435,456, the radius from 0 to
 * 268,435,456, and there are 0 to 4,096 vertices. The GRADE, 2 to 8, says how
 * finely arcs are drawn; 8 is the finest. Grade 1 is retired: outlines of it are
 * read, explained and listed as before, and nothing is drawn, kept or replaced
 * at it any more; sehmelir_convert redraws them.
 *
 * A KERB is a line of one width, lent as 32-bit numbers, two for each vertex:
 * x, y. Beside them stand its STYLE: radius, from 0 to 268,435,456; join, 0 for
 * bevelled and 1 for round corners; closed, 1 if it goes back to its first
 * point, else 0. Vertices that follow one another and are equal count as one.
 *
 * EDGES are written as 32-bit numbers, four for each edge: x and y of its
 * start, x and y of its end.
 *
 * An OUTLINE is a path or a kerb, its grade and its edges kept as bytes. Of a
 * path it has 24 + 20 * vertices + 16 * edges of them, made of 32-bit
 * little-endian words:
 *
 *     2, 0, grade, vertices, edges                      edition 2, kind 0
 *     for each vertex: x, y, radius, point number, edges drawn on reaching it
 *     edges drawn at the end
 *     for each edge: x and y of its start, x and y of its end
 *
 * A POINT NUMBER is any 32-bit word: the vertex's number in the survey book, 0
 * where there is none. Edition 1, in which outlines were kept before, has no
 * point numbers and 24 + 16 * vertices + 16 * edges bytes; it is read as
 * before, and a vertex replaced in it leaves it of edition 1:
 *
 *     1, 0, grade, vertices, edges                      edition 1, kind 0
 *     for each vertex: x, y, radius, edges drawn on reaching it
 *     edges drawn at the end
 *     for each edge: x and y of its start, x and y of its end
 *
 * Of a kerb it has 44 + 8 * vertices + 16 * edges bytes:
 *
 *     1, 1, grade, vertices, edges, radius, join, closed  edition 1, kind 1
 *     for each vertex: x, y
 *     edges of the lines, of the corners, of the ends
 *     for each edge, in that order: x and y of its start, x and y of its end
 *
 * It is SOUND if it equals, byte for byte, what its own vertices, point numbers
 * and grade, and style, give in its edition. A STORE is memory that begins with
 * an outline; what stands after the outline is neither looked at nor, unless
 * the outline grows over it, changed.
 *
 * The OLDEST CHUNKS keep a vertex as three 32-bit floats: x, y and full width,
 * in millimetres. A coordinate is a whole number within the limits above, a
 * width an even whole number from 0 to 536,870,912, and the radius is half of
 * it. Minus zero counts as zero.
 *
 * Lent memory, for all calls:
 *
 * - Lengths count elements: int32_t in a path or in edges, uint32_t in point
 *   numbers or in a list of differences, float in the oldest chunks, size_t in a
 *   list of reasons, bytes in a store or a chunk. Of vertex records it is the
 *   records that are counted.
 * - A pointer is never null and is aligned for its type, even where the length
 *   is 0. Where there is nothing to lend, pass the address of any variable of
 *   the type, and 0:
 *
 *       int32_t none = 0;
 *       struct sehmelir_reply needed =
 *           sehmelir_draw(path, path_len, 2, &none, 0);
 *
 *   Room of length 0 is allowed, and is the way to ask how much is needed:
 *   reply 5 comes with the number.
 * - Two pieces of memory lent to one call must not overlap, but for the two that
 *   sehmelir_side only reads, and nothing else may write them, or read what the
 *   call writes, while it runs.
 * - After a refusal (any reply but 0) no lent memory has changed.
 * - After reply 0 the result stands at the front of the memory it was lent,
 *   and the memory past the result is as it was, but for the zeros after a
 *   replaced or converted outline that shrank (see sehmelir_replace). What the
 *   calls of a chunk leave in it is said with each.
 *
 * The calls allocate nothing, keep nothing between calls, and may run in
 * several threads at once. On the stack sehmelir_draw and sehmelir_draw_kerb
 * take up to 528 KiB, sehmelir_draw_records up to 608 KiB, sehmelir_keep,
 * sehmelir_keep_kerb, sehmelir_keep_records, sehmelir_read, sehmelir_numbers,
 * sehmelir_replace, sehmelir_convert, sehmelir_reach, sehmelir_side,
 * sehmelir_explain, sehmelir_list, sehmelir_salvage and sehmelir_chunk_add up to
 * 256 KiB, and sehmelir_chunk_find, sehmelir_chunk_remove and
 * sehmelir_chunk_compact up to 32 KiB, so a thread that calls them needs more
 * than that; the others take below 1 KiB.
 *
 * It is proved of each call that its reply and all lent memory afterwards are
 * what the rules give. The proof rests on memory being lent as said above.
 */
#ifndef SEHMELIR_H
#define SEHMELIR_H

#include <stdbool.h>
#include <stddef.h>
#include <stdint.h>

#ifdef __cplusplus
extern "C" {
#endif

/* The version of this header and of the archive that goes with it. */
#define SEHMELIR_VERSION "0.1.0"

/* The limits of a path, its vertices and its grade. */
#define SEHMELIR_MOST_VERTICES 4096
#define SEHMELIR_LEAST_COORDINATE (-268435456)
#define SEHMELIR_MOST_COORDINATE 268435456
#define SEHMELIR_MOST_RADIUS 268435456
#define SEHMELIR_LEAST_GRADE 2 /* of what is drawn; 1 of what is read */
#define SEHMELIR_MOST_GRADE 8

/* The bytes of stack that a call takes at most. */
#define SEHMELIR_STACK_BYTES (608 * 1024)

/* The bytes of an outline with so many vertices and edges, in edition 2. */
#define SEHMELIR_OUTLINE_BYTES(vertices, edges)                                \
    ((size_t)24 + (size_t)20 * (vertices) + (size_t)16 * (edges))

/* The bytes of an outline of edition 1. */
#define SEHMELIR_FIRST_EDITION_BYTES(vertices, edges)                          \
    ((size_t)24 + (size_t)16 * (vertices) + (size_t)16 * (edges))

/* The bytes of a kept kerb with so many vertices and edges. */
#define SEHMELIR_KERB_BYTES(vertices, edges)                                   \
    ((size_t)44 + (size_t)8 * (vertices) + (size_t)16 * (edges))

/* The joins of a kerb. */
#define SEHMELIR_BEVEL 0
#define SEHMELIR_ROUND 1

/* The replies, by number. Each call below says in which order it tests them. */
enum sehmelir_reply_number {
    SEHMELIR_DONE = 0,          /* done */
    SEHMELIR_UNEVEN = 1,        /* the numbers lent are no whole vertices */
    SEHMELIR_TOO_MANY = 2,      /* above 4,096 vertices */
    SEHMELIR_GRADE = 3,         /* the grade is not 2 to 8, or not 1 to 8
                                   where an outline is read */
    SEHMELIR_OUTSIDE = 4,       /* a vertex lies outside the limits */
    SEHMELIR_NO_ROOM = 5,       /* the result is longer than the room lent */
    SEHMELIR_NOT_OUTLINE = 6,   /* the store is too short, or its edition is
                                   not read */
    SEHMELIR_KIND = 7,          /* the outline's kind is neither 0 nor 1 */
    SEHMELIR_NOT_SOUND = 8,     /* the outline is not sound */
    SEHMELIR_NO_VERTEX = 9,     /* the outline has no vertex of that index */
    SEHMELIR_NO_EDGE = 10,      /* the outline has no edge of that number */
    SEHMELIR_STYLE_WORD = 11,   /* radius, join or closed is out of range */
    SEHMELIR_OTHER_KIND = 12,   /* the outline is not of the kind asked for */
    SEHMELIR_NOT_TAKEN = 13,    /* a number of the oldest chunks is not taken */
    SEHMELIR_DAMAGED = 14,      /* the chunk's table is damaged */
    SEHMELIR_KEY_THERE = 15,    /* the key is in the chunk already */
    SEHMELIR_KEY_MISSING = 16,  /* the key is not in the chunk */
    SEHMELIR_TABLE_FULL = 17,   /* all entries of the chunk are in use */
    SEHMELIR_WITHOUT_EDGES = 18, /* the path has vertices and no edges */
    SEHMELIR_NO_LIST_ROOM = 19  /* the list is longer than the room lent */
};

/* What a call answers. */
struct sehmelir_reply {
    uint32_t reply;  /* one of enum sehmelir_reply_number */
    uint32_t grade;  /* 0 */
    uint64_t number; /* what it means stands with each reply, below */
};

/* What sehmelir_read answers. After a refusal all but the first and the third
 * are 0. */
struct sehmelir_path {
    uint32_t reply;  /* one of enum sehmelir_reply_number */
    uint32_t grade;  /* the grade */
    uint64_t number; /* what it means stands with each reply, below */
    uint32_t kind;   /* 0, a path; 1, a kerb */
    uint32_t radius; /* of a kerb; 0 of a path, as the two below */
    uint32_t join;   /* SEHMELIR_BEVEL or SEHMELIR_ROUND */
    uint32_t closed; /* 1 or 0 */
};

/*
 * Draws the edges of a path into `out`.
 *
 * The first of these that applies is the reply:
 *
 *     1 SEHMELIR_UNEVEN       path_len is not a multiple of three
 *                             number: path_len
 *     3 SEHMELIR_GRADE        the grade is not 2 to 8
 *                             number: the grade
 *     2 SEHMELIR_TOO_MANY     there are above 4,096 vertices
 *                             number: the vertices
 *     4 SEHMELIR_OUTSIDE      a vertex lies outside the limits
 *                             number: the index of the first such vertex
 *    18 SEHMELIR_WITHOUT_EDGES
 *                             there is a vertex, and no edge: so it is where
 *                             every radius is 0 or 1
 *                             number: the vertices
 *     5 SEHMELIR_NO_ROOM      out_len is below four times the edges
 *                             number: the edges that there are
 *     0 SEHMELIR_DONE         the edges stand in `out`, four numbers each
 *                             number: the edges
 *
 * Takes up to 528 KiB of stack.
 */
struct sehmelir_reply sehmelir_draw(const int32_t *path, size_t path_len,
                                    uint32_t grade, int32_t *out,
                                    size_t out_len);

/*
 * Keeps a path, its grade and its edges as an outline of edition 2 in `out`.
 * Every point number is 0.
 *
 * The first of these that applies is the reply:
 *
 *     1 SEHMELIR_UNEVEN       path_len is not a multiple of three
 *                             number: path_len
 *     3 SEHMELIR_GRADE        the grade is not 2 to 8
 *                             number: the grade
 *     2 SEHMELIR_TOO_MANY     there are above 4,096 vertices
 *                             number: the vertices
 *     4 SEHMELIR_OUTSIDE      a vertex lies outside the limits
 *                             number: the index of the first such vertex
 *    18 SEHMELIR_WITHOUT_EDGES
 *                             there is a vertex, and no edge: so it is where
 *                             every radius is 0 or 1
 *                             number: the vertices
 *     5 SEHMELIR_NO_ROOM      out_len is below the outline's bytes
 *                             number: the bytes needed
 *     0 SEHMELIR_DONE         the outline stands in `out`
 *                             number: its bytes
 *
 * Takes up to 256 KiB of stack.
 */
struct sehmelir_reply sehmelir_keep(const int32_t *path, size_t path_len,
                                    uint32_t grade, uint8_t *out,
                                    size_t out_len);

/*
 * Draws the edges of a kerb into `out`: two for each line between vertices,
 * then those of the corners, then the two flat ends of an open kerb.
 *
 * The first of these that applies is the reply:
 *
 *     1 SEHMELIR_UNEVEN       points_len is odd
 *                             number: points_len
 *     3 SEHMELIR_GRADE        the grade is not 2 to 8
 *                             number: the grade
 *    11 SEHMELIR_STYLE_WORD   radius is above 268,435,456, or join or closed is
 *                             neither 0 nor 1
 *                             number: 5, 6 or 7 for the first such
 *     2 SEHMELIR_TOO_MANY     there are above 4,096 vertices
 *                             number: the vertices
 *     4 SEHMELIR_OUTSIDE      a vertex lies outside the limits
 *                             number: the index of the first such vertex
 *    18 SEHMELIR_WITHOUT_EDGES
 *                             there is a vertex, and no edge: so it is where
 *                             the radius is 0 or 1, or all vertices are equal
 *                             number: the vertices
 *     5 SEHMELIR_NO_ROOM      out_len is below four times the edges
 *                             number: the edges that there are
 *     0 SEHMELIR_DONE         the edges stand in `out`, four numbers each
 *                             number: the edges
 *
 * Takes up to 528 KiB of stack.
 */
struct sehmelir_reply sehmelir_draw_kerb(const int32_t *points,
                                         size_t points_len, uint32_t grade,
                                         uint32_t radius, uint32_t join,
                                         uint32_t closed, int32_t *out,
                                         size_t out_len);

/*
 * Keeps a kerb, its grade, its style and its edges as an outline in `out`.
 *
 * The first of these that applies is the reply:
 *
 *     1 SEHMELIR_UNEVEN       points_len is odd
 *                             number: points_len
 *     3 SEHMELIR_GRADE        the grade is not 2 to 8
 *                             number: the grade
 *    11 SEHMELIR_STYLE_WORD   radius is above 268,435,456, or join or closed is
 *                             neither 0 nor 1
 *                             number: 5, 6 or 7 for the first such
 *     2 SEHMELIR_TOO_MANY     there are above 4,096 vertices
 *                             number: the vertices
 *     4 SEHMELIR_OUTSIDE      a vertex lies outside the limits
 *                             number: the index of the first such vertex
 *    18 SEHMELIR_WITHOUT_EDGES
 *                             there is a vertex, and no edge: so it is where
 *                             the radius is 0 or 1, or all vertices are equal
 *                             number: the vertices
 *     5 SEHMELIR_NO_ROOM      out_len is below the outline's bytes
 *                             number: the bytes needed
 *     0 SEHMELIR_DONE         the outline stands in `out`
 *                             number: its bytes
 *
 * Takes up to 256 KiB of stack.
 */
struct sehmelir_reply sehmelir_keep_kerb(const int32_t *points,
                                         size_t points_len, uint32_t grade,
                                         uint32_t radius, uint32_t join,
                                         uint32_t closed, uint8_t *out,
                                         size_t out_len);

/*
 * Reads the vertices of a sound outline into `out`: three numbers each of a
 * path, x, y and radius, and two of a kerb, x and y. An outline without edges,
 * as they were kept once, still reads.
 *
 * The first of these that applies is the reply:
 *
 *     6 SEHMELIR_NOT_OUTLINE  store_len is below 24, or the edition is not 1
 *                             or 2
 *                             number: 0
 *     7 SEHMELIR_KIND         the kind is neither 0 nor 1
 *                             number: the kind
 *     6 SEHMELIR_NOT_OUTLINE  the kind is 1, and store_len is below 44 or
 *                             the edition is 2
 *                             number: 0
 *     3 SEHMELIR_GRADE        the grade in the store is not 1 to 8
 *                             number: that grade
 *    11 SEHMELIR_STYLE_WORD   of a kerb, radius, join or closed is out of range
 *                             number: the place of the first such word, 5, 6
 *                             or 7
 *     2 SEHMELIR_TOO_MANY     the store says that it has above 4,096 vertices
 *                             number: the vertices
 *     6 SEHMELIR_NOT_OUTLINE  store_len is below the bytes that the vertices
 *                             and edges in the header ask for
 *                             number: 0
 *     4 SEHMELIR_OUTSIDE      a vertex in the store lies outside the limits
 *                             number: the index of the first such vertex
 *     8 SEHMELIR_NOT_SOUND    the outline is not what its own vertices and
 *                             grade, and style, give
 *                             number: the index of the first byte that differs
 *     5 SEHMELIR_NO_ROOM      out_len is below three times the vertices, of a
 *                             kerb twice
 *                             number: the vertices
 *     0 SEHMELIR_DONE         the vertices stand in `out`, and beside the reply
 *                             stand the grade, the kind and, of a kerb, its
 *                             style
 *                             number: the vertices
 *
 * Takes up to 256 KiB of stack.
 */
struct sehmelir_path sehmelir_read(const uint8_t *store, size_t store_len,
                                   int32_t *out, size_t out_len);

/*
 * Reads the point numbers of a sound outline of a path into `out`, one for each
 * vertex: 0 for every one in an outline of edition 1.
 *
 * The first of these that applies is the reply:
 *
 *     6, 7, 6, 3, 11, 2, 6, 4, 8
 *                             those of sehmelir_read but 5, in their order
 *    12 SEHMELIR_OTHER_KIND   the outline is of a kerb
 *                             number: its kind, 1
 *     5 SEHMELIR_NO_ROOM      out_len is below the vertices
 *                             number: the vertices
 *     0 SEHMELIR_DONE         the point numbers stand in `out`
 *                             number: the vertices
 *
 * Takes up to 256 KiB of stack.
 */
struct sehmelir_reply sehmelir_numbers(const uint8_t *store, size_t store_len,
                                       uint32_t *out, size_t out_len);

/*
 * Replaces the vertex of the given index, counted from 0, in a sound outline.
 * The store then holds the outline of the changed path, at the same grade, in
 * the same edition and with every point number as it was.
 *
 * The room is the whole store: the new outline may reach up to store_len. If
 * it is longer than the old one it overwrites what stood after that; if it is
 * shorter, the bytes from its end up to the old end become 0. All bytes past
 * both are as they were.
 *
 * The first of these that applies is the reply:
 *
 *     6 SEHMELIR_NOT_OUTLINE  store_len is below 24, or the edition is not 1
 *                             or 2
 *                             number: 0
 *     7 SEHMELIR_KIND         the kind is neither 0 nor 1
 *                             number: the kind
 *     6 SEHMELIR_NOT_OUTLINE  the kind is 1, and store_len is below 44 or
 *                             the edition is 2
 *                             number: 0
 *     3 SEHMELIR_GRADE        the grade in the store is not 1 to 8
 *                             number: that grade
 *    11 SEHMELIR_STYLE_WORD   of a kerb, radius, join or closed is out of range
 *                             number: the place of the first such word, 5, 6
 *                             or 7
 *     2 SEHMELIR_TOO_MANY     the store says that it has above 4,096 vertices
 *                             number: the vertices
 *     6 SEHMELIR_NOT_OUTLINE  store_len is below the bytes that the vertices
 *                             and edges in the header ask for
 *                             number: 0
 *     4 SEHMELIR_OUTSIDE      a vertex in the store lies outside the limits
 *                             number: the index of the first such vertex
 *     8 SEHMELIR_NOT_SOUND    the outline is not what its own vertices and
 *                             grade, and style, give
 *                             number: the index of the first byte that differs
 *    12 SEHMELIR_OTHER_KIND   the outline is of a kerb
 *                             number: its kind, 1
 *     3 SEHMELIR_GRADE        the outline is of grade 1
 *                             number: that grade, 1
 *     9 SEHMELIR_NO_VERTEX    the index is not below the vertices
 *                             number: the index
 *     4 SEHMELIR_OUTSIDE      the new vertex lies outside the limits
 *                             number: the index
 *    18 SEHMELIR_WITHOUT_EDGES
 *                             the changed path has no edge
 *                             number: its vertices
 *     5 SEHMELIR_NO_ROOM      store_len is below the new outline's bytes
 *                             number: the bytes needed
 *     0 SEHMELIR_DONE         the new outline stands in the store
 *                             number: its bytes
 *
 * Takes up to 256 KiB of stack.
 */
struct sehmelir_reply sehmelir_replace(uint8_t *store, size_t store_len,
                                       size_t index, int32_t x, int32_t y,
                                       int32_t radius);

/*
 * Tells how far replacing the vertex of the given index, counted from 0, can
 * reach in a sound outline. Let j be the first vertex at index + 2 or later
 * that is reached by a step that is drawn or broken. Whatever vertex
 * sehmelir_replace puts there, the edges drawn on reaching each vertex before
 * the index stay as they are, and so do those of each vertex after j and those
 * drawn at the end, unless j is the last vertex or there is none.
 *
 * A step from one vertex to the next is broken if the square of the difference
 * of their radii is not below the square of their distance; else it is drawn
 * if the larger radius is at least 2; else it is thin.
 *
 * The first of these that applies is the reply:
 *
 *     6 SEHMELIR_NOT_OUTLINE  store_len is below 24, or the edition is not 1
 *                             or 2
 *                             number: 0
 *     7 SEHMELIR_KIND         the kind is neither 0 nor 1
 *                             number: the kind
 *     6 SEHMELIR_NOT_OUTLINE  the kind is 1, and store_len is below 44 or
 *                             the edition is 2
 *                             number: 0
 *     3 SEHMELIR_GRADE        the grade in the store is not 1 to 8
 *                             number: that grade
 *    11 SEHMELIR_STYLE_WORD   of a kerb, radius, join or closed is out of range
 *                             number: the place of the first such word, 5, 6
 *                             or 7
 *     2 SEHMELIR_TOO_MANY     the store says that it has above 4,096 vertices
 *                             number: the vertices
 *     6 SEHMELIR_NOT_OUTLINE  store_len is below the bytes that the vertices
 *                             and edges in the header ask for
 *                             number: 0
 *     4 SEHMELIR_OUTSIDE      a vertex in the store lies outside the limits
 *                             number: the index of the first such vertex
 *     8 SEHMELIR_NOT_SOUND    the outline is not what its own vertices and
 *                             grade, and style, give
 *                             number: the index of the first byte that differs
 *    12 SEHMELIR_OTHER_KIND   the outline is of a kerb
 *                             number: its kind, 1
 *     9 SEHMELIR_NO_VERTEX    the index is not below the vertices
 *                             number: the index
 *     0 SEHMELIR_DONE         number: j, or the vertices where there is none
 *
 * The store is only read. Takes up to 256 KiB of stack.
 */
struct sehmelir_reply sehmelir_reach(const uint8_t *store, size_t store_len,
                                     size_t index);

/*
 * Why an edge is there, by number: the rule that draws it. A circle within a cap
 * or a join bears the name of that cap or join.
 */
enum sehmelir_edge_reason {
    SEHMELIR_LEFT_SIDE = 0,  /* the left side of the section to a vertex */
    SEHMELIR_RIGHT_SIDE = 1, /* its right side */
    SEHMELIR_START_CAP = 2,  /* the cap at a chain's start */
    SEHMELIR_END_CAP = 3,    /* the cap at a chain's end */
    SEHMELIR_LEFT_JOIN = 4,  /* the left join of two sections */
    SEHMELIR_RIGHT_JOIN = 5, /* their right join */
    SEHMELIR_GAP = 6,        /* the caps of a join whose centres differ */
    SEHMELIR_CIRCLE = 7      /* the circle of a vertex by itself */
};

/* Why an edge is there. After a refusal all but the first and the third are 0. */
struct sehmelir_reason {
    uint32_t reply;  /* one of enum sehmelir_reply_number */
    uint32_t reason; /* one of enum sehmelir_edge_reason */
    uint64_t number; /* what it means stands with each reply, below */
    uint64_t vertex; /* the vertex on reaching which the edge is drawn; the
                        number of vertices if it is drawn at the end */
    uint64_t place;  /* how many edges the rule drew there before it */
    uint32_t start_exact; /* of a side, 1 if the contact at its start is exact:
                             no division that gave it left anything over; else
                             0, and 0 for every edge that is no side */
    uint32_t end_exact;   /* the same of the contact at its end */
};

/*
 * Tells why the edge of the given number, counted from 0, is there in a sound
 * outline. No two edges of an outline have the same reason, vertex and place.
 * Of a side it tells too which of its two contacts are exact, as the edge runs:
 * a left side starts at the later vertex, a right side at the earlier one.
 *
 * The first of these that applies is the reply:
 *
 *     6 SEHMELIR_NOT_OUTLINE  store_len is below 24, or the edition is not 1
 *                             or 2
 *                             number: 0
 *     7 SEHMELIR_KIND         the kind is neither 0 nor 1
 *                             number: the kind
 *     6 SEHMELIR_NOT_OUTLINE  the kind is 1, and store_len is below 44 or
 *                             the edition is 2
 *                             number: 0
 *     3 SEHMELIR_GRADE        the grade in the store is not 1 to 8
 *                             number: that grade
 *    11 SEHMELIR_STYLE_WORD   of a kerb, radius, join or closed is out of range
 *                             number: the place of the first such word, 5, 6
 *                             or 7
 *     2 SEHMELIR_TOO_MANY     the store says that it has above 4,096 vertices
 *                             number: the vertices
 *     6 SEHMELIR_NOT_OUTLINE  store_len is below the bytes that the vertices
 *                             and edges in the header ask for
 *                             number: 0
 *     4 SEHMELIR_OUTSIDE      a vertex in the store lies outside the limits
 *                             number: the index of the first such vertex
 *     8 SEHMELIR_NOT_SOUND    the outline is not what its own vertices and
 *                             grade, and style, give
 *                             number: the index of the first byte that differs
 *    12 SEHMELIR_OTHER_KIND   the outline is of a kerb
 *                             number: its kind, 1
 *    10 SEHMELIR_NO_EDGE      the number is not below the edges
 *                             number: the edge's number
 *     0 SEHMELIR_DONE         beside the reply stand reason, vertex and place,
 *                             and which ends of a side are exact
 *                             number: the edge's number
 *
 * The store is only read. Takes up to 256 KiB of stack.
 */
struct sehmelir_reason sehmelir_explain(const uint8_t *store, size_t store_len,
                                        size_t edge);

/*
 * Lists why each edge of a sound outline is there, in the edges' order, five
 * numbers an edge in `out`: reason, vertex, place, start_exact and end_exact, as
 * sehmelir_explain tells them. The time that it takes grows with the edges.
 *
 * The first of these that applies is the reply:
 *
 *     6, 7, 6, 3, 11, 2, 6, 4, 8, 12
 *                             those of sehmelir_explain, but 10
 *     5 SEHMELIR_NO_ROOM      out_len is below five times the edges
 *                             number: the edges that there are
 *     0 SEHMELIR_DONE         the reasons stand in `out`, five numbers each
 *                             number: the edges
 *
 * The store is only read. Takes up to 256 KiB of stack.
 */
struct sehmelir_reply sehmelir_list(const uint8_t *store, size_t store_len,
                                    size_t *out, size_t out_len);

/* Why a float is not taken, by number: the first that applies, in this order. */
enum sehmelir_reason_number {
    SEHMELIR_TAKEN = 0,          /* it is taken */
    SEHMELIR_NOT_A_NUMBER = 1,   /* it is not a number */
    SEHMELIR_INFINITE = 2,       /* it is infinite */
    SEHMELIR_FRACTION = 3,       /* it has a fraction */
    SEHMELIR_TOO_LARGE = 4,      /* it is too large in size */
    SEHMELIR_NEGATIVE_WIDTH = 5, /* it is a negative width */
    SEHMELIR_ODD_WIDTH = 6       /* it is an odd width */
};

/* What a float of the oldest chunks is taken for. */
struct sehmelir_taken {
    uint32_t reason; /* one of enum sehmelir_reason_number */
    int32_t whole;   /* the whole number; 0 where the float is not taken */
};

/*
 * Takes a float as a coordinate: a whole number of at most 268,435,456 in size.
 */
struct sehmelir_taken sehmelir_take_coordinate(float value);

/*
 * Takes a float as a full width: an even whole number from 0 to 536,870,912.
 * The whole number answered is the radius, half of it.
 */
struct sehmelir_taken sehmelir_take_width(float value);

/*
 * Imports the floats of the oldest chunks, three a vertex, as a path in `out`.
 *
 * The first of these that applies is the reply:
 *
 *     1 SEHMELIR_UNEVEN       numbers_len is not a multiple of three
 *                             number: numbers_len
 *     2 SEHMELIR_TOO_MANY     there are above 4,096 vertices
 *                             number: the vertices
 *    13 SEHMELIR_NOT_TAKEN    a float is not taken
 *                             number: the place of the first such float; why
 *                             is told by sehmelir_take_coordinate or, at every
 *                             third place, by sehmelir_take_width
 *     5 SEHMELIR_NO_ROOM      out_len is below three times the vertices
 *                             number: the vertices
 *     0 SEHMELIR_DONE         the path stands in `out`, three numbers a vertex
 *                             number: the vertices
 */
struct sehmelir_reply sehmelir_import(const float *numbers, size_t numbers_len,
                                      int32_t *out, size_t out_len);

/*
 * Exports a path as the floats of the oldest chunks, three a vertex, in `out`.
 * A number is written only where its float gives it back unchanged; zero is
 * written as plus zero. What is exported and imported again has the same
 * numbers, and so has what is imported and exported again, minus zero apart.
 *
 * The first of these that applies is the reply:
 *
 *     1 SEHMELIR_UNEVEN       path_len is not a multiple of three
 *                             number: path_len
 *     2 SEHMELIR_TOO_MANY     there are above 4,096 vertices
 *                             number: the vertices
 *    13 SEHMELIR_NOT_TAKEN    a number lies outside the limits, or no float is
 *                             it, or twice it in a radius's place
 *                             number: the place of the first such number
 *     5 SEHMELIR_NO_ROOM      out_len is below three times the vertices
 *                             number: the vertices
 *     0 SEHMELIR_DONE         the floats stand in `out`, three a vertex
 *                             number: the vertices
 */
struct sehmelir_reply sehmelir_export(const int32_t *path, size_t path_len,
                                      float *out, size_t out_len);

/* The limits of a chunk, and the bytes of a table of so many entries. */
#define SEHMELIR_MOST_ENTRIES 1024
#define SEHMELIR_MOST_CHUNK_BYTES 4294967295
#define SEHMELIR_TABLE_BYTES(entries) ((size_t)4 + (size_t)12 * (entries))

/*
 * A chunk holds many outlines, each under a key. A table stands first, in
 * 32-bit little-endian words: the number of entries, and for each its key,
 * offset and length in bytes; an entry of length 0 is empty, whatever key and
 * offset it has. All else is in the caller's bytes: nothing of a chunk is kept
 * elsewhere.
 *
 * The table is damaged exactly if the chunk has above 4,294,967,295 bytes or
 * under 4, or the table has above 1,024 entries or runs past the chunk, or one
 * key is in use twice, or an entry in use overlaps the table or another entry
 * in use or leaves the chunk. Each call but sehmelir_chunk_make looks at the
 * whole table again. Keys are the caller's; every 32-bit word is one.
 *
 * A vertex of an outline in a chunk is replaced by lending sehmelir_replace
 * the bytes that sehmelir_chunk_find tells, and no others: chunk + offset, and
 * length. The entry keeps its length then, with zeros after an outline that
 * shrank. What outgrows those bytes is refused with 5, and goes in by
 * sehmelir_chunk_remove and sehmelir_chunk_add.
 */

/* Where a part of lent memory stands. */
struct sehmelir_part {
    uint32_t reply;  /* one of enum sehmelir_reply_number */
    uint32_t zero;   /* 0 */
    uint64_t number; /* what it means stands with each reply, below */
    uint64_t offset; /* where the part begins; 0 after a refusal */
    uint64_t length; /* its length; 0 after a refusal */
};

/*
 * Makes a chunk: writes the number of entries, and zeros for each of them. The
 * bytes after the table stay as they were.
 *
 * The first of these that applies is the reply:
 *
 *    14 SEHMELIR_DAMAGED      entries is above 1,024, the table would run past
 *                             the chunk, or chunk_len is above 4,294,967,295
 *                             number: 0
 *     0 SEHMELIR_DONE         the empty table stands in the chunk
 *                             number: its bytes
 */
struct sehmelir_reply sehmelir_chunk_make(uint8_t *chunk, size_t chunk_len,
                                          uint32_t entries);

/*
 * Adds a sound outline under a key, in the first empty entry and at the lowest
 * gap that holds it. Where no gap does, the chunk is compacted first, as by
 * sehmelir_chunk_compact. The bytes lent as `outline` begin with the outline and
 * may go on after it; its own bytes alone are stored, unchanged.
 *
 * The first of these that applies is the reply:
 *
 *    14 SEHMELIR_DAMAGED      the table is damaged
 *                             number: 0
 *     6, 7, 3, 2, 6, 4, 8     those of sehmelir_read, of the outline, but 5
 *    15 SEHMELIR_KEY_THERE    the key is in use
 *                             number: the key
 *    17 SEHMELIR_TABLE_FULL   no entry is empty
 *                             number: the entries
 *     5 SEHMELIR_NO_ROOM      there is no room for it, compacted or not
 *                             number: the outline's bytes
 *     0 SEHMELIR_DONE         the outline stands in the chunk
 *                             number: its bytes
 *
 * After a refusal the chunk is as it was, not compacted. Takes up to 256 KiB of
 * stack.
 */
struct sehmelir_reply sehmelir_chunk_add(uint8_t *chunk, size_t chunk_len,
                                         uint32_t key, const uint8_t *outline,
                                         size_t outline_len);

/*
 * Finds the outline of a key.
 *
 * The first of these that applies is the reply:
 *
 *    14 SEHMELIR_DAMAGED      the table is damaged
 *                             number: 0
 *    16 SEHMELIR_KEY_MISSING  the key is not in use
 *                             number: the key
 *     0 SEHMELIR_DONE         the outline stands at `offset`, in `length` bytes
 *                             number: the length
 *
 * The chunk is only read. Takes up to 32 KiB of stack.
 */
struct sehmelir_part sehmelir_chunk_find(const uint8_t *chunk, size_t chunk_len,
                                         uint32_t key);

/*
 * Removes the outline of a key: its entry and its bytes become 0.
 *
 * The first of these that applies is the reply:
 *
 *    14 SEHMELIR_DAMAGED      the table is damaged
 *                             number: 0
 *    16 SEHMELIR_KEY_MISSING  the key is not in use
 *                             number: the key
 *     0 SEHMELIR_DONE         entry and outline are zeros
 *                             number: the bytes that the entry had
 *
 * Takes up to 32 KiB of stack.
 */
struct sehmelir_reply sehmelir_chunk_remove(uint8_t *chunk, size_t chunk_len,
                                            uint32_t key);

/*
 * Moves the outlines together, in the order in which they stand, straight after
 * the table; the one gap is then at the end, and all of it becomes 0. Words of
 * empty entries stay as they were.
 *
 * The first of these that applies is the reply:
 *
 *    14 SEHMELIR_DAMAGED      the table is damaged
 *                             number: 0
 *     0 SEHMELIR_DONE         number: the bytes before the gap
 *
 * Takes up to 32 KiB of stack.
 */
struct sehmelir_reply sehmelir_chunk_compact(uint8_t *chunk, size_t chunk_len);

/*
 * Side by side: of two sound outlines of paths, one from before an edit and one
 * from after it, the body of a vertex as a part of the chosen one. Where `later`
 * is true that is the later one, `after`, else the earlier one, `before`; offset
 * and length count its bytes. The body of a vertex is the edges that are drawn on
 * reaching it; of as many vertices as the chosen outline has, the body of that
 * number is the closing one, the edges drawn at the end. An empty body is a part
 * of length 0.
 *
 * The first of these that applies is the reply:
 *
 *     6, 7, 6, 3, 11, 2, 6, 4, 8
 *                             those of sehmelir_read but 5, in their order, of
 *                             the earlier outline
 *     6, 7, 6, 3, 11, 2, 6, 4, 8
 *                             the same of the later one
 *    12 SEHMELIR_OTHER_KIND   either outline is of a kerb
 *                             number: its kind, 1
 *     9 SEHMELIR_NO_VERTEX    the number is above the vertices of the chosen
 *                             outline
 *                             number: that number
 *     0 SEHMELIR_DONE         the body stands at `offset`, in `length` bytes, 16
 *                             for each edge
 *                             number: its edges
 *
 * Both stores are only read. Takes up to 256 KiB of stack.
 */
struct sehmelir_part sehmelir_side(const uint8_t *before, size_t before_len,
                                   const uint8_t *after, size_t after_len,
                                   bool later, size_t vertex);

/*
 * Converts a sound outline, of a path or of a kerb, to another grade: the store
 * then holds what its vertices, point numbers and style give at that grade, in the
 * same edition. That is, byte for byte, what keeping writes of them in that
 * edition. Outlines of grade 1 are taken, and those without edges, as they were
 * kept once.
 *
 * The room is the whole store, as in sehmelir_replace: the new outline may reach
 * up to store_len, and where it is shorter than the old one the bytes from its
 * end up to the old end become 0. All bytes past both are as they were.
 *
 * The first of these that applies is the reply:
 *
 *     6, 7, 6, 3, 11, 2, 6, 4, 8
 *                             those of sehmelir_read but 5, in their order
 *     3 SEHMELIR_GRADE        the grade to convert to is not 2 to 8
 *                             number: that grade
 *     5 SEHMELIR_NO_ROOM      store_len is below the new outline's bytes
 *                             number: the bytes needed
 *     0 SEHMELIR_DONE         the new outline stands in the store
 *                             number: its bytes
 *
 * Takes up to 256 KiB of stack.
 */
struct sehmelir_reply sehmelir_convert(uint8_t *store, size_t store_len,
                                       uint32_t grade);

/*
 * A path may also be lent as the VERTEX RECORDS that its host holds. They are
 * read where they lie, each once, and only read.
 */
struct sehmelir_vertex {
    int32_t x;
    int32_t y;
    int32_t radius;
    uint32_t number; /* the point number: any word, 0 where there is none */
};

/*
 * Draws the edges of a path of `vertices` records into `out`: reply, number and
 * `out` are those of sehmelir_draw for x, y and radius of each, three numbers a
 * vertex. Point numbers draw nothing.
 *
 * The first of these that applies is the reply:
 *
 *     3 SEHMELIR_GRADE        the grade is not 2 to 8
 *                             number: the grade
 *     2 SEHMELIR_TOO_MANY     there are above 4,096 vertices
 *                             number: the vertices
 *     4 SEHMELIR_OUTSIDE      a vertex lies outside the limits
 *                             number: the index of the first such vertex
 *    18 SEHMELIR_WITHOUT_EDGES
 *                             there is a vertex, and no edge: so it is where
 *                             every radius is 0 or 1
 *                             number: the vertices
 *     5 SEHMELIR_NO_ROOM      out_len is below four times the edges
 *                             number: the edges that there are
 *     0 SEHMELIR_DONE         the edges stand in `out`, four numbers each
 *                             number: the edges
 *
 * After 3 and 2 no record has been read. Takes up to 608 KiB of stack.
 */
struct sehmelir_reply sehmelir_draw_records(const struct sehmelir_vertex *path,
                                            size_t vertices, uint32_t grade,
                                            int32_t *out, size_t out_len);

/*
 * Keeps a path of `vertices` records, its point numbers, its grade and its edges
 * as an outline of edition 2 in `out`: reply, number and `out` are those of
 * sehmelir_keep for x, y and radius of each, three numbers a vertex, but for the
 * point numbers, which are the records'.
 *
 * The first of these that applies is the reply:
 *
 *     3 SEHMELIR_GRADE        the grade is not 2 to 8
 *                             number: the grade
 *     2 SEHMELIR_TOO_MANY     there are above 4,096 vertices
 *                             number: the vertices
 *     4 SEHMELIR_OUTSIDE      a vertex lies outside the limits
 *                             number: the index of the first such vertex
 *    18 SEHMELIR_WITHOUT_EDGES
 *                             there is a vertex, and no edge: so it is where
 *                             every radius is 0 or 1
 *                             number: the vertices
 *     5 SEHMELIR_NO_ROOM      out_len is below the outline's bytes
 *                             number: the bytes needed
 *     0 SEHMELIR_DONE         the outline stands in `out`
 *                             number: its bytes
 *
 * After 3 and 2 no record has been read. Takes up to 256 KiB of stack.
 */
struct sehmelir_reply sehmelir_keep_records(const struct sehmelir_vertex *path,
                                            size_t vertices, uint32_t grade,
                                            uint8_t *out, size_t out_len);

/* What sehmelir_salvage answers. */
struct sehmelir_salvaged {
    uint32_t reply;   /* one of enum sehmelir_reply_number */
    uint32_t zero;    /* 0 */
    uint64_t number;  /* what it means stands with each reply, below */
    uint64_t entries; /* the entries of the list; 0 after a refusal */
};

/* What of a body stood otherwise in a spoiled outline, and the total. */
#define SEHMELIR_COUNT_DIFFERS 1
#define SEHMELIR_EDGES_DIFFER 2
#define SEHMELIR_BOTH_DIFFER 3
#define SEHMELIR_TOTAL_DIFFERS 4

/*
 * Salvages a spoiled outline of a path: reads its header and vertices only,
 * draws them anew, and writes the sound outline into `out` and what stood
 * otherwise into `list`. Grade, edition, vertices and point numbers stay, and an
 * outline without edges is written too.
 *
 * The list has two words an entry: a place, and what differs there. For each
 * body that differs, in order, it has the index of its vertex, or how many
 * vertices there are for the closing body, and SEHMELIR_COUNT_DIFFERS,
 * SEHMELIR_EDGES_DIFFER or SEHMELIR_BOTH_DIFFER; then, where the edges in the
 * header differ, how many vertices there are and one more, and
 * SEHMELIR_TOTAL_DIFFERS. So there are at most two entries more than vertices.
 * Old edges are found by the old counts, and compared up to the smaller count;
 * those past the end of the store differ. The list is empty exactly if the store
 * was sound, and `out` then holds the same outline.
 *
 * The first of these that applies is the reply:
 *
 *     6 SEHMELIR_NOT_OUTLINE  store_len is below 24, or the edition is not 1
 *                             or 2
 *                             number: 0
 *     7 SEHMELIR_KIND         the kind is neither 0 nor 1
 *                             number: the kind
 *    12 SEHMELIR_OTHER_KIND   the outline is of a kerb
 *                             number: its kind, 1
 *     3 SEHMELIR_GRADE        the grade in the store is not 1 to 8
 *                             number: that grade
 *     2 SEHMELIR_TOO_MANY     the store says that it has above 4,096 vertices
 *                             number: the vertices
 *     6 SEHMELIR_NOT_OUTLINE  the store ends before its closing count does
 *                             number: 0
 *     4 SEHMELIR_OUTSIDE      a vertex in the store lies outside the limits
 *                             number: the index of the first such vertex
 *     5 SEHMELIR_NO_ROOM      out_len is below the outline's bytes
 *                             number: the bytes needed
 *    19 SEHMELIR_NO_LIST_ROOM list_len is below twice the entries
 *                             number: the entries that there are
 *     0 SEHMELIR_DONE         the outline stands in `out` and the list in
 *                             `list`, two words an entry
 *                             number: the outline's bytes
 *
 * list_len counts words; an odd last one stays as it is. The store is only read.
 * Takes up to 256 KiB of stack.
 */
struct sehmelir_salvaged sehmelir_salvage(const uint8_t *store,
                                          size_t store_len, uint8_t *out,
                                          size_t out_len, uint32_t *list,
                                          size_t list_len);

#ifdef __cplusplus
}
#endif

#endif
