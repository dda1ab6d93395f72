/* Labels a frame: sixteen corners of a plate of 3 by 3 squares, tilted, with their axes and a triangulation. Prints where each corner
 * stands on the plate's lattice, then what is left by the other spread rule, then two calls that are refused, in words.
 * cc -Iinclude examples/frame.c libabi.a -lm; tools/try-c compiles it, runs it and holds what it prints against frame.c.expected. */
#include "ngeunsadok.h"

#include <stdio.h>
#include <stdlib.h>

enum { SIDE = 4, CORNERS = SIDE * SIDE, HALF_EDGES = 6 * (SIDE - 1) * (SIDE - 1) };

static float x[CORNERS], y[CORNERS], angles[2 * CORNERS], spreads[2 * CORNERS];
static uint32_t marks[2 * CORNERS], triangles[HALF_EDGES], twins[HALF_EDGES];

static uint32_t work[NGEUNSADOK_FRAME_WORK(HALF_EDGES, CORNERS)];
static ngeunsadok_component components[NGEUNSADOK_FRAME_COMPONENTS(HALF_EDGES)];
static ngeunsadok_entry entries[NGEUNSADOK_FRAME_ENTRIES(HALF_EDGES)];

/* The corners, row by row. What a corner finder gives: a position, and for each of two axes its angle and, where it has one, its spread. */
static void find_corners(void) {
    uint32_t row, column;

    for (row = 0; row < SIDE; row++)
        for (column = 0; column < SIDE; column++) {
            const uint32_t k = SIDE * row + column;

            x[k] = 100 + 20 * (float)column - 3 * (float)row;
            y[k] = 50 + 3 * (float)column + 20 * (float)row;
            angles[2 * k] = 0.149f; /* along a row, in radians */
            angles[2 * k + 1] = 1.72f;
            spreads[2 * k] = 0.05f;
            marks[2 * k] = 1;
            marks[2 * k + 1] = 0; /* this axis, along a column, came without a spread */
        }
}

/* Two triangles for each square, both in the same sense round it. */
static void triangulate(void) {
    uint32_t row, column, e = 0;

    for (row = 0; row + 1 < SIDE; row++)
        for (column = 0; column + 1 < SIDE; column++) {
            const uint32_t a = SIDE * row + column, b = a + 1, c = b + SIDE, d = a + SIDE;
            const uint32_t pair[6] = {a, b, c, a, c, d};

            memcpy(triangles + e, pair, sizeof pair);
            e += 6;
        }
}

/* A half-edge by the two corners of its side, the lower first. */
typedef struct {
    uint32_t low;
    uint32_t high;
    uint32_t half_edge;
} side;

static int by_corners(const void *left, const void *right) {
    const side *a = (const side *)left, *b = (const side *)right;

    if (a->low != b->low) return a->low < b->low ? -1 : 1;
    if (a->high != b->high) return a->high < b->high ? -1 : 1;
    return a->half_edge < b->half_edge ? -1 : 1;
}

/* The twins of any triangles: two half-edges are twins where they alone have the same two corners, and run opposite ways. A side of one
 * triangle, of three or more, or of two that run alike gets NGEUNSADOK_NO_TWIN. Answers 0 where there is no memory. */
static int make_twins(const uint32_t *corner, size_t half_edges, uint32_t *twin) {
    side *sides = (side *)malloc(half_edges * sizeof *sides + 1);
    size_t e, end;

    if (!sides) return 0;
    for (e = 0; e < half_edges; e++) {
        const uint32_t from = corner[e], to = corner[e % 3 == 2 ? e - 2 : e + 1];

        sides[e].low = from < to ? from : to;
        sides[e].high = from < to ? to : from;
        sides[e].half_edge = (uint32_t)e;
        twin[e] = NGEUNSADOK_NO_TWIN;
    }
    qsort(sides, half_edges, sizeof *sides, by_corners);
    for (e = 0; e < half_edges; e = end) {
        for (end = e + 1; end < half_edges && sides[end].low == sides[e].low && sides[end].high == sides[e].high;) end++;
        if (end == e + 2 && corner[sides[e].half_edge] != corner[sides[e + 1].half_edge]) {
            twin[sides[e].half_edge] = sides[e + 1].half_edge;
            twin[sides[e + 1].half_edge] = sides[e].half_edge;
        }
    }
    free(sides);
    return 1;
}

static void print_refusal(ngeunsadok_counts counts) {
    printf("refused %lu, place %lu", (unsigned long)counts.refused, (unsigned long)counts.place);
    switch (counts.refused) {
    case NGEUNSADOK_TWIN_PAST_END:
    case NGEUNSADOK_TWIN_NOT_BACK:
    case NGEUNSADOK_TWIN_ELSEWHERE: printf(", beside %lu", (unsigned long)counts.beside);
    }
    printf(": %s\n", ngeunsadok_words(counts.refused));
}

static void print_answer(ngeunsadok_counts counts) {
    uint32_t k, i;

    if (counts.refused) {
        print_refusal(counts);
        return;
    }
    if (!counts.components) puts("no component");
    for (k = 0; k < counts.components; k++) {
        printf("component %lu: corners %lu, holes %lu\n", (unsigned long)k, (unsigned long)components[k].entries,
               (unsigned long)components[k].holes);
        for (i = components[k].before; i < components[k].before + components[k].entries; i++)
            printf("u %lu v %lu corner %lu\n", (unsigned long)entries[i].u, (unsigned long)entries[i].v, (unsigned long)entries[i].corner);
    }
}

int main(void) {
    const ngeunsadok_frame frame = {CORNERS, x, y, angles, marks, spreads, HALF_EDGES, triangles, twins};
    const ngeunsadok_params params = NGEUNSADOK_DEFAULT_PARAMS;
    ngeunsadok_params strict = params;
    const size_t words = sizeof work / sizeof *work, records = sizeof components / sizeof *components, room = sizeof entries / sizeof *entries;

    if (!ngeunsadok_float_settings_hold()) {
        fputs("this program does not round to nearest with subnormals kept\n", stderr);
        return 1;
    }
    find_corners();
    triangulate();
    if (!make_twins(triangles, HALF_EDGES, twins)) return 1;
    print_answer(ngeunsadok_label(&frame, &params, work, words, components, records, entries, room));

    /* where a missing spread says that the finder gave up: no axis along a column counts, and so no side there */
    strict.rule = NGEUNSADOK_MISSING_UNINFORMATIVE;
    print_answer(ngeunsadok_label(&frame, &strict, work, words, components, records, entries, room));
    /* an entry list with too little room */
    print_answer(ngeunsadok_label(&frame, &params, work, words, components, records, entries, 15));
    /* a twin that does not point back */
    twins[2] = 4;
    print_answer(ngeunsadok_label(&frame, &params, work, words, components, records, entries, room));
    return 0;
}
