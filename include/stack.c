/* The stack that each call takes, at the limits and with full lists: the call runs on a stack of its own that was painted before, and
 * what is not paint after it was used. tools/try-c compiles and runs it; it ends with status 0 where every call keeps to what ngeunsadok.h
 * says, else it names those that do not. */
#define _DEFAULT_SOURCE
#include "ngeunsadok.h"

#include <stdio.h>
#include <ucontext.h>

#define KIB 1024
#define ROOM (256 * KIB)
#define PAINT 0xA5

/* A grid of 64 by 64 corners whose last row and column are joined to its first: 4,096 corners, 24,576 half-edges, 4,096 quads. */
enum { SIDE = 64, CORNERS = SIDE * SIDE, HALF_EDGES = 6 * CORNERS, QUADS = CORNERS };
static float x[CORNERS], y[CORNERS], angles[2 * CORNERS], spreads[2 * CORNERS], fits[HALF_EDGES];
static uint32_t marks[2 * CORNERS], triangles[HALF_EDGES], twins[HALF_EDGES], classes[HALF_EDGES], quads[4 * QUADS], kept[4 * QUADS];
static uint32_t work[NGEUNSADOK_FRAME_WORK(HALF_EDGES, CORNERS)];
static ngeunsadok_component components[QUADS];
static ngeunsadok_entry entries[4 * QUADS];

static unsigned char room[ROOM];
static ucontext_t here, there;
static uint32_t refused;

static void root(void) { refused = ngeunsadok_root(1e-41f).refused; }
static void angle(void) { refused = ngeunsadok_angle(-3, 5).refused; }
static void distance(void) { refused = !ngeunsadok_distance(1e30f, 1).known; }
static void cache(void) { refused = ngeunsadok_axis_cache(1, 1, 0.5f, 2, 0, 0, 1, NGEUNSADOK_MISSING_INFORMATIVE).refused; }

static void classify(void) {
    refused = ngeunsadok_classify_all_edges(x, CORNERS, y, CORNERS, angles, 2 * CORNERS, marks, 2 * CORNERS, spreads, 2 * CORNERS,
                                            triangles, HALF_EDGES, 0.25f, 1, NGEUNSADOK_MISSING_INFORMATIVE, classes, HALF_EDGES, fits,
                                            HALF_EDGES)
                  .refused;
}

static void merge(void) {
    refused = ngeunsadok_merge_triangle_pairs(x, CORNERS, y, CORNERS, triangles, HALF_EDGES, twins, HALF_EDGES, classes, HALF_EDGES, kept,
                                              4 * QUADS)
                  .refused;
}

static void filter(void) {
    refused = ngeunsadok_filter_quads(x, CORNERS, y, CORNERS, quads, 4 * QUADS, 1.5f, 0.5f, 2, work, sizeof work / 4, kept, 4 * QUADS)
                  .refused;
}

static void label(void) {
    refused = ngeunsadok_label_components(quads, 4 * QUADS, CORNERS, 1, 4, work, sizeof work / 4, (uint32_t *)components, 3 * QUADS,
                                          (uint32_t *)entries, 12 * QUADS)
                  .refused;
}

static void frame(void) {
    const ngeunsadok_params params = NGEUNSADOK_DEFAULT_PARAMS;
    const ngeunsadok_frame given = {CORNERS, x, y, angles, marks, spreads, HALF_EDGES, triangles, twins};

    refused = ngeunsadok_label(&given, &params, work, sizeof work / 4, components, QUADS, entries, 4 * QUADS).refused;
}

/* Two triangles and a quad for each corner, with the corners right of it and below it; past the last row and column come the first. */
static void fill(void) {
    const float up = 1.57079637f;
    uint32_t row, column;

    for (row = 0; row < SIDE; row++)
        for (column = 0; column < SIDE; column++) {
            const uint32_t a = SIDE * row + column, b = SIDE * row + (column + 1) % SIDE, c = SIDE * ((row + 1) % SIDE) + (column + 1) % SIDE;
            const uint32_t d = SIDE * ((row + 1) % SIDE) + column, above = SIDE * ((row + SIDE - 1) % SIDE) + column;
            const uint32_t left = SIDE * row + (column + SIDE - 1) % SIDE;
            const uint32_t corner[6] = {a, b, c, a, c, d}, twin[6] = {6 * above + 4, 6 * b + 5, 6 * a + 3, 6 * a + 2, 6 * d, 6 * left + 1};

            x[a] = 10 * (float)column;
            y[a] = 10 * (float)row;
            angles[2 * a] = 0;
            angles[2 * a + 1] = up;
            marks[2 * a] = 1;
            memcpy(triangles + 6 * a, corner, sizeof corner);
            memcpy(twins + 6 * a, twin, sizeof twin);
            quads[4 * a] = a, quads[4 * a + 1] = b, quads[4 * a + 2] = c, quads[4 * a + 3] = d;
        }
}

/* The bytes that a call used of its own stack. */
static size_t taken(void (*call)(void)) {
    size_t left = 0;

    memset(room, PAINT, sizeof room);
    getcontext(&there);
    there.uc_stack.ss_sp = room;
    there.uc_stack.ss_size = sizeof room;
    there.uc_link = &here;
    makecontext(&there, call, 0);
    swapcontext(&here, &there);
    while (left < sizeof room && room[left] == PAINT) left++;
    return sizeof room - left;
}

int main(void) {
    const struct {
        const char *name;
        void (*call)(void);
        size_t most;
    } calls[] = {{"root", root, 8 * KIB},          {"angle", angle, 8 * KIB},
                 {"distance", distance, 8 * KIB},  {"axis cache", cache, 8 * KIB},
                 {"classes", classify, 8 * KIB},   {"quads", merge, 8 * KIB},
                 {"filters", filter, 24 * KIB},    {"labelling", label, 24 * KIB},
                 {"frame", frame, NGEUNSADOK_STACK}};
    int wrong = 0;
    size_t k;

    fill();
    printf("C: bytes of stack:");
    for (k = 0; k < sizeof calls / sizeof *calls; k++) {
        const size_t bytes = taken(calls[k].call);

        printf("%s %s %lu", k ? "," : "", calls[k].name, (unsigned long)bytes);
        if (refused || bytes > calls[k].most) {
            printf(" (%s)", refused ? "refused" : "more than is said");
            wrong = 1;
        }
    }
    puts("");
    return wrong;
}
