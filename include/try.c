/* Calls of each kind through ngeunsadok.h, with the answers that its rules give. tools/try-c compiles it as C and as C++, links and runs it;
 * it ends with status 0 and one line where all answers are right, else it names the line of each wrong one. */
#include "ngeunsadok.h"

#include <stdio.h>
#include <string.h>

static int wrong = 0;

#define EXPECT(truth)                                        \
    do {                                                     \
        if (!(truth)) {                                      \
            printf("try.c:%d: not so: %s\n", __LINE__, #truth); \
            wrong = 1;                                       \
        }                                                    \
    } while (0)

static uint32_t bits(float value) { return ngeunsadok_bits(value); }

static float from_bits(uint32_t word) { return ngeunsadok_from_bits(word); }

static void numbers(void) {
    ngeunsadok_number root = ngeunsadok_root(2.0f);
    EXPECT(root.refused == 0 && bits(root.value) == 0x3FB504F3);
    root = ngeunsadok_root(-1.0f);
    EXPECT(root.refused == 4 && root.place == 0 && root.value == 0.0f);
    ngeunsadok_number angle = ngeunsadok_angle(-10.0f, 0.0f);
    EXPECT(angle.refused == 0 && bits(angle.value) == 0x40490FDB);
    ngeunsadok_apart apart = ngeunsadok_distance(1.0f, 0.75f);
    EXPECT(apart.known == 1 && apart.value == 0.25f);
    EXPECT(ngeunsadok_distance(from_bits(0x7F800000), 0.0f).known == 0);
}

/* The two spread rules, by what becomes of an axis without a spread. */
#define KEEP NGEUNSADOK_MISSING_INFORMATIVE
#define DROP NGEUNSADOK_MISSING_UNINFORMATIVE

/* Numbers that are no spread rule. */
static const uint32_t no_rules[3] = {0, 3, 4294967295u};

static void axis(void) {
    ngeunsadok_cache cache = ngeunsadok_axis_cache(0.5f, 0, 9.0f, 1.5f, 1, 1.0f, 1.0f, KEEP);
    size_t k;

    EXPECT(KEEP == 1 && DROP == 2);
    EXPECT(cache.refused == 0 && cache.angle0 == 0.5f && cache.informative0 == 1);
    EXPECT(cache.angle1 == 1.5f && cache.informative1 == 0);
    /* the number in the first slot is below the limit, and not looked at: its mark is 0 */
    cache = ngeunsadok_axis_cache(0.5f, 0, 0.25f, 1.5f, 1, 0.75f, 1.0f, DROP);
    EXPECT(cache.refused == 0 && cache.angle0 == 0.5f && cache.informative0 == 0);
    EXPECT(cache.angle1 == 1.5f && cache.informative1 == 1);
    cache = ngeunsadok_axis_cache(0.5f, 1, 1.0f, 1.5f, 0, 0.25f, 1.0f, DROP);
    EXPECT(cache.refused == 0 && cache.informative0 == 0 && cache.informative1 == 0);
    for (k = 0; k < 3; k++) {
        cache = ngeunsadok_axis_cache(0.5f, 1, 0.25f, 1.5f, 0, 0.25f, 1.0f, no_rules[k]);
        EXPECT(cache.refused == NGEUNSADOK_RULE && cache.place == 0);
        EXPECT(cache.angle0 == 0.0f && cache.informative0 == 0 && cache.angle1 == 0.0f && cache.informative1 == 0);
        cache = ngeunsadok_axis_cache(0.5f, 0, 0.0f, 1.5f, 0, 0.0f, from_bits(0x7FC00000), no_rules[k]);
        EXPECT(cache.refused == 3 && cache.place == 4 && cache.angle0 == 0.0f && cache.informative0 == 0);
    }
    cache = ngeunsadok_axis_cache(0.5f, 0, 0.0f, 1.5f, 0, 0.0f, from_bits(0x7FC00000), KEEP);
    EXPECT(cache.refused == 3 && cache.place == 4 && cache.angle0 == 0.0f && cache.informative0 == 0);
}

/* A square of four corners in two triangles, as in examples/square. 77 stands in a list before a call. */
#define NONE NGEUNSADOK_NO_TWIN
static const float x[4] = {0, 10, 10, 0}, y[4] = {0, 0, 10, 10};
static const uint32_t triangles[6] = {0, 1, 2, 0, 2, 3}, twins[6] = {NONE, NONE, 3, 2, NONE, NONE};
static const uint32_t marks[8] = {0, 0, 0, 0, 0, 0, 0, 0};
#define UP 1.57079637f /* 3FC90FDB */
static const float angles[8] = {0, UP, 0, UP, 0, UP, 0, UP}, spreads[8] = {0, 0, 0, 0, 0, 0, 0, 0};
static const uint32_t sides[6] = {1, 1, 2, 2, 1, 1}; /* the classes of its half-edges */
static const uint32_t square[6] = {0, 1, 2, 3, 77, 77}, placed[13] = {0, 0, 0, 0, 1, 3, 1, 0, 1, 1, 1, 2, 77};

static uint32_t work[NGEUNSADOK_FRAME_WORK(6, 4)], components[4], entries[13], classes[7];
static float fits[7];

static void reset(void) {
    size_t i;

    memset(work, 0xFF, sizeof work);
    for (i = 0; i < 4; i++) components[i] = 77;
    for (i = 0; i < 13; i++) entries[i] = 77;
    for (i = 0; i < 7; i++) classes[i] = 77, fits[i] = 77;
}

static int untouched(void) {
    return components[0] == 77 && components[2] == 77 && entries[0] == 77 && entries[11] == 77;
}

/* So many elements of both lists of the classes' call, from this one on, are as they were. */
static int unclassed(size_t from, size_t count) {
    size_t i;

    for (i = from; i < from + count; i++)
        if (classes[i] != 77 || bits(fits[i]) != bits(77)) return 0;
    return 1;
}

/* The whole frame with these twins, a workspace of so many words and an entry list of so many. */
static ngeunsadok_counts framed(const uint32_t *twin, size_t words, size_t entry_words) {
    reset();
    return ngeunsadok_label_frame(x, 4, y, 4, angles, 8, marks, 8, spreads, 8, triangles, 6, twin, 6, 0.25f, 1.5f, 0.5f, 2, 1, 1, 4, KEEP,
                                  work, words, components, 4, entries, entry_words);
}

static void frame(void) {
    ngeunsadok_counts counts = framed(twins, 160, 13);

    EXPECT(bits(UP) == 0x3FC90FDB);
    EXPECT(counts.refused == 0 && counts.place == 0 && counts.beside == 0 && counts.components == 1 && counts.entries == 4);
    EXPECT(components[0] == 0 && components[1] == 4 && components[2] == 0 && components[3] == 77);
    EXPECT(memcmp(entries, placed, sizeof entries) == 0 && work[0] == 0 && work[159] == 0);
    counts = framed(twins, 159, 13);
    EXPECT(counts.refused == 8 && counts.place == 160 && counts.beside == 0 && untouched() && work[0] == 0xFFFFFFFF);
    counts = framed(twins, 160, 11);
    EXPECT(counts.refused == 10 && counts.place == 4 && counts.beside == 0 && untouched() && work[0] == 0 && work[159] == 0);
}

/* Lists of twins for the square, and what both calls that read twins answer to each. Half-edge 2 runs from corner 2 to 0, 3 from 0 to 2, and
 * 4 from 2 to 3. */
static const struct {
    uint32_t twins[6], refused, place, beside;
} faults[] = {
    {{NONE, NONE, 3, 2, NONE, 6}, NGEUNSADOK_TWIN_PAST_END, 5, 6},
    {{4294967294u, NONE, 3, 2, NONE, NONE}, NGEUNSADOK_TWIN_PAST_END, 0, 4294967294u},
    {{NONE, NONE, 3, NONE, NONE, NONE}, NGEUNSADOK_TWIN_NOT_BACK, 2, 3},
    {{NONE, NONE, 3, 2, NONE, 2}, NGEUNSADOK_TWIN_NOT_BACK, 5, 2},
    {{NONE, NONE, 3, 2, NONE, 0}, NGEUNSADOK_TWIN_NOT_BACK, 5, 0},
    {{4, 6, 3, 2, NONE, NONE}, NGEUNSADOK_TWIN_NOT_BACK, 0, 4}, /* between other corners too, and the next one is past the end */
    {{NONE, NONE, 4, NONE, 2, NONE}, NGEUNSADOK_TWIN_ELSEWHERE, 2, 4},
    {{0, NONE, 3, 2, NONE, 6}, NGEUNSADOK_TWIN_ELSEWHERE, 0, 0}, /* its own twin; the last one is past the end */
};

static void twin_faults(void) {
    const uint32_t rest[6] = {77, 77, 77, 77, 77, 77};
    size_t k;

    for (k = 0; k < sizeof faults / sizeof *faults; k++) {
        const uint32_t *const twin = faults[k].twins, refused = faults[k].refused, place = faults[k].place, beside = faults[k].beside;
        uint32_t quads[6] = {77, 77, 77, 77, 77, 77};
        ngeunsadok_count count = ngeunsadok_merge_triangle_pairs(x, 4, y, 4, triangles, 6, twin, 6, sides, 6, quads, 6);
        ngeunsadok_counts counts = framed(twin, 160, 13);

        EXPECT(count.refused == refused && count.place == place && count.beside == beside && count.count == 0);
        EXPECT(memcmp(quads, rest, sizeof quads) == 0);
        EXPECT(counts.refused == refused && counts.place == place && counts.beside == beside);
        EXPECT(counts.components == 0 && counts.entries == 0);
        EXPECT(untouched() && work[0] == 0xFFFFFFFF && work[159] == 0xFFFFFFFF);
    }
}

/* The call of the classes on the square with these angles, by this tolerance, into lists of so many elements. */
static ngeunsadok_verdict classed(const float *angle, float tolerance, size_t class_count, size_t fit_count) {
    reset();
    return ngeunsadok_classify_all_edges(x, 4, y, 4, angle, 8, marks, 8, spreads, 8, triangles, 6, tolerance, 1, KEEP, classes, class_count,
                                         fits, fit_count);
}

static void stages(void) {
    uint32_t quads[6] = {77, 77, 77, 77, 77, 77};
    ngeunsadok_verdict verdict;
    ngeunsadok_count count;

    reset();
    verdict = ngeunsadok_classify_all_edges(x, 4, y, 3, angles, 8, marks, 8, spreads, 8, triangles, 6, 0.25f, 1, KEEP, classes, 6, fits, 6);
    EXPECT(verdict.refused == 1 && verdict.place == 0 && unclassed(0, 7));
    verdict = classed(angles, 0.25f, 6, 6);
    EXPECT(verdict.refused == 0 && verdict.place == 0 && memcmp(classes, sides, sizeof sides) == 0);

    count = ngeunsadok_merge_triangle_pairs(x, 4, y, 4, triangles, 6, twins, 6, classes, 6, quads, 3);
    EXPECT(count.refused == 9 && count.place == 1 && count.beside == 0 && count.count == 0 && quads[0] == 77);
    count = ngeunsadok_merge_triangle_pairs(x, 4, y, 4, triangles, 6, twins, 6, classes, 6, quads, 6);
    EXPECT(count.refused == 0 && count.beside == 0 && count.count == 1 && memcmp(quads, square, sizeof quads) == 0);
}

/* Angles of the square's corners and a tolerance, with the classes and, by their bits, the fits. Half-edge 0 runs from corner 0 to 1 and 4
 * from 2 to 3, both along slot 0; 1 from 1 to 2 and 5 from 3 to 0, both along slot 1. */
#define HALF_TURN 3.14159274f /* 40490FDB */
#define ALONG {0, UP, 0, UP, 0, UP, 0, UP}
#define TURNED {0.125f, UP + 0.0625f, 0.03125f, UP, 0, UP, 0.1875f, UP}
#define NO_FIT 0xBF800000
#define MINUS_0 0x80000000
static const struct {
    float angles[8], tolerance;
    uint32_t classes[6], fits[6];
} fitted[] = {
    /* half-edge 5 lies a half turn below its axes, a distance of -0 */
    {ALONG, 0.25f, {1, 1, 2, 2, 1, 1}, {0, 0, NO_FIT, NO_FIT, 0, MINUS_0}},
    /* half-edge 0 has the greater distance at its start, 4 and 5 have it at their ends */
    {TURNED, 0.25f, {1, 1, 2, 2, 1, 1}, {0x3E000000, 0, NO_FIT, NO_FIT, 0x3E400000, 0x3D800000}},
    /* half-edge 0's own fit as tolerance, and the next float above it */
    {TURNED, 0.125f, {0, 1, 0, 0, 0, 1}, {NO_FIT, 0, NO_FIT, NO_FIT, NO_FIT, 0x3D800000}},
    {TURNED, 0.125000015f, {1, 1, 2, 0, 0, 1}, {0x3E000000, 0, NO_FIT, NO_FIT, NO_FIT, 0x3D800000}},
    /* half-edge 0 has a distance of -0 at its start, at its end, at both */
    {{HALF_TURN, UP, 0, UP, 0, UP, 0, UP}, 0.25f, {1, 1, 2, 2, 1, 1}, {MINUS_0, 0, NO_FIT, NO_FIT, 0, MINUS_0}},
    {{0, UP, HALF_TURN, UP, 0, UP, 0, UP}, 0.25f, {1, 1, 2, 2, 1, 1}, {0, 0, NO_FIT, NO_FIT, 0, MINUS_0}},
    {{HALF_TURN, UP, HALF_TURN, UP, 0, UP, 0, UP}, 0.25f, {1, 1, 2, 2, 1, 1}, {MINUS_0, 0, NO_FIT, NO_FIT, 0, MINUS_0}},
    /* above every distance, so that the diagonals are Grid too, and above none */
    {ALONG, 2, {1, 1, 1, 1, 1, 1}, {0, 0, 0x3F490FDC, 0x3F490FDB, 0, MINUS_0}},
    {ALONG, 0, {0, 0, 0, 0, 0, 0}, {NO_FIT, NO_FIT, NO_FIT, NO_FIT, NO_FIT, NO_FIT}},
};

static void fits_of_sides(void) {
    const size_t lengths[6][2] = {{6, 5}, {6, 7}, {5, 6}, {7, 6}, {5, 5}, {6, 0}};
    ngeunsadok_verdict verdict;
    size_t k;

    for (k = 0; k < sizeof fitted / sizeof *fitted; k++) {
        verdict = classed(fitted[k].angles, fitted[k].tolerance, 6, 6);
        EXPECT(verdict.refused == 0 && verdict.place == 0);
        EXPECT(memcmp(classes, fitted[k].classes, sizeof fitted[k].classes) == 0);
        EXPECT(memcmp(fits, fitted[k].fits, sizeof fitted[k].fits) == 0);
        EXPECT(unclassed(6, 1));
    }
    for (k = 0; k < 6; k++) {
        verdict = classed(angles, 0.25f, lengths[k][0], lengths[k][1]);
        EXPECT(verdict.refused == NGEUNSADOK_LENGTHS && verdict.place == 0 && unclassed(0, 7));
    }
}

/* The square with these marks and these y, by this tolerance and this rule: its classes, and its answer as a whole frame, whose workspace
 * has so many words. Both calls refuse alike, and then every list is as it was. */
static ngeunsadok_counts ruled(const uint32_t *mark, const float *at, float tolerance, uint32_t rule, size_t words) {
    ngeunsadok_verdict verdict;
    ngeunsadok_counts counts;

    reset();
    verdict =
        ngeunsadok_classify_all_edges(x, 4, at, 4, angles, 8, mark, 8, spreads, 8, triangles, 6, tolerance, 1, rule, classes, 6, fits, 6);
    counts = ngeunsadok_label_frame(x, 4, at, 4, angles, 8, mark, 8, spreads, 8, triangles, 6, twins, 6, tolerance, 1.5f, 0.5f, 2, 1, 1, 4,
                                    rule, work, words, components, 4, entries, 13);
    EXPECT(verdict.refused == counts.refused && verdict.place == counts.place && counts.beside == 0);
    if (counts.refused) {
        EXPECT(unclassed(0, 7) && counts.components == 0 && counts.entries == 0);
        EXPECT(untouched() && work[0] == 0xFFFFFFFF && work[159] == 0xFFFFFFFF);
    }
    return counts;
}

static void rules(void) {
    /* in the second list corner 0 has no spread in slot 0, along half-edge 0; in the third all corners have both */
    const uint32_t lists[3][8] = {{0, 0, 0, 0, 0, 0, 0, 0}, {0, 1, 1, 1, 1, 1, 1, 1}, {1, 1, 1, 1, 1, 1, 1, 1}};
    const uint32_t by_drop[3][6] = {{0, 0, 0, 0, 0, 0}, {0, 1, 0, 2, 1, 1}, {1, 1, 2, 2, 1, 1}};
    const float far[4] = {0, 0, 10, 2000000}, nan = from_bits(0x7FC00000);
    ngeunsadok_counts counts;
    size_t k, e;

    for (k = 0; k < 3; k++) {
        counts = ruled(lists[k], y, 0.25f, KEEP, 160);
        EXPECT(counts.refused == 0 && counts.components == 1 && counts.entries == 4 && memcmp(classes, sides, sizeof sides) == 0);
        counts = ruled(lists[k], y, 0.25f, DROP, 160);
        EXPECT(counts.refused == 0 && memcmp(classes, by_drop[k], sizeof by_drop[k]) == 0);
        for (e = 0; e < 6; e++) EXPECT(classes[e] == 1 ? fits[e] == 0 : bits(fits[e]) == NO_FIT);
        EXPECT(k == 2 ? counts.components == 1 && counts.entries == 4 : counts.components == 0 && counts.entries == 0);
    }
    for (k = 0; k < 3; k++) {
        counts = ruled(lists[k], y, 0.25f, no_rules[k], 160);
        EXPECT(counts.refused == NGEUNSADOK_RULE && counts.place == 0);
        /* behind 3; before 4 and 8 */
        counts = ruled(lists[k], far, nan, no_rules[k], 159);
        EXPECT(counts.refused == NGEUNSADOK_PARAMETER && counts.place == 0);
        counts = ruled(lists[k], far, 0.25f, no_rules[k], 159);
        EXPECT(counts.refused == NGEUNSADOK_RULE && counts.place == 0);
        counts = ruled(lists[k], far, 0.25f, DROP, 159);
        EXPECT(counts.refused == NGEUNSADOK_RANGE && counts.place == 3);
    }
}

static void filters(void) {
    uint32_t kept[6] = {77, 77, 77, 77, 77, 77};

    reset();
    ngeunsadok_count count = ngeunsadok_filter_quads(x, 4, y, 4, square, 4, 1.5f, 0.5f, 2, work, 95, kept, 6);
    EXPECT(count.refused == 8 && count.place == 96 && work[0] == 0xFFFFFFFF && kept[0] == 77);
    count = ngeunsadok_filter_quads(x, 4, y, 4, square, 4, 1.5f, 0.5f, 2, work, 96, kept, 6);
    EXPECT(count.refused == 0 && count.count == 1 && memcmp(kept, square, sizeof kept) == 0);
    EXPECT(work[0] == 0 && work[95] == 0);
}

static void labels(void) {
    ngeunsadok_counts counts;

    reset();
    counts = ngeunsadok_label_components(square, 4, 4, 1, 4, work, 96, components, 4, entries, 11);
    EXPECT(counts.refused == 10 && counts.place == 4 && untouched() && work[0] == 0);
    counts = ngeunsadok_label_components(square, 4, 4, 1, 4, work, 96, components, 4, entries, 13);
    EXPECT(counts.refused == 0 && counts.components == 1 && counts.entries == 4);
    EXPECT(components[0] == 0 && components[1] == 4 && components[2] == 0 && components[3] == 77);
    EXPECT(memcmp(entries, placed, sizeof entries) == 0);
}

/* The holes of the cells of five corners by five, numbered along the rows, but for those that have a corner left out, a dot: a place
 * counts that has corners on all four sides, and no other. */
static void holes(void) {
    static const struct {
        const char *corners; /* along the rows */
        uint32_t entries, holes;
    } sheets[] = {
        {"ooooo" "ooooo" "oo.oo" "ooooo" "ooooo", 24, 1}, /* a hole */
        {"ooo.." "ooo.." "ooo.." "ooooo" "ooooo", 19, 0}, /* an L */
        {"oo.oo" "oo.oo" "oo.oo" "ooooo" "ooooo", 22, 0}, /* open to each side in turn */
        {"ooooo" "ooooo" "oo..." "ooooo" "ooooo", 22, 0},
        {"ooooo" "ooooo" "oo.oo" "oo.oo" "oo.oo", 22, 0},
        {"ooooo" "ooooo" "...oo" "ooooo" "ooooo", 22, 0},
    };
    static uint32_t quads[64], space[32 * 16 + 16 * 25], component[3], entry[75];
    size_t k;

    for (k = 0; k < sizeof sheets / sizeof *sheets; k++) {
        const char *const at = sheets[k].corners;
        ngeunsadok_counts counts;
        size_t words = 0;
        uint32_t a;

        for (a = 0; a < 19; a++) {
            if (a % 5 == 4 || at[a] != 'o' || at[a + 1] != 'o' || at[a + 5] != 'o' || at[a + 6] != 'o') continue;
            quads[words++] = a;
            quads[words++] = a + 1;
            quads[words++] = a + 6;
            quads[words++] = a + 5;
        }
        counts = ngeunsadok_label_components(quads, words, 25, 1, 4, space, sizeof space / sizeof *space, component, 3, entry, 75);
        EXPECT(counts.refused == 0 && counts.components == 1 && counts.entries == sheets[k].entries);
        EXPECT(component[0] == 0 && component[1] == sheets[k].entries && component[2] == sheets[k].holes);
    }
}

/* The frame in structs answers as it does word by word, and the defaults are the original's to the bit. */
static void structs(void) {
    const ngeunsadok_frame square_frame = {4, x, y, angles, marks, spreads, 6, triangles, twins};
    ngeunsadok_params params = NGEUNSADOK_DEFAULT_PARAMS;
    ngeunsadok_component component = {77, 77, 77};
    ngeunsadok_entry entry[4];
    ngeunsadok_counts counts;

    EXPECT(bits(params.tolerance) == 0x3E860A92 && bits(params.ratio) == 0x3FC00000 && bits(params.least) == 0x3ECCCCCD);
    EXPECT(bits(params.greatest) == 0x40200000 && bits(params.limit) == 0x3F19999A);
    EXPECT(params.leastquads == 1 && params.leastcorners == 4 && params.rule == KEEP);
    EXPECT(NGEUNSADOK_FRAME_COMPONENTS(6) == 1 && NGEUNSADOK_FRAME_ENTRIES(6) == 4);
    counts = ngeunsadok_label(&square_frame, &params, work, 160, &component, 1, entry, 4);
    EXPECT(counts.refused == NGEUNSADOK_DONE && counts.components == 1 && counts.entries == 4);
    EXPECT(component.before == 0 && component.entries == 4 && component.holes == 0);
    EXPECT(memcmp(entry, placed, sizeof entry) == 0);
    counts = ngeunsadok_label(&square_frame, &params, work, 160, &component, 1, entry, 3);
    EXPECT(counts.refused == NGEUNSADOK_ENTRIES && counts.place == 4);
    counts = ngeunsadok_label(&square_frame, &params, work, 160, &component, 0, entry, 4);
    EXPECT(counts.refused == NGEUNSADOK_RECORDS && counts.place == 1);
}

/* Each parameter of the struct reaches its own argument: NaN in one is refused with its own place, whatever the rule, the leasts drop the
 * component, and so does rule 2, as no axis has a spread. The rule is the last field, which an initialiser that ends before it leaves 0. */
static void parameters(void) {
    const ngeunsadok_frame square_frame = {4, x, y, angles, marks, spreads, 6, triangles, twins};
    const ngeunsadok_params defaults = NGEUNSADOK_DEFAULT_PARAMS;
    ngeunsadok_component component;
    ngeunsadok_entry entry[4];
    uint32_t k;

    for (k = 0; k < 5; k++) {
        ngeunsadok_params params = defaults;
        float *const at[5] = {&params.tolerance, &params.ratio, &params.least, &params.greatest, &params.limit};
        ngeunsadok_counts counts;

        *at[k] = from_bits(0x7FC00000);
        counts = ngeunsadok_label(&square_frame, &params, work, 160, &component, 1, entry, 4);
        EXPECT(counts.refused == NGEUNSADOK_PARAMETER && counts.place == k);
        params.rule = 0;
        counts = ngeunsadok_label(&square_frame, &params, work, 160, &component, 1, entry, 4);
        EXPECT(counts.refused == NGEUNSADOK_PARAMETER && counts.place == k);
    }
    for (k = 0; k < 4; k++) {
        ngeunsadok_params params = defaults;

        params.leastquads = k < 2 ? 1 + k : 1;
        params.leastcorners = k < 2 ? 4 : 2 + k;
        EXPECT(ngeunsadok_label(&square_frame, &params, work, 160, &component, 1, entry, 4).components == (k == 0 || k == 2));
    }
    for (k = 0; k < 4; k++) {
        ngeunsadok_params params = defaults;
        ngeunsadok_counts counts;

        params.rule = k;
        counts = ngeunsadok_label(&square_frame, &params, work, 160, &component, 1, entry, 4);
        EXPECT(counts.refused == (k == 1 || k == 2 ? NGEUNSADOK_DONE : NGEUNSADOK_RULE) && counts.place == 0);
        EXPECT(counts.components == (k == 1));
    }
    EXPECT(offsetof(ngeunsadok_params, rule) + sizeof defaults.rule == sizeof defaults);
}

/* A null pointer is a list of no elements. */
static void nothing(void) {
    const ngeunsadok_frame none = {0, NULL, NULL, NULL, NULL, NULL, 0, NULL, NULL};
    const ngeunsadok_params params = NGEUNSADOK_DEFAULT_PARAMS;
    ngeunsadok_verdict verdict;
    ngeunsadok_count count;
    ngeunsadok_counts counts = ngeunsadok_label(&none, &params, NULL, 0, NULL, 0, NULL, 0);

    EXPECT(counts.refused == 0 && counts.place == 0 && counts.components == 0 && counts.entries == 0);
    verdict = ngeunsadok_classify_all_edges(NULL, 0, NULL, 0, NULL, 0, NULL, 0, NULL, 0, NULL, 0, 0.25f, 1, DROP, NULL, 0, NULL, 0);
    EXPECT(verdict.refused == 0 && verdict.place == 0);
    count = ngeunsadok_merge_triangle_pairs(NULL, 0, NULL, 0, NULL, 0, NULL, 0, NULL, 0, NULL, 0);
    EXPECT(count.refused == 0 && count.count == 0);
    count = ngeunsadok_filter_quads(NULL, 0, NULL, 0, NULL, 0, 1.5f, 0.5f, 2, NULL, 0, NULL, 0);
    EXPECT(count.refused == 0 && count.count == 0);
    counts = ngeunsadok_label_components(NULL, 0, 0, 1, 4, NULL, 0, NULL, 0, NULL, 0);
    EXPECT(counts.refused == 0 && counts.components == 0 && counts.entries == 0);
}

/* Null output lists beside a frame that has an answer are lists without room, and a null workspace one too short. */
static void no_room(void) {
    const ngeunsadok_frame square_frame = {4, x, y, angles, marks, spreads, 6, triangles, twins};
    const ngeunsadok_params params = NGEUNSADOK_DEFAULT_PARAMS;
    ngeunsadok_component component = {77, 77, 77};
    ngeunsadok_counts counts = ngeunsadok_label(&square_frame, &params, NULL, 0, NULL, 0, NULL, 0);

    EXPECT(counts.refused == NGEUNSADOK_WORKSPACE && counts.place == 160);
    counts = ngeunsadok_label(&square_frame, &params, work, 160, NULL, 0, NULL, 0);
    EXPECT(counts.refused == NGEUNSADOK_RECORDS && counts.place == 1);
    counts = ngeunsadok_label(&square_frame, &params, work, 160, &component, 1, NULL, 0);
    EXPECT(counts.refused == NGEUNSADOK_ENTRIES && counts.place == 4 && component.before == 77);
    EXPECT(ngeunsadok_merge_triangle_pairs(x, 4, NULL, 0, triangles, 6, twins, 6, twins, 6, NULL, 0).refused == NGEUNSADOK_LENGTHS);
}

/* Each refusal has words of its own, and a number without a row has some too. */
static void words(void) {
    const uint32_t rows[15] = {0, 1, 2, 3, NGEUNSADOK_RULE, 4, 5, 6, 7, 11, 12, 8, 9, 10, 77};
    uint32_t k, other;

    for (k = 0; k < 15; k++)
        for (other = 0; other < k; other++) EXPECT(strcmp(ngeunsadok_words(rows[k]), ngeunsadok_words(rows[other])) != 0);
    for (k = 13; k < 30; k++) EXPECT((strcmp(ngeunsadok_words(k), ngeunsadok_words(77)) == 0) == (k != 18));
    EXPECT(strstr(ngeunsadok_words(NGEUNSADOK_RULE), "rule") != NULL);
    EXPECT(strstr(ngeunsadok_words(NGEUNSADOK_TWIN_PAST_END), "twin") != NULL);
    EXPECT(strstr(ngeunsadok_words(NGEUNSADOK_TWIN_NOT_BACK), "twin") != NULL);
    EXPECT(strstr(ngeunsadok_words(NGEUNSADOK_TWIN_ELSEWHERE), "twin") != NULL);
}

int main(void) {
    numbers();
    axis();
    frame();
    twin_faults();
    stages();
    fits_of_sides();
    rules();
    filters();
    labels();
    holes();
    structs();
    parameters();
    nothing();
    no_room();
    words();
    if (!wrong) puts("C: every call answers as the rules say");
    return wrong;
}
