/* The calls of libabi.a for C99 and later, and for C++. crates/abi/src/lib.rt declares the same calls with their contracts, which are proved
 * for all inputs: every call ends, refuses exactly by the table below, and writes nothing but what is said here. The tests of rust/ hold
 * the declarations below against those; tools/try-c compiles this header and makes calls of each kind. docs/GUIDE.md tells what a frame
 * is and where its lists come from; examples/frame.c labels one.
 *
 * LINKING
 * `tools/native-archive abi OUT` writes libabi.a for this machine's processor, and with a target as third word one for that. `rt lib` in
 * the folder crates/abi writes out/libabi.a there, for x86-64's second level, x86-64-v2, and later. Then: cc -Iinclude program.c libabi.a
 * -lm. Of the C library the archive asks for memset alone.
 *
 * FLOATING POINT
 * The proofs are about IEEE 754 as a program has it at its start: rounding to nearest, subnormals kept. A call made in a thread with
 * another rounding, or with subnormals flushed to zero, may answer wrong. A program linked with -ffast-math flushes from its start on, and
 * then the root of 00000001 is 00000001 and not 1A3504F3. ngeunsadok_float_settings_hold() below tells.
 *
 * THREADS
 * The archive has no state. Calls may run in several threads at once; a list that a call writes (work too) is that call's alone meanwhile,
 * and lists that are only read may be shared.
 *
 * STACK
 * No call is recursive or allocates. The most that a call takes, with C's memset and its first call through a dynamic linker:
 *   ngeunsadok_label_frame                               96 KiB (NGEUNSADOK_STACK)
 *   ngeunsadok_filter_quads, ngeunsadok_label_components 24 KiB
 *   the others                                            8 KiB
 * tools/try-c measures each call at the limits and holds it to these.
 *
 * LISTS
 * A list is two arguments: a pointer to its first element, then the number of its elements (not bytes). A list of no elements may have a
 * null pointer: no call looks at it. What the proofs take for granted is what C cannot check: the pointer is aligned, that many elements
 * are there, and a list that a call may write shares no memory with another list of the same call.
 *
 *   x, y        one float a corner; corners are numbered from 0
 *   angles      two floats a corner, slot 0 then slot 1: corner k has elements 2k and 2k + 1; any float, NaN too
 *   marks       two words a corner in the same slots: 0 says that the spread in that slot is missing, any other that it is there; the
 *               spread rule says whether an axis without one counts
 *   spreads     two floats a corner in the same slots; not looked at where the mark is 0
 *   triangles   three corners a triangle; element e is the corner that half-edge e runs from, to the corner of the next one: e + 1, or
 *               e - 2 where e leaves 2 on division by 3; half-edge e belongs to triangle e / 3
 *   twins       one half-edge for each half-edge: the one that runs the other way, or NGEUNSADOK_NO_TWIN
 *   classes     one class for each half-edge: 0 Spurious, 1 Grid, 2 Diagonal
 *   fits        one float for each half-edge: where it is Grid, the greater of its distances, in radians, from the nearest axis that
 *               counts at either end, the start's where neither is greater (of -0 and 0 neither is); else -1. It tells how near a Grid
 *               side came to the tolerance: the side is Grid by every tolerance above its fit and by no other
 *   quads       four corners a quad, in order round it
 *   components  three words a component: the entries before its own, how many are its own, its holes; a hole is a place without an entry
 *               of the component that has some at a lower and at a higher u with its v, and at a lower and at a higher v with its u
 *   entries     three words an entry: u, v, corner; a component's stand together, in order of u, then v
 *   work        the workspace, lent for the call
 *
 * Room in a list that is only written (quads out, components, entries) is the number of whole records that fit; one more word or two is
 * no fault. The answer fills the front of such a list, and the rest stays as it was.
 *
 * REFUSALS
 * refused is 0 on success. Else it is the number of the first row that applies, of those that the call has and in the order below, place is
 * its place, and every other field of the answer is 0, but for beside in rows 7, 11 and 12: there it is the twin's own value, which may be
 * 0 too. In every other answer, success among them, beside is 0. Rows 7, 11 and 12 are tried between 6 and 8 as one: the first half-edge
 * with a wrong twin is told, by the first of the three that applies to it.
 *
 *   1  paired lists differ in length (x, y, axes at two slots a corner; triangles, twins, classes, fits), or a list of triangles or quads
 *      is not whole; place 0
 *   2  a count is over its limit: 4,096 corners, 24,576 half-edges, 4,096 quads; place 0
 *   3  a parameter is NaN; place: tolerance 0, ratio 1, least 2, greatest 3, spread limit 4
 *  18  the spread rule is neither 1 nor 2; place 0
 *   4  a position is not finite or above 1,048,576 in magnitude; place: the corner. For the angle, a difference that is not finite or above
 *      2,097,152 in magnitude; for the root, a value NaN, infinite or below zero; place 0
 *   5  a triangle or quad names a corner that does not exist, or else a class read is above 2; place: the position in its list
 *   6  a triangle or quad names a corner twice; place: the triangle or quad
 *   7  a twin is neither NGEUNSADOK_NO_TWIN nor a half-edge: it is past the end; place: the half-edge
 *  11  a twin does not point back: its own twin is not this half-edge; place: the half-edge
 *  12  a twin does not run between the same corners the other way; place: the half-edge
 *   8  the workspace is too short; place: the words wanted
 *   9  the component list, or the quad list, has less room than the answer has records; place: the records wanted
 *  10  the entry list has less room than the answer has entries; place: the entries wanted
 *
 * Every refusal leaves the lists that are written untouched. Success and the refusals 9 and 10 leave the whole workspace zero; every
 * other refusal leaves it untouched. It need not be zero before a call.
 */
#ifndef NGEUNSADOK_H
#define NGEUNSADOK_H

#include <stddef.h>
#include <stdint.h>
#include <string.h>

#ifdef __cplusplus
extern "C" {
#endif

#define NGEUNSADOK_NO_TWIN UINT32_C(4294967295)

#define NGEUNSADOK_MOST_CORNERS 4096
#define NGEUNSADOK_MOST_HALF_EDGES 24576
#define NGEUNSADOK_MOST_QUADS 4096

/* Bytes of stack that any call does with. */
#define NGEUNSADOK_STACK 98304

/* Refusals by their numbers in the table above. */
enum {
    NGEUNSADOK_DONE = 0,
    NGEUNSADOK_LENGTHS = 1,
    NGEUNSADOK_LIMIT = 2,
    NGEUNSADOK_PARAMETER = 3,
    NGEUNSADOK_RANGE = 4,
    NGEUNSADOK_NAMED = 5,
    NGEUNSADOK_TWICE = 6,
    NGEUNSADOK_TWIN_PAST_END = 7,
    NGEUNSADOK_WORKSPACE = 8,
    NGEUNSADOK_RECORDS = 9,
    NGEUNSADOK_ENTRIES = 10,
    NGEUNSADOK_TWIN_NOT_BACK = 11,
    NGEUNSADOK_TWIN_ELSEWHERE = 12,
    NGEUNSADOK_RULE = 18
};

/* The spread rules: whether an axis without a spread is informative. One with a spread is so by either where that is finite and below the
 * limit. */
enum {
    NGEUNSADOK_MISSING_INFORMATIVE = 1,
    NGEUNSADOK_MISSING_UNINFORMATIVE = 2
};

/* The words of workspace that a whole frame asks for, with the number of its half-edges, that is, the elements of triangles. */
#define NGEUNSADOK_FRAME_WORK(half_edges, corners) (16 * ((size_t)(half_edges) + (size_t)(corners)))

/* Records of components and of entries that always have room for a whole frame's answer: of two triangles comes one quad at most. */
#define NGEUNSADOK_FRAME_COMPONENTS(half_edges) ((size_t)(half_edges) / 6)
#define NGEUNSADOK_FRAME_ENTRIES(half_edges) (4 * ((size_t)(half_edges) / 6))

/* The words of workspace that the filters and the labelling ask for, each with the number of its input quads. */
#define NGEUNSADOK_QUAD_WORK(quads, corners) (32 * (size_t)(quads) + 16 * (size_t)(corners))

typedef struct {
    uint32_t refused;
    uint32_t place;
    float value;
} ngeunsadok_number;

/* known is 1 beside a value, else 0. */
typedef struct {
    uint32_t known;
    float value;
} ngeunsadok_apart;

/* An informative axis has 1, another 0. */
typedef struct {
    uint32_t refused;
    uint32_t place;
    float angle0;
    uint32_t informative0;
    float angle1;
    uint32_t informative1;
} ngeunsadok_cache;

typedef struct {
    uint32_t refused;
    uint32_t place;
} ngeunsadok_verdict;

typedef struct {
    uint32_t refused;
    uint32_t place;
    uint32_t beside;
    uint32_t count;
} ngeunsadok_count;

typedef struct {
    uint32_t refused;
    uint32_t place;
    uint32_t beside;
    uint32_t components;
    uint32_t entries;
} ngeunsadok_counts;

/* A component: the entries before its own, how many are its own, and its holes: places where none of its entries stands, with some of
 * them on both sides in the row and in the column. */
typedef struct {
    uint32_t before;
    uint32_t entries;
    uint32_t holes;
} ngeunsadok_component;

/* A corner and its place on the lattice. */
typedef struct {
    uint32_t u;
    uint32_t v;
    uint32_t corner;
} ngeunsadok_entry;

/* The parameters of a whole frame; beside each the name and the default that the original Rust library (NOTICE names it) has for it. None
 * is NaN. The original has no rule but 1. The rule stands last so that an initialiser by position without it moves no other value: it
 * leaves the rule 0, and that is refused by 18. */
typedef struct {
    float tolerance;       /* axis_align_tol_rad, 15 degrees: nearer than this, in radians, to an axis at both ends is a Grid side */
    float ratio;           /* opposing_edge_ratio_max, 1.5: the greatest ratio of two opposing sides of a quad */
    float least;           /* edge_length_min_rel, 0.4: the shortest side, in medians of its group; 0 or less for no bound */
    float greatest;        /* edge_length_max_rel, 2.5: the longest side, in medians of its group; infinity for no bound */
    float limit;           /* max_axis_sigma_rad, 0.6: an axis with a spread, in radians, of this or more does not count */
    uint32_t leastquads;   /* min_quads_per_component, 1: the quads that a group has for it to become a component */
    uint32_t leastcorners; /* min_corners_for_component, 4: the corners alone on their places that it has as well */
    uint32_t rule;         /* the spread rule: 1 where an axis without a spread counts, 2 where it does not */
} ngeunsadok_params;

/* The original's defaults: ngeunsadok_params params = NGEUNSADOK_DEFAULT_PARAMS; */
#define NGEUNSADOK_DEFAULT_PARAMS {0.261799395f, 1.5f, 0.4f, 2.5f, 0.6f, 1, 4, NGEUNSADOK_MISSING_INFORMATIVE}

/* What a whole frame reads, laid out as above. */
typedef struct {
    size_t corners;            /* how many there are */
    const float *x;            /* corners */
    const float *y;            /* corners */
    const float *angles;       /* 2 * corners */
    const uint32_t *marks;     /* 2 * corners */
    const float *spreads;      /* 2 * corners */
    size_t half_edges;         /* how many there are, three a triangle */
    const uint32_t *triangles; /* half_edges */
    const uint32_t *twins;     /* half_edges */
} ngeunsadok_frame;

/* The IEEE 754 square root. Row 4. */
ngeunsadok_number ngeunsadok_root(float x);

/* The angle of (dx, dy), in radians from -pi to pi, by the port's own rule and not by the machine's atan2. Row 4. */
ngeunsadok_number ngeunsadok_angle(float dx, float dy);

/* The distance of an angle from an axis, which has no direction: from 0 to pi/2, or none where it is not finite. No rows. */
ngeunsadok_apart ngeunsadok_distance(float angle, float axis);

/* The axis cache of one corner: its two angles, and for each whether it is informative, that is, whether its spread is finite and below the
 * limit, or missing (marked is 0) where the rule is 1. Rows 3 and 18. */
ngeunsadok_cache ngeunsadok_axis_cache(float angle0, uint32_t marked0, float spread0, float angle1, uint32_t marked1, float spread1,
                                       float limit, uint32_t rule);

/* A whole frame: classes, quads, the three filters and labelling. This is the call to use; those below it are its stages, one by one.
 *
 * Read: x and y, the axes of each corner (angles, marks, spreads), triangles, and twins, one for each element of triangles.
 * tolerance is how near an axis a Grid side is, limit the spread below which an axis counts, and rule whether one without a spread does (1)
 * or not (2); ratio, least and greatest are those of the filters, leastquads and leastcorners those of the labelling, all as below.
 * Written: components, three words each, by their lowest quads; and entries, three words each, in order of u, then v, within a component.
 * With h elements of triangles there are at most h / 6 components and 4 * (h / 6) entries, both divisions rounded down: lists of
 * 3 * (h / 6) and 12 * (h / 6) words always have room.
 * Lent: work, of NGEUNSADOK_FRAME_WORK(h, corners) words or more. ngeunsadok_label below makes the same call with structs.
 *
 * Rows 1 to 12 and 18. Rows 9 and 10 leave components and entries as they were and all of work zero; the others leave work, components and
 * entries as they were. Success leaves all of work zero, and components and entries as they were past the answer. */
ngeunsadok_counts ngeunsadok_label_frame(const float *x, size_t x_count, const float *y, size_t y_count, const float *angles,
                                         size_t angle_count, const uint32_t *marks, size_t mark_count, const float *spreads,
                                         size_t spread_count, const uint32_t *triangles, size_t triangle_words, const uint32_t *twins,
                                         size_t twin_count, float tolerance, float ratio, float least, float greatest, float limit,
                                         uint32_t leastquads, uint32_t leastcorners, uint32_t rule, uint32_t *work, size_t work_words,
                                         uint32_t *components, size_t component_words, uint32_t *entries, size_t entry_words);

/* The class of every half-edge into classes, and its fit into fits; both have as many elements as triangles. tolerance, limit and rule are
 * as for a whole frame. Rows 1 to 3, 18 and 4 to 6. */
ngeunsadok_verdict ngeunsadok_classify_all_edges(const float *x, size_t x_count, const float *y, size_t y_count, const float *angles,
                                                 size_t angle_count, const uint32_t *marks, size_t mark_count, const float *spreads,
                                                 size_t spread_count, const uint32_t *triangles, size_t triangle_words, float tolerance,
                                                 float limit, uint32_t rule, uint32_t *classes, size_t class_count, float *fits,
                                                 size_t fit_count);

/* A quad for each pair of triangles that meet at the only diagonal of both; count is how many. There are at most half as many as
 * triangles. Rows 1, 2, 4 to 7, 11, 12 and 9. */
ngeunsadok_count ngeunsadok_merge_triangle_pairs(const float *x, size_t x_count, const float *y, size_t y_count,
                                                 const uint32_t *triangles, size_t triangle_words, const uint32_t *twins,
                                                 size_t twin_count, const uint32_t *classes, size_t class_count, uint32_t *quads,
                                                 size_t quad_words);

/* The quads that pass three filters, in their order, into kept; count is how many. ratio is the greatest that opposing sides may have,
 * least and greatest are lengths relative to the median of the quad's group. The workspace has NGEUNSADOK_QUAD_WORK words or more. Rows
 * 1 to 6, 8 and 9. */
ngeunsadok_count ngeunsadok_filter_quads(const float *x, size_t x_count, const float *y, size_t y_count, const uint32_t *quads,
                                         size_t quad_words, float ratio, float least, float greatest, uint32_t *work, size_t work_words,
                                         uint32_t *kept, size_t kept_words);

/* The components of the quads, by their lowest quads, and the entries of all. corners is how many corners there are. A group of quads
 * becomes a component where it has leastquads quads, a labelling, and leastcorners corners that stand alone on their places. There are
 * at most as many components as quads, and four entries for each quad. The workspace has NGEUNSADOK_QUAD_WORK words or more. Rows 1, 2, 5,
 * 6, 8, 9 and 10. */
ngeunsadok_counts ngeunsadok_label_components(const uint32_t *quads, size_t quad_words, uint32_t corners, uint32_t leastquads,
                                              uint32_t leastcorners, uint32_t *work, size_t work_words, uint32_t *components,
                                              size_t component_words, uint32_t *entries, size_t entry_words);

/* ngeunsadok_label_frame with its arguments in structs. work_words is in words; the other counts are in records. */
static inline ngeunsadok_counts ngeunsadok_label(const ngeunsadok_frame *frame, const ngeunsadok_params *params, uint32_t *work,
                                                 size_t work_words, ngeunsadok_component *components, size_t component_count,
                                                 ngeunsadok_entry *entries, size_t entry_count) {
    return ngeunsadok_label_frame(frame->x, frame->corners, frame->y, frame->corners, frame->angles, 2 * frame->corners, frame->marks,
                                  2 * frame->corners, frame->spreads, 2 * frame->corners, frame->triangles, frame->half_edges,
                                  frame->twins, frame->half_edges, params->tolerance, params->ratio, params->least, params->greatest,
                                  params->limit, params->leastquads, params->leastcorners, params->rule, work, work_words,
                                  (uint32_t *)components, 3 * component_count, (uint32_t *)entries, 3 * entry_count);
}

/* What a refusal says, what its place is, and for a twin what beside is. */
static inline const char *ngeunsadok_words(uint32_t refused) {
    switch (refused) {
    case NGEUNSADOK_DONE: return "not refused";
    case NGEUNSADOK_LENGTHS: return "paired lists differ in length, or a list of triangles or quads is not whole";
    case NGEUNSADOK_LIMIT: return "there are more than 4,096 corners, 24,576 half-edges or 4,096 quads";
    case NGEUNSADOK_PARAMETER:
        return "a parameter is NaN; place: 0 tolerance, 1 ratio, 2 least length, 3 greatest length, 4 spread limit";
    case NGEUNSADOK_RULE: return "the spread rule is neither 1 nor 2";
    case NGEUNSADOK_RANGE: return "a position, or the single number given, is out of range; place: the corner, or 0";
    case NGEUNSADOK_NAMED: return "a corner that does not exist is named, or a class is above 2; place: the position in its list";
    case NGEUNSADOK_TWICE: return "a triangle or quad names a corner twice; place: the triangle or quad";
    case NGEUNSADOK_TWIN_PAST_END: return "a twin is past the end of the list; place: the half-edge; beside: its twin";
    case NGEUNSADOK_WORKSPACE: return "the workspace is too short; place: the words wanted";
    case NGEUNSADOK_RECORDS: return "the list of components or quads is too short; place: the records wanted";
    case NGEUNSADOK_ENTRIES: return "the list of entries is too short; place: the entries wanted";
    case NGEUNSADOK_TWIN_NOT_BACK: return "a twin does not point back; place: the half-edge; beside: its twin";
    case NGEUNSADOK_TWIN_ELSEWHERE:
        return "a twin does not run between the same corners the other way; place: the half-edge; beside: its twin";
    default: return "a refusal that this header does not know";
    }
}

static inline float ngeunsadok_from_bits(uint32_t word) {
    float value;
    memcpy(&value, &word, sizeof value);
    return value;
}

static inline uint32_t ngeunsadok_bits(float value) {
    uint32_t word;
    memcpy(&word, &value, sizeof word);
    return word;
}

/* 1 where this thread rounds to nearest and keeps subnormals, as the calls ask, else 0. It asks the archive itself: for the root of the
 * least float, for a difference below the least normal float, and for two differences that are 1 when rounded to nearest. */
static inline int ngeunsadok_float_settings_hold(void) {
    const uint32_t one = 0x3F800000, small = 0x30800000, least_normal = 0x00800000;

    return ngeunsadok_bits(ngeunsadok_root(ngeunsadok_from_bits(1)).value) == 0x1A3504F3 &&
           ngeunsadok_bits(ngeunsadok_distance(ngeunsadok_from_bits(0x00C00000), ngeunsadok_from_bits(least_normal)).value) == 0x00400000 &&
           ngeunsadok_bits(ngeunsadok_distance(ngeunsadok_from_bits(one), ngeunsadok_from_bits(small)).value) == one &&
           ngeunsadok_bits(ngeunsadok_distance(ngeunsadok_from_bits(one), ngeunsadok_from_bits(small | 0x80000000)).value) == one;
}

#ifdef __cplusplus
}
#endif

#endif
