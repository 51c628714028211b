/* Holds include/ring.h to documents 01 and 02: every number is written here a second time, from the
 * papers and not from the header, and every call is declared a second time. A header that says
 * anything else does not compile; a library that lacks a call does not link, and one that takes the
 * numbers of a call for one another paints another picture. tests/header.py sees to all of this,
 * and that this file names all that the header does. */
#include "ring.h"

#include <stdlib.h>
#include <string.h>

#define IS(what, number) _Static_assert((what) == (number), #what " is " #number)
#define IS_SIZE(what) _Static_assert(_Generic((what), size_t: 1, default: 0), #what " is a size_t")

/* A word that stands for nine or four numbers is put out as these before they are compared. */
#define IS_NINE(...) EACH_OF_NINE(__VA_ARGS__)
#define EACH_OF_NINE(a, b, c, d, e, f, g, h, i, a_, b_, c_, d_, e_, f_, g_, h_, i_) \
    _Static_assert((a) == (a_) && (b) == (b_) && (c) == (c_) && (d) == (d_) && (e) == (e_) && \
                   (f) == (f_) && (g) == (g_) && (h) == (h_) && (i) == (i_), "nine numbers")
#define IS_FOUR(...) EACH_OF_FOUR(__VA_ARGS__)
#define EACH_OF_FOUR(a, b, c, d, a_, b_, c_, d_) \
    _Static_assert((a) == (a_) && (b) == (b_) && (c) == (c_) && (d) == (d_), "four numbers")

/* "The result is "done" or this number": the number of the first question answered no, in the
 * order of asking, where 15 is "put just before question 10" and 14 "put right after question 10";
 * "done" is 0, which is no question's number. */
IS(RING_DONE, 0);
IS(RING_BAD_HEADER, 1);     /* 1: length, version, zero field, whole length */
IS(RING_BAD_SECTIONS, 2);   /* 2: the three pairs of offset and length */
IS(RING_BAD_RANGE, 3);      /* 3: every coordinate from -10,000 to 10,000 */
IS(RING_BAD_PLANE, 4);      /* 4: three points off one line */
IS(RING_BAD_TREE, 5);       /* 5: children */
IS(RING_BAD_RUNS, 6);       /* 6: patch runs and corner runs */
IS(RING_BAD_PANEL, 7);      /* 7: panels */
IS(RING_BAD_PATCH, 8);      /* 8: flat and strictly convex */
IS(RING_BAD_SIDE, 9);       /* 9: each patch on its side */
IS(RING_BAD_METRES, 15);    /* 15: doubles that become no whole number in range */
IS(RING_BAD_VIEW, 10);      /* 10: eye, window and tile */
IS(RING_BAD_AXES, 14);      /* 14: right, forward and up */
IS(RING_BAD_BUFFERS, 11);   /* 11: the lengths of what is lent */
IS(RING_BAD_COUNTER, 12);   /* 12: the station counter */

/* Question 10: "up to 1,024 by 512 cells", "lens 1 to 4,096"; "tiles of at most 256 by 128". A
 * window drawn "as one tile" has its place at the window's first cell, and the window's size. */
IS(RING_WIDTH_MAX, 1024);
IS(RING_HEIGHT_MAX, 512);
IS(RING_LENS_MAX, 4096);
IS(RING_TILE_WIDTH_MAX, 256);
IS(RING_TILE_HEIGHT_MAX, 128);
IS_FOUR(RING_WHOLE_TILE(256, 128), 0, 0, 256, 128);
IS_FOUR(2 * RING_WHOLE_TILE(3 + 4, 1 + 2) * 2, 0, 0, 7, 6);

/* "One length unit is 5 mm": a double's "exact value times 200". */
IS(RING_UNITS_PER_METRE, 200);

/* Question 14: "each part from -100 to 100". "The old view is (1,0,0), (0,1,0), (0,0,1)". */
IS(RING_AXIS_MAX, 100);
IS_NINE(RING_LEVEL_VIEW, 1, 0, 0, 0, 1, 0, 0, 0, 1);

/* Question 1: "32 to 57,376 bytes long". Question 7: "each panel 1 to 1,024". */
IS(RING_SCENE_MAX, 57376);
IS(RING_PANEL_MAX, 1024);

/* Question 2: "at most 1,024 nodes, 1,024 patches and 4,096 corners". "Patch, 6 bytes". */
IS(RING_PATCH_MAX, 1024);
IS(RING_PATCH_BYTES, 6);

/* Question 11: "the picture (u16) width × height cells, the counts (u32) 1,025, the unlit lists
 * (u16) height × 256"; "row j has the 256 numbers from 256 × j"; of the map "four u64 words a row";
 * and "buffer lengths follow the tile". The table of "one entry a patch" has as many as the scene,
 * which no number here can say. */
IS(RING_PICTURE_LEN(256, 128), 32768);
IS(RING_PICTURE_LEN(128, 256), 32768);
IS(RING_PICTURE_LEN(2 + 3, 3 + 4), 35);
IS(RING_PICTURE_LEN(65535, 65535), 4294836225);
IS(RING_COUNTS_LEN, 1025);
IS(RING_UNLIT_ROW, 256);
IS(RING_UNLIT_LEN(128), 32768);
IS(RING_UNLIT_LEN(1 + 2), 768);
IS(RING_LIT_ROW, 4);
IS(RING_LIT_LEN(128), 512);
IS(RING_LIT_LEN(1 + 2), 12);
IS(1 / RING_PICTURE_LEN(1, 2), 0);
IS(1 / RING_UNLIT_LEN(1), 0);
IS(1 / RING_LIT_LEN(1), 0);
IS_SIZE(RING_PICTURE_LEN(1, 1));
IS_SIZE(RING_COUNTS_LEN);
IS_SIZE(RING_UNLIT_ROW);
IS_SIZE(RING_UNLIT_LEN(1));
IS_SIZE(RING_LIT_ROW);
IS_SIZE(RING_LIT_LEN(1));

/* The calls: the scene's bytes; the eye, three i16; "three vectors, right, forward and up", three
 * i16 each, so that -101 and 101 can arrive and be refused; width, height and lens, u16 each; the
 * tile's place and size, u16 each as the window's are; what is lent, each with its length, after
 * the counts the "further lent table (u32, one entry a patch)", and "Beside the unlit lists" the
 * map, in "u64 words"; the station counter, up to 4,294,967,295. */
uint32_t ring_survey(const uint8_t *scene, size_t scene_len,
                     int16_t eye_x, int16_t eye_y, int16_t eye_z,
                     int16_t right_x, int16_t right_y, int16_t right_z,
                     int16_t forward_x, int16_t forward_y, int16_t forward_z,
                     int16_t up_x, int16_t up_y, int16_t up_z,
                     uint16_t width, uint16_t height, uint16_t lens,
                     uint16_t left, uint16_t top, uint16_t tile_width, uint16_t tile_height,
                     uint16_t *picture, size_t picture_len,
                     uint32_t *counts, size_t counts_len,
                     uint32_t *patch_counts, size_t patch_counts_len,
                     uint16_t *unlit, size_t unlit_len,
                     uint64_t *lit, size_t lit_len,
                     uint32_t *counter);
uint32_t ring_gate(const uint8_t *scene, size_t scene_len,
                   int16_t eye_x, int16_t eye_y, int16_t eye_z,
                   int16_t right_x, int16_t right_y, int16_t right_z,
                   int16_t forward_x, int16_t forward_y, int16_t forward_z,
                   int16_t up_x, int16_t up_y, int16_t up_z,
                   uint16_t width, uint16_t height, uint16_t lens,
                   uint16_t left, uint16_t top, uint16_t tile_width, uint16_t tile_height,
                   size_t picture_len, size_t counts_len, size_t patch_counts_len,
                   size_t unlit_len, size_t lit_len,
                   uint32_t counter);

/* "A station arrives either as units or as three doubles in metres": the same calls, with three
 * doubles for the eye. */
uint32_t ring_survey_metres(const uint8_t *scene, size_t scene_len,
                            double eye_x, double eye_y, double eye_z,
                            int16_t right_x, int16_t right_y, int16_t right_z,
                            int16_t forward_x, int16_t forward_y, int16_t forward_z,
                            int16_t up_x, int16_t up_y, int16_t up_z,
                            uint16_t width, uint16_t height, uint16_t lens,
                            uint16_t left, uint16_t top, uint16_t tile_width, uint16_t tile_height,
                            uint16_t *picture, size_t picture_len,
                            uint32_t *counts, size_t counts_len,
                            uint32_t *patch_counts, size_t patch_counts_len,
                            uint16_t *unlit, size_t unlit_len,
                            uint64_t *lit, size_t lit_len,
                            uint32_t *counter);
uint32_t ring_gate_metres(const uint8_t *scene, size_t scene_len,
                          double eye_x, double eye_y, double eye_z,
                          int16_t right_x, int16_t right_y, int16_t right_z,
                          int16_t forward_x, int16_t forward_y, int16_t forward_z,
                          int16_t up_x, int16_t up_y, int16_t up_z,
                          uint16_t width, uint16_t height, uint16_t lens,
                          uint16_t left, uint16_t top, uint16_t tile_width, uint16_t tile_height,
                          size_t picture_len, size_t counts_len, size_t patch_counts_len,
                          size_t unlit_len, size_t lit_len,
                          uint32_t counter);

/* "quick answers on a row": a row's lit cells, and its first unlit column, "the width where all are
 * lit". Columns are counted up to 256, and a row's number may be any that a length can be. */
uint32_t ring_row_lit(const uint64_t *lit, size_t lit_len, size_t row);
uint32_t ring_row_first_unlit(const uint64_t *lit, size_t lit_len, uint16_t width, size_t row);

/* "A scene of 32 bytes with no node is legal and shows nothing." */
static const uint8_t nothing[32] = {1, 0, 0, 0, 32, 0, 0, 0, 32, [16] = 32, [24] = 32};

/* The scene of samples/quarters.txt: panels 1 and 2 above, 3 and 4 below, at forward 100. */
#define U16(n) (uint16_t)(n) & 255, (uint16_t)(n) >> 8
#define U32(n) U16(n), 0, 0
#define POINT(x, z) U16(x), U16(100), U16(z)
#define PATCH(panel) U16(panel), U16(4 * (panel) - 4), U16(4)
#define SQUARE(x, z) \
    POINT(x, z), POINT((x) + 100, z), POINT((x) + 100, (z) + 100), POINT(x, (z) + 100)
static const uint8_t quarters[] = {
    U16(1), U16(0), U32(178), U32(32), U32(26), U32(58), U32(24), U32(82), U32(96),
    POINT(0, 0), POINT(1, 0), POINT(0, 1), U16(65535), U16(65535), U16(0), U16(4),
    PATCH(1), PATCH(2), PATCH(3), PATCH(4),
    SQUARE(-100, 0), SQUARE(0, 0), SQUARE(-100, -100), SQUARE(0, -100),
};

/* Where the numbers of a call's view end: after eye, right, forward and up come those of the window
 * and of the tile. Behind them stand the lengths, of which the third and the last are those of the
 * patch table and of the map. */
enum {
    WIDTH = 12, HEIGHT, LENS, LEFT, TOP, TILE_WIDTH, TILE_HEIGHT, LENGTHS,
    TABLE = LENGTHS + 2, MAP = LENGTHS + 4, NUMBERS
};

/* The numbers of a call in its order, up to the tile's, and what they show of the quarters. */
struct view {
    int number[LENGTHS];
    uint16_t picture[24];
};

/* Level; rolled by a quarter turn; upside down; from aside, where no two of the four panels have as
 * many cells, so that their counts cannot change places; and a tile of a view whose numbers all
 * differ, so that no two of them can change places without another picture or a refusal. */
static const struct view level = {
    {0, 0, 0, RING_LEVEL_VIEW, 4, 2, 4, RING_WHOLE_TILE(4, 2)}, {1, 1, 2, 2, 3, 3, 4, 4}};
static const struct view rolled = {
    {0, 0, 0, 0, 0, -1, 0, 1, 0, 1, 0, 0, 4, 2, 4, RING_WHOLE_TILE(4, 2)},
    {2, 2, 4, 4, 1, 1, 3, 3}};
static const struct view upside_down = {
    {0, 0, 0, -1, 0, 0, 0, 1, 0, 0, 0, -1, 4, 2, 4, RING_WHOLE_TILE(4, 2)},
    {4, 4, 3, 3, 2, 2, 1, 1}};
static const struct view aside = {
    {-81, 0, -30, RING_LEVEL_VIEW, 6, 4, 5, RING_WHOLE_TILE(6, 4)},
    {0, 0, 0, 1, 1, 2, 0, 0, 0, 3, 3, 4, 0, 0, 0, 3, 3, 4, 0, 0, 0, 3, 3, 4}};
static const struct view oblique = {
    {-19, -49, 26, 9, 2, -7, 3, 12, -4, 11, -1, 8, 10, 5, 7, 1, 0, 6, 4},
    {0, 0, 2, 2, 0, 0, 0, 1, 2, 2, 4, 4, 0, 1, 1, 4, 4, 4, 0, 0, 3, 3, 3, 4}};

/* The middle lines run along the joints, and one of them through the corner where all four panels
 * meet: "A cell holds the panel met first [...] by the line from the eye whose direction has right
 * times any small enough step above 0 added, and up times any step above 0 small enough beside that
 * taken away." Level, and rolled by a quarter turn. */
static const struct view joints = {
    {0, 0, 0, RING_LEVEL_VIEW, 3, 3, 4, RING_WHOLE_TILE(3, 3)}, {1, 2, 2, 3, 4, 4, 3, 4, 4}};
static const struct view joints_rolled = {
    {0, 0, 0, 0, 0, -1, 0, 1, 0, 1, 0, 0, 3, 3, 4, RING_WHOLE_TILE(3, 3)},
    {2, 4, 4, 1, 3, 3, 1, 3, 3}};

/* The last tile of a window with such joints, whose last two rows read 3 3 4 4 0. */
static const struct view last_tile = {
    {0, 0, 0, RING_LEVEL_VIEW, 5, 3, 4, 3, 1, 2, 2}, {4, 0, 4, 0}};

/* The gate paints nothing. But no two numbers can change places in all three of these, except those
 * of the eye, without a refusal: question 14 lets the vectors just pass; what passes as a part of
 * the eye, of a vector or of window and tile does not pass as a part of another of them; and the
 * tile is the window's last, of a size that its lengths tell. */
#define NARROW 300, 206, 201, 190, 101, 110, 105
static const int narrow[3][LENGTHS] = {
    {-101, -102, -103, -1, 2, -1, 0, 1, 0, 1, -1, -1, NARROW},
    {-101, -102, -103, 1, 0, 0, -1, -1, 1, 2, -1, -1, NARROW},
    {-101, -102, -103, 1, 0, 2, 2, 1, 1, 1, 2, 0, NARROW}};

/* What a call lends. Each has room for the longest, so that two lengths can change places too. The
 * map is lent from its second word on. */
static uint16_t picture[1025], unlit[1025];
static uint32_t counts[1025], patch_counts[1025];
static uint64_t lit[1026];

/* How many patches a scene has: "u16 version, 1; u16 zero; u32 whole length; then three pairs of
 * u32 offset and length in bytes", of which the second pair is the patches'. */
static size_t patches_in(const uint8_t *scene)
{
    uint32_t low = scene[20] | (uint32_t)scene[21] << 8;
    return (low | (uint32_t)scene[22] << 16 | (uint32_t)scene[23] << 24) / RING_PATCH_BYTES;
}

/* A call's numbers in its order, those of a view and then the five lengths, with the numbers in two
 * places exchanged, as by a library that takes them in another order. The lengths are those of the
 * view as it was. */
struct call {
    int number[NUMBERS];
};

static struct call call_of(const int *view, int one, int other)
{
    struct call c = {{0}};
    memcpy(c.number, view, LENGTHS * sizeof *view);
    c.number[LENGTHS] = (int)RING_PICTURE_LEN(view[TILE_WIDTH], view[TILE_HEIGHT]);
    c.number[LENGTHS + 1] = (int)RING_COUNTS_LEN;
    c.number[TABLE] = (int)patches_in(quarters);
    c.number[TABLE + 1] = (int)RING_UNLIT_LEN(view[TILE_HEIGHT]);
    c.number[MAP] = (int)RING_LIT_LEN(view[TILE_HEIGHT]);
    int kept = c.number[one];
    c.number[one] = c.number[other];
    c.number[other] = kept;
    return c;
}

#define THREE(n) (int16_t)(n)[0], (int16_t)(n)[1], (int16_t)(n)[2]
#define CAMERA(n) THREE((n) + 3), THREE((n) + 6), THREE((n) + 9), \
                  (uint16_t)(n)[WIDTH], (uint16_t)(n)[HEIGHT], (uint16_t)(n)[LENS], \
                  (uint16_t)(n)[LEFT], (uint16_t)(n)[TOP], \
                  (uint16_t)(n)[TILE_WIDTH], (uint16_t)(n)[TILE_HEIGHT]
#define LENGTHS_OF(n) (size_t)(n)[LENGTHS], (size_t)(n)[LENGTHS + 1], (size_t)(n)[TABLE], \
                      (size_t)(n)[TABLE + 1], (size_t)(n)[MAP]
#define LENT(n) picture, (size_t)(n)[LENGTHS], counts, (size_t)(n)[LENGTHS + 1], patch_counts, \
                (size_t)(n)[TABLE], unlit, (size_t)(n)[TABLE + 1], lit + 1, (size_t)(n)[MAP]

/* The eye in metres. A quotient is rounded, but by far too little to come near to a half. */
#define METRES(n) (n)[0] / 200.0, (n)[1] / 200.0, (n)[2] / 200.0

static uint32_t gate(const int *n, uint32_t count)
{
    return ring_gate(quarters, sizeof quarters, THREE(n), CAMERA(n), LENGTHS_OF(n), count);
}

static uint32_t gate_metres(const int *n, uint32_t count)
{
    return ring_gate_metres(quarters, sizeof quarters, METRES(n), CAMERA(n), LENGTHS_OF(n), count);
}

static uint32_t survey(const int *n, uint32_t *count)
{
    return ring_survey(quarters, sizeof quarters, THREE(n), CAMERA(n), LENT(n), count);
}

static uint32_t survey_metres(const int *n, uint32_t *count)
{
    return ring_survey_metres(quarters, sizeof quarters, METRES(n), CAMERA(n), LENT(n), count);
}

/* The calls by their names, each kind in both forms of a station. */
typedef uint32_t gate_call(const int *n, uint32_t count);
typedef uint32_t survey_call(const int *n, uint32_t *count);
static const struct { const char *name; gate_call *call; } gates[2] = {
    {"ring_gate", gate}, {"ring_gate_metres", gate_metres}};
static const struct { const char *name; survey_call *call; } surveys[2] = {
    {"ring_survey", survey}, {"ring_survey_metres", survey_metres}};

static int passes(gate_call *call, const int *view, int one, int other)
{
    return call(call_of(view, one, other).number, 6) == RING_DONE;
}

static int all_pass(gate_call *call, int one, int other)
{
    return passes(call, narrow[0], one, other) && passes(call, narrow[1], one, other) &&
           passes(call, narrow[2], one, other);
}

/* The table and the map as no survey leaves them, also beyond what is lent of them. */
static const uint64_t noise = 0x9999999999999999;

static void spoil(void)
{
    for (size_t k = 0; k < 1025; k++)
        patch_counts[k] = 9;
    for (size_t k = 0; k < 1026; k++)
        lit[k] = noise;
}

static int is_spoilt(void)
{
    size_t k = 0;
    while (k < 1025 && patch_counts[k] == 9 && lit[k] == noise)
        k++;
    return k == 1025 && lit[k] == noise;
}

/* Patch k of the quarters is the whole of panel k + 1: it has the cells that show this panel. What
 * the table held before is gone, and beyond its four entries nothing is written. */
static int counts_cells(const uint16_t *shown)
{
    uint32_t cells[6] = {[5] = 9};
    for (size_t k = 0; k < 24; k++)
        cells[shown[k]]++;
    return !memcmp(counts + 1, cells + 1, 4 * sizeof *cells) &&
           !memcmp(patch_counts, cells + 1, 5 * sizeof *cells);
}

/* "four u64 words a row, bit i mod 64 of word i / 64 set when column i is lit. Columns beyond the
 * width stay clear", all counted from the tile's first cell. What the map held before is gone, and
 * beside its words nothing is written. */
static int maps_cells(const struct view *v)
{
    size_t width = (size_t)v->number[TILE_WIDTH], height = (size_t)v->number[TILE_HEIGHT];
    uint64_t due[1026];
    for (size_t k = 0; k < 1026; k++)
        due[k] = 0 < k && k <= 4 * height ? 0 : noise;
    for (size_t cell = 0; cell < width * height; cell++) {
        size_t row = cell / width, column = cell % width;
        if (v->picture[cell])
            due[1 + 4 * row + column / 64] |= (uint64_t)1 << column % 64;
    }
    return !memcmp(lit, due, sizeof due);
}

/* "The station counter rises with the tile that holds the window's last cell, and with no
 * other." */
static uint32_t rise(const int *view)
{
    return view[LEFT] + view[TILE_WIDTH] == view[WIDTH] &&
           view[TOP] + view[TILE_HEIGHT] == view[HEIGHT];
}

static int shows(survey_call *call, struct view v, int one, int other)
{
    struct call c = call_of(v.number, one, other);
    uint32_t counter = 6;
    spoil();
    return call(c.number, &counter) == RING_DONE && counter == 6 + rise(v.number) &&
           counts_cells(v.picture) &&
           !memcmp(picture, v.picture, (size_t)c.number[LENGTHS] * sizeof *picture) &&
           maps_cells(&v);
}

/* The answer to a level view of the quarters with another length in one place, if all four calls
 * give it and a refusal leaves the table, the map and the counter as they were. */
static uint32_t answer_of(int place, int length, uint32_t count)
{
    struct call c = call_of(level.number, 0, 0);
    c.number[place] = length;
    uint32_t answer = gate(c.number, count);
    for (int form = 0; form < 2; form++) {
        uint32_t after = count;
        spoil();
        int agrees = surveys[form].call(c.number, &after) == answer;
        int kept = is_spoilt() && after == count;
        if (gates[form].call(c.number, count) != answer || !agrees || kept != (answer != RING_DONE))
            return UINT32_MAX;
    }
    return answer;
}

/* Does a place take this length and none of the others? Question 12 comes after it. */
static int asks_length(int place, int length, const int *others, int count)
{
    int asked = answer_of(place, length, 0) == RING_DONE &&
                answer_of(place, length, UINT32_MAX) == RING_BAD_COUNTER;
    for (int k = 0; k < count; k++)
        asked &= answer_of(place, others[k], 0) == RING_BAD_BUFFERS &&
                 answer_of(place, others[k], UINT32_MAX) == RING_BAD_BUFFERS;
    return asked;
}

/* "Question 11 covers the new table's length": one entry a patch, whatever the counts and the most
 * patches are. "Question 11 covers the map's length": that of the tile's two rows, whatever those
 * of the lists and of the highest tile are. */
static int asks_lengths(void)
{
    static const int tables[] = {3, 5, 0, 1024, 1025}, maps[] = {7, 9, 0, 2, 4, 12, 16, 512};
    return patches_in(quarters) == 4 && asks_length(TABLE, 4, tables, 5) &&
           asks_length(MAP, 8, maps, 8);
}

/* The answer on the scene of nothing where all is level and fits but what is named. */
static uint32_t answer(int16_t up_y, int16_t up_z, uint16_t lens, size_t cells, uint32_t counter)
{
    return ring_gate(nothing, 32, 0, 0, 0, 1, 0, 0, 0, 1, 0, 0, up_y, up_z, 1, 1, lens,
                     RING_WHOLE_TILE(1, 1), cells, 1025, 0, 256, 4, counter);
}

/* "14 when a part is out of range or right . (forward x up) is not above 0, put right after
 * question 10". */
static int asks_axes(void)
{
    return answer(100, 1, 1, 1, 0) == RING_DONE && answer(-100, 1, 1, 1, 0) == RING_DONE &&
           answer(101, 1, 1, 1, 0) == RING_BAD_AXES && answer(-101, 1, 1, 1, 0) == RING_BAD_AXES &&
           answer(1, 0, 1, 1, 0) == RING_BAD_AXES && answer(0, -1, 1, 1, 0) == RING_BAD_AXES &&
           answer(101, 1, 0, 1, 0) == RING_BAD_VIEW &&
           answer(101, 1, 1, 2, UINT32_MAX) == RING_BAD_AXES &&
           answer(0, 1, 1, 2, UINT32_MAX) == RING_BAD_BUFFERS;
}

/* The calls are there and answer; what is lent is written in full. A scene without patches takes a
 * table of length 0, of which nothing is written, and no other. */
static int shows_nothing(void)
{
    uint16_t cell[1] = {9}, row[256] = {9, 9, 9};
    uint32_t counted[1025] = {9, 9}, table[1] = {9}, counter = 6;
    uint64_t words[5] = {9, 9, 9, 9, 9};
    uint32_t refused = ring_survey(nothing, 32, 0, 0, 0, RING_LEVEL_VIEW, 1, 1, 1,
                                   RING_WHOLE_TILE(1, 1), cell, 1, counted, 1025, table, 1,
                                   row, 256, words, 4, &counter);
    int left = counter == 6 && cell[0] == 9 && counted[0] == 9 && row[0] == 9 && words[0] == 9;
    uint32_t done = ring_survey(nothing, 32, 0, 0, 0, RING_LEVEL_VIEW, 1, 1, 1,
                                RING_WHOLE_TILE(1, 1), cell, 1, counted, 1025, table, 0,
                                row, 256, words, 4, &counter);
    return patches_in(nothing) == 0 && refused == RING_BAD_BUFFERS && left &&
           answer(0, 1, 1, 1, 6) == RING_DONE && done == RING_DONE && counter == 7 &&
           cell[0] == 0 && counted[0] == 1 && counted[1] == 0 && table[0] == 9 && row[0] == 0 &&
           row[1] == 1 && row[2] == 0 && !(words[0] | words[1] | words[2] | words[3]) &&
           words[4] == 9;
}

/* The calls on rows, with two of their numbers exchanged. Of a map of two rows the second has
 * columns 0 to 2 lit, and two more. No two of a length of 8, a width of 7 and a row of 1 can change
 * places without another answer: then the row is not there. */
static const uint64_t two_rows[8] = {[4] = 0x17, [7] = 1};

static void exchange(size_t *number, int one, int other)
{
    size_t kept = number[one];
    number[one] = number[other];
    number[other] = kept;
}

static int counts_row(int one, int other)
{
    size_t number[2] = {8, 1};
    exchange(number, one, other);
    return ring_row_lit(two_rows, number[0], number[1]) == 5;
}

static int finds_column(int one, int other)
{
    size_t number[3] = {8, 7, 1};
    exchange(number, one, other);
    return ring_row_first_unlit(two_rows, number[0], (uint16_t)number[1], number[2]) == 3;
}

/* A view, with its station in units and in metres. */
static int holds(struct view v)
{
    int held = 1;
    for (int form = 0; form < 2; form++)
        held &= shows(surveys[form].call, v, 0, 0) && passes(gates[form].call, v.number, 0, 0);
    return held;
}

/* Does a call, by its name, still do what is due with two of its numbers exchanged? */
static int does_exchanged(const char *name, int one, int other)
{
    for (int form = 0; form < 2; form++) {
        if (!strcmp(name, surveys[form].name))
            return shows(surveys[form].call, oblique, one, other);
        if (!strcmp(name, gates[form].name))
            return all_pass(gates[form].call, one, other);
    }
    if (!strcmp(name, "ring_row_lit"))
        return counts_row(one, other);
    return strcmp(name, "ring_row_first_unlit") || finds_column(one, other);
}

/* header                  holds the library to all of this
 * header CALL ONE OTHER   with two numbers of this call exchanged, is the oblique view still shown,
 *                         do the narrow views all pass, or is the row's answer the same? */
int main(int argc, char **argv)
{
    if (argc == 4)
        return !does_exchanged(argv[1], atoi(argv[2]), atoi(argv[3]));
    return !(shows_nothing() && asks_axes() && asks_lengths() && all_pass(gate, 0, 0) &&
             all_pass(gate_metres, 0, 0) && holds(level) && holds(rolled) && holds(upside_down) &&
             holds(aside) && holds(oblique) && holds(joints) && holds(joints_rolled) &&
             holds(last_tile) && counts_row(0, 0) && finds_column(0, 0));
}
