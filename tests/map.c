/* Holds the lit map, the two calls on its rows and the tiles of a window to document 02, from C:
 * the map that a survey leaves, by words that are written here and by the picture and the lists
 * beside it; that a survey writes all of it and nothing around it; that a refusal leaves it; that
 * question 11 asks for its length; what the calls on rows answer, on any map; which cells a tile
 * has, that all counts from its top left cell, and what tiles give together; the limits of windows
 * and tiles, and with which tile the counter rises. Each check is counted, one that fails is named.
 * tests/map.py runs this with the library, and sees to it that it can fail. */
#include "check.h"
#include "ring.h"

#include <stdio.h>
#include <string.h>

#define ALL UINT64_MAX

/* Scenes of one node at forward 100, with patches of four corners. */
#define U16(n) (uint16_t)(n) & 255, (uint16_t)(n) >> 8
#define U32(n) U16(n), 0, 0
#define POINT(x, z) U16(x), U16(100), U16(z)
#define HEAD(patches) \
    U16(1), U16(0), U32(58 + 30 * (patches)), U32(32), U32(26), U32(58), U32(6 * (patches)), \
    U32(58 + 6 * (patches)), U32(24 * (patches)), POINT(0, 0), POINT(1, 0), POINT(0, 1), \
    U16(65535), U16(65535), U16(0), U16(patches)
#define PATCH(panel, number) U16(panel), U16(4 * (number)), U16(4)
#define PIECE(left, right, bottom, top) \
    POINT(left, bottom), POINT(right, bottom), POINT(right, top), POINT(left, top)

/* S of document 01; and upright bars, of which each row has others. */
static const uint8_t s[] = {HEAD(1), PATCH(5, 0), PIECE(-50, 50, -50, 50)};
static const uint8_t bars[] = {
    HEAD(5), PATCH(1, 0), PATCH(2, 1), PATCH(3, 2), PATCH(4, 3), PATCH(5, 4),
    PIECE(-192, -180, -50, 100), PIECE(-70, -69, -30, 100), PIECE(-1, 1, -10, 100),
    PIECE(20, 120, 10, 60), PIECE(150, 192, 30, 100)};
_Static_assert(sizeof s == 88, "S has 88 bytes");

/* What a call names, but the lengths that no case changes. */
struct call {
    const uint8_t *scene;
    size_t scene_len, patches;
    int eye[3];
    int16_t axes[9];
    uint16_t width, height, lens;
    struct tile {
        uint16_t left, top, width, height;
    } tile;
    size_t picture_len, unlit_len, lit_len;
    uint32_t counter;
};

#define LENGTHS_OF(width, height) \
    (size_t)(width) * (height), 256 * (size_t)(height), 4 * (size_t)(height)
#define CALL(scene, patches, x, axes, width, height, lens) \
    {scene, sizeof scene, patches, {x, 0, 0}, {axes}, width, height, lens, \
     {RING_WHOLE_TILE(width, height)}, LENGTHS_OF(width, height), 6}
#define ON_S(x, width, height, lens) CALL(s, 1, x, RING_LEVEL_VIEW, width, height, lens)
#define STRETCHED 1, 0, 0, 0, 1, 0, 0, 0, 30
#define ON_BARS CALL(bars, 5, 0, STRETCHED, 250, 5, 130)

/* A tile of S in the widest window. */
#define ON_WIDE_S(x, lens, left, top, width, height) \
    {s, sizeof s, 1, {x, 0, 0}, {RING_LEVEL_VIEW}, 1024, 512, lens, {left, top, width, height}, \
     LENGTHS_OF(width, height), 6}

/* What is lent, with room for a row and a column more than a tile has. The map is lent from within
 * its room, so that nothing around it may change. */
enum { BEFORE = 8, ROOM = BEFORE + 512 + 8 };
static struct lent {
    uint64_t room[ROOM];
    uint16_t picture[257 * 129], unlit[256 * 129];
    uint32_t counts[1025], patch_counts[8], counter;
} lent;
static uint64_t *const map = lent.room + BEFORE;

#define THREE(v) (v)[0], (v)[1], (v)[2]
#define UNITS(v) (int16_t)(v)[0], (int16_t)(v)[1], (int16_t)(v)[2]
#define METRES(v) (v)[0] / 200.0, (v)[1] / 200.0, (v)[2] / 200.0
#define CAMERA(c) THREE((c)->axes), THREE((c)->axes + 3), THREE((c)->axes + 6), \
                  (c)->width, (c)->height, (c)->lens, \
                  (c)->tile.left, (c)->tile.top, (c)->tile.width, (c)->tile.height
#define LENT(c) lent.picture, (c)->picture_len, lent.counts, 1025, lent.patch_counts, \
                (c)->patches, lent.unlit, (c)->unlit_len, map, (c)->lit_len, &lent.counter
#define LENGTHS(c) (c)->picture_len, 1025, (c)->patches, (c)->unlit_len, (c)->lit_len, \
                   (c)->counter

/* The two forms of a station: the calls in units, and those in metres. */
enum form { IN_UNITS, IN_METRES, FORMS };

static uint32_t survey(const struct call *c, enum form form, uint64_t noise)
{
    for (size_t k = 0; k < ROOM; k++)
        lent.room[k] = noise;
    lent.counter = c->counter;
    if (form == IN_METRES)
        return ring_survey_metres(c->scene, c->scene_len, METRES(c->eye), CAMERA(c), LENT(c));
    return ring_survey(c->scene, c->scene_len, UNITS(c->eye), CAMERA(c), LENT(c));
}

static uint32_t gate(const struct call *c, enum form form)
{
    if (form == IN_METRES)
        return ring_gate_metres(c->scene, c->scene_len, METRES(c->eye), CAMERA(c), LENGTHS(c));
    return ring_gate(c->scene, c->scene_len, UNITS(c->eye), CAMERA(c), LENGTHS(c));
}

/* Is the map's room as it was but for so many words of the map? */
static int is_around(size_t words, uint64_t noise)
{
    size_t k = 0;
    while (k < ROOM && ((BEFORE <= k && k < BEFORE + words) || lent.room[k] == noise))
        k++;
    return k == ROOM;
}

/* What the maps are lent over: no bit, all bits, and some. */
static const uint64_t noises[] = {0, ALL, 0xa5c3960f1e2d784b};

/* Rows of the map that a survey leaves: their words, lit cells and first unlit column. */
struct station {
    const char *name;
    struct call call;
    struct row {
        size_t number;
        uint64_t words[4];
        uint32_t lit, first;
    } rows[5];
    int count;
};

static const struct station stations[] = {
    {"S, 4 by 4", ON_S(0, 4, 4, 4),
     {{0, {0}, 0, 0}, {1, {6}, 2, 0}, {2, {6}, 2, 0}, {3, {0}, 0, 0}}, 4},
    {"S, 1 by 1", ON_S(0, 1, 1, 4), {{0, {1}, 1, 1}}, 1},
    {"S, 256 wide", ON_S(0, 256, 1, 256), {{0, {0, ALL, ALL, 0}, 128, 0}}, 1},
    {"S from the right", ON_S(50, 256, 1, 256), {{0, {ALL, ALL, 0, 0}, 128, 128}}, 1},
    {"S from the left", ON_S(-50, 256, 1, 256), {{0, {0, 0, ALL, ALL}, 128, 0}}, 1},
    {"S, 100 wide", ON_S(0, 100, 1, 100), {{0, {0xfffffffffe000000, 0x7ff}, 50, 0}}, 1},
    {"S, 65 wide and full", ON_S(0, 65, 1, 4096), {{0, {ALL, 1}, 65, 65}}, 1},
    {"S, 256 wide and full", ON_S(0, 256, 1, 4096), {{0, {ALL, ALL, ALL, ALL}, 256, 256}}, 1},
    {"S, the largest window", ON_S(50, 256, 128, 256),
     {{0, {ALL, ALL}, 128, 128}, {63, {ALL, ALL}, 128, 128}, {127, {ALL, ALL}, 128, 128}}, 3},
    {"bars", ON_BARS,
     {{0, {0xff, 0x3000000000008000, 0, 0x03ffffffc0000000}, 39, 8},
      {1, {0xff, 0x3000000000008000, 0xfffffffffffffc00, 0x03ffffffc00007ff}, 104, 8},
      {2, {0xff, 0x3000000000008000}, 11, 8}, {3, {0xff}, 8, 8}, {4, {0}, 0, 0}}, 5},
    /* Tiles of 1,024 by 512: with lens 512 row 255 is lit from column 384 to 639, with lens 1,024
     * every row from 256 to 767, and to the last column from the left of S. */
    {"a tile left of the middle", ON_WIDE_S(0, 512, 256, 255, 256, 1),
     {{0, {0, 0, ALL, ALL}, 128, 0}}, 1},
    {"a tile right of the middle", ON_WIDE_S(0, 512, 512, 255, 256, 1),
     {{0, {ALL, ALL}, 128, 128}}, 1},
    {"a narrow tile", ON_WIDE_S(0, 512, 380, 250, 70, 10),
     {{0, {0xfffffffffffffff0, 0x3f}, 66, 0}, {9, {0xfffffffffffffff0, 0x3f}, 66, 0}}, 2},
    {"a tile that S ends in", ON_WIDE_S(0, 512, 600, 382, 65, 3),
     {{0, {0xffffffffff}, 40, 40}, {1, {0xffffffffff}, 40, 40}, {2, {0}, 0, 0}}, 3},
    {"a full tile", ON_WIDE_S(0, 1024, 256, 0, 256, 128),
     {{0, {ALL, ALL, ALL, ALL}, 256, 256}, {127, {ALL, ALL, ALL, ALL}, 256, 256}}, 2},
    {"the last tile", ON_WIDE_S(-50, 1024, 768, 384, 256, 128),
     {{0, {ALL, ALL, ALL, ALL}, 256, 256}, {127, {ALL, ALL, ALL, ALL}, 256, 256}}, 2},
    {"the last cell", ON_WIDE_S(-50, 1024, 1023, 511, 1, 1), {{0, {1}, 1, 1}}, 1},
};
enum { STATIONS = sizeof stations / sizeof *stations };

static int is_lit(const uint64_t *words, size_t column)
{
    return column < 256 && words[column / 64] >> column % 64 & 1;
}

/* "the first unlit column [...], the width where all are lit"; a column past the four words is not
 * lit. */
static uint32_t first_unlit(const uint64_t *words, uint16_t width)
{
    uint32_t column = 0;
    while (column < width && is_lit(words, column))
        column++;
    return column;
}

static const uint16_t widths[] = {0,   1,   2,   3,   8,   9,   63,  64,  65,  66,  100, 127, 128,
                                  129, 191, 192, 193, 249, 250, 255, 256, 257, 300, 512, 65535};
enum { WIDTHS = sizeof widths / sizeof *widths };

/* Does a row of a map have these words, and its calls these answers, for every width? */
static int has_row(const uint64_t *lit, size_t lit_len, const struct row *r)
{
    int held = !memcmp(lit + 4 * r->number, r->words, sizeof r->words) &&
               ring_row_lit(lit, lit_len, r->number) == r->lit;
    for (int k = 0; k < WIDTHS; k++)
        held &= ring_row_first_unlit(lit, lit_len, widths[k], r->number) ==
                first_unlit(r->words, widths[k]);
    return held;
}

/* "The station counter rises with the tile that holds the window's last cell, and with no
 * other." */
static uint32_t counter_after(const struct call *c)
{
    const struct tile *t = &c->tile;
    int is_last = t->left + t->width == c->width && t->top + t->height == c->height;
    return c->counter + (uint32_t)is_last;
}

static void check_station(const struct station *t, enum form form)
{
    const struct call *c = &t->call;
    for (size_t k = 0; k < sizeof noises / sizeof *noises; k++) {
        int done = survey(c, form, noises[k]) == RING_DONE && gate(c, form) == RING_DONE;
        check(done && lent.counter == counter_after(c) && is_around(c->lit_len, noises[k]),
              t->name);
        for (int n = 0; n < t->count; n++) {
            const struct row *r = &t->rows[n];
            check(has_row(map, c->lit_len, r), t->name);
            check(ring_row_first_unlit(map, c->lit_len, c->tile.width, r->number) == r->first,
                  t->name);
        }
    }
}

/* Is a column of a row unlit by its list? */
static int is_listed(const uint16_t *list, size_t column)
{
    size_t k = 0;
    while (k < 256 && list[k + 1] && !(list[k] <= column && column < (size_t)list[k] + list[k + 1]))
        k += 2;
    return k < 256 && list[k + 1];
}

/* "bit i mod 64 of word i / 64 set when column i is lit. Columns beyond the width stay clear." "Map
 * and list describe the same cells". */
static int agrees(const struct call *c)
{
    int held = 1;
    size_t width = c->tile.width;
    for (size_t j = 0; j < c->tile.height; j++) {
        uint32_t cells = 0;
        for (size_t i = 0; i < 256; i++) {
            int shown = i < width && lent.picture[j * width + i];
            int listed = is_listed(lent.unlit + 256 * j, i);
            held &= is_lit(map + 4 * j, i) == shown && listed == (i < width && !shown);
            cells += (uint32_t)shown;
        }
        held &= ring_row_lit(map, c->lit_len, j) == cells;
    }
    return held;
}

static void check_stations(void)
{
    for (int n = 0; n < STATIONS; n++) {
        check_station(&stations[n], IN_UNITS);
        check_station(&stations[n], IN_METRES);
        check(agrees(&stations[n].call), stations[n].name);
    }
}

/* Every width, with S from where it reaches beyond the last column, which is lit then. The division
 * rounds toward zero, so two units are taken off. */
static void check_widths(void)
{
    char name[20];
    for (int width = 1; width <= 256; width++) {
        struct call c = ON_S((128 - width) * 25 / 64 - 2, (uint16_t)width, 2, 256);
        int done = survey(&c, IN_UNITS, ALL) == RING_DONE && is_around(8, ALL);
        snprintf(name, sizeof name, "S, %d wide", width);
        check(done && agrees(&c) && is_lit(map + 4, (size_t)width - 1), name);
    }
}

/* "The first no gives its number, and nothing lent is altered." */
static void check_refused(const struct call *c, uint32_t answer, const char *name)
{
    for (enum form form = IN_UNITS; form < FORMS; form++)
        for (size_t k = 0; k < sizeof noises / sizeof *noises; k++)
            check(survey(c, form, noises[k]) == answer && gate(c, form) == answer &&
                  is_around(0, noises[k]), name);
}

/* A call that is changed in one place; and one on S. */
#define CHANGED_FROM(right, name, answer, change) \
    do { \
        struct call c = right; \
        c.change; \
        check_refused(&c, answer, name); \
    } while (0)
#define CHANGED(name, answer, change) CHANGED_FROM(on_s, name, answer, change)
static const struct call on_s = ON_S(0, 4, 4, 4);

static void check_refusals(void)
{
    static uint8_t tilted[sizeof s];
    memcpy(tilted, s, sizeof s);
    tilted[34] = 99;
    CHANGED("a scene too short", RING_BAD_HEADER, scene_len = 87);
    CHANGED("a patch off its plane", RING_BAD_SIDE, scene = tilted);
    CHANGED("width 0", RING_BAD_VIEW, width = 0);
    CHANGED("height 0", RING_BAD_VIEW, height = 0);
    CHANGED("lens 0", RING_BAD_VIEW, lens = 0);
    CHANGED("a mirrored camera", RING_BAD_AXES, axes[0] = -1);
    CHANGED("a cell too few", RING_BAD_BUFFERS, picture_len = 15);
    CHANGED("a table too long", RING_BAD_BUFFERS, patches = 2);
    CHANGED("a counter that cannot rise", RING_BAD_COUNTER, counter = UINT32_MAX);
    struct call far = ON_S(10001, 4, 4, 4);
    check(survey(&far, IN_UNITS, ALL) == RING_BAD_VIEW && is_around(0, ALL), "10,001 units");
    check(survey(&far, IN_METRES, ALL) == RING_BAD_METRES && is_around(0, ALL), "too many metres");
}

/* "Question 11 covers the map's length": four words for each of the tile's rows. */
static void check_lengths(void)
{
    static const size_t wrong[] = {15, 17, 0, 1, 4, 12, 20, 64, 256, 512};
    static const size_t far[] = {65552, 4294967312, SIZE_MAX, SIZE_MAX / 16 + 17, SIZE_MAX / 8 + 17, 1024};
    struct call c = ON_S(0, 4, 4, 4);
    for (size_t k = 0; k < sizeof wrong / sizeof *wrong; k++) {
        c.lit_len = wrong[k];
        check_refused(&c, RING_BAD_BUFFERS, "a map of another length");
        c.counter = UINT32_MAX;
        check_refused(&c, RING_BAD_BUFFERS, "a map of another length, and the counter");
        c.axes[0] = -1;
        check_refused(&c, RING_BAD_AXES, "a mirrored camera, and a map of another length");
        c.axes[0] = 1;
        c.counter = 6;
    }
    for (size_t k = 0; k < sizeof far / sizeof *far; k++) {
        c.lit_len = far[k];
        check(gate(&c, IN_UNITS) == RING_BAD_BUFFERS && gate(&c, IN_METRES) == RING_BAD_BUFFERS,
              "a length that no map has");
    }
    for (uint16_t height = 1; height <= 128; height++) {
        struct call high = ON_S(0, 1, height, 4096);
        int fits = gate(&high, IN_UNITS) == RING_DONE && gate(&high, IN_METRES) == RING_DONE;
        high.lit_len -= 1;
        int less = gate(&high, IN_UNITS) == RING_BAD_BUFFERS;
        high.lit_len += 2;
        check(fits && less && gate(&high, IN_UNITS) == RING_BAD_BUFFERS, "maps of every height");
    }
}

/* S in 4 by 4: tiles of it, the cells of each, its first row's first pair and its second row's. */
static const struct tiled {
    struct tile tile;
    uint16_t picture[16], pairs[2][2];
} tiled[] = {
    {{0, 0, 2, 2}, {0, 0, 0, 5}, {{0, 2}, {0, 1}}}, {{2, 0, 2, 2}, {0, 0, 5, 0}, {{0, 2}, {1, 1}}},
    {{0, 2, 2, 2}, {0, 5, 0, 0}, {{0, 1}, {0, 2}}}, {{2, 2, 2, 2}, {5, 0, 0, 0}, {{1, 1}, {0, 2}}},
    {{1, 1, 2, 2}, {5, 5, 5, 5}, {{0, 0}, {0, 0}}},
    {{1, 0, 3, 2}, {0, 0, 0, 5, 5, 0}, {{0, 3}, {2, 1}}},
    {{1, 2, 3, 2}, {5, 5, 0, 0, 0, 0}, {{2, 1}, {0, 3}}},
    {{0, 0, 4, 4}, {[5] = 5, 5, [9] = 5, 5}, {{0, 4}, {0, 1}}}};

/* A call on another tile of the window, with the lengths that follow it. */
static struct call on_tile(struct call c, struct tile tile)
{
    c.tile = tile;
    c.picture_len = (size_t)tile.width * tile.height;
    c.unlit_len = 256 * (size_t)tile.height;
    c.lit_len = 4 * (size_t)tile.height;
    return c;
}

/* "Rows, offsets and map bits count from the tile's top left cell." */
static int is_tiled(const struct call *c, const struct tiled *t)
{
    uint32_t five = 0;
    for (size_t k = 0; k < c->picture_len; k++)
        five += t->picture[k] == 5;
    return !memcmp(lent.picture, t->picture, c->picture_len * sizeof *t->picture) &&
           !memcmp(lent.unlit, t->pairs[0], sizeof t->pairs[0]) &&
           !memcmp(lent.unlit + 256, t->pairs[1], sizeof t->pairs[1]) && lent.counts[5] == five &&
           lent.counts[0] == c->picture_len - five && lent.patch_counts[0] == five && agrees(c);
}

static void check_tiled(void)
{
    for (size_t k = 0; k < sizeof tiled / sizeof *tiled; k++) {
        struct call c = on_tile(on_s, tiled[k].tile);
        for (enum form form = IN_UNITS; form < FORMS; form++)
            check(survey(&c, form, ALL) == RING_DONE && gate(&c, form) == RING_DONE &&
                  lent.counter == counter_after(&c) && is_tiled(&c, &tiled[k]), "a tile of S");
    }
}

/* A window put together from tiles: its cells, how many tiles hold each, and the added counts. */
static struct whole {
    uint16_t picture[1024 * 512];
    uint8_t times[1024 * 512];
    uint32_t counts[1025], patch_counts[8];
} whole;

static void add_tile(const struct call *c)
{
    for (size_t k = 0; k < c->picture_len; k++) {
        size_t x = c->tile.left + k % c->tile.width, y = c->tile.top + k / c->tile.width;
        whole.picture[y * c->width + x] = lent.picture[k];
        whole.times[y * c->width + x]++;
    }
    for (size_t k = 0; k < 1025; k++)
        whole.counts[k] += lent.counts[k];
    for (size_t k = 0; k < c->patches; k++)
        whole.patch_counts[k] += lent.patch_counts[k];
}

/* Are all tiles accepted, do they hold each cell once, and does the counter, handed from call to
 * call, rise by one in all? */
static int puts_together(const struct call *window, const struct tile *tiles, size_t count)
{
    int done = 1;
    uint32_t counter = window->counter;
    memset(&whole, 0, sizeof whole);
    for (size_t k = 0; k < count; k++) {
        struct call c = on_tile(*window, tiles[k]);
        c.counter = counter;
        done &= survey(&c, k % FORMS, ALL) == RING_DONE;
        counter = lent.counter;
        add_tile(&c);
    }
    for (size_t cell = 0; cell < (size_t)window->width * window->height; cell++)
        done &= whole.times[cell] == 1;
    return done && counter == window->counter + 1;
}

/* "All tiles that cover the window once, each of them accepted, give the whole picture, and their
 * counts add to its counts": of a window that is drawn as one tile as well. */
static void check_whole(const struct call *c, const struct tile *tiles, size_t count)
{
    int done = puts_together(c, tiles, count) && survey(c, IN_UNITS, ALL) == RING_DONE;
    check(done && !memcmp(whole.picture, lent.picture, c->picture_len * sizeof *lent.picture),
          "the picture from tiles");
    check(done && !memcmp(whole.counts, lent.counts, sizeof whole.counts) &&
          !memcmp(whole.patch_counts, lent.patch_counts, c->patches * sizeof *lent.patch_counts),
          "the counts of tiles, added");
}

static void check_windows(void)
{
    static const struct tile of_s[] = {{2, 2, 2, 2}, {0, 0, 2, 2}, {0, 2, 2, 2}, {2, 0, 2, 2}};
    static const struct tile of_bars[] = {
        {0, 0, 100, 2}, {100, 0, 150, 1}, {100, 1, 70, 4}, {170, 1, 80, 3}, {0, 2, 99, 3},
        {170, 4, 80, 1}, {99, 2, 1, 3}};
    struct call on_bars = ON_BARS;
    check_whole(&on_s, of_s, 4);
    check_whole(&on_s, &on_s.tile, 1);
    check_whole(&on_bars, of_bars, 7);
}

/* S in the widest window, from 16 tiles: with lens 1,024 every row is lit in columns 256 to 767. */
static void check_widest(void)
{
    struct call c = ON_WIDE_S(0, 1024, 0, 0, 256, 128);
    struct tile tiles[16];
    for (int k = 0; k < 16; k++)
        tiles[k] = (struct tile){(uint16_t)(k % 4 * 256), (uint16_t)(k / 4 * 128), 256, 128};
    int shown = puts_together(&c, tiles, 16);
    for (size_t cell = 0; cell < 1024 * 512; cell++)
        shown &= whole.picture[cell] == (256 <= cell % 1024 && cell % 1024 < 768 ? 5 : 0);
    check(shown, "the widest picture from tiles");
    check(whole.counts[5] == 262144 && whole.counts[0] == 262144 &&
          whole.patch_counts[0] == 262144, "its counts, added");
}

/* "Question 10 allows the larger window and refuses a tile that is empty, above 256 by 128 or not
 * wholly inside it": a window, a tile, and whether they pass. */
static const struct {
    uint16_t width, height;
    struct tile tile;
    int passes;
} placed[] = {
    {1024, 512, {768, 384, 256, 128}, 1}, {1024, 512, {0, 0, 256, 128}, 1},
    {1024, 512, {1023, 511, 1, 1}, 1}, {1024, 512, {0, 384, 256, 128}, 1},
    {1024, 512, {768, 0, 256, 128}, 1}, {4, 4, {3, 0, 1, 4}, 1}, {4, 4, {0, 3, 4, 1}, 1},
    {1024, 512, {769, 384, 256, 128}, 0}, {1024, 512, {768, 385, 256, 128}, 0},
    {1025, 512, {768, 384, 256, 128}, 0}, {1024, 513, {768, 384, 256, 128}, 0},
    {1025, 512, {0, 0, 1, 1}, 0}, {1024, 513, {0, 0, 1, 1}, 0}, {65535, 1, {0, 0, 1, 1}, 0},
    {1, 65535, {0, 0, 1, 1}, 0}, {0, 4, {0, 0, 1, 1}, 0}, {4, 0, {0, 0, 1, 1}, 0},
    {1024, 512, {0, 0, 0, 128}, 0}, {1024, 512, {0, 0, 257, 128}, 0},
    {1024, 512, {0, 0, 256, 0}, 0}, {1024, 512, {0, 0, 256, 129}, 0}, {4, 4, {0, 0, 0, 0}, 0},
    {4, 4, {0, 0, 5, 4}, 0}, {4, 4, {0, 0, 4, 5}, 0}, {4, 4, {1, 0, 4, 4}, 0},
    {4, 4, {0, 1, 4, 4}, 0}, {4, 4, {4, 0, 1, 1}, 0}, {4, 4, {0, 4, 1, 1}, 0},
    {9, 4, {5, 0, 5, 1}, 0}, {4, 9, {0, 5, 1, 5}, 0}, {9, 4, {0, 2, 1, 3}, 0},
    {4, 9, {2, 0, 3, 1}, 0}, {1024, 512, {65535, 0, 1, 1}, 0}, {1024, 512, {0, 65535, 1, 1}, 0},
    {1024, 512, {65535, 65535, 2, 2}, 0}, {1024, 512, {65281, 0, 256, 1}, 0},
    {1024, 512, {0, 65409, 1, 128}, 0}};

static void check_places(void)
{
    for (size_t k = 0; k < sizeof placed / sizeof *placed; k++) {
        struct call c = on_tile(on_s, placed[k].tile);
        c.width = placed[k].width;
        c.height = placed[k].height;
        if (!placed[k].passes)
            check_refused(&c, RING_BAD_VIEW, "a window and a tile that question 10 refuses");
        else
            check(survey(&c, IN_UNITS, ALL) == RING_DONE && gate(&c, IN_METRES) == RING_DONE &&
                  lent.counter == counter_after(&c), "a window and a tile that pass");
    }
}

/* "buffer lengths follow the tile", and not the window; question 12 is asked of every tile; and a
 * tile is asked with question 10, before the axes. */
static void check_tile_asked(void)
{
    struct tile tile = {1, 1, 3, 2};
    struct call inside = on_tile(on_s, tile), outside = inside;
    struct call first = on_tile(on_s, tiled[0].tile), last = on_tile(on_s, tiled[3].tile);
    check(gate(&inside, IN_UNITS) == RING_DONE && gate(&inside, IN_METRES) == RING_DONE,
          "the lengths of a tile");
    CHANGED_FROM(inside, "the window's cells", RING_BAD_BUFFERS, picture_len = 16);
    CHANGED_FROM(inside, "lists of the window's rows", RING_BAD_BUFFERS, unlit_len = 1024);
    CHANGED_FROM(inside, "a map of the window's rows", RING_BAD_BUFFERS, lit_len = 16);
    CHANGED_FROM(first, "the first tile, and the counter", RING_BAD_COUNTER, counter = UINT32_MAX);
    CHANGED_FROM(last, "the last tile, and the counter", RING_BAD_COUNTER, counter = UINT32_MAX);
    last.counter = UINT32_MAX - 1;
    check(survey(&last, IN_UNITS, ALL) == RING_DONE && lent.counter == UINT32_MAX, "the last rise");
    outside.tile.left = 2;
    CHANGED_FROM(outside, "a tile outside, and a mirrored camera", RING_BAD_VIEW, axes[0] = -1);
    CHANGED_FROM(outside, "a tile outside, and a cell too few", RING_BAD_VIEW, picture_len = 5);
    CHANGED_FROM(outside, "a tile outside, and a scene too short", RING_BAD_HEADER, scene_len = 87);
}

/* Three rows, no two alike, as no survey need have left them. */
static const uint64_t three[] = {7, 0, 0, (uint64_t)1 << 63, ALL, 0x1f, 1, 0,
                                 ALL, ALL, ALL, ALL >> 1};
static const struct row three_rows[] = {
    {0, {7, 0, 0, (uint64_t)1 << 63}, 4, 3},
    {1, {ALL, 0x1f, 1, 0}, 70, 69},
    {2, {ALL, ALL, ALL, ALL >> 1}, 255, 255},
};

/* A row of which all columns but one are lit, or just one, at any place. */
static void check_columns(void)
{
    for (size_t column = 0; column < 256; column++) {
        struct row all_but = {0, {ALL, ALL, ALL, ALL}, 255, (uint32_t)column};
        struct row only = {0, {0, 0, 0, 0}, 1, column == 0};
        all_but.words[column / 64] ^= (uint64_t)1 << column % 64;
        only.words[column / 64] ^= (uint64_t)1 << column % 64;
        check(has_row(all_but.words, 4, &all_but) &&
              ring_row_first_unlit(all_but.words, 4, 256, 0) == all_but.first, "one column unlit");
        check(has_row(only.words, 4, &only) &&
              ring_row_first_unlit(only.words, 4, 256, 0) == only.first, "one column lit");
    }
}

/* The first columns of a row lit, so many, a width, and the first unlit column below it. */
static const struct { uint32_t lit; uint16_t width; uint32_t first; } full[] = {
    {65, 65, 65}, {65, 64, 64}, {65, 66, 65}, {256, 256, 256}, {256, 100, 100}, {256, 300, 256},
    {256, 0, 0}, {256, 65535, 256}, {0, 256, 0}, {0, 0, 0}, {64, 256, 64}, {64, 64, 64},
    {63, 64, 63}, {128, 127, 127}, {128, 200, 128}, {192, 192, 192}, {192, 256, 192}, {1, 1, 1}};

static void check_full(void)
{
    for (size_t k = 0; k < sizeof full / sizeof *full; k++) {
        uint64_t words[4] = {0, 0, 0, 0};
        for (uint32_t column = 0; column < full[k].lit; column++)
            words[column / 64] |= (uint64_t)1 << column % 64;
        check(ring_row_lit(words, 4, 0) == full[k].lit &&
              ring_row_first_unlit(words, 4, full[k].width, 0) == full[k].first,
              "the first columns lit");
    }
}

/* Lengths and rows, and whether the row is wholly inside. All bits are set in the map and around
 * it, so that a row that is read where there is none shows. Of the last ones 4 times the row, or 4
 * times the next, is no number of a size_t, and what is left of it is mostly inside. */
static const struct { size_t len, row; int inside; } bare[] = {
    {0, 0, 0}, {0, 1, 0}, {1, 0, 0}, {3, 0, 0}, {4, 0, 1}, {4, 1, 0}, {5, 0, 1}, {5, 1, 0},
    {7, 0, 1}, {7, 1, 0}, {8, 1, 1}, {8, 2, 0}, {8, 3, 0}, {9, 1, 1}, {9, 2, 0}, {11, 2, 0},
    {12, 2, 1}, {12, 3, 0}, {512, 127, 1}, {512, 128, 0}, {511, 127, 0},
    {8, 256, 0}, {8, 65536, 0}, {8, (size_t)1 << 32, 0}, {8, ((size_t)1 << 32) + 1, 0},
    {0, SIZE_MAX, 0}, {4, SIZE_MAX, 0}, {8, SIZE_MAX, 0}, {8, SIZE_MAX - 1, 0},
    {8, SIZE_MAX / 4, 0}, {8, SIZE_MAX / 4 + 1, 0}, {8, SIZE_MAX / 4 + 2, 0},
    {8, SIZE_MAX / 2, 0}, {8, SIZE_MAX / 2 + 1, 0}, {8, SIZE_MAX / 2 + 2, 0},
    {4, SIZE_MAX / 4 * 3 + 3, 0}};

/* Maps of more rows than a window has: a row in them is found, and the one after them is not. */
static void check_long(void)
{
    static uint64_t words[65544];
    static const struct { size_t len, row; int inside; } asked[] = {
        {516, 128, 1}, {516, 129, 0}, {65544, 0, 1}, {65544, 16384, 1}, {65544, 16385, 1},
        {65544, 16386, 0}};
    for (size_t k = 0; k < sizeof words / sizeof *words; k++)
        words[k] = ALL;
    for (size_t k = 0; k < sizeof asked / sizeof *asked; k++) {
        uint32_t due = asked[k].inside ? 256 : 0;
        check(ring_row_lit(words, asked[k].len, asked[k].row) == due &&
              ring_row_first_unlit(words, asked[k].len, 256, asked[k].row) == due,
              "a row of a long map");
    }
}

static void check_bare(void)
{
    for (size_t k = 0; k < ROOM; k++)
        lent.room[k] = ALL;
    for (size_t k = 0; k < sizeof bare / sizeof *bare; k++) {
        size_t len = bare[k].len, row = bare[k].row;
        uint32_t due = bare[k].inside ? 256 : 0, narrow = bare[k].inside ? 100 : 0;
        check(ring_row_lit(map, len, row) == due, "the lit cells of bare maps");
        check(ring_row_first_unlit(map, len, 256, row) == due &&
              ring_row_first_unlit(map, len, 65535, row) == due &&
              ring_row_first_unlit(map, len, 100, row) == narrow &&
              ring_row_first_unlit(map, len, 0, row) == 0, "the first unlit column of bare maps");
    }
    check(is_around(0, ALL), "the calls on rows only read");
    for (int n = 0; n < 3; n++)
        check(has_row(three, 12, &three_rows[n]) &&
              ring_row_first_unlit(three, 12, 256, three_rows[n].number) == three_rows[n].first,
              "three rows");
}

int main(void)
{
    check_stations();
    check_widths();
    check_refusals();
    check_lengths();
    check_tiled();
    check_windows();
    check_widest();
    check_places();
    check_tile_asked();
    check_columns();
    check_full();
    check_bare();
    check_long();
    return checked("map");
}
