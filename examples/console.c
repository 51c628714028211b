/*
 * console: surveys a scene from several stations and prints a bill for each.
 *
 *   console [-m] [-p] [-u] [-r] [-o PICTURE] [-a RX RY RZ FX FY FZ UX UY UZ]
 *           SCENE WIDTH HEIGHT LENS X Y Z [X Y Z ...]
 *
 * A bill is the view line, each panel that shows with its number of cells, the cells that show
 * none, and all cells; a refusal is one line, `refused N`. Bills follow in the stations' order. A
 * window of more than 256 by 128 cells, up to 1,024 by 512, is surveyed in tiles, and its bill has
 * their added counts.
 *   -m          the stations are in metres: fractions as C writes them, inf and nan among them,
 *               which the library refuses with 15; without it they are whole units of 5 mm
 *   -p          after each bill, a line for each patch of the scene: the patch's number, then its
 *               panel and its cells
 *   -u          after that, a line for each row with unlit cells: the row's number, then first
 *               column and length of each stretch
 *   -r          after that, a line for each row: the row's number, then how many of its cells are
 *               lit, and its first unlit column if it has one
 *   -o PICTURE  write the last picture as raw little-endian u16, for tools/draw.py --raw
 *   -a RX .. UZ the camera's axes at all stations: its vectors right, forward and up, three parts
 *               each; the level view, 1 0 0 0 1 0 0 0 1, where they are not given
 * Of a window in several tiles -u and -r tell the rows of each, after a line that tells which tile
 * it is, `tile LEFT TOP WIDTH HEIGHT`; rows and columns count from its top left cell.
 *
 * Build:  cc -std=c11 -Wall -Wextra -Iinclude examples/console.c -L LIBDIR -lsurvey -o console
 */
#include "ring.h"

#include <errno.h>
#include <stdio.h>
#include <stdlib.h>
#include <string.h>

/* One byte more than any scene: a longer file is refused like this one. */
static uint8_t scene[RING_SCENE_MAX + 1];
static size_t scene_len;

/* Where a scene's header holds the patch section's offset and length. */
enum { PATCHES_AT = 16, PATCHES_LENGTH = 20 };

/* A tile: its place in the window and its size, and buffers of its own, with room for the largest
 * tile and for the most patches. */
struct tile {
    uint16_t left, top, width, height;
    uint16_t picture[RING_TILE_WIDTH_MAX * RING_TILE_HEIGHT_MAX];
    uint32_t counts[RING_PANEL_MAX + 1];
    uint32_t patch_counts[RING_PATCH_MAX];
    uint16_t unlit[RING_TILE_HEIGHT_MAX * RING_UNLIT_ROW];
    uint64_t lit[RING_TILE_HEIGHT_MAX * RING_LIT_ROW];
};

/* How many tiles stand side by side in the widest window, and above each other in the highest. */
enum {
    MOST_ACROSS = RING_WIDTH_MAX / RING_TILE_WIDTH_MAX,
    MOST_DOWN = RING_HEIGHT_MAX / RING_TILE_HEIGHT_MAX
};

/* The tiles of the window, row after row from the top. */
static struct tile tiles[MOST_ACROSS * MOST_DOWN];
static uint32_t counter;

/* A station: three whole numbers of units, or three doubles in metres. */
struct station {
    int in_metres;
    int16_t units[3];
    double metres[3];
};

/* How all stations are surveyed: the window, and the axes right, forward and up. */
struct camera {
    uint16_t width, height, lens;
    int16_t axes[9];
};

struct options {
    const char *picture_name;
    int in_metres, with_patches, with_unlit, with_rows;
};

/* Vectors as a call takes them, part after part. */
#define THREE(v) (v)[0], (v)[1], (v)[2]
#define NINE(v) THREE(v), THREE((v) + 3), THREE((v) + 6)

static int fail(const char *what, const char *name)
{
    fprintf(stderr, "console: %s: %s\n", what, name);
    return 1;
}

static int usage(void)
{
    fputs("usage: console [-m] [-p] [-u] [-r] [-o PICTURE] [-a RX RY RZ FX FY FZ UX UY UZ]\n"
          "               SCENE WIDTH HEIGHT LENS X Y Z [X Y Z ...]\n"
          "  -m  the stations are in metres: 0.5 for half a metre; else in whole units of 5 mm\n"
          "  -p  print each patch with its panel and its cells after each bill\n"
          "  -u  print the unlit stretches after each bill\n"
          "  -r  print each row's lit cells and first unlit column after each bill\n"
          "  -o  write the last picture as raw little-endian u16\n"
          "  -a  turn the camera: its axes right, forward and up, each part from -100 to 100;\n"
          "      1 0 0 0 1 0 0 0 1, the level view, where not given\n",
          stderr);
    return 2;
}

static int read_scene(const char *name)
{
    FILE *file = fopen(name, "rb");
    if (!file)
        return fail("cannot open", name);
    scene_len = fread(scene, 1, sizeof scene, file);
    int bad = ferror(file);
    fclose(file);
    return bad ? fail("cannot read", name) : 0;
}

/* A whole number from low to high; *ok becomes 0 for anything else. */
static long number(const char *word, long low, long high, int *ok)
{
    char *end;
    errno = 0;
    long value = strtol(word, &end, 10);
    if (errno || end == word || *end || value < low || value > high) {
        fail("not a number that fits", word);
        *ok = 0;
        return 0;
    }
    return value;
}

static uint16_t window_number(const char *word, int *ok)
{
    return (uint16_t)number(word, 0, UINT16_MAX, ok);
}

/* A double, as the language reads it: the library judges what is too far or not finite, so a word
 * that reads as an infinity is one, whether it says so or is too large. *ok becomes 0 for what is
 * no number. */
static double fraction(const char *word, int *ok)
{
    char *end;
    double value = strtod(word, &end);
    if (end == word || *end) {
        fail("not a number", word);
        *ok = 0;
    }
    return value;
}

/* The parts of a station or of axes: any that a call can take, so that the library judges them. */
static void read_parts(char **words, int16_t *parts, int count, int *ok)
{
    for (int k = 0; k < count; k++)
        parts[k] = (int16_t)number(words[k], INT16_MIN, INT16_MAX, ok);
}

static struct station read_station(char **words, const struct options *options, int *ok)
{
    struct station s = {options->in_metres, {0, 0, 0}, {0, 0, 0}};
    if (!s.in_metres) {
        read_parts(words, s.units, 3, ok);
        return s;
    }
    for (int k = 0; k < 3; k++)
        s.metres[k] = fraction(words[k], ok);
    return s;
}

/* A byte of the scene, 0 past its end: a scene that is too short for its header is refused. */
static uint32_t scene_byte(size_t at)
{
    return at < scene_len ? scene[at] : 0;
}

/* Every field has its least significant byte first. */
static uint32_t scene_u16(size_t at)
{
    return scene_byte(at) | scene_byte(at + 1) << 8;
}

static uint32_t scene_u32(size_t at)
{
    return scene_u16(at) | scene_u16(at + 2) << 16;
}

static size_t at_most(size_t wanted, size_t room)
{
    return wanted < room ? wanted : room;
}

/* How many patches the scene has, if it is one that can be accepted: one with more is refused
 * before the length of their table is looked at, so then the whole table will do. */
static size_t patch_count(void)
{
    return at_most(scene_u32(PATCHES_LENGTH) / RING_PATCH_BYTES, RING_PATCH_MAX);
}

/* The panel of an accepted scene's patch: the first field of its record. */
static uint32_t patch_panel(size_t patch)
{
    return scene_u16(scene_u32(PATCHES_AT) + RING_PATCH_BYTES * patch);
}

/* How many tiles of this size stand side by side. A window without cells has one, which is as empty
 * as it is. */
static size_t tiles_along(size_t window, size_t tile)
{
    return window ? (window + tile - 1) / tile : 1;
}

static size_t tiles_across(const struct camera *c)
{
    return tiles_along(c->width, RING_TILE_WIDTH_MAX);
}

static size_t tile_count(const struct camera *c)
{
    return tiles_across(c) * tiles_along(c->height, RING_TILE_HEIGHT_MAX);
}

/* Puts a tile in its place: they are of the largest size but at the window's right and lower
 * edge. */
static void place_tile(const struct camera *c, size_t number)
{
    struct tile *t = &tiles[number];
    size_t left = number % tiles_across(c) * RING_TILE_WIDTH_MAX;
    size_t top = number / tiles_across(c) * RING_TILE_HEIGHT_MAX;
    t->left = (uint16_t)left;
    t->top = (uint16_t)top;
    t->width = (uint16_t)at_most(c->width - left, RING_TILE_WIDTH_MAX);
    t->height = (uint16_t)at_most(c->height - top, RING_TILE_HEIGHT_MAX);
}

/* The rest of a call, behind the scene and the station. */
#define CAMERA(c) NINE((c)->axes), (c)->width, (c)->height, (c)->lens
#define TILE(t) (t)->left, (t)->top, (t)->width, (t)->height
#define CELLS(t) RING_PICTURE_LEN((t)->width, (t)->height)
#define LENGTHS(t) CELLS(t), RING_COUNTS_LEN, patch_count(), RING_UNLIT_LEN((t)->height), \
                   RING_LIT_LEN((t)->height), counter
#define LENT(t) (t)->picture, CELLS(t), (t)->counts, RING_COUNTS_LEN, (t)->patch_counts, \
                patch_count(), (t)->unlit, RING_UNLIT_LEN((t)->height), (t)->lit, \
                RING_LIT_LEN((t)->height), &counter

static uint32_t ask_gate(const struct camera *c, const struct station *s, const struct tile *t)
{
    if (s->in_metres)
        return ring_gate_metres(scene, scene_len, THREE(s->metres), CAMERA(c), TILE(t),
                                LENGTHS(t));
    return ring_gate(scene, scene_len, THREE(s->units), CAMERA(c), TILE(t), LENGTHS(t));
}

static uint32_t ask_survey(const struct camera *c, const struct station *s, struct tile *t)
{
    if (s->in_metres)
        return ring_survey_metres(scene, scene_len, THREE(s->metres), CAMERA(c), TILE(t), LENT(t));
    return ring_survey(scene, scene_len, THREE(s->units), CAMERA(c), TILE(t), LENT(t));
}

/* Asks the gate first, which needs no buffer; then surveys. */
static uint32_t survey_tile(const struct camera *c, const struct station *s, struct tile *t)
{
    uint32_t gate = ask_gate(c, s, t), result = ask_survey(c, s, t);
    if (gate != result) {
        fprintf(stderr, "console: the gate said %u, the survey %u\n",
                (unsigned)gate, (unsigned)result);
        exit(3);
    }
    return result;
}

/* Surveys the window tile after tile; the first refusal ends it. A window that is too large, with
 * more tiles than there is room for, is refused with its first tile. The counter goes from call to
 * call and rises with the last tile. */
static uint32_t survey(const struct camera *c, const struct station *s)
{
    for (size_t k = 0; k < tile_count(c); k++) {
        place_tile(c, k);
        uint32_t result = survey_tile(c, s, &tiles[k]);
        if (result != RING_DONE)
            return result;
    }
    return RING_DONE;
}

/* The whole window's counts, of a panel and of a patch: those of its tiles, added up. */
static unsigned long panel_cells(const struct camera *c, size_t panel)
{
    unsigned long cells = 0;
    for (size_t k = 0; k < tile_count(c); k++)
        cells += tiles[k].counts[panel];
    return cells;
}

static unsigned long patch_cells(const struct camera *c, size_t patch)
{
    unsigned long cells = 0;
    for (size_t k = 0; k < tile_count(c); k++)
        cells += tiles[k].patch_counts[patch];
    return cells;
}

static void print_bill(const struct camera *c)
{
    printf("view %u %u %u\n", (unsigned)c->width, (unsigned)c->height, (unsigned)c->lens);
    for (unsigned panel = 1; panel <= RING_PANEL_MAX; panel++)
        if (panel_cells(c, panel))
            printf("%u %lu\n", panel, panel_cells(c, panel));
    printf("nothing %lu\n", panel_cells(c, 0));
    printf("total %lu\n", (unsigned long)c->width * c->height);
}

static void print_patches(const struct camera *c)
{
    for (size_t patch = 0; patch < patch_count(); patch++)
        printf("patch %lu: %lu %lu\n", (unsigned long)patch, (unsigned long)patch_panel(patch),
               patch_cells(c, patch));
}

/* The used pairs of a row end before the first pair of length 0, or with the row. */
static size_t used_pairs(const uint16_t *row)
{
    size_t used = 0;
    while (used < RING_UNLIT_ROW / 2 && row[2 * used + 1] != 0)
        used++;
    return used;
}

static void print_unlit(const struct tile *t)
{
    for (unsigned j = 0; j < t->height; j++) {
        const uint16_t *row = t->unlit + RING_UNLIT_ROW * j;
        size_t used = used_pairs(row);
        if (!used)
            continue;
        printf("unlit %u:", j);
        for (size_t k = 0; k < used; k++)
            printf(" (%u,%u)", (unsigned)row[2 * k], (unsigned)row[2 * k + 1]);
        printf("\n");
    }
}

/* Quick answers, for which no list is walked: the map has them row by row. Each of these rows is in
 * it, so that a first unlit column of 0 is one, and of the width is none. */
static void print_rows(const struct tile *t)
{
    size_t words = RING_LIT_LEN(t->height);
    for (unsigned j = 0; j < t->height; j++) {
        unsigned first = (unsigned)ring_row_first_unlit(t->lit, words, t->width, j);
        printf("row %u: %u lit, ", j, (unsigned)ring_row_lit(t->lit, words, j));
        if (first < t->width)
            printf("first unlit %u\n", first);
        else
            printf("none unlit\n");
    }
}

/* What is told of each tile by itself, with a line on which tile it is where there are several. */
static void print_tiles(const struct camera *c, void (*print)(const struct tile *))
{
    for (size_t k = 0; k < tile_count(c); k++) {
        const struct tile *t = &tiles[k];
        if (tile_count(c) > 1)
            printf("tile %u %u %u %u\n", (unsigned)t->left, (unsigned)t->top, (unsigned)t->width,
                   (unsigned)t->height);
        print(t);
    }
}

/* A cell of the whole picture: that of the tile that holds it, counted from the tile's top left
 * cell. */
static uint16_t cell_at(const struct camera *c, size_t column, size_t row)
{
    size_t across = column / RING_TILE_WIDTH_MAX, down = row / RING_TILE_HEIGHT_MAX;
    const struct tile *t = &tiles[down * tiles_across(c) + across];
    return t->picture[(row - t->top) * t->width + (column - t->left)];
}

static int write_picture(const char *name, const struct camera *c)
{
    if (!counter)
        return fail("no survey was accepted, no picture for", name);
    FILE *file = fopen(name, "wb");
    if (!file)
        return fail("cannot open", name);
    for (size_t cell = 0; cell < (size_t)c->width * c->height; cell++) {
        uint16_t panel = cell_at(c, cell % c->width, cell / c->width);
        putc(panel & 255, file);
        putc(panel >> 8, file);
    }
    int bad = ferror(file);
    bad |= fclose(file);
    return bad ? fail("cannot write", name) : 0;
}

/* Reads the options and the axes, if they are among them; the place of the first word after them,
 * or 0. */
static int read_options(int argc, char **argv, struct options *options, int16_t *axes, int *ok)
{
    int at = 1;
    for (; at < argc && argv[at][0] == '-'; at++) {
        if (!strcmp(argv[at], "-m")) {
            options->in_metres = 1;
        } else if (!strcmp(argv[at], "-p")) {
            options->with_patches = 1;
        } else if (!strcmp(argv[at], "-u")) {
            options->with_unlit = 1;
        } else if (!strcmp(argv[at], "-r")) {
            options->with_rows = 1;
        } else if (!strcmp(argv[at], "-o") && at + 1 < argc) {
            options->picture_name = argv[++at];
        } else if (!strcmp(argv[at], "-a") && at + 9 < argc) {
            read_parts(argv + at + 1, axes, 9, ok);
            at += 9;
        } else {
            return 0;
        }
    }
    return at;
}

static void read_window(char **words, struct camera *c, int *ok)
{
    c->width = window_number(words[0], ok);
    c->height = window_number(words[1], ok);
    c->lens = window_number(words[2], ok);
}

static void print_survey(const struct camera *c, const struct station *s,
                         const struct options *options)
{
    uint32_t result = survey(c, s);
    if (result != RING_DONE) {
        printf("refused %u\n", (unsigned)result);
        return;
    }
    print_bill(c);
    if (options->with_patches)
        print_patches(c);
    if (options->with_unlit)
        print_tiles(c, print_unlit);
    if (options->with_rows)
        print_tiles(c, print_rows);
}

int main(int argc, char **argv)
{
    struct options options = {NULL, 0, 0, 0, 0};
    struct camera c = {0, 0, 0, {RING_LEVEL_VIEW}};
    int ok = 1;
    int at = read_options(argc, argv, &options, c.axes, &ok);
    if (!at || argc - at < 7 || (argc - at - 4) % 3)
        return usage();
    read_window(argv + at + 1, &c, &ok);
    for (int k = at + 4; k < argc; k += 3)
        read_station(argv + k, &options, &ok);
    if (!ok)
        return usage();
    if (read_scene(argv[at]))
        return 1;
    for (int k = at + 4; k < argc; k += 3) {
        struct station s = read_station(argv + k, &options, &ok);
        print_survey(&c, &s, &options);
    }
    if (fflush(stdout) || ferror(stdout))
        return fail("cannot write", "standard output");
    return options.picture_name ? write_picture(options.picture_name, &c) : 0;
}
