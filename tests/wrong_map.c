/* The calls of a survey made of the library's own, with another map and with tiles in other places,
 * and the calls on rows written anew: rightly, or with the one fault that FAULT names. tests/map.c
 * must hold with the right ones and must not with any other, which tests/map.py sees to. It is
 * compiled to call these. */
#include "ring.h"

#include <string.h>

enum fault {
    RIGHT,
    /* Which bit is which cell. */
    BEYOND_WIDTH, NEXT_BEYOND, TO_WORD_END, WORDS_REVERSED, BITS_REVERSED, BYTES_REVERSED,
    ROWS_REVERSED, ROWS_JOINED, WORD_AFTER_WORD, COMPLEMENT, ONE_COLUMN_ON, LAST_COLUMN_LOST,
    LAST_OF_WORD_LOST, FOURTH_WORD_LOST, LAST_SPAN_ONLY, PANEL_5_ONLY,
    /* What of the map is written. */
    NOT_WRITTEN, ONLY_BITS_SET, ONLY_LIT_ROWS, LAST_ROW_HELD, WORD_BEFORE, WORD_BEHIND,
    /* What a refusal leaves. */
    LOST_AT_SCENE, LOST_AT_METRES, LOST_AT_VIEW, LOST_AT_AXES, LOST_AT_BUFFERS, LOST_AT_COUNTER,
    /* Question 11. */
    LENGTH_UNASKED, LONGER_PASSES, SHORTER_PASSES, ALWAYS_512, LENGTH_IN_16_BITS,
    LENGTH_IN_32_BITS, IN_UNITS_ONLY, IN_METRES_ONLY, GATE_ONLY, SURVEY_ONLY, BEFORE_14, AFTER_12,
    /* A row's lit cells. */
    FIRST_WORD_ONLY, THIRD_WORD_TWICE, WHOLE_MAP, ZEROS_COUNTED, HALF_A_WORD, BYTE_OF_ONES,
    /* A row's first unlit column. */
    TRAILING_OF_WORD, LEADING_OF_COMPLEMENT, FULL_WORD_STOPS, SECOND_FROM_63, WIDTH_UNASKED,
    LARGER_OF_TWO, PAST_READS_LIT, WIDTH_IN_A_BYTE, WIDTH_LESS_ONE, FIRST_LIT,
    /* Which row, and whether it is there. */
    ROW_AT_END, CELLS_AT_END, COLUMN_AT_END, LAST_ROW_OUT, PARTLY_INSIDE, ROW_OVERFLOWS,
    NEXT_OVERFLOWS, ROW_IN_16_BITS, ROW_IN_32_BITS, ROW_OF_ONE_WORD, NEXT_ROW, OUT_IS_WIDTH,
    OUT_IS_256, ROWS_WRITE,
    /* Which cells of the window a tile has. */
    OWN_WINDOW, LEFT_LOST, TOP_LOST, LEFT_AND_TOP_EXCHANGED, LEFT_FROM_RIGHT, TOP_FROM_BELOW,
    WINDOW_FROM_TILE,
    /* What counts from the tile's first cell. */
    MAP_FROM_WINDOW, LISTS_FROM_WINDOW, COUNTS_OF_WINDOW, TABLE_KEPT_ADDING,
    /* What question 10 lets pass, and when a tile is asked. */
    WIDTH_256, HEIGHT_128, WIDTH_1025, HEIGHT_513, NO_COLUMN, NO_ROW, TILE_257, TILE_129,
    LAST_COLUMN_OUT, LAST_ROW_OF_WINDOW_OUT, BEYOND_RIGHT, BEYOND_BELOW, LEFT_IN_16_BITS,
    TOP_IN_16_BITS, TILE_AFTER_14, TILE_BEFORE_SCENE,
    /* Lengths by the window. */
    PICTURE_OF_WINDOW, LISTS_OF_WINDOW, MAP_OF_WINDOW,
    /* The counter. */
    RISES_ALWAYS, RISES_NEVER, RISES_WITH_FIRST, RISES_AT_RIGHT, RISES_BELOW, ASKED_IF_RISES,
    FAULTS
};

static const enum fault fault = FAULT;

#define VIEW int16_t rx, int16_t ry, int16_t rz, int16_t fx, int16_t fy, int16_t fz, \
             int16_t ux, int16_t uy, int16_t uz, uint16_t width, uint16_t height, uint16_t lens, \
             uint16_t left, uint16_t top, uint16_t tile_width, uint16_t tile_height
#define SAME_VIEW rx, ry, rz, fx, fy, fz, ux, uy, uz, p.width, p.height, lens, \
                  p.left, p.top, p.tile_width, p.tile_height
#define LENGTHS size_t cells, size_t counts_len, size_t patches, size_t unlit_len, size_t lit_len
#define LENT uint16_t *picture, size_t cells, uint32_t *counts, size_t counts_len, \
             uint32_t *table, size_t patches, uint16_t *unlit, size_t unlit_len, \
             uint64_t *lit, size_t lit_len, uint32_t *counter

/* A window and a tile of it, as a call names them. */
struct place {
    uint16_t width, height, left, top, tile_width, tile_height;
};

static int is_within(const struct place *p)
{
    return p->left + p->tile_width <= p->width && p->top + p->tile_height <= p->height;
}

/* Does the fault refuse this place, which may be right? */
static int is_refused(const struct place *p)
{
    switch (fault) {
    case WIDTH_256: return p->width > 256;
    case HEIGHT_128: return p->height > 128;
    case LAST_COLUMN_OUT: return p->left + p->tile_width == p->width;
    case LAST_ROW_OF_WINDOW_OUT: return p->top + p->tile_height == p->height;
    default: return 0;
    }
}

/* A place that is refused, mended as far as the fault lets it pass. */
static struct place let_pass(struct place p)
{
    int beyond = p.left + p.tile_width > p.width, below = p.top + p.tile_height > p.height;
    int wraps_right = (uint16_t)(p.left + p.tile_width) <= p.width;
    int wraps_below = (uint16_t)(p.top + p.tile_height) <= p.height;
    switch (fault) {
    case WIDTH_1025: p.width -= p.width == 1025; break;
    case HEIGHT_513: p.height -= p.height == 513; break;
    case NO_COLUMN: p.tile_width += p.tile_width == 0; break;
    case NO_ROW: p.tile_height += p.tile_height == 0; break;
    case TILE_257: p.tile_width -= p.tile_width == 257; break;
    case TILE_129: p.tile_height -= p.tile_height == 129; break;
    case BEYOND_RIGHT:
    case TILE_AFTER_14: p.left = beyond ? 0 : p.left; break;
    case BEYOND_BELOW: p.top = below ? 0 : p.top; break;
    case LEFT_IN_16_BITS: p.left = beyond && wraps_right ? 0 : p.left; break;
    case TOP_IN_16_BITS: p.top = below && wraps_below ? 0 : p.top; break;
    default: break;
    }
    return p;
}

/* Another place that a tile is surveyed at, in another window perhaps. */
static struct place moved(struct place p)
{
    struct place own = {p.tile_width, p.tile_height, 0, 0, p.tile_width, p.tile_height};
    struct place turned = {p.width, p.height, p.top, p.left, p.tile_width, p.tile_height};
    uint16_t from_left = (uint16_t)(p.width - p.left);
    struct place cut = {from_left, p.height, 0, p.top, p.tile_width, p.tile_height};
    switch (fault) {
    case OWN_WINDOW: return own;
    case LEFT_LOST: p.left = 0; break;
    case TOP_LOST: p.top = 0; break;
    case LEFT_AND_TOP_EXCHANGED: return is_within(&turned) ? turned : p;
    case LEFT_FROM_RIGHT: p.left = (uint16_t)(p.width - p.left - p.tile_width); break;
    case TOP_FROM_BELOW: p.top = (uint16_t)(p.height - p.top - p.tile_height); break;
    case WINDOW_FROM_TILE: return cut;
    default: break;
    }
    return p;
}

/* The place that the library is asked about. */
static struct place asked_of(struct place p)
{
    if (is_refused(&p))
        p.left = UINT16_MAX;
    p = let_pass(p);
    return is_within(&p) ? moved(p) : p;
}

/* Does the counter rise? */
static uint32_t rise(const struct place *p)
{
    int at_right = p->left + p->tile_width == p->width;
    int at_bottom = p->top + p->tile_height == p->height;
    switch (fault) {
    case RISES_ALWAYS: return 1;
    case RISES_NEVER: return 0;
    case RISES_WITH_FIRST: return p->left == 0 && p->top == 0;
    case RISES_AT_RIGHT: return at_right;
    case RISES_BELOW: return at_bottom;
    default: return at_right && at_bottom;
    }
}

/* The window and the picture that a map is drawn from, and what stood in its place. */
struct drawing {
    const uint16_t *picture;
    size_t width, height, left;
    uint64_t *lit;
    const uint64_t *held;
};

static int is_lit(const struct drawing *d, size_t column, size_t row)
{
    const uint16_t *cells = d->picture + row * d->width;
    switch (fault) {
    case BEYOND_WIDTH: return column >= d->width || cells[column];
    case NEXT_BEYOND: return column <= d->width && cells[column - (column == d->width)];
    case TO_WORD_END: return cells[column < d->width ? column : d->width - 1] &&
                             column / 64 <= (d->width - 1) / 64;
    case COMPLEMENT: return column < d->width && !cells[column];
    case ONE_COLUMN_ON: return column && column <= d->width && cells[column - 1];
    case LAST_COLUMN_LOST: return column + 1 < d->width && cells[column];
    case LAST_OF_WORD_LOST: return column < d->width && column % 64 < 63 && cells[column];
    case FOURTH_WORD_LOST: return column < d->width && column < 192 && cells[column];
    case PANEL_5_ONLY: return column < d->width && cells[column] == 5;
    default: return column < d->width && cells[column];
    }
}

/* Is another span between this column and the row's end? */
static int is_followed(const struct drawing *d, size_t column, size_t row)
{
    size_t i = column;
    while (i < d->width && is_lit(d, i, row))
        i++;
    while (i < d->width && !is_lit(d, i, row))
        i++;
    return i < d->width;
}

/* The place of a bit, counted from the map's first. */
static size_t place_of(const struct drawing *d, size_t column, size_t row)
{
    size_t word = column / 64, bit = column % 64;
    switch (fault) {
    case WORDS_REVERSED: return 256 * row + 64 * (3 - word) + bit;
    case BITS_REVERSED: return 256 * row + 64 * word + 63 - bit;
    case BYTES_REVERSED: return 256 * row + 64 * word + (56 - bit / 8 * 8) + bit % 8;
    case ROWS_REVERSED: return 256 * (d->height - 1 - row) + column;
    case ROWS_JOINED: return d->width * row + column;
    case WORD_AFTER_WORD: return 64 * (d->height * word + row) + bit;
    case MAP_FROM_WINDOW: return 256 * row + (d->left + column) % 256;
    default: return 256 * row + column;
    }
}

static void draw_row(const struct drawing *d, size_t row)
{
    for (size_t column = 0; column < 256; column++) {
        size_t place = place_of(d, column, row);
        int left_out = fault == LAST_SPAN_ONLY && is_followed(d, column, row);
        if (is_lit(d, column, row) && !left_out)
            d->lit[place / 64] |= (uint64_t)1 << place % 64;
    }
}

/* Puts back what stood there before, where the fault leaves it. */
static void hold_row(const struct drawing *d, size_t row)
{
    uint64_t *words = d->lit + 4 * row, any = words[0] | words[1] | words[2] | words[3];
    int is_held = fault == NOT_WRITTEN || (fault == ONLY_LIT_ROWS && !any) ||
                  (fault == LAST_ROW_HELD && row + 1 == d->height);
    for (size_t k = 0; k < 4; k++) {
        if (is_held)
            words[k] = d->held[4 * row + k];
        if (fault == ONLY_BITS_SET)
            words[k] |= d->held[4 * row + k];
    }
}

static void draw(const struct drawing *d)
{
    memset(d->lit, 0, 32 * d->height);
    for (size_t row = 0; row < d->height; row++)
        draw_row(d, row);
    for (size_t row = 0; row < d->height; row++)
        hold_row(d, row);
    if (fault == WORD_BEFORE)
        d->lit[-1] ^= 1;
    if (fault == WORD_BEHIND)
        d->lit[4 * d->height] ^= 1;
}

/* Does the fault leave another map after a refusal with this answer? */
static int is_lost(uint32_t answer)
{
    switch (fault) {
    case LOST_AT_SCENE: return 0 < answer && answer < 10;
    case LOST_AT_METRES: return answer == 15;
    case LOST_AT_VIEW: return answer == 10;
    case LOST_AT_AXES: return answer == 14;
    case LOST_AT_BUFFERS: return answer == 11;
    case LOST_AT_COUNTER: return answer == 12;
    default: return 0;
    }
}

/* What of the lists and the counts a fault leaves otherwise than the library did. */
static void count_from_window(const struct place *p, uint16_t *unlit, uint32_t *counts,
                              uint32_t *table)
{
    for (size_t k = 0; fault == LISTS_FROM_WINDOW && k < RING_UNLIT_LEN(p->tile_height); k += 2)
        if (unlit[k + 1])
            unlit[k] = (uint16_t)(unlit[k] + p->left);
    if (fault == COUNTS_OF_WINDOW)
        counts[0] += (uint32_t)p->width * p->height - (uint32_t)p->tile_width * p->tile_height;
    if (fault == TABLE_KEPT_ADDING)
        table[0] += p->left || p->top;
}

/* The length that the library is asked about: by the window, where the fault has it so. */
static size_t by_window(size_t length, size_t due, size_t windows, enum fault wanted)
{
    return fault != wanted ? length : length == windows ? due : due + 1;
}

#define PICTURE_LEN by_window(cells, RING_PICTURE_LEN(tile_width, tile_height), \
                              RING_PICTURE_LEN(width, height), PICTURE_OF_WINDOW)
#define LISTS_LEN by_window(unlit_len, RING_UNLIT_LEN(tile_height), RING_UNLIT_LEN(height), \
                            LISTS_OF_WINDOW)

/* Does a call, in this form, take a map of this length? */
static int fits(size_t lit_len, const struct place *p, int in_metres, int is_gate)
{
    size_t due = RING_LIT_LEN(fault == MAP_OF_WINDOW ? p->height : p->tile_height);
    switch (fault) {
    case LENGTH_UNASKED: return 1;
    case LONGER_PASSES: return lit_len >= due;
    case SHORTER_PASSES: return lit_len <= due;
    case ALWAYS_512: return lit_len == 512;
    case LENGTH_IN_16_BITS: return (uint16_t)lit_len == due;
    case LENGTH_IN_32_BITS: return (uint32_t)lit_len == due;
    case IN_UNITS_ONLY: return lit_len == due || in_metres;
    case IN_METRES_ONLY: return lit_len == due || !in_metres;
    case GATE_ONLY: return lit_len == due || !is_gate;
    case SURVEY_ONLY: return lit_len == due || is_gate;
    default: return lit_len == due;
    }
}

/* The answer, by that to the same call with a map of the due length. */
static uint32_t answered(uint32_t otherwise, int fits)
{
    int is_after = otherwise == 0 || otherwise == (fault == AFTER_12 ? 0 : 12) ||
                   (fault == BEFORE_14 && otherwise == 14);
    return is_after && !fits ? 11 : otherwise;
}

/* The answer where the fault asks for the tile, or for the counter, at another time. */
static uint32_t in_turn(uint32_t otherwise, const struct place *p)
{
    int is_late = otherwise == 0 || otherwise == 11 || otherwise == 12;
    if (fault == TILE_AFTER_14 && is_late && !is_within(p))
        return 10;
    if (fault == TILE_BEFORE_SCENE && !is_within(p))
        return 10;
    return fault == ASKED_IF_RISES && otherwise == 12 && !rise(p) ? 0 : otherwise;
}

/* The largest map, to survey into; and the map that was lent, as it was. */
static uint64_t surveyed[512], held[512];

/* The window and the tile of a call, and those that the library is asked about. */
#define PLACES \
    struct place asked = {width, height, left, top, tile_width, tile_height}, p = asked_of(asked)

#define GATE(call) \
    PLACES; \
    uint32_t answer = call(scene, len, x, y, z, SAME_VIEW, PICTURE_LEN, counts_len, patches, \
                           LISTS_LEN, RING_LIT_LEN(tile_height), counter); \
    return answered(in_turn(answer, &asked), fits(lit_len, &asked, in_metres, 1))

/* Surveys into another map where the one lent is taken, and draws it then. */
#define SURVEY(gate, survey) \
    PLACES; \
    uint32_t before = *counter; \
    uint32_t answer = gate(scene, len, x, y, z, SAME_VIEW, PICTURE_LEN, counts_len, patches, \
                           LISTS_LEN, RING_LIT_LEN(tile_height), before); \
    answer = answered(in_turn(answer, &asked), fits(lit_len, &asked, in_metres, 0)); \
    if (is_lost(answer) && lit_len) \
        lit[0] ^= 1; \
    if (answer) \
        return answer; \
    survey(scene, len, x, y, z, SAME_VIEW, picture, cells, counts, counts_len, table, patches, \
           unlit, unlit_len, surveyed, RING_LIT_LEN(tile_height), counter); \
    *counter = before + rise(&asked); \
    count_from_window(&asked, unlit, counts, table); \
    memcpy(held, lit, 8 * RING_LIT_LEN(tile_height)); \
    draw(&(struct drawing){picture, tile_width, tile_height, left, lit, held}); \
    return answer

uint32_t tried_gate(const uint8_t *scene, size_t len, int16_t x, int16_t y, int16_t z, VIEW,
                    LENGTHS, uint32_t counter)
{
    int in_metres = 0;
    GATE(ring_gate);
}

uint32_t tried_gate_metres(const uint8_t *scene, size_t len, double x, double y, double z, VIEW,
                           LENGTHS, uint32_t counter)
{
    int in_metres = 1;
    GATE(ring_gate_metres);
}

uint32_t tried_survey(const uint8_t *scene, size_t len, int16_t x, int16_t y, int16_t z, VIEW, LENT)
{
    int in_metres = 0;
    SURVEY(ring_gate, ring_survey);
}

uint32_t tried_survey_metres(const uint8_t *scene, size_t len, double x, double y, double z, VIEW,
                             LENT)
{
    int in_metres = 1;
    SURVEY(ring_gate_metres, ring_survey_metres);
}

/* Is a row wholly inside a map of this length? */
static int is_inside(size_t lit_len, size_t row, int for_cells)
{
    switch (fault) {
    case ROW_AT_END: return lit_len / 4 >= row;
    case CELLS_AT_END: return for_cells ? lit_len / 4 >= row : lit_len / 4 > row;
    case COLUMN_AT_END: return for_cells ? lit_len / 4 > row : lit_len / 4 >= row;
    case LAST_ROW_OUT: return lit_len / 4 > row && (row == 0 || lit_len / 4 > row + 1);
    case PARTLY_INSIDE: return lit_len / 4 > row || (lit_len / 4 == row && lit_len % 4);
    case ROW_OVERFLOWS: return 4 * row < lit_len && lit_len - 4 * row >= 4;
    case NEXT_OVERFLOWS: return lit_len / 4 > row || (lit_len && row == SIZE_MAX);
    case ROW_IN_16_BITS: return lit_len / 4 > (uint16_t)row;
    case ROW_IN_32_BITS: return lit_len / 4 > (uint32_t)row;
    case ROW_OF_ONE_WORD: return lit_len > row && lit_len - row >= 4;
    default: return lit_len / 4 > row;
    }
}

/* The first word of a row. */
static const uint64_t *row_of(const uint64_t *lit, size_t lit_len, size_t row)
{
    switch (fault) {
    case ROW_OVERFLOWS:
    case NEXT_OVERFLOWS: return lit + (ptrdiff_t)(4 * row);
    case ROW_IN_16_BITS: return lit + 4 * (size_t)(uint16_t)row;
    case ROW_IN_32_BITS: return lit + 4 * (size_t)(uint32_t)row;
    case ROW_OF_ONE_WORD: return lit + row;
    case NEXT_ROW: return lit + 4 * (lit_len / 4 > row + 1 ? row + 1 : row);
    default: return lit + 4 * row;
    }
}

/* The answer of a row that is not there. */
static uint32_t outside(uint32_t width)
{
    return fault == OUT_IS_WIDTH ? width : fault == OUT_IS_256 ? 256 : 0;
}

/* The ones of a word. */
static uint32_t ones(uint64_t word)
{
    uint32_t count = 0;
    if (fault == HALF_A_WORD)
        word &= UINT32_MAX;
    for (; word; word &= word - 1)
        count++;
    return fault == ZEROS_COUNTED ? 64 - count : count;
}

uint32_t tried_row_lit(const uint64_t *lit, size_t lit_len, size_t row)
{
    if (!is_inside(lit_len, row, 1))
        return outside(0);
    const uint64_t *words = row_of(lit, lit_len, row);
    uint32_t count = 0;
    if (fault == FIRST_WORD_ONLY)
        return ones(words[0]);
    if (fault == THIRD_WORD_TWICE)
        return ones(words[0]) + ones(words[1]) + 2 * ones(words[2]);
    if (fault == WHOLE_MAP)
        for (size_t k = 4; k < lit_len; k++)
            count += ones(lit[k]);
    for (size_t k = 0; k < 4; k++)
        count += ones(words[k]);
    if (fault == ROWS_WRITE && lit[0] == UINT64_MAX)
        ((uint64_t *)lit)[0] = 0;
    return fault == BYTE_OF_ONES ? (uint8_t)count : count;
}

/* The place of a word's lowest bit that is set, or of its highest from the other end; 64 where none
 * is. */
static uint32_t first_set(uint64_t word, int from_top)
{
    uint32_t bit = 0;
    while (bit < 64 && !(word >> (from_top ? 63 - bit : bit) & 1))
        bit++;
    return bit;
}

/* The first column of a row that is unlit, of 256. */
static uint32_t first_of_row(const uint64_t *words)
{
    int plain = fault == TRAILING_OF_WORD || fault == FIRST_LIT;
    for (size_t k = 0; k < 4; k++) {
        uint64_t word = plain ? words[k] : ~words[k];
        uint32_t bit = first_set(word, fault == LEADING_OF_COMPLEMENT);
        if (bit < 64 || fault == FULL_WORD_STOPS || (fault == TRAILING_OF_WORD && k == 3))
            return 64 * (uint32_t)k + bit - (fault == SECOND_FROM_63 && k == 1);
    }
    return 256;
}

uint32_t tried_row_first_unlit(const uint64_t *lit, size_t lit_len, uint16_t width, size_t row)
{
    if (!is_inside(lit_len, row, 0))
        return outside(width);
    uint32_t first = first_of_row(row_of(lit, lit_len, row));
    uint32_t most = fault == WIDTH_IN_A_BYTE ? (uint8_t)width : width;
    switch (fault) {
    case WIDTH_UNASKED: return first;
    case LARGER_OF_TWO: return first > most ? first : most;
    case PAST_READS_LIT: return first < 256 && first < most ? first : most;
    case WIDTH_LESS_ONE: return most && first >= most ? most - 1 : first;
    default: return first < most ? first : most;
    }
}
