/* A library of wrong answers, to see that the outside check can fail.
 * STUB_FAULT chooses the fault:
 *   silent  says "done" and touches nothing;
 *   scribe  refuses with 1 and changes all it was lent, the scene too;
 *   struck  refuses with 13, a number that no call answers any more;
 *   blank   says "done" with a blank picture, rightly counted;
 *   beyond  as blank, and reads and writes one place outside its buffers;
 *   booker  as blank, and books one patch more than the table has;
 *   mapper  as blank, and writes one word more than the map has;
 *   rower   as blank, and counts a row's words where the map has ended;
 *   ticker  as blank, and the counter rises with every tile;
 *   window  as blank, and takes the tile for as large as the window;
 *   deaf    as blank in units, and refuses all that is in metres with 15.
 * It looks at no station: but for the last both forms are answered alike. But for
 * rower all rows of all maps are without a lit cell. */
#include <stddef.h>
#include <stdint.h>
#include <stdlib.h>
#include <string.h>

static int fault_is(const char *name)
{
    const char *fault = getenv("STUB_FAULT");
    return fault != NULL && strcmp(fault, name) == 0;
}

/* A window's measures, and a tile's place and measures in it. */
struct frame {
    uint16_t width, height, left, top, tile_width, tile_height;
};

static int holds_last(struct frame frame)
{
    return frame.left + frame.tile_width == frame.width &&
           frame.top + frame.tile_height == frame.height;
}

struct lent {
    uint16_t *picture;
    size_t picture_len;
    uint32_t *counts;
    size_t counts_len;
    uint32_t *patch_counts;
    size_t patch_counts_len;
    uint16_t *unlit;
    size_t unlit_len;
    uint64_t *lit;
    size_t lit_len;
    uint32_t *counter;
};

static void scribble(const uint8_t *scene, size_t scene_len, struct lent lent)
{
    if (scene_len > 0)
        ((uint8_t *)(uintptr_t)scene)[0] ^= 1;
    for (size_t k = 0; k < lent.picture_len; k++)
        lent.picture[k] ^= 1;
    for (size_t k = 0; k < lent.counts_len; k++)
        lent.counts[k] ^= 1;
    for (size_t k = 0; k < lent.patch_counts_len; k++)
        lent.patch_counts[k] ^= 1;
    for (size_t k = 0; k < lent.unlit_len; k++)
        lent.unlit[k] ^= 1;
    for (size_t k = 0; k < lent.lit_len; k++)
        lent.lit[k] ^= 1;
    *lent.counter ^= 1;
}

static void leave_blank(struct frame frame, struct lent lent)
{
    uint16_t width = frame.tile_width, height = frame.tile_height;
    if (fault_is("window")) {
        width = frame.width;
        height = frame.height;
    }
    memset(lent.picture, 0, lent.picture_len * sizeof *lent.picture);
    memset(lent.counts, 0, lent.counts_len * sizeof *lent.counts);
    memset(lent.patch_counts, 0, lent.patch_counts_len * sizeof *lent.patch_counts);
    memset(lent.unlit, 0, lent.unlit_len * sizeof *lent.unlit);
    memset(lent.lit, 0, lent.lit_len * sizeof *lent.lit);
    lent.counts[0] = (uint32_t)width * height;
    for (size_t j = 0; j * 256 + 1 < lent.unlit_len; j++)
        lent.unlit[j * 256 + 1] = width;
    if (holds_last(frame) || fault_is("ticker"))
        *lent.counter += 1;
}

static uint32_t surveyed(const uint8_t *scene, size_t scene_len,
                         struct frame frame, struct lent lent)
{
    if (fault_is("scribe")) {
        scribble(scene, scene_len, lent);
        return 1;
    }
    if (fault_is("struck"))
        return 13;
    if (fault_is("silent") || lent.counts_len == 0)
        return 0;
    leave_blank(frame, lent);
    if (fault_is("beyond") && scene_len > 0 && lent.picture_len > 0) {
        volatile const uint8_t *past = scene + scene_len;
        lent.picture[lent.picture_len] = *past;
    }
    if (fault_is("booker") && lent.patch_counts_len > 0)
        lent.patch_counts[lent.patch_counts_len] = 1;
    if (fault_is("mapper") && lent.lit_len > 0)
        lent.lit[lent.lit_len] = 1;
    return 0;
}

static uint32_t gated(void)
{
    if (fault_is("struck"))
        return 13;
    return fault_is("scribe") ? 1 : 0;
}

/* A survey and a gate, with stations of one form. */
#define CALLS(SURVEY, GATE, PART, IN_METRES)                                   \
    uint32_t SURVEY(const uint8_t *scene, size_t scene_len,                    \
                    PART eye_x, PART eye_y, PART eye_z,                        \
                    int16_t right_x, int16_t right_y, int16_t right_z,         \
                    int16_t forward_x, int16_t forward_y, int16_t forward_z,   \
                    int16_t up_x, int16_t up_y, int16_t up_z,                  \
                    uint16_t width, uint16_t height, uint16_t lens,            \
                    uint16_t left, uint16_t top,                               \
                    uint16_t tile_width, uint16_t tile_height,                 \
                    uint16_t *picture, size_t picture_len,                     \
                    uint32_t *counts, size_t counts_len,                       \
                    uint32_t *patch_counts, size_t patch_counts_len,           \
                    uint16_t *unlit, size_t unlit_len,                         \
                    uint64_t *lit, size_t lit_len, uint32_t *counter)          \
    {                                                                          \
        struct frame frame = {width, height, left, top,                        \
                              tile_width, tile_height};                        \
        struct lent lent = {picture, picture_len, counts, counts_len,          \
                            patch_counts, patch_counts_len, unlit, unlit_len,  \
                            lit, lit_len, counter};                            \
        (void)eye_x, (void)eye_y, (void)eye_z, (void)lens;                     \
        (void)right_x, (void)right_y, (void)right_z;                           \
        (void)forward_x, (void)forward_y, (void)forward_z;                     \
        (void)up_x, (void)up_y, (void)up_z;                                    \
        if (IN_METRES && fault_is("deaf"))                                     \
            return 15;                                                         \
        return surveyed(scene, scene_len, frame, lent);                        \
    }                                                                          \
    uint32_t GATE(const uint8_t *scene, size_t scene_len,                      \
                  PART eye_x, PART eye_y, PART eye_z,                          \
                  int16_t right_x, int16_t right_y, int16_t right_z,           \
                  int16_t forward_x, int16_t forward_y, int16_t forward_z,     \
                  int16_t up_x, int16_t up_y, int16_t up_z,                    \
                  uint16_t width, uint16_t height, uint16_t lens,              \
                  uint16_t left, uint16_t top,                                 \
                  uint16_t tile_width, uint16_t tile_height,                   \
                  size_t picture_len, size_t counts_len,                       \
                  size_t patch_counts_len, size_t unlit_len, size_t lit_len,   \
                  uint32_t counter)                                            \
    {                                                                          \
        (void)scene, (void)scene_len, (void)eye_x, (void)eye_y, (void)eye_z;   \
        (void)right_x, (void)right_y, (void)right_z;                           \
        (void)forward_x, (void)forward_y, (void)forward_z;                     \
        (void)up_x, (void)up_y, (void)up_z;                                    \
        (void)width, (void)height, (void)lens, (void)left, (void)top;          \
        (void)tile_width, (void)tile_height, (void)picture_len;                \
        (void)counts_len, (void)patch_counts_len, (void)unlit_len;             \
        (void)lit_len, (void)counter;                                          \
        return IN_METRES && fault_is("deaf") ? 15 : gated();                   \
    }

CALLS(ring_survey, ring_gate, int16_t, 0)
CALLS(ring_survey_metres, ring_gate_metres, double, 1)

/* The row at the map's end, wherever that is. */
static uint32_t ones_at_the_end(const uint64_t *lit, size_t lit_len, size_t row)
{
    uint32_t ones = 0;
    if (!fault_is("rower") || lit_len == 0 || row != lit_len / 4)
        return 0;
    for (size_t k = 4 * row; k < 4 * row + 4; k++)
        for (uint64_t word = lit[k]; word != 0; word &= word - 1)
            ones++;
    return ones;
}

uint32_t ring_row_lit(const uint64_t *lit, size_t lit_len, size_t row)
{
    return ones_at_the_end(lit, lit_len, row);
}

uint32_t ring_row_first_unlit(const uint64_t *lit, size_t lit_len,
                              uint16_t width, size_t row)
{
    (void)width;
    return ones_at_the_end(lit, lit_len, row);
}
