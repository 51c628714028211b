/*
 * ring.h: survey of a tunnel lining, for the guidance console.
 *
 * A survey reads a scene (flat patches of numbered panels, kept in a tree of planes), checks it,
 * and says for each cell of a window which panel is the closest along that cell's sight line from
 * the eye. It counts these cells by panel, and by patch, which tells the pieces of a panel that
 * were seen, and it tells row by row which cells are lit, that is, show a panel: as lists of the
 * stretches that are not, and as a map of bits. Everything is exact in whole numbers. One length
 * unit is 5 mm; x is to the right, y forward along the bore, z up. The camera may look any way:
 * three vectors say how it is turned.
 *
 * Tiles. A window may have up to RING_WIDTH_MAX by RING_HEIGHT_MAX cells. A call surveys a part of
 * it, a tile of at most RING_TILE_WIDTH_MAX by RING_TILE_HEIGHT_MAX cells, into buffers of the
 * tile's own size. The tile's cells are those of the whole window at its place: cell (i, j) of the
 * tile is read along the sight line of cell (left + i, top + j) of the window. All that is left in
 * the buffers counts from the tile's top left cell.
 *     A window that is no larger than a tile is surveyed by one call, with RING_WHOLE_TILE. A
 * larger one is put together from calls with the same scene, station, camera and window, on tiles
 * of which each cell of the window lies in exactly one; in which order they are surveyed, and how
 * large they are, is free. Where each of these calls returns RING_DONE, their pictures put in their
 * places are the picture of the whole window, and their counts, entry by entry, add up to its
 * counts, as their patch_counts do to its patch_counts. Nothing is to be added from a call that was
 * refused. The station counter, passed from call to call, rises by one in all: it does with the
 * tile that holds the window's last cell. Survey that tile last: the tiles after it find the counter
 * risen, and where that is the counter's end they are refused.
 *     Two surveys that are held against each other, of a scene with and without some panels or of
 * two cuttings of one ring, are to be of the same tile of the same window; or of whole windows,
 * which may be put together from other tiles each.
 *
 * Stations. A station is the eye. It is told in units, as three whole numbers, or in metres, as
 * three doubles, each way by calls of its own. What is told in metres is turned into whole units,
 * each double into the nearest, and where these are in range it is from there on the station in
 * these units: two such stations that are one in whole units are the same station for all that is
 * said here. Only one out of range is refused by another number in metres than in units.
 *
 * Joints. Where a cell's sight line runs along an edge or through a corner, the cell is read as the
 * lines just beside it: to the right of it, toward the next column, and where these still run along
 * the edge, below it, toward the next row. What is closest is told along the same lines, so that a
 * cell on the joint of two panels shows one of them.
 *
 * Link with libsurvey.a:   cc -Iinclude console.c -Llib -lsurvey
 *
 * What is lent. The calls only use the memory for as long as they run and keep no pointer. Every
 * pointer must be good for the length given with it, which counts ELEMENTS and not bytes, and must
 * not be null, even where that length is 0; picture, counts, patch_counts, unlit, lit and counter
 * must not overlap one another or the scene. Whatever the numbers, the scene's bytes and the
 * lengths are, a call ends: with RING_DONE and a full survey, or with one refusal and nothing
 * changed. The two calls on a row of the map cannot be refused: they always end with a number.
 *
 * The stack. A call takes no memory but the caller's stack: a quarter of a megabyte, and half a
 * megabyte for a tree that is one chain of 1,024 nodes. Call from a thread that has a megabyte free.
 */
#ifndef RING_H
#define RING_H

#include <stddef.h>
#include <stdint.h>

#ifdef __cplusplus
extern "C" {
#endif

/* Limits of a window, and of a tile of it. */
#define RING_WIDTH_MAX        1024
#define RING_HEIGHT_MAX       512
#define RING_LENS_MAX         4096
#define RING_TILE_WIDTH_MAX   256
#define RING_TILE_HEIGHT_MAX  128

/* How many length units a metre has. */
#define RING_UNITS_PER_METRE 200

/* Each part of right, forward and up is from -RING_AXIS_MAX to RING_AXIS_MAX. */
#define RING_AXIS_MAX    100

/*
 * The level view: right (1,0,0), forward (0,1,0), up (0,0,1), for a camera that does not turn. One
 * word for these nine numbers of a call:
 *     ring_gate(scene, scene_len, 0, 20, 0, RING_LEVEL_VIEW, 256, 128, 160, ...)
 */
#define RING_LEVEL_VIEW  1, 0, 0, 0, 1, 0, 0, 0, 1

/*
 * The tile that is all of a window: left, top, tile_width and tile_height, for a window that is no
 * larger than a tile. One word for these four numbers of a call:
 *     ring_gate(scene, scene_len, 0, 20, 0, RING_LEVEL_VIEW, 256, 128, 160,
 *               RING_WHOLE_TILE(256, 128), ...)
 */
#define RING_WHOLE_TILE(width, height)  0, 0, (width), (height)

/* The longest scene in bytes, the highest panel number, and the most patches. */
#define RING_SCENE_MAX   57376
#define RING_PANEL_MAX   1024
#define RING_PATCH_MAX   1024

/* The length of a scene's patch record, in bytes. */
#define RING_PATCH_BYTES 6

/*
 * Lengths of the lent buffers, in elements. They must be exactly these. Those of picture, unlit and
 * lit follow the tile and not the window. That of patch_counts is the number of the scene's
 * patches: the length of its patch section, which is the u32 at byte 20 of the scene (least
 * significant byte first), divided by RING_PATCH_BYTES. This is right for every scene that
 * questions 1 to 9 let pass; any other, also one too short for these bytes, is refused before the
 * lengths are looked at. So a table of RING_PATCH_MAX entries has room for every scene, and as many
 * of them are lent as the scene has patches.
 */
#define RING_PICTURE_LEN(tile_width, tile_height)  ((size_t)(tile_width) * (size_t)(tile_height))
#define RING_COUNTS_LEN                            ((size_t)1025)
#define RING_UNLIT_ROW                             ((size_t)256)
#define RING_UNLIT_LEN(tile_height)                ((size_t)(tile_height) * RING_UNLIT_ROW)
#define RING_LIT_ROW                               ((size_t)4)
#define RING_LIT_LEN(tile_height)                  ((size_t)(tile_height) * RING_LIT_ROW)

/*
 * What the calls return: 0, or the number of the first question answered with no. The questions
 * are put in the order in which they stand here, each to the whole scene before the next, so a
 * scene with several faults is refused for the first of them. The numbers are names and do not say
 * the order: 15 comes just before 10, and 14 right after 10. No call returns 13: it was the number
 * of a question that was struck, and no other question will have it.
 */
enum ring_result {
    RING_DONE = 0,

    /* The scene's bytes. */
    RING_BAD_HEADER = 1,   /* not 32 to 57,376 bytes long, version not 1, zero field not 0, or the
                              length written in the scene is not the length given */
    RING_BAD_SECTIONS = 2, /* nodes, patches and corners do not fill the bytes after the header in
                              this order, in whole records of 26, 6 and 6 bytes, or are more than
                              1,024, 1,024 and 4,096 */
    RING_BAD_RANGE = 3,    /* a coordinate of a node or corner is outside -10,000 to 10,000 */
    RING_BAD_PLANE = 4,    /* a node's three points are on one line and give no plane */
    RING_BAD_TREE = 5,     /* a child is neither none (65,535) nor a later node, or some node but
                              the root is not the child of exactly one node, named once */
    RING_BAD_RUNS = 6,     /* the nodes' patch runs or the patches' corner runs leave a gap, overlap
                              or do not use all records, or a patch has not 3 to 8 corners */
    RING_BAD_PANEL = 7,    /* a panel number is not 1 to 1,024, or panel numbers fall within a
                              node's run */
    RING_BAD_PATCH = 8,    /* a patch is not flat or not strictly convex */
    RING_BAD_SIDE = 9,     /* a patch is not on its own node's plane, or not on its side of a plane
                              further up the tree (touching it is allowed, lying in it or
                              crossing it is not) */

    /* The call. */
    RING_BAD_METRES = 15,  /* of a station in metres, a double is not finite, or its whole number
                              of units is outside -10,000 to 10,000; no station in units is
                              refused so, for a far one is left to the next question */
    RING_BAD_VIEW = 10,    /* the eye is outside -10,000 to 10,000; width, height or lens is not
                              1 to 1,024, 1 to 512, 1 to 4,096; tile_width or tile_height is not
                              1 to 256, 1 to 128; or the tile is not wholly inside the window:
                              left + tile_width is above width, or top + tile_height above
                              height, added as whole numbers */
    RING_BAD_AXES = 14,    /* a part of right, forward or up is outside -100 to 100, or
                              right . (forward x up) is not above 0: it is 0 where the three lie
                              in one plane, and below 0 where the picture would be mirrored */
    RING_BAD_BUFFERS = 11, /* picture_len is not tile_width x tile_height, counts_len is not
                              1,025, patch_counts_len is not the number of the scene's patches,
                              unlit_len is not tile_height x 256, or lit_len is not
                              tile_height x 4 */
    RING_BAD_COUNTER = 12  /* the station counter stands at 4,294,967,295 and cannot rise; this is
                              asked of every tile, also of one with which it would not rise */
};

/*
 * Surveys a scene from one station: one tile of a window.
 *
 *   scene, scene_len          the scene's bytes; they are only read
 *   eye_x, eye_y, eye_z       the station, in units; ring_survey_metres takes it in metres
 *   right_x .. up_z           how the camera is turned: the parts along x, y and z of its vectors
 *                             right, forward and up; RING_LEVEL_VIEW where it is level. Nothing
 *                             asks that they be square to each other or of one length
 *   width, height, lens       the window: the sight line of column i (0 at the left) and row j
 *                             (0 at the top) has the direction
 *                             (2i + 1 - width) right + lens forward + (height - 1 - 2j) up,
 *                             which is (2i + 1 - width, lens, height - 1 - 2j) in the level view
 *   left, top,                the tile: the column and the row of its top left cell in the window,
 *   tile_width, tile_height   and its size; RING_WHOLE_TILE where it is all of the window. It must
 *                             have a cell and be wholly inside the window. From here on cell (i, j)
 *                             is the tile's, i and j counted from its top left cell: it is cell
 *                             (left + i, top + j) of the window and read along that one's sight
 *                             line. Columns and rows are the tile's
 *   picture, picture_len      tile_width x tile_height cells. Row after row from the top: cell
 *                             (i, j) is picture[j * tile_width + i]; a panel number, or 0 where
 *                             none is met
 *   counts, counts_len        1,025 numbers. counts[p] is the number of the tile's cells that show
 *                             panel p, counts[0] of those that show none; together
 *                             tile_width x tile_height
 *   patch_counts,             one entry a patch; a scene without patches wants a length of 0 and
 *   patch_counts_len          any pointer that is not null. patch_counts[k] is the number of the
 *                             tile's cells whose closest patch is number k, counted from 0 as the
 *                             patches stand in the scene's list. The closest is the one met at the
 *                             least distance; of several there, the one of the lowest panel; of one
 *                             panel, the earlier in the list. A patch that stands twice is two
 *                             patches. A panel's count is the sum over its patches. Two scenes may
 *                             cut a panel into other patches: where each panel covers the same
 *                             points, edges and corners counted in, and both calls return
 *                             RING_DONE for one station, camera, window and tile, picture, counts,
 *                             unlit and lit are the same; this table may differ
 *   unlit, unlit_len          tile_height x 256 numbers. Row j has the 256 from unlit + 256 * j:
 *                             128 pairs of offset and length, one for each stretch of the tile's
 *                             cells in this row that show no panel, from left to right, with a lit
 *                             cell between any two. An offset counts from the tile's first column.
 *                             The pairs not used are 0 and 0, so the used ones end before the
 *                             first pair of length 0, or with the row when all 128 are used
 *   lit, lit_len              tile_height x 4 words: the map of the lit cells. Row j has the four
 *                             from lit + 4 * j. Bit i mod 64 of the row's word i / 64, bit 0 being
 *                             the least significant, is set where cell (i, j) shows a panel; it is
 *                             clear where the cell shows none, and for every i from tile_width on.
 *                             So it tells the same cells as unlit does. ring_row_lit and
 *                             ring_row_first_unlit read it
 *   counter                   the station counter: raised by one when the result is RING_DONE and
 *                             the tile holds the window's last cell, the one at its bottom right,
 *                             which is where left + tile_width is width and top + tile_height is
 *                             height. With any other tile it stays
 *
 * Returns RING_DONE: picture, counts, patch_counts, unlit and lit are written in full, whatever
 * they held before, and the counter is raised if the tile is the one that raises it. Any other
 * result is a refusal: picture, counts, patch_counts, unlit, lit and counter are just as they were.
 */
uint32_t ring_survey(const uint8_t *scene, size_t scene_len,
                     int16_t eye_x, int16_t eye_y, int16_t eye_z,
                     int16_t right_x, int16_t right_y, int16_t right_z,
                     int16_t forward_x, int16_t forward_y, int16_t forward_z,
                     int16_t up_x, int16_t up_y, int16_t up_z,
                     uint16_t width, uint16_t height, uint16_t lens,
                     uint16_t left, uint16_t top, uint16_t tile_width, uint16_t tile_height,
                     uint16_t *picture, size_t picture_len,
                     uint32_t *counts, size_t counts_len,
                     uint32_t *patch_counts, size_t patch_counts_len,
                     uint16_t *unlit, size_t unlit_len,
                     uint64_t *lit, size_t lit_len,
                     uint32_t *counter);

/*
 * Says what ring_survey would return with these lengths and with this number in the counter.
 * Nothing is lent but the scene, and nothing is written; so a scene can be tried before it is used.
 */
uint32_t ring_gate(const uint8_t *scene, size_t scene_len,
                   int16_t eye_x, int16_t eye_y, int16_t eye_z,
                   int16_t right_x, int16_t right_y, int16_t right_z,
                   int16_t forward_x, int16_t forward_y, int16_t forward_z,
                   int16_t up_x, int16_t up_y, int16_t up_z,
                   uint16_t width, uint16_t height, uint16_t lens,
                   uint16_t left, uint16_t top, uint16_t tile_width, uint16_t tile_height,
                   size_t picture_len, size_t counts_len, size_t patch_counts_len,
                   size_t unlit_len, size_t lit_len,
                   uint32_t counter);

/*
 * Surveys a scene from one station in metres.
 *
 *   eye_x, eye_y, eye_z       the station, in metres. Each double becomes the whole number of units
 *                             that is nearest to its exact value times RING_UNITS_PER_METRE, and
 *                             halfway between two the even one: 0.0625 becomes 12, 0.1875 becomes
 *                             38, -0.0625 becomes -12. Both zeros become 0. Nothing is rounded on
 *                             the way: it is the double itself that counts, also next to a half,
 *                             whatever the rounding mode.
 *                             RING_BAD_METRES where one of the three is a NaN of any kind or an
 *                             infinity, or where its whole number is outside -10,000 to 10,000. The
 *                             whole number decides: the double that 50.0025 is read as becomes
 *                             10,000 and passes, and the next one above becomes 10,001 and does not
 *
 * C converts without a word: whole numbers given here are metres and not units, and a fraction
 * given to ring_survey is cut off before the call. A signalling NaN may raise the floating-point
 * flag for an invalid operation, and does nothing else where that is not made a trap.
 *
 * The rest as in ring_survey. Where the three whole numbers pass, the result and what is left in
 * picture, counts, patch_counts, unlit, lit and counter are those of ring_survey with these
 * numbers.
 */
uint32_t ring_survey_metres(const uint8_t *scene, size_t scene_len,
                            double eye_x, double eye_y, double eye_z,
                            int16_t right_x, int16_t right_y, int16_t right_z,
                            int16_t forward_x, int16_t forward_y, int16_t forward_z,
                            int16_t up_x, int16_t up_y, int16_t up_z,
                            uint16_t width, uint16_t height, uint16_t lens,
                            uint16_t left, uint16_t top, uint16_t tile_width, uint16_t tile_height,
                            uint16_t *picture, size_t picture_len,
                            uint32_t *counts, size_t counts_len,
                            uint32_t *patch_counts, size_t patch_counts_len,
                            uint16_t *unlit, size_t unlit_len,
                            uint64_t *lit, size_t lit_len,
                            uint32_t *counter);

/* Says what ring_survey_metres would return, as ring_gate does of ring_survey. */
uint32_t ring_gate_metres(const uint8_t *scene, size_t scene_len,
                          double eye_x, double eye_y, double eye_z,
                          int16_t right_x, int16_t right_y, int16_t right_z,
                          int16_t forward_x, int16_t forward_y, int16_t forward_z,
                          int16_t up_x, int16_t up_y, int16_t up_z,
                          uint16_t width, uint16_t height, uint16_t lens,
                          uint16_t left, uint16_t top, uint16_t tile_width, uint16_t tile_height,
                          size_t picture_len, size_t counts_len, size_t patch_counts_len,
                          size_t unlit_len, size_t lit_len,
                          uint32_t counter);

/*
 * Says how many cells of a row are lit: how many bits are set in the row's four words of the map.
 *
 *   lit, lit_len              a lit map; it is only read. It may be one that a survey left, whole
 *                             or some rows of it, or any words at all, of any length
 *   row                       the row, counted from 0 at the map's first word: it has the words
 *                             from lit[4 * row] to lit[4 * row + 3]
 *
 * A row that is not wholly inside the map, which is where row is not below lit_len / RING_LIT_ROW,
 * answers 0, as a row does that has no lit cell. So where a row may not be there, ask for that
 * first; every row of the tile is in the map that a survey left.
 */
uint32_t ring_row_lit(const uint64_t *lit, size_t lit_len, size_t row);

/*
 * Says which is the first unlit column of a row: the first below the width whose bit is clear, and
 * the width where there is none.
 *
 *   lit, lit_len, row         as in ring_row_lit
 *   width                     the width of the tile that was surveyed. The map does not hold it:
 *                             past it the bits are clear, so with a larger one a row that is all
 *                             lit answers the column after its last, which is not a cell. With a
 *                             smaller one only the columns below it are looked at. A column past
 *                             the row's four words reads as unlit: no answer is above 256
 *
 * An answer below the width is a column that is unlit; the width itself says that all are lit. But
 * a row that is not wholly inside the map answers 0, whatever the width, as a row does whose first
 * column is unlit: whether row is below lit_len / RING_LIT_ROW tells the two apart. A width of 0
 * answers 0 as well.
 */
uint32_t ring_row_first_unlit(const uint64_t *lit, size_t lit_len, uint16_t width, size_t row);

#ifdef __cplusplus
}
#endif

#endif
