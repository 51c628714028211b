/* Holds the calls in metres to document 02, from C: what each double becomes, by its bits, in each
 * part of a station; that a refusal leaves what was lent; that question 15 stands just before
 * question 10; and that all else is the call in units. Each check is counted, one that fails is
 * named. tests/metres.py runs this with the library, and sees to it that it can fail. */
#include "check.h"
#include "ring.h"

#include <stdio.h>
#include <string.h>

/* A double by its bits and the number of units that it becomes, "the whole number nearest to its
 * exact value times 200, halfway to the even one"; OUT "when a double is not finite or its whole
 * number leaves ±10,000". */
enum { OUT = 40000 };
struct length {
    uint64_t bits;
    int units;
};

static const struct length lengths[] = {
    /* "Both zeros give 0", and what is next to them: the least and the greatest subnormals, the
     * least normal numbers. */
    {0, 0}, {0x8000000000000000, 0}, {1, 0}, {0x8000000000000001, 0},
    {0x000fffffffffffff, 0}, {0x800fffffffffffff, 0}, {0x0010000000000000, 0},
    /* "So 0.0625 gives 12 and 0.1875 gives 38", with either sign; 0.3125, 0.4375, 49.9375. */
    {0x3fb0000000000000, 12}, {0x3fc8000000000000, 38},
    {0xbfb0000000000000, -12}, {0xbfc8000000000000, -38},
    {0x3fd4000000000000, 62}, {0x3fdc000000000000, 88},
    {0x4048f80000000000, 9988}, {0xc048f80000000000, -9988},
    /* Doubles next to 0.0625, and next to 0.0025, 0.0075 and 0.0125, which no double is: a product
     * rounded to a double would be the half itself. */
    {0x3fafffffffffffff, 12}, {0x3fb0000000000001, 13}, {0xbfb0000000000001, -13},
    {0x3f647ae147ae147a, 0}, {0x3f647ae147ae147b, 1}, {0xbf647ae147ae147b, -1},
    {0x3f7eb851eb851eb8, 1}, {0x3f7eb851eb851eb9, 2}, {0xbf7eb851eb851eb8, -1},
    {0x3f89999999999999, 2}, {0x3f8999999999999a, 3}, {0xbf8999999999999a, -3},
    /* 0.005, 0.5 and 50 metres; the limit's neighbours, of which the first is read for 50.0025. */
    {0x3f747ae147ae147b, 1}, {0x3fe0000000000000, 100}, {0x4049000000000000, 10000},
    {0x40490051eb851eb8, 10000}, {0x40490051eb851eb9, OUT},
    {0xc0490051eb851eb8, -10000}, {0xc0490051eb851eb9, OUT},
    /* 64 metres; 2^16 and 2^32 units, which a word of 16 or 32 bits would hold as 0; 1e300 and the
     * greatest finite doubles. */
    {0x4050000000000000, OUT}, {0xc050000000000000, OUT}, {0x40747ae147ae147b, OUT},
    {0x41747ae147ae147b, OUT}, {0x7e37e43c8800759c, OUT}, {0x7fefffffffffffff, OUT},
    {0xffefffffffffffff, OUT},
    /* Infinities; NaNs, quiet ones and signalling ones, of either sign, with payloads. */
    {0x7ff0000000000000, OUT}, {0xfff0000000000000, OUT},
    {0x7ff8000000000000, OUT}, {0xfff8000000000000, OUT},
    {0x7ff8000000000032, OUT}, {0xfffc0000deadbeef, OUT}, {0x7fffffffffffffff, OUT},
    {0x7ff0000000000001, OUT}, {0xfff0000000000001, OUT}, {0x7ff4000000000000, OUT},
    {0xfff7ffffffffffff, OUT},
};

static const uint64_t a_nan = 0x7ff8000000000000;

static double of_bits(uint64_t bits)
{
    double value;
    memcpy(&value, &bits, sizeof value);
    return value;
}

/* A station of three doubles. */
struct metres {
    double part[3];
};

/* All 0 but one. */
static struct metres along(int part, double value)
{
    struct metres station = {{0, 0, 0}};
    station.part[part] = value;
    return station;
}

/* A scene of one node and one patch, a rectangle of panel 5: along one axis from one number to
 * another, on the next axis ahead, and on the third as far to both sides. */
static uint8_t scene[88];
enum { VERSION_AT = 0, NODE_AT = 32, PATCH_AT = 58, CORNERS_AT = 64, POINT_SIZE = 6 };

static void put(size_t at, int value)
{
    scene[at] = (uint8_t)(value & 255);
    scene[at + 1] = (uint8_t)((unsigned)value >> 8 & 255);
}

static void put_point(size_t at, int axis, int along_it, int ahead, int third)
{
    put(at + 2 * (size_t)axis, along_it);
    put(at + 2 * (size_t)((axis + 1) % 3), ahead);
    put(at + 2 * (size_t)((axis + 2) % 3), third);
}

static void build(int axis, int from, int to, int ahead, int third)
{
    static const int header[] = {1, 0, 88, 0, 32, 0, 26, 0, 58, 0, 6, 0, 64, 0, 24, 0};
    static const int links[] = {65535, 65535, 0, 1, 5, 0, 4};
    for (size_t k = 0; k < 16; k++)
        put(2 * k, header[k]);
    for (size_t k = 0; k < 7; k++)
        put(PATCH_AT - 8 + 2 * k, links[k]);
    for (size_t k = 0; k < 4; k++) {
        int across = k == 1 || k == 2 ? to : from, up = k < 2 ? -third : third;
        put_point(CORNERS_AT + POINT_SIZE * k, axis, across, ahead, up);
        if (k < 3)
            put_point(NODE_AT + POINT_SIZE * k, axis, across, ahead, up);
    }
}

/* A scene that only this eye on an axis sees so: the rectangle is one unit wide and one unit ahead,
 * and three lines are two units apart. It begins where the middle line runs, or, so as not to pass
 * the limit on the other side, where the left one does; its joint shows what is right of it. */
static void build_ruler(int axis, int units)
{
    int from = units > 0 ? units - 2 : units;
    build(axis, from, from + 1, 1, 1);
}

/* What a call names but the scene and the station. */
struct call {
    int16_t axes[9];
    uint16_t width, height, lens, tile[4];
    size_t picture_len, counts_len, table_len, unlit_len, lit_len;
    uint32_t counter;
};

/* The camera that looks along the axis after this one, which is to its right. */
static struct call ruler_call(int axis)
{
    struct call c = {{0}, 3, 1, 1, {RING_WHOLE_TILE(3, 1)}, 3, 1025, 1, 256, 4, 6};
    for (int k = 0; k < 3; k++)
        c.axes[3 * k + (axis + k) % 3] = 1;
    return c;
}

static const struct call call_on_s = {
    {RING_LEVEL_VIEW}, 4, 4, 4, {RING_WHOLE_TILE(4, 4)}, 16, 1025, 1, 1024, 16, 6};

/* What is lent, and more behind each. */
static struct lent {
    uint16_t picture[32], unlit[1280];
    uint32_t counts[1032], patch_counts[8], counter;
    uint64_t lit[20];
} lent, before;

static void spoil(uint32_t counter)
{
    memset(&lent, 0x5a, sizeof lent);
    lent.counter = counter;
    memcpy(&before, &lent, sizeof lent);
}

/* The survey's answer, if the gate gives it too and just a refusal leaves what was lent. */
static uint32_t told(uint32_t answer, uint32_t gate)
{
    int kept = !memcmp(&lent, &before, sizeof lent);
    return gate == answer && kept == (answer != RING_DONE) ? answer : UINT32_MAX;
}

#define THREE(v) (v)[0], (v)[1], (v)[2]
#define CAMERA(c) THREE((c)->axes), THREE((c)->axes + 3), THREE((c)->axes + 6), \
                  (c)->width, (c)->height, (c)->lens, THREE((c)->tile), (c)->tile[3]
#define LENT(c) lent.picture, (c)->picture_len, lent.counts, (c)->counts_len, lent.patch_counts, \
                (c)->table_len, lent.unlit, (c)->unlit_len, lent.lit, (c)->lit_len, &lent.counter
#define LENGTHS(c) (c)->picture_len, (c)->counts_len, (c)->table_len, (c)->unlit_len, \
                   (c)->lit_len, (c)->counter

static uint32_t in_metres(const struct call *c, struct metres eye)
{
    spoil(c->counter);
    return told(ring_survey_metres(scene, 88, THREE(eye.part), CAMERA(c), LENT(c)),
                ring_gate_metres(scene, 88, THREE(eye.part), CAMERA(c), LENGTHS(c)));
}

static uint32_t in_units(const struct call *c, int16_t x, int16_t y, int16_t z)
{
    spoil(c->counter);
    return told(ring_survey(scene, 88, x, y, z, CAMERA(c), LENT(c)),
                ring_gate(scene, 88, x, y, z, CAMERA(c), LENGTHS(c)));
}

/* "The picture is that of the whole-number station": all that a survey leaves is. */
static int is_as_in_units(const struct call *c, struct metres eye, int x, int y, int z)
{
    static struct lent left;
    int done = in_metres(c, eye) == RING_DONE;
    memcpy(&left, &lent, sizeof lent);
    return done && in_units(c, (int16_t)x, (int16_t)y, (int16_t)z) == RING_DONE &&
           !memcmp(&left, &lent, sizeof lent);
}

/* Does the ruler show that the eye is just there? */
static int shows_units(int axis, int units, double value)
{
    struct call c = ruler_call(axis);
    int eye[3] = {0, 0, 0};
    eye[axis] = units;
    build_ruler(axis, units);
    return is_as_in_units(&c, along(axis, value), THREE(eye)) && lent.counter == 7 &&
           lent.picture[0] == (units > 0 ? 5 : 0) && lent.picture[1] == (units > 0 ? 0 : 5) &&
           lent.picture[2] == 0;
}

static int is_refused(int axis, double value)
{
    struct call c = ruler_call(axis);
    build_ruler(axis, 0);
    return in_metres(&c, along(axis, value)) == RING_BAD_METRES;
}

static void check_lengths(void)
{
    char name[80];
    for (size_t k = 0; k < sizeof lengths / sizeof *lengths; k++) {
        for (int axis = 0; axis < 3; axis++) {
            double value = of_bits(lengths[k].bits);
            int units = lengths[k].units;
            snprintf(name, sizeof name, "bits %016llx in part %d of a station",
                     (unsigned long long)lengths[k].bits, axis);
            check(units == OUT ? is_refused(axis, value) : shows_units(axis, units, value), name);
        }
    }
}

/* S of document 01, four by four: "rows 1 and 2 read 0 5 5 0, rows 0 and 3 are 0"; and from "Eye
 * (0,100,0)", which is half a metre forward, "no cell". */
static void check_s(void)
{
    static const uint16_t shown[16] = {[5] = 5, 5, [9] = 5, 5}, none[16] = {0};
    const struct call *c = &call_on_s;
    struct metres mixed = {{0.0625, -0.1875, of_bits(0x3f647ae147ae147b)}};
    build(0, -50, 50, 100, 50);
    check(is_as_in_units(c, along(0, 0), 0, 0, 0) && !memcmp(lent.picture, shown, sizeof shown),
          "S from 0, 0, 0 metres");
    check(is_as_in_units(c, along(1, 0.5), 0, 100, 0) && !memcmp(lent.picture, none, sizeof none),
          "S from 0, 0.5, 0 metres is S from (0,100,0)");
    check(is_as_in_units(c, along(0, 0.0625), 12, 0, 0), "S from (12,0,0)");
    check(is_as_in_units(c, mixed, 12, -38, 1), "S from (12,-38,1)");
}

/* A tile of S from the window's second column and row on: both its rows read 5 5 0, and the counter
 * stays; from 12 units to the right it is as from there in units. */
static void check_tile(void)
{
    static const uint16_t shown[6] = {5, 5, 0, 5, 5, 0};
    struct call c = {{RING_LEVEL_VIEW}, 4, 4, 4, {1, 1, 3, 2}, 6, 1025, 1, 512, 8, 6};
    build(0, -50, 50, 100, 50);
    check(is_as_in_units(&c, along(0, 0), 0, 0, 0) && lent.counter == 6 &&
          !memcmp(lent.picture, shown, sizeof shown), "a tile of S from 0, 0, 0 metres");
    check(is_as_in_units(&c, along(0, 0.0625), 12, 0, 0) && lent.counter == 6,
          "a tile of S from (12,0,0)");
    c.tile[1] = 2;
    check(is_as_in_units(&c, along(0, 0.0625), 12, 0, 0) && lent.counter == 7,
          "the last tile of S from (12,0,0)");
}

/* What is asked before 15: the questions on scenes, here 1 and 9. A version that is 0; a node's
 * plane through other points than the patch's. */
static void check_scene_first(void)
{
    const struct call *c = &call_on_s;
    double nan = of_bits(a_nan);
    build(0, -50, 50, 100, 50);
    put(VERSION_AT, 0);
    check(in_metres(c, along(0, nan)) == RING_BAD_HEADER, "a NaN, and version 0");
    check(in_metres(c, along(0, 64)) == RING_BAD_HEADER, "64 metres, and version 0");
    build(0, -50, 50, 100, 50);
    put(NODE_AT + 2, 99);
    check(in_metres(c, along(1, nan)) == RING_BAD_SIDE, "a NaN, and a patch off its plane");
    check(in_metres(c, along(1, -64)) == RING_BAD_SIDE, "-64 metres, and a patch off its plane");
}

/* What is asked after 15: questions 10, 14, 11 and 12, of a station in metres as of one in units.
 * The call is made better from one line to the next. */
static void check_call_after(void)
{
    struct call c = {{0}, 0, 4, 4, {1, 0, 4, 4}, 15, 1025, 1, 1024, 15, UINT32_MAX};
    struct metres nan = along(2, of_bits(a_nan)), here = along(0, 0);
    build(0, -50, 50, 100, 50);
    check(in_metres(&c, nan) == RING_BAD_METRES, "a NaN, and width 0, and all behind");
    check(in_metres(&c, along(0, 64)) == RING_BAD_METRES, "64 metres, and width 0");
    check(in_metres(&c, here) == RING_BAD_VIEW, "width 0, and axes");
    c.width = 4;
    check(in_metres(&c, nan) == RING_BAD_METRES, "a NaN, and a tile outside, and all behind");
    check(in_metres(&c, here) == RING_BAD_VIEW, "a tile outside, and axes");
    c.tile[0] = 0;
    check(in_metres(&c, nan) == RING_BAD_METRES, "a NaN, and axes, and all behind");
    check(in_metres(&c, here) == RING_BAD_AXES, "axes, and two buffers");
    memcpy(c.axes, call_on_s.axes, sizeof c.axes);
    check(in_metres(&c, here) == RING_BAD_BUFFERS, "two buffers, and the counter");
    c.picture_len = 16;
    check(in_metres(&c, nan) == RING_BAD_METRES, "a NaN, and the map, and the counter");
    check(in_metres(&c, here) == RING_BAD_BUFFERS, "the map, and the counter");
    c.lit_len = 16;
    check(in_metres(&c, nan) == RING_BAD_METRES, "a NaN, and the counter");
    check(in_metres(&c, here) == RING_BAD_COUNTER, "the counter");
}

/* A station in units is as it was: what is too far is refused with 10, which 15 has no part in. */
static void check_units(void)
{
    struct call c = call_on_s;
    build(0, -50, 50, 100, 50);
    check(in_units(&c, 10000, -10000, 10000) == RING_DONE, "10,000 units");
    check(in_units(&c, 10001, 0, 0) == RING_BAD_VIEW, "10,001 units to the right");
    check(in_units(&c, 0, -10001, 0) == RING_BAD_VIEW, "10,001 units back");
    check(in_units(&c, 0, 0, INT16_MIN) == RING_BAD_VIEW, "the least number of units");
    c.width = 0;
    check(in_units(&c, 10001, 0, 0) == RING_BAD_VIEW, "10,001 units, and width 0");
}

int main(void)
{
    check_lengths();
    check_s();
    check_tile();
    check_scene_first();
    check_call_after();
    check_units();
    return checked("metres");
}
