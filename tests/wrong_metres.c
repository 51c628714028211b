/* The calls in metres made of the calls in units, apart from the library's own: rightly, or with
 * the one fault that FAULT names. tests/metres.c must hold with the right ones and must not with
 * any other, which tests/metres.py sees to. It is compiled to call these. */
#include "ring.h"

#include <float.h>
#include <math.h>
#include <string.h>

_Static_assert(LDBL_MANT_DIG >= 58, "200 times a double is exact in a long double");

enum fault {
    RIGHT,
    /* What a double becomes. */
    PRODUCT_ROUNDED, HALVES_AWAY, HALVES_UP, HALVES_DOWN, CUT_OFF, SIGN_LOST, MINUS_ZERO_OUT,
    SUBNORMAL_OUT,
    /* The limit. */
    RANGE_OF_METRES, LIMIT_BELOW, LIMIT_ABOVE, NO_LIMIT_BELOW_ZERO, WRAPPED_16, WRAPPED_32,
    FAR_AT_LIMIT,
    /* What is not finite. */
    NAN_IS_ZERO, ONLY_QUIET, ONLY_SIGNALLING, ONLY_PLAIN_NAN, ONLY_POSITIVE_NAN, INFINITY_AT_LIMIT,
    INFINITY_IS_ZERO,
    /* The station. */
    X_NOT_ASKED, Y_NOT_ASKED, Z_NOT_ASKED, X_AND_Y_EXCHANGED, Y_TWICE,
    /* The question's number and place. */
    ANSWER_10, BEFORE_SCENE, BEFORE_9, AFTER_10, AFTER_14, AFTER_11, AFTER_12, UNITS_TOO,
    GATE_PASSES, SURVEY_PASSES,
    /* What a refusal leaves. */
    PICTURE_LOST, COUNTS_LOST, TABLE_LOST, UNLIT_LOST, LIT_LOST, COUNTER_RAISED,
    /* What a survey leaves. */
    NO_MAP,
    /* The tile. */
    TILE_LOST, TOP_FROM_BELOW, ALWAYS_RISES, TILE_UNASKED,
    FAULTS
};

static const enum fault fault = FAULT;

static uint64_t bits_of(double value)
{
    uint64_t bits;
    memcpy(&bits, &value, sizeof bits);
    return bits;
}

/* Exact, for 200 takes five digits of a binary fraction: 25 times 8. */
static long double nearest(double metres)
{
    long double units = 200.0L * metres;
    switch (fault) {
    case PRODUCT_ROUNDED: return rintl((long double)(double)units);
    case HALVES_AWAY: return roundl(units);
    case HALVES_UP: return floorl(units + 0.5L);
    case HALVES_DOWN: return ceill(units - 0.5L);
    case CUT_OFF: return truncl(units);
    case SIGN_LOST: return fabsl(rintl(units));
    case WRAPPED_16: return remainderl(rintl(units), 65536.0L);
    case WRAPPED_32: return remainderl(rintl(units), 4294967296.0L);
    default: return rintl(units);
    }
}

/* Is a NaN told by these bits? */
static int nan_is_told(uint64_t bits)
{
    int quiet = bits >> 51 & 1;
    switch (fault) {
    case NAN_IS_ZERO: return 0;
    case ONLY_QUIET: return quiet;
    case ONLY_SIGNALLING: return !quiet;
    case ONLY_PLAIN_NAN: return !(bits << 13);
    case ONLY_POSITIVE_NAN: return !(bits >> 63);
    default: return 1;
    }
}

static int is_within(double metres, long double units)
{
    switch (fault) {
    case RANGE_OF_METRES: return fabs(metres) <= 50;
    case LIMIT_BELOW: return fabsl(units) <= 9999;
    case LIMIT_ABOVE: return fabsl(units) <= 10001;
    case NO_LIMIT_BELOW_ZERO: return units <= 10000 && units >= -32768;
    case MINUS_ZERO_OUT: return fabsl(units) <= 10000 && bits_of(metres) != (uint64_t)1 << 63;
    case SUBNORMAL_OUT: return fabsl(units) <= 10000 && fpclassify(metres) != FP_SUBNORMAL;
    default: return fabsl(units) <= 10000;
    }
}

/* Does a double become a number of units? 0 where it does not. */
static int becomes(double metres, int16_t *units)
{
    *units = 0;
    if (isnan(metres))
        return !nan_is_told(bits_of(metres));
    if (isinf(metres) && fault == INFINITY_IS_ZERO)
        return 1;
    long double whole = isinf(metres) ? (long double)metres : nearest(metres);
    int clamped = fault == (isinf(metres) ? INFINITY_AT_LIMIT : FAR_AT_LIMIT);
    if (clamped && fabsl(whole) > 10000)
        whole = whole > 0 ? 10000 : -10000;
    if (!is_within(metres, whole))
        return 0;
    *units = (int16_t)whole;
    return 1;
}

struct station {
    int16_t eye[3];
    int becomes;
};

static struct station station_of(double x, double y, double z)
{
    struct station s = {{0, 0, 0}, 0};
    int x_ok = becomes(x, &s.eye[0]) || fault == X_NOT_ASKED;
    int y_ok = becomes(y, &s.eye[1]) || fault == Y_NOT_ASKED;
    int z_ok = becomes(z, &s.eye[2]) || fault == Z_NOT_ASKED;
    int16_t right = s.eye[0];
    if (fault == X_AND_Y_EXCHANGED || fault == Y_TWICE)
        s.eye[0] = s.eye[1];
    if (fault == X_AND_Y_EXCHANGED)
        s.eye[1] = right;
    s.becomes = x_ok && y_ok && z_ok;
    return s;
}

/* Is this the answer to a question that is put before 15? */
static int is_before(uint32_t answer)
{
    switch (fault) {
    case BEFORE_SCENE: return 0;
    case BEFORE_9: return 0 < answer && answer < 9;
    case AFTER_10: return 0 < answer && answer <= 10;
    case AFTER_14: return (0 < answer && answer <= 10) || answer == 14;
    case AFTER_11: return (0 < answer && answer <= 11) || answer == 14;
    case AFTER_12: return answer != 0;
    default: return 0 < answer && answer <= 9;
    }
}

/* The answer of a call whose station is refused, by what it would be from another station. */
static uint32_t refused(uint32_t otherwise)
{
    return is_before(otherwise) ? otherwise : fault == ANSWER_10 ? 10 : 15;
}

#define VIEW int16_t rx, int16_t ry, int16_t rz, int16_t fx, int16_t fy, int16_t fz, \
             int16_t ux, int16_t uy, int16_t uz, uint16_t width, uint16_t height, uint16_t lens, \
             uint16_t left, uint16_t top, uint16_t tile_width, uint16_t tile_height
#define SAME_VIEW rx, ry, rz, fx, fy, fz, ux, uy, uz, width, height, lens, \
                  left, top, tile_width, tile_height
#define LENT uint16_t *picture, size_t cells, uint32_t *counts, size_t counts_len, \
             uint32_t *table, size_t patches, uint16_t *unlit, size_t unlit_len, \
             uint64_t *lit, size_t lit_len, uint32_t *counter
#define SAME_LENT picture, cells, counts, counts_len, table, patches, unlit, unlit_len, \
                  lit, lit_len, counter
#define LENGTHS size_t cells, size_t counts_len, size_t patches, size_t unlit_len, size_t lit_len
#define SAME_LENGTHS cells, counts_len, patches, unlit_len, lit_len
#define EYE(s) (s).eye[0], (s).eye[1], (s).eye[2]

/* The tile's place, as the fault has it. */
static uint16_t left_of(uint16_t left, uint16_t tile_width, uint16_t width)
{
    return fault == TILE_LOST || (fault == TILE_UNASKED && left + tile_width > width) ? 0 : left;
}

uint32_t tried_gate_metres(const uint8_t *scene, size_t len, double x, double y, double z, VIEW,
                           LENGTHS, uint32_t counter)
{
    struct station s = station_of(x, y, z);
    left = left_of(left, tile_width, width);
    uint32_t answer = ring_gate(scene, len, EYE(s), SAME_VIEW, SAME_LENGTHS, counter);
    return s.becomes || fault == GATE_PASSES ? answer : refused(answer);
}

static void spoil_lent(LENT)
{
    if (fault == PICTURE_LOST && cells)
        picture[0] = 0;
    if (fault == COUNTS_LOST && counts_len)
        counts[0] = 0;
    if (fault == TABLE_LOST && patches)
        table[0] = 0;
    if (fault == UNLIT_LOST && unlit_len)
        unlit[0] = 0;
    if (fault == LIT_LOST && lit_len)
        lit[0] = 0;
    if (fault == COUNTER_RAISED)
        *counter += 1;
}

uint32_t tried_survey_metres(const uint8_t *scene, size_t len, double x, double y, double z, VIEW,
                             LENT)
{
    struct station s = station_of(x, y, z);
    left = left_of(left, tile_width, width);
    if (s.becomes || fault == SURVEY_PASSES) {
        uint64_t held = lit[0];
        uint32_t before = *counter;
        if (fault == TOP_FROM_BELOW)
            top = (uint16_t)(height - top - tile_height);
        uint32_t answer = ring_survey(scene, len, EYE(s), SAME_VIEW, SAME_LENT);
        if (fault == NO_MAP)
            lit[0] = held;
        if (fault == ALWAYS_RISES && answer == RING_DONE)
            *counter = before + 1;
        return answer;
    }
    spoil_lent(SAME_LENT);
    return refused(ring_gate(scene, len, EYE(s), SAME_VIEW, SAME_LENGTHS, *counter));
}

/* The calls in units, which are as they were. */
static int is_far(int16_t x, int16_t y, int16_t z)
{
    return fault == UNITS_TOO && (x > 10000 || y < -10000 || z < -10000);
}

uint32_t tried_gate(const uint8_t *scene, size_t len, int16_t x, int16_t y, int16_t z, VIEW,
                    LENGTHS, uint32_t counter)
{
    return is_far(x, y, z) ? 15
                           : ring_gate(scene, len, x, y, z, SAME_VIEW, SAME_LENGTHS, counter);
}

uint32_t tried_survey(const uint8_t *scene, size_t len, int16_t x, int16_t y, int16_t z, VIEW, LENT)
{
    return is_far(x, y, z) ? 15 : ring_survey(scene, len, x, y, z, SAME_VIEW, SAME_LENT);
}
