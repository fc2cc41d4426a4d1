/* Every call of the header, with arguments and fields that all differ, and what docs/RULES.md says that each answers. So
 * two fields, or two parameters of one type, that stand the other way round in the library are seen.
 *
 * Each call's name is printed when it is called, and a line of its own where it is given NULL beside each length of 0: a
 * test compares them with the names in the header. What is not as expected is printed to stderr, and the program then
 * ends with 1. */
#include <math.h>
#include <stdio.h>
#include <string.h>

#include "legend.h"

static int failures;

static void expect(int holds, const char *claim, int line) {
    if (!holds) {
        failures++;
        fprintf(stderr, "line %d: not so: %s\n", line, claim);
    }
}

#define EXPECT(claim) expect((claim) != 0, #claim, __LINE__)

static void called(const char *name) {
    printf("%s\n", name);
}

/* The call with this name. */
#define CALL(name) (called(#name), name)

/* The same, given NULL beside each length, which is 0. */
#define CALL_WITH_NULL(name) (called("NULL: " #name), name)

/* ---- Values ---- */

enum {
    NODATA = 0x11111111,
    LOW = 0x22222222,
    HIGH = 0x33333333,
    A = 0x44444444,
    B = 0x55555555,
    C = 0x66666666
};

static const uint32_t THREE[3] = {A, B, C};

/* Settings whose colours all differ, and which have these flags. */
static LegendSettings settings_with(uint32_t has_low, uint32_t has_high, uint32_t zero_is_nodata) {
    LegendSettings settings;
    settings.nodata_color = NODATA;
    settings.low_color = LOW;
    settings.high_color = HIGH;
    settings.has_low = has_low;
    settings.has_high = has_high;
    settings.zero_is_nodata = zero_is_nodata;
    return settings;
}

/* A ramp whose entries all differ. */
static uint32_t entry(unsigned i) {
    return 0x77000000u + i;
}

static const uint32_t *ramp(void) {
    static uint32_t entries[256];
    for (unsigned i = 0; i < 256; i++) {
        entries[i] = entry(i);
    }
    return entries;
}

/* Bounds of any size, so that a count that is read from another place than its own does no harm. */
static const uint32_t MANY_COLORS[600] = {A, B, C};
static const int64_t MANY_VALUES[600] = {7, 2, 5};

static int is_answer(LegendAnswer answer, uint32_t number, uint32_t indexed, size_t index) {
    return answer.number == number && answer.indexed == indexed && answer.index == index;
}

static int is_done(LegendAnswer answer) {
    return is_answer(answer, LEGEND_DONE, 0, 0);
}

static int is_refused(LegendAnswer answer, uint32_t number) {
    return is_answer(answer, number, 0, 0);
}

static int are_zero(const void *bytes, size_t count) {
    const unsigned char *all = (const unsigned char *)bytes;
    for (size_t i = 0; i < count; i++) {
        if (all[i] != 0) {
            return 0;
        }
    }
    return 1;
}

/* ---- Colours, ramps, keys ---- */

static LegendColor hex(const char *text, size_t length) {
    return CALL(legend_hex)((const uint8_t *)text, length);
}

static void colors_ramps_keys(void) {
    const LegendColor eight = hex("#01020304", 9);
    EXPECT(is_done(eight.answer) && eight.color == 0x04030201);
    EXPECT(hex("#01020304", 7).color == 0xff030201);
    const LegendColor third = hex("#0102G304", 9);
    EXPECT(is_answer(third.answer, LEGEND_NOT_HEX_BYTE, 1, 2) && third.color == 0);
    EXPECT(is_refused(hex("01020304", 7).answer, LEGEND_NOT_HEX_COLOR));
    EXPECT(is_refused(CALL_WITH_NULL(legend_hex)(NULL, 0).answer, LEGEND_EMPTY_TEXT));

    const LegendPalette accent = CALL(legend_palette)(27);
    EXPECT(is_done(accent.answer) && accent.count == 8);
    EXPECT(accent.colors[0] == 0xff7fc97f && accent.colors[7] == 0xff666666 && accent.colors[8] == 0);
    const LegendPalette none = CALL(legend_palette)(32);
    EXPECT(is_refused(none.answer, LEGEND_NO_SUCH_PALETTE) && none.count == 0 && none.colors[0] == 0);

    const uint32_t ends[3] = {0, 0xffffffff, 0x12345678};
    const LegendRamp spread = CALL(legend_ramp_from_list)(ends, 2);
    EXPECT(is_done(spread.answer));
    for (unsigned i = 0; i < 256; i++) {
        EXPECT(spread.colors[i] == i * 0x01010101u);
    }
    EXPECT(is_refused(CALL(legend_ramp_from_list)(ends, 1).answer, LEGEND_TOO_FEW_COLORS));
    EXPECT(is_refused(CALL_WITH_NULL(legend_ramp_from_list)(NULL, 0).answer, LEGEND_TOO_FEW_COLORS));
    const LegendRamp of_accent = CALL(legend_ramp_from_palette)(27);
    EXPECT(is_done(of_accent.answer));
    EXPECT(of_accent.colors[0] == accent.colors[0] && of_accent.colors[255] == accent.colors[7]);
    EXPECT(is_refused(CALL(legend_ramp_from_palette)(32).answer, LEGEND_NO_SUCH_PALETTE));

    /* The one fraction at which the two look-ups differ. */
    const float close = 65793.0f / 33554432.0f;
    EXPECT(CALL(legend_get_color)(ramp(), 0.5f) == entry(128) && CALL(legend_get_color)(ramp(), close) == entry(0));
    EXPECT(CALL(legend_get_color_simd)(ramp(), 0.5f) == entry(128));
    EXPECT(CALL(legend_get_color_simd)(ramp(), close) == entry(1));
    EXPECT(CALL(legend_get_color)(ramp(), NAN) == 0 && CALL(legend_get_color_simd)(ramp(), 2.0f) == 0);

    const LegendKey key = CALL(legend_to_i64)(-5.9f);
    EXPECT(key.key == -5 && key.whole == 1);
    const LegendKey none_whole = CALL(legend_to_i64)(INFINITY);
    EXPECT(none_whole.key == 0 && none_whole.whole == 0);
}

/* ---- Builders ---- */

/* The record of a refusal, by its fields. */
static int is_blank(const LegendRecord *legend) {
    return legend->kind == LEGEND_LINEAR && are_zero(&legend->settings, sizeof legend->settings) &&
           are_zero(&legend->linear, sizeof legend->linear) &&
           are_zero(legend->banded.bands, sizeof legend->banded.bands) && legend->banded.count == 0 &&
           are_zero(legend->categoric.keys, sizeof legend->categoric.keys) &&
           are_zero(legend->categoric.colors, sizeof legend->categoric.colors) && legend->categoric.count == 0 &&
           are_zero(legend->categoric.lookup, sizeof legend->categoric.lookup) && legend->categoric.lookup_count == 0;
}

static int is_not_made(const LegendMade *made, uint32_t number, uint32_t indexed, size_t index) {
    return is_answer(made->answer, number, indexed, index) && is_blank(&made->legend);
}

/* Made, with these settings: the colour 0 where there is no low or no high. */
static int is_made(const LegendMade *made, uint32_t kind, LegendSettings asked) {
    const LegendSettings *settings = &made->legend.settings;
    return is_done(made->answer) && made->legend.kind == kind && settings->nodata_color == asked.nodata_color &&
           settings->low_color == (asked.has_low ? asked.low_color : 0) &&
           settings->high_color == (asked.has_high ? asked.high_color : 0) && settings->has_low == asked.has_low &&
           settings->has_high == asked.has_high && settings->zero_is_nodata == asked.zero_is_nodata;
}

static int is_linear(const LegendMade *made, float start, float end, uint32_t first, uint32_t last) {
    const LegendLinear *linear = &made->legend.linear;
    return linear->start == start && linear->end == end && linear->cmap[0] == first && linear->cmap[255] == last &&
           made->legend.banded.count == 0 && made->legend.categoric.count == 0;
}

static int is_band(const LegendMade *made, size_t at, float start, float end, uint32_t color) {
    const LegendBand *band = &made->legend.banded.bands[at];
    return band->start == start && band->end == end && band->color == color;
}

static int is_key(const LegendMade *made, size_t at, int64_t key, uint32_t color) {
    return made->legend.categoric.keys[at] == key && made->legend.categoric.colors[at] == color;
}

static LegendRanges two_ranges(void) {
    LegendRanges ranges;
    memset(&ranges, 0, sizeof ranges);
    ranges.ranges[0].start = 1.0f;
    ranges.ranges[0].end = 2.0f;
    ranges.ranges[1].start = 3.0f;
    ranges.ranges[1].end = 5.0f;
    ranges.count = 2;
    return ranges;
}

static void linear_builders(LegendSettings settings) {
    LegendMade made = CALL(legend_create_linear)(THREE, 2, 10.0f, 20.0f, settings);
    EXPECT(is_made(&made, LEGEND_LINEAR, settings) && is_linear(&made, 10.0f, 20.0f, A, B));
    made = CALL(legend_create_linear)(THREE, 2, 20.0f, 10.0f, settings);
    EXPECT(is_not_made(&made, LEGEND_START_ABOVE_END, 0, 0));
    made = CALL_WITH_NULL(legend_create_linear)(NULL, 0, 10.0f, 20.0f, settings);
    EXPECT(is_not_made(&made, LEGEND_TOO_FEW_COLORS, 0, 0));

    made = CALL(legend_create_linear_from_ramp)(ramp(), 10.0f, 20.0f, settings);
    EXPECT(is_made(&made, LEGEND_LINEAR, settings) && is_linear(&made, 10.0f, 20.0f, entry(0), entry(255)));
    EXPECT(made.legend.linear.cmap[51] == entry(51));
    made = CALL(legend_create_linear_from_ramp)(ramp(), 20.0f, 10.0f, settings);
    EXPECT(is_not_made(&made, LEGEND_START_ABOVE_END, 0, 0));
}

static void banded_builders(LegendSettings settings) {
    LegendMade made = CALL(legend_create_banded)(2, THREE, 2, 10.0f, 20.0f, settings);
    EXPECT(is_made(&made, LEGEND_BANDED, settings) && made.legend.banded.count == 2);
    EXPECT(is_band(&made, 0, 10.0f, 15.0f, A) && is_band(&made, 1, 15.0f, 20.0f, B));
    made = CALL(legend_create_banded)(65, MANY_COLORS, 3, 10.0f, 20.0f, settings);
    EXPECT(is_not_made(&made, LEGEND_TOO_MANY_BANDS, 0, 0));
    made = CALL(legend_create_banded)(3, MANY_COLORS, 65, 10.0f, 20.0f, settings);
    EXPECT(is_not_made(&made, LEGEND_COLOR_COUNT_DIFFERS, 0, 0));
    made = CALL_WITH_NULL(legend_create_banded)(0, NULL, 0, 10.0f, 20.0f, settings);
    EXPECT(is_made(&made, LEGEND_BANDED, settings) && made.legend.banded.count == 0);

    made = CALL(legend_create_banded_from_ramp)(3, ramp(), 10.0f, 16.0f, settings);
    EXPECT(is_made(&made, LEGEND_BANDED, settings) && made.legend.banded.count == 3);
    EXPECT(is_band(&made, 0, 10.0f, 12.0f, entry(0)) && is_band(&made, 1, 12.0f, 14.0f, entry(128)));
    EXPECT(is_band(&made, 2, 14.0f, 16.0f, entry(255)));

    made = CALL(legend_create_banded_manual_ranges)(THREE, 2, two_ranges(), settings);
    EXPECT(is_made(&made, LEGEND_BANDED, settings) && made.legend.banded.count == 2);
    EXPECT(is_band(&made, 0, 1.0f, 2.0f, A) && is_band(&made, 1, 3.0f, 5.0f, B));
    LegendRanges ranges = two_ranges();
    ranges.ranges[1].start = 6.0f;
    made = CALL(legend_create_banded_manual_ranges)(THREE, 2, ranges, settings);
    EXPECT(is_not_made(&made, LEGEND_EMPTY_RANGE, 1, 1));
    made = CALL(legend_create_banded_manual_ranges)(THREE, 3, two_ranges(), settings);
    EXPECT(is_not_made(&made, LEGEND_COLOR_COUNT_DIFFERS, 0, 0));
    ranges.count = 0;
    made = CALL_WITH_NULL(legend_create_banded_manual_ranges)(NULL, 0, ranges, settings);
    EXPECT(is_made(&made, LEGEND_BANDED, settings) && made.legend.banded.count == 0);

    made = CALL(legend_create_banded_manual_ranges_from_ramp)(ramp(), two_ranges(), settings);
    EXPECT(is_made(&made, LEGEND_BANDED, settings) && made.legend.banded.count == 2);
    EXPECT(is_band(&made, 0, 1.0f, 2.0f, entry(0)) && is_band(&made, 1, 3.0f, 5.0f, entry(255)));

    LegendBand bands[3];
    memset(bands, 0, sizeof bands);
    for (int i = 0; i < 3; i++) {
        bands[i].start = 30.0f - 10.0f * (float)i;
        bands[i].end = bands[i].start + 4.0f;
        bands[i].color = THREE[i];
    }
    made = CALL(legend_create_banded_as_given)(bands, 2, settings);
    EXPECT(is_made(&made, LEGEND_BANDED, settings) && made.legend.banded.count == 2);
    EXPECT(is_band(&made, 0, 30.0f, 34.0f, A) && is_band(&made, 1, 20.0f, 24.0f, B));
    EXPECT(CALL(legend_color_for_f32)(&made.legend, 22.0f, 0, 0.0f).color == B);
    made = CALL_WITH_NULL(legend_create_banded_as_given)(NULL, 0, settings);
    EXPECT(is_made(&made, LEGEND_BANDED, settings) && made.legend.banded.count == 0);
}

static void categoric_builders(LegendSettings settings) {
    const int64_t values[3] = {7, 2, 5};
    LegendMade made = CALL(legend_create_categoric_for_value_list)(THREE, 2, values, 2, settings);
    const LegendCategoric *categoric = &made.legend.categoric;
    EXPECT(is_made(&made, LEGEND_CATEGORIC, settings) && categoric->count == 2 && categoric->lookup_count == 8);
    EXPECT(is_key(&made, 0, 2, B) && is_key(&made, 1, 7, A));
    EXPECT(categoric->lookup[1] == 0 && categoric->lookup[2] == B && categoric->lookup[7] == A);
    made = CALL(legend_create_categoric_for_value_list)(MANY_COLORS, 3, MANY_VALUES, 257, settings);
    EXPECT(is_not_made(&made, LEGEND_TOO_MANY_CATEGORIES, 0, 0));
    made = CALL(legend_create_categoric_for_value_list)(MANY_COLORS, 257, MANY_VALUES, 3, settings);
    EXPECT(is_not_made(&made, LEGEND_COLOR_COUNT_DIFFERS, 0, 0));
    const int64_t far[2] = {1, 16777217};
    made = CALL(legend_create_categoric_for_value_list)(THREE, 2, far, 2, settings);
    EXPECT(is_not_made(&made, LEGEND_KEY_OUT_OF_RANGE, 1, 1));
    made = CALL_WITH_NULL(legend_create_categoric_for_value_list)(NULL, 0, NULL, 0, settings);
    EXPECT(is_made(&made, LEGEND_CATEGORIC, settings) && categoric->count == 0 && categoric->lookup_count == 0);

    made = CALL(legend_create_categoric_for_value_list_from_ramp)(ramp(), values, 3, settings);
    EXPECT(is_made(&made, LEGEND_CATEGORIC, settings) && categoric->count == 3 && categoric->lookup_count == 8);
    EXPECT(is_key(&made, 0, 2, entry(128)) && is_key(&made, 1, 5, entry(255)) && is_key(&made, 2, 7, entry(0)));
    made = CALL_WITH_NULL(legend_create_categoric_for_value_list_from_ramp)(ramp(), NULL, 0, settings);
    EXPECT(is_made(&made, LEGEND_CATEGORIC, settings) && categoric->count == 0 && categoric->lookup_count == 0);

    made = CALL(legend_create_categoric_for_value_range)(THREE, 3, -1, 1, settings);
    EXPECT(is_made(&made, LEGEND_CATEGORIC, settings) && categoric->count == 3 && categoric->lookup_count == 0);
    EXPECT(is_key(&made, 0, -1, A) && is_key(&made, 1, 0, B) && is_key(&made, 2, 1, C));
    made = CALL_WITH_NULL(legend_create_categoric_for_value_range)(NULL, 0, 1, 0, settings);
    EXPECT(is_made(&made, LEGEND_CATEGORIC, settings) && categoric->count == 0 && categoric->lookup_count == 0);

    made = CALL(legend_create_categoric_for_value_range_from_ramp)(ramp(), 3, 5, settings);
    EXPECT(is_made(&made, LEGEND_CATEGORIC, settings) && categoric->count == 3 && categoric->lookup_count == 6);
    EXPECT(is_key(&made, 0, 3, entry(0)) && is_key(&made, 1, 4, entry(128)) && is_key(&made, 2, 5, entry(255)));
}

/* Each flag by itself: which colour stands for what is then seen in the colours. */
static void flags(void) {
    LegendMade made = CALL(legend_create_linear_from_ramp)(ramp(), 10.0f, 20.0f, settings_with(1, 0, 0));
    EXPECT(CALL(legend_color_for_f32)(&made.legend, 5.0f, 0, 0.0f).color == LOW);
    EXPECT(CALL(legend_color_for_f32)(&made.legend, 25.0f, 0, 0.0f).color == entry(255));
    EXPECT(CALL(legend_color_for_f32)(&made.legend, 0.0f, 0, 0.0f).color == LOW);
    made = CALL(legend_create_linear_from_ramp)(ramp(), 10.0f, 20.0f, settings_with(0, 1, 0));
    EXPECT(CALL(legend_color_for_f32)(&made.legend, 5.0f, 0, 0.0f).color == entry(0));
    EXPECT(CALL(legend_color_for_f32)(&made.legend, 25.0f, 0, 0.0f).color == HIGH);
    EXPECT(CALL(legend_color_for_f32)(&made.legend, 0.0f, 0, 0.0f).color == entry(0));
    made = CALL(legend_create_linear_from_ramp)(ramp(), 10.0f, 20.0f, settings_with(0, 0, 1));
    EXPECT(CALL(legend_color_for_f32)(&made.legend, 5.0f, 0, 0.0f).color == entry(0));
    EXPECT(CALL(legend_color_for_f32)(&made.legend, 25.0f, 0, 0.0f).color == entry(255));
    EXPECT(CALL(legend_color_for_f32)(&made.legend, 0.0f, 0, 0.0f).color == NODATA);
    EXPECT(CALL(legend_color_for_f32)(&made.legend, NAN, 0, 0.0f).color == NODATA);

    const LegendSettings bad[3] = {settings_with(2, 0, 0), settings_with(0, 2, 0), settings_with(0, 0, 2)};
    for (int i = 0; i < 3; i++) {
        LegendMade refused = CALL(legend_create_linear_from_ramp)(ramp(), 10.0f, 20.0f, bad[i]);
        EXPECT(is_not_made(&refused, LEGEND_BAD_FLAG, 0, 0));
    }
}

/* ---- Uses ---- */

enum {
    PERIOD = 7,
    LENGTH = 3 * PERIOD, /* in 4, 8 and 16 lanes a remainder each */
    ROOM = LENGTH + 3,
    SCRATCH = 17
};

/* The samples that every raster repeats, and what a legend makes of them where 12 is nodata, and where there is none. */
static const int SAMPLES[PERIOD] = {5, 10, 12, 14, 20, 25, 18};

typedef struct Case {
    LegendRecord legend;
    uint32_t with_nodata[PERIOD];
    uint32_t without[PERIOD];
    int plain; /* whether lanes are painted plainly */
} Case;

static void words(uint32_t *place, uint32_t first, uint32_t second, uint32_t third, uint32_t fourth, uint32_t fifth,
                  uint32_t sixth, uint32_t seventh) {
    const uint32_t all[PERIOD] = {first, second, third, fourth, fifth, sixth, seventh};
    memcpy(place, all, sizeof all);
}

/* A legend of each kind, and one by keys without a table. What is of another kind is filled too, and does not count. */
static void fill_cases(Case cases[4]) {
    const LegendSettings settings = settings_with(1, 1, 0);
    LegendRecord legend;
    memset(&legend, 0, sizeof legend);
    legend.settings = settings;
    legend.linear.start = 10.0f;
    legend.linear.end = 20.0f;
    memcpy(legend.linear.cmap, ramp(), sizeof legend.linear.cmap);
    for (int i = 0; i < 2; i++) {
        legend.banded.bands[i].start = i ? 12.0f : 10.0f;
        legend.banded.bands[i].end = i ? 20.0f : 12.0f;
        legend.banded.bands[i].color = THREE[i];
    }
    legend.banded.count = 2;
    legend.categoric.keys[0] = 10;
    legend.categoric.keys[1] = 12;
    legend.categoric.keys[2] = 14; /* beyond the count */
    for (int i = 0; i < 3; i++) {
        legend.categoric.colors[i] = THREE[i];
    }
    legend.categoric.count = 2;
    for (unsigned i = 0; i < 513; i++) {
        legend.categoric.lookup[i] = 0x88000000u + i;
    }
    legend.categoric.lookup_count = 19;

    for (int i = 0; i < 4; i++) {
        cases[i].legend = legend;
        cases[i].plain = i == 3;
    }
    cases[0].legend.kind = LEGEND_LINEAR;
    words(cases[0].without, LOW, entry(0), entry(51), entry(102), entry(255), HIGH, entry(204));
    cases[1].legend.kind = LEGEND_BANDED;
    words(cases[1].without, LOW, A, B, B, B, HIGH, B);
    cases[2].legend.kind = LEGEND_CATEGORIC;
    words(cases[2].without, 0x88000005, 0x8800000a, 0x8800000c, 0x8800000e, NODATA, NODATA, 0x88000012);
    cases[3].legend.kind = LEGEND_CATEGORIC;
    cases[3].legend.categoric.lookup_count = 0;
    words(cases[3].without, NODATA, A, B, NODATA, NODATA, NODATA, NODATA);
    for (int i = 0; i < 4; i++) {
        memcpy(cases[i].with_nodata, cases[i].without, sizeof cases[i].without);
        cases[i].with_nodata[2] = NODATA;
    }
}

/* Buffers whose words all differ. */
typedef struct Buffers {
    uint32_t out[ROOM];
    uint32_t scratch[SCRATCH];
} Buffers;

static Buffers lent_buffers(void) {
    Buffers buffers;
    for (unsigned i = 0; i < ROOM; i++) {
        buffers.out[i] = 0x99000000u + i;
    }
    for (unsigned i = 0; i < SCRATCH; i++) {
        buffers.scratch[i] = 0xaa000000u + i;
    }
    return buffers;
}

static int are_same(const Buffers *one, const Buffers *other) {
    return memcmp(one, other, sizeof *one) == 0;
}

/* What the buffers hold after a painting of the first `count` samples; 0 lanes are none. */
static Buffers painted(const Case *test, const uint32_t *colors, size_t count, size_t lanes) {
    Buffers buffers = lent_buffers();
    for (size_t i = 0; i < count; i++) {
        buffers.out[i] = colors[i % PERIOD];
    }
    if (lanes != 0 && !test->plain && count >= lanes) {
        memcpy(buffers.scratch, buffers.out + (count / lanes - 1) * lanes, lanes * sizeof(uint32_t));
    }
    return buffers;
}

/* The parts of a legend as the library's own calls take them, written out. */
#define PARTS(legend)                                                                                          \
    CALL(legend_view)(legend), (legend)->banded, (legend)->linear.cmap, (legend)->categoric.keys,              \
        (legend)->categoric.colors, (legend)->categoric.lookup

/* For one type of sample: the header's functions and the library's own calls give the same, and what is expected. */
#define USES(type)                                                                                                     \
    static void color_##type(const Case *test, uint32_t given, const uint32_t *colors) {                               \
        for (int i = 0; i < PERIOD; i++) {                                                                             \
            const type##_sample value = (type##_sample)SAMPLES[i];                                                     \
            const LegendColor color = CALL(legend_color_for_##type)(&test->legend, value, given, 12);                  \
            const LegendColor own = CALL(legend_view_color_for_##type)(PARTS(&test->legend), value, given, 12);        \
            EXPECT(is_done(color.answer) && color.color == colors[i]);                                                 \
            EXPECT(is_done(own.answer) && own.color == colors[i]);                                                     \
        }                                                                                                              \
    }                                                                                                                  \
                                                                                                                       \
    static void plain_##type(const Case *test, const type##_sample *src, size_t count, uint32_t given,                 \
                             const uint32_t *colors) {                                                                 \
        const Buffers expected = painted(test, colors, count, 0);                                                      \
        Buffers one = lent_buffers(), other = lent_buffers();                                                          \
        EXPECT(is_done(CALL(legend_paint_##type)(&test->legend, src, count, given, 12, one.out, count)));              \
        EXPECT(are_same(&one, &expected));                                                                             \
        EXPECT(is_done(                                                                                                \
            CALL(legend_view_paint_##type)(PARTS(&test->legend), src, count, given, 12, other.out, count)));           \
        EXPECT(are_same(&other, &expected));                                                                           \
    }                                                                                                                  \
                                                                                                                       \
    static void lanes_##type(const Case *test, size_t lanes, const type##_sample *src, size_t count,                   \
                             uint32_t given, const uint32_t *colors) {                                                 \
        const Buffers expected = painted(test, colors, count, lanes);                                                  \
        Buffers one = lent_buffers(), other = lent_buffers();                                                          \
        EXPECT(is_done(CALL(legend_paint_lanes_##type)(&test->legend, lanes, src, count, given, 12, one.out,           \
                                                       count, one.scratch, SCRATCH)));                                 \
        EXPECT(are_same(&one, &expected));                                                                             \
        EXPECT(is_done(CALL(legend_view_paint_lanes_##type)(PARTS(&test->legend), lanes, src, count, given, 12,        \
                                                            other.out, count, other.scratch, SCRATCH)));               \
        EXPECT(are_same(&other, &expected));                                                                           \
    }                                                                                                                  \
                                                                                                                       \
    /* Refused before a buffer is touched. */                                                                          \
    static void refused_##type(const LegendRecord *legend, const type##_sample *src, uint32_t given,                   \
                               uint32_t number) {                                                                      \
        const Buffers before = lent_buffers();                                                                         \
        Buffers lent = lent_buffers();                                                                                 \
        const LegendColor color = CALL(legend_color_for_##type)(legend, 5, given, 12);                                 \
        EXPECT(is_refused(color.answer, number) && color.color == 0);                                                  \
        LegendAnswer answer = CALL(legend_paint_##type)(legend, src, LENGTH, given, 12, lent.out, LENGTH);             \
        EXPECT(is_refused(answer, number) && are_same(&lent, &before));                                                \
        answer = CALL(legend_paint_lanes_##type)(legend, 8, src, LENGTH, given, 12, lent.out, LENGTH,                  \
                                                 lent.scratch, SCRATCH);                                               \
        EXPECT(is_refused(answer, number) && are_same(&lent, &before));                                                \
    }                                                                                                                  \
                                                                                                                       \
    static void buffers_##type(const LegendRecord *legend, const type##_sample *src) {                                 \
        const Buffers before = lent_buffers();                                                                         \
        Buffers lent = lent_buffers();                                                                                 \
        LegendAnswer answer = CALL(legend_paint_##type)(legend, src, LENGTH, 0, 0, lent.out, LENGTH + 1);              \
        EXPECT(is_refused(answer, LEGEND_OUTPUT_LENGTH_DIFFERS) && are_same(&lent, &before));                          \
        answer = CALL(legend_paint_lanes_##type)(legend, 4, src, LENGTH, 0, 0, lent.out, LENGTH - 1,                   \
                                                 lent.scratch, SCRATCH);                                               \
        EXPECT(is_refused(answer, LEGEND_OUTPUT_LENGTH_DIFFERS) && are_same(&lent, &before));                          \
        answer = CALL(legend_paint_lanes_##type)(legend, 5, src, LENGTH, 0, 0, lent.out, LENGTH - 1,                   \
                                                 lent.scratch, 15);                                                    \
        EXPECT(is_refused(answer, LEGEND_NO_SUCH_LANE_COUNT) && are_same(&lent, &before));                             \
        answer = CALL(legend_paint_lanes_##type)(legend, 16, src, LENGTH, 0, 0, lent.out, LENGTH - 1,                  \
                                                 lent.scratch, 15);                                                    \
        EXPECT(is_refused(answer, LEGEND_SCRATCH_TOO_SHORT) && are_same(&lent, &before));                              \
        /* NULL beside a length of 0, here or in both. */                                                              \
        EXPECT(is_refused(CALL(legend_paint_##type)(legend, NULL, 0, 0, 0, lent.out, 1), LEGEND_OUTPUT_LENGTH_DIFFERS));\
        EXPECT(is_refused(CALL(legend_paint_##type)(legend, src, 1, 0, 0, NULL, 0), LEGEND_OUTPUT_LENGTH_DIFFERS));    \
        EXPECT(is_done(CALL_WITH_NULL(legend_paint_##type)(legend, NULL, 0, 0, 0, NULL, 0)));                          \
        EXPECT(is_done(CALL_WITH_NULL(legend_view_paint_##type)(PARTS(legend), NULL, 0, 0, 0, NULL, 0)));              \
        answer = CALL(legend_paint_lanes_##type)(legend, 8, NULL, 0, 0, 0, NULL, 0, lent.scratch, SCRATCH);            \
        EXPECT(is_done(answer) && are_same(&lent, &before));                                                           \
        answer = CALL_WITH_NULL(legend_paint_lanes_##type)(legend, 8, NULL, 0, 0, 0, NULL, 0, NULL, 0);                \
        EXPECT(is_refused(answer, LEGEND_SCRATCH_TOO_SHORT));                                                          \
        answer = CALL_WITH_NULL(legend_view_paint_lanes_##type)(PARTS(legend), 8, NULL, 0, 0, 0, NULL, 0, NULL, 0);    \
        EXPECT(is_refused(answer, LEGEND_SCRATCH_TOO_SHORT));                                                          \
    }                                                                                                                  \
                                                                                                                       \
    static void uses_##type(const Case *test) {                                                                        \
        type##_sample src[LENGTH];                                                                                     \
        for (int i = 0; i < LENGTH; i++) {                                                                             \
            src[i] = (type##_sample)SAMPLES[i % PERIOD];                                                               \
        }                                                                                                              \
        for (uint32_t given = 0; given < 2; given++) {                                                                 \
            const uint32_t *colors = given ? test->with_nodata : test->without;                                        \
            color_##type(test, given, colors);                                                                         \
            for (size_t count = 0; count <= LENGTH; count++) {                                                         \
                plain_##type(test, src, count, given, colors);                                                         \
                for (size_t lanes = 4; lanes <= 16; lanes *= 2) {                                                      \
                    lanes_##type(test, lanes, src, count, given, colors);                                              \
                }                                                                                                      \
            }                                                                                                          \
        }                                                                                                              \
        buffers_##type(&test->legend, src);                                                                            \
        refused_##type(&test->legend, src, 2, LEGEND_BAD_FLAG);                                                        \
        LegendRecord other = test->legend;                                                                             \
        other.kind = 3;                                                                                                \
        refused_##type(&other, src, 2, LEGEND_BAD_KIND);                                                               \
        other.settings.has_high = 2;                                                                                   \
        refused_##type(&other, src, 1, LEGEND_BAD_FLAG);                                                               \
    }

typedef float f32_sample;
typedef uint8_t u8_sample;
typedef int16_t i16_sample;

USES(f32)
USES(u8)
USES(i16)

/* The view of a legend, field by field. */
static void heads(const LegendRecord *legend) {
    const LegendView view = CALL(legend_view)(legend);
    EXPECT(view.kind == legend->kind && view.start == 10.0f && view.end == 20.0f);
    EXPECT(view.count == 2 && view.lookup_count == legend->categoric.lookup_count);
    EXPECT(view.settings.nodata_color == NODATA && view.settings.low_color == LOW);
    EXPECT(view.settings.high_color == HIGH && view.settings.has_low == 1 && view.settings.has_high == 1);
    EXPECT(view.settings.zero_is_nodata == 0);
}

/* The range of values and the list of colours: the header's functions and the library's own calls. */
static void whole_uses(const Case *test, float start, float end, uint32_t first, uint32_t last) {
    const LegendValueRange range = CALL(legend_total_value_range)(&test->legend);
    const LegendValueRange own_range = CALL(legend_record_total_value_range)(test->legend);
    EXPECT(is_done(range.answer) && range.start == start && range.end == end);
    EXPECT(is_done(own_range.answer) && own_range.start == start && own_range.end == end);
    const LegendColorList list = CALL(legend_color_list)(&test->legend);
    const LegendColorList own_list = CALL(legend_record_color_list)(test->legend);
    EXPECT(is_done(list.answer) && list.colors[0] == first && list.colors[255] == last);
    EXPECT(is_done(own_list.answer) && memcmp(list.colors, own_list.colors, sizeof list.colors) == 0);

    /* A stored key out of range, the second: refused with its place. A count above capacity: refused before. */
    LegendRecord other = test->legend;
    other.kind = LEGEND_CATEGORIC;
    other.categoric.keys[1] = 16777217;
    EXPECT(is_answer(CALL(legend_total_value_range)(&other).answer, LEGEND_KEY_OUT_OF_RANGE, 1, 1));
    EXPECT(is_answer(CALL(legend_color_list)(&other).answer, LEGEND_KEY_OUT_OF_RANGE, 1, 1));
    other.categoric.lookup_count = 514;
    EXPECT(is_refused(CALL(legend_total_value_range)(&other).answer, LEGEND_COUNT_ABOVE_CAPACITY));
    EXPECT(is_refused(CALL(legend_color_list)(&other).answer, LEGEND_COUNT_ABOVE_CAPACITY));
}

/* ---- Cards ---- */

/* Bands 1 to 2 and 2 to 3 under the title "rain", with a low colour and zero as nodata: each byte of the card. */
static const uint8_t CARD[] = {
    'L', 'G', 'C', 1, 0, 1, 4, 'r', 'a', 'i', 'n', 0x11, 0x11, 0x11, 0x11, 5, 0x22, 0x22, 0x22, 0x22, 0, 0, 0, 0, 2, 0,
    0, 0, 0x80, 0x3f, 0, 0, 0, 0x40, 0x44, 0x44, 0x44, 0x44, 0, 0, 0, 0x40, 0, 0, 0x40, 0x40, 0x55, 0x55, 0x55, 0x55};

/* Whether two legends are the same, unused places too. */
static int is_legend(const LegendRecord *one, const LegendRecord *other) {
    return one->kind == other->kind && memcmp(&one->settings, &other->settings, sizeof one->settings) == 0 &&
           memcmp(&one->linear, &other->linear, sizeof one->linear) == 0 &&
           memcmp(one->banded.bands, other->banded.bands, sizeof one->banded.bands) == 0 &&
           one->banded.count == other->banded.count &&
           memcmp(one->categoric.keys, other->categoric.keys, sizeof one->categoric.keys) == 0 &&
           memcmp(one->categoric.colors, other->categoric.colors, sizeof one->categoric.colors) == 0 &&
           one->categoric.count == other->categoric.count &&
           memcmp(one->categoric.lookup, other->categoric.lookup, sizeof one->categoric.lookup) == 0 &&
           one->categoric.lookup_count == other->categoric.lookup_count;
}

static void cards(void) {
    const LegendBand bands[2] = {{1.0f, 2.0f, A}, {2.0f, 3.0f, B}};
    const LegendMade banded = legend_create_banded_as_given(bands, 2, settings_with(1, 0, 1));
    const uint8_t title[5] = {'r', 'a', 'i', 'n', 's'};
    uint8_t buffer[sizeof CARD + 2], before[sizeof CARD + 2];
    memset(before, 0x99, sizeof before);

    memcpy(buffer, before, sizeof buffer);
    const LegendWrittenCard written = CALL(legend_write_card)(&banded.legend, title, 4, buffer, sizeof buffer);
    EXPECT(is_done(written.answer) && written.length == sizeof CARD);
    EXPECT(memcmp(buffer, CARD, sizeof CARD) == 0 && buffer[sizeof CARD] == 0x99 && buffer[sizeof CARD + 1] == 0x99);
    memcpy(buffer, before, sizeof buffer);
    const LegendWrittenCard own = CALL(legend_record_write_card)(banded.legend, title, 4, buffer, sizeof CARD);
    EXPECT(is_done(own.answer) && own.length == sizeof CARD && memcmp(buffer, CARD, sizeof CARD) == 0);

    /* Refused: the buffer is as it was, and the length is 0. */
    memcpy(buffer, before, sizeof buffer);
    LegendWrittenCard refused = CALL(legend_write_card)(&banded.legend, title, 4, buffer, sizeof CARD - 1);
    EXPECT(is_refused(refused.answer, LEGEND_CARD_TOO_LONG) && refused.length == 0);
    LegendRecord other = banded.legend;
    other.banded.count = 65;
    refused = CALL(legend_write_card)(&other, title, 4, buffer, 0);
    EXPECT(is_refused(refused.answer, LEGEND_COUNT_ABOVE_CAPACITY) && refused.length == 0);
    other.kind = 3;
    refused = CALL(legend_write_card)(&other, title, 4, buffer, sizeof buffer);
    EXPECT(is_refused(refused.answer, LEGEND_BAD_KIND) && refused.length == 0);
    other.settings.has_low = 2;
    refused = CALL(legend_record_write_card)(other, title, 4, buffer, sizeof buffer);
    EXPECT(is_refused(refused.answer, LEGEND_BAD_FLAG) && refused.length == 0);
    EXPECT(memcmp(buffer, before, sizeof buffer) == 0);
    EXPECT(is_refused(CALL_WITH_NULL(legend_write_card)(&banded.legend, NULL, 0, NULL, 0).answer, LEGEND_CARD_TOO_LONG));
    refused = CALL_WITH_NULL(legend_record_write_card)(banded.legend, NULL, 0, NULL, 0);
    EXPECT(is_refused(refused.answer, LEGEND_CARD_TOO_LONG) && refused.length == 0);

    const LegendMade back = CALL(legend_read_card)(CARD, sizeof CARD);
    EXPECT(is_done(back.answer) && is_legend(&back.legend, &banded.legend));
    EXPECT(is_refused(CALL(legend_read_card)(CARD, 5).answer, LEGEND_CARD_UNKNOWN));
    EXPECT(is_refused(CALL(legend_read_card)(CARD, sizeof CARD - 1).answer, LEGEND_CARD_MALFORMED));
    EXPECT(is_refused(CALL_WITH_NULL(legend_read_card)(NULL, 0).answer, LEGEND_CARD_UNKNOWN));

    size_t length = 99;
    EXPECT(CALL(legend_card_title)(CARD, sizeof CARD, &length) == CARD + 7 && length == 4);
    EXPECT(CALL(legend_card_title)(CARD, 5, &length) == CARD && length == 0);
    EXPECT(CALL_WITH_NULL(legend_card_title)(NULL, 0, &length) == NULL && length == 0);
    const LegendTitlePart part = CALL(legend_card_title_part)(CARD, sizeof CARD);
    EXPECT(part.offset == 7 && part.length == 4);
    const LegendTitlePart none = CALL_WITH_NULL(legend_card_title_part)(NULL, 0);
    EXPECT(none.offset == 0 && none.length == 0);
}

int main(void) {
    colors_ramps_keys();
    for (uint32_t bits = 0; bits < 8; bits++) {
        const LegendSettings settings = settings_with(bits & 1, bits >> 1 & 1, bits >> 2);
        linear_builders(settings);
        banded_builders(settings);
        categoric_builders(settings);
    }
    flags();
    cards();

    static Case cases[4];
    fill_cases(cases);
    for (int i = 0; i < 4; i++) {
        heads(&cases[i].legend);
        uses_f32(&cases[i]);
        uses_u8(&cases[i]);
        uses_i16(&cases[i]);
    }
    whole_uses(&cases[0], 10.0f, 20.0f, entry(0), entry(255));
    whole_uses(&cases[1], 10.0f, 20.0f, A, B);
    whole_uses(&cases[2], 10.0f, 12.0f, 0x8800000a, 0x8800000c);
    whole_uses(&cases[3], 10.0f, 12.0f, A, B);
    return failures != 0;
}
