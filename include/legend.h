/* Legends that colour rasters: the calls of liblegend_c.a. docs/RULES.md says what each gives.
 *
 * A colour is one word: red + 256 * green + 65536 * blue + 16777216 * alpha. TRANSPARENT is 0.
 *
 * Every call ends, for every argument of its types, and keeps nothing: it allocates no memory and has no state between
 * calls. So calls may run on any threads at once, where none writes what another is given.
 *
 * What a caller owes is C's own. A pointer is aligned and points to as many elements as the count beside it says, or
 * as its brackets say. What a call writes to, an output or scratch, overlaps nothing else that the call is given: no
 * other buffer, and no part of the legend. A pointer is not NULL, unless the count beside it is 0: then nothing is read
 * or written through it. That the calls keep within the counts is proved of their source; that NULL beside 0 does no
 * harm is not, but c/calls.c runs every call with a count so.
 *
 * The default floating-point environment is assumed: rounding to nearest, and subnormal numbers as they are. Another
 * rounding direction changes colours, and flushing subnormal numbers to zero may.
 *
 * A call takes less than 40,000 bytes of stack, with what C puts there for its arguments and its result. The most that
 * was seen is 28,519, where a card is read, 7,000 of them for the result; in a painting 8,451, and 23,767 where a card
 * is written (c/stack.c measures each call).
 */
#ifndef LEGEND_H
#define LEGEND_H

#include <stddef.h>
#include <stdint.h>

#ifdef __cplusplus
extern "C" {
#endif

/* ---- What a call answers ---- */

/* The numbers of the table of refusals. LEGEND_DONE is none of them: nothing was refused. */
enum {
    LEGEND_DONE = 0,
    LEGEND_EMPTY_TEXT = 1,
    LEGEND_NOT_HEX_COLOR = 2,
    LEGEND_NOT_HEX_BYTE = 3, /* index: the first such pair, from 0 */
    LEGEND_TOO_FEW_COLORS = 4,
    LEGEND_TOO_MANY_COLORS = 5,
    LEGEND_NO_SUCH_PALETTE = 6,
    LEGEND_START_ABOVE_END = 7,
    LEGEND_TOO_MANY_BANDS = 8,
    LEGEND_COLOR_COUNT_DIFFERS = 9,
    LEGEND_EMPTY_RANGE = 10, /* index: the first such range, from 0 */
    LEGEND_TOO_MANY_CATEGORIES = 11,
    LEGEND_RANGE_TOO_WIDE = 12,
    LEGEND_OUTPUT_LENGTH_DIFFERS = 13,
    LEGEND_NO_SUCH_LANE_COUNT = 14,
    LEGEND_SCRATCH_TOO_SHORT = 15,
    LEGEND_COUNT_ABOVE_CAPACITY = 16,
    LEGEND_KEY_OUT_OF_RANGE = 17, /* index: the first such key, from 0 */
    LEGEND_CARD_UNKNOWN = 18,
    LEGEND_CARD_MALFORMED = 19,
    LEGEND_CARD_TOO_LONG = 20,
    /* This interface's own, before any of the others: the flags of settings or a legend, then the kind, then the flag of
     * a nodata value. */
    LEGEND_BAD_FLAG = 100, /* a flag that is neither 0 nor 1 */
    LEGEND_BAD_KIND = 101  /* a kind that is none of 0, 1, 2 */
};

/* A call's answer: LEGEND_DONE or a refusal's number. `indexed` is 1 where the refusal has an index, else 0 with the
 * index 0. */
typedef struct LegendAnswer {
    uint32_t number;
    uint32_t indexed;
    size_t index;
} LegendAnswer;

/* ---- Colours and palettes ---- */

/* A colour, 0 beside a refusal. */
typedef struct LegendColor {
    LegendAnswer answer;
    uint32_t color;
} LegendColor;

/* The colour of `#RRGGBB` or `#RRGGBBAA`, with no end mark needed. Refused: 1, 2, 3. */
LegendColor legend_hex(const uint8_t *text, size_t length);

/* A palette's colours: the first `count`, and 0 from there on. No colours beside a refusal. */
typedef struct LegendPalette {
    LegendAnswer answer;
    uint32_t colors[12];
    size_t count;
} LegendPalette;

/* The palette with a number, 0 (BLUES) to 31 (PASTEL2). Refused: 6. */
LegendPalette legend_palette(size_t number);

/* ---- Ramps ---- */

/* A ramp's 256 colours, all 0 beside a refusal. */
typedef struct LegendRamp {
    LegendAnswer answer;
    uint32_t colors[256];
} LegendRamp;

/* A list of 2 to 256 colours spread over a ramp, in whole numbers, alpha too. Refused: 4, 5. */
LegendRamp legend_ramp_from_list(const uint32_t *colors, size_t count);

/* A palette spread over a ramp. Refused: 6. */
LegendRamp legend_ramp_from_palette(size_t number);

/* The ramp's colour at a fraction: entry fraction * 255, to the nearest, halves up. TRANSPARENT outside 0 to 1, and for
 * NaN. */
uint32_t legend_get_color(const uint32_t ramp[256], float fraction);

/* The same by the rule of lane painting: entry floor(fraction * 255 + 0.5), the sum rounded to float, at most 255. The
 * two differ at one fraction, 65,793 / 2^25: entry 0 there, and entry 1 here. */
uint32_t legend_get_color_simd(const uint32_t ramp[256], float fraction);

/* ---- Keys ---- */

/* A sample as a key: `whole` is 1 where there is one, else 0 with the key 0. */
typedef struct LegendKey {
    int64_t key;
    uint32_t whole;
} LegendKey;

/* A sample truncated toward zero; none for NaN, below -2^63, and from 2^63 on. */
LegendKey legend_to_i64(float sample);

/* ---- Legends ---- */

/* The settings of a legend. The last three are flags, 0 or 1: the low colour counts where has_low is 1, the high colour
 * where has_high is 1, and where zero_is_nodata is 1 a sample of 0, or of negative 0, gets the nodata colour. A categoric
 * legend has neither a low nor a high colour, whatever is set. All 0 are the plain settings. */
typedef struct LegendSettings {
    uint32_t nodata_color;
    uint32_t low_color;
    uint32_t high_color;
    uint32_t has_low;
    uint32_t has_high;
    uint32_t zero_is_nodata;
} LegendSettings;

/* A range of values over a ramp. */
typedef struct LegendLinear {
    float start;
    float end;
    uint32_t cmap[256];
} LegendLinear;

/* A band: from its start up to, but not at, its end. */
typedef struct LegendBand {
    float start;
    float end;
    uint32_t color;
} LegendBand;

/* The first `count` bands. */
typedef struct LegendBanded {
    LegendBand bands[64];
    size_t count;
} LegendBanded;

/* The first `count` keys with their colours, and the table's first `lookup_count` words: none where there is no table. A
 * builder makes the keys ascending, each once. A record is read as it is stored: by its table where it has one, else by
 * the first of its keys that is the sample's. */
typedef struct LegendCategoric {
    int64_t keys[256];
    uint32_t colors[256];
    size_t count;
    uint32_t lookup[513];
    size_t lookup_count;
} LegendCategoric;

enum {
    LEGEND_LINEAR = 0,
    LEGEND_BANDED = 1,
    LEGEND_CATEGORIC = 2
};

/* A legend: its kind, its settings, and three records, of which that of the kind alone counts. A caller may fill one in
 * by hand; a count of that record above its capacity is refused (16) where the legend is used. */
typedef struct LegendRecord {
    uint32_t kind;
    LegendSettings settings;
    LegendLinear linear;
    LegendBanded banded;
    LegendCategoric categoric;
} LegendRecord;

/* A legend that was asked for; beside a refusal the empty one: linear, from 0 to 0, every colour 0. */
typedef struct LegendMade {
    LegendAnswer answer;
    LegendRecord legend;
} LegendMade;

/* A range of values: from its start up to, but not at, its end. */
typedef struct LegendRange {
    float start;
    float end;
} LegendRange;

/* The first `count` ranges. */
typedef struct LegendRanges {
    LegendRange ranges[64];
    size_t count;
} LegendRanges;

/* ---- Builders ----
 *
 * Each is refused by 100 for a flag of its settings; then as its line says. Colours come as a list, or as a ramp by the
 * names that say so: a linear legend has the ramp itself, another kind its colours at 0, s, s + s, .. where s is
 * 1 / (count - 1), summed in float, so that the last may be beyond 1 and TRANSPARENT. The settings of the legend made are
 * those given, with a low or high colour of 0 where its flag is 0. */

/* Linear, from start to end. From a list, refused: 4, 5, 7. From a ramp: 7. */
LegendMade legend_create_linear(const uint32_t *colors, size_t colors_count, float start, float end,
                                LegendSettings settings);
LegendMade legend_create_linear_from_ramp(const uint32_t ramp[256], float start, float end, LegendSettings settings);

/* `count` bands of equal width, each from where the one before ends: summed in float, so that the last may end beside
 * the end given. Refused: 7, 8; from a list 9 too. */
LegendMade legend_create_banded(size_t count, const uint32_t *colors, size_t colors_count, float start, float end,
                                LegendSettings settings);
LegendMade legend_create_banded_from_ramp(size_t count, const uint32_t ramp[256], float start, float end,
                                          LegendSettings settings);

/* A band for each range. Refused: 8, 10; from a list 9 too, last. */
LegendMade legend_create_banded_manual_ranges(const uint32_t *colors, size_t colors_count, LegendRanges ranges,
                                              LegendSettings settings);
LegendMade legend_create_banded_manual_ranges_from_ramp(const uint32_t ramp[256], LegendRanges ranges,
                                                        LegendSettings settings);

/* These bands, in their order; they may overlap. Refused: 8. */
LegendMade legend_create_banded_as_given(const LegendBand *bands, size_t bands_count, LegendSettings settings);

/* A category for each value; of equal values the last one's colour stays. Refused: 11, 17; from a list 9 too, before 17. */
LegendMade legend_create_categoric_for_value_list(const uint32_t *colors, size_t colors_count, const int64_t *values,
                                                  size_t values_count, LegendSettings settings);
LegendMade legend_create_categoric_for_value_list_from_ramp(const uint32_t ramp[256], const int64_t *values,
                                                            size_t values_count, LegendSettings settings);

/* A category for each whole number from start to end, both included; none where the end is below the start. Refused: 12,
 * 11, 17; from a list 9 too, before 17. */
LegendMade legend_create_categoric_for_value_range(const uint32_t *colors, size_t colors_count, int64_t start,
                                                   int64_t end, LegendSettings settings);
LegendMade legend_create_categoric_for_value_range_from_ramp(const uint32_t ramp[256], int64_t start, int64_t end,
                                                             LegendSettings settings);

/* ---- Uses of a legend ----
 *
 * Each is refused by 100 for a flag of the legend, by 101 for its kind, by 100 for `nodata_given` where there is one,
 * by 16 for a stored count; then as its line says. `nodata` counts where `nodata_given` is 1.
 *
 * Each takes a pointer to the legend. For painting and the colour of a sample its ramp, its keys with their colours and
 * its table are lent to the library's own calls, the legend_view_ ones below, and are not copied; its bands are. The
 * legend_record_ ones are handed a copy of the whole. */

/* What is neither an array of a legend nor its bands. */
typedef struct LegendView {
    uint32_t kind;
    LegendSettings settings;
    float start; /* linear */
    float end;
    size_t count; /* categoric */
    size_t lookup_count;
} LegendView;

static inline LegendView legend_view(const LegendRecord *legend) {
    LegendView view;
    view.kind = legend->kind;
    view.settings = legend->settings;
    view.start = legend->linear.start;
    view.end = legend->linear.end;
    view.count = legend->categoric.count;
    view.lookup_count = legend->categoric.lookup_count;
    return view;
}

/* A legend as the legend_view_ calls take it: their first six arguments, each of which reads the pointer given. */
#define LEGEND_VIEW(legend)                                                                             \
    legend_view(legend), (legend)->banded, (legend)->linear.cmap, (legend)->categoric.keys,             \
        (legend)->categoric.colors, (legend)->categoric.lookup

/* The colour of one sample, by the rule of plain painting. */
LegendColor legend_view_color_for_f32(
    LegendView view, LegendBanded banded, const uint32_t cmap[256], const int64_t keys[256],
    const uint32_t colors[256], const uint32_t lookup[513], float value,
    uint32_t nodata_given, float nodata);
LegendColor legend_view_color_for_u8(
    LegendView view, LegendBanded banded, const uint32_t cmap[256], const int64_t keys[256],
    const uint32_t colors[256], const uint32_t lookup[513], uint8_t value,
    uint32_t nodata_given, uint8_t nodata);
LegendColor legend_view_color_for_i16(
    LegendView view, LegendBanded banded, const uint32_t cmap[256], const int64_t keys[256],
    const uint32_t colors[256], const uint32_t lookup[513], int16_t value,
    uint32_t nodata_given, int16_t nodata);

static inline LegendColor legend_color_for_f32(const LegendRecord *legend, float value, uint32_t nodata_given,
                                               float nodata) {
    return legend_view_color_for_f32(LEGEND_VIEW(legend), value, nodata_given, nodata);
}

static inline LegendColor legend_color_for_u8(const LegendRecord *legend, uint8_t value, uint32_t nodata_given,
                                              uint8_t nodata) {
    return legend_view_color_for_u8(LEGEND_VIEW(legend), value, nodata_given, nodata);
}

static inline LegendColor legend_color_for_i16(const LegendRecord *legend, int16_t value, uint32_t nodata_given,
                                               int16_t nodata) {
    return legend_view_color_for_i16(LEGEND_VIEW(legend), value, nodata_given, nodata);
}

/* Plain painting: out[i] is the colour of src[i]. Beside a refusal out is as it was. Refused: 13. out overlaps neither
 * src nor the legend. */
LegendAnswer legend_view_paint_f32(
    LegendView view, LegendBanded banded, const uint32_t cmap[256], const int64_t keys[256],
    const uint32_t colors[256], const uint32_t lookup[513], const float *src,
    size_t src_length, uint32_t nodata_given, float nodata, uint32_t *out, size_t out_length);
LegendAnswer legend_view_paint_u8(
    LegendView view, LegendBanded banded, const uint32_t cmap[256], const int64_t keys[256],
    const uint32_t colors[256], const uint32_t lookup[513], const uint8_t *src,
    size_t src_length, uint32_t nodata_given, uint8_t nodata, uint32_t *out, size_t out_length);
LegendAnswer legend_view_paint_i16(
    LegendView view, LegendBanded banded, const uint32_t cmap[256], const int64_t keys[256],
    const uint32_t colors[256], const uint32_t lookup[513], const int16_t *src,
    size_t src_length, uint32_t nodata_given, int16_t nodata, uint32_t *out, size_t out_length);

static inline LegendAnswer legend_paint_f32(const LegendRecord *legend, const float *src, size_t src_length,
                                            uint32_t nodata_given, float nodata, uint32_t *out, size_t out_length) {
    return legend_view_paint_f32(LEGEND_VIEW(legend), src, src_length, nodata_given, nodata, out, out_length);
}

static inline LegendAnswer legend_paint_u8(const LegendRecord *legend, const uint8_t *src, size_t src_length,
                                           uint32_t nodata_given, uint8_t nodata, uint32_t *out, size_t out_length) {
    return legend_view_paint_u8(LEGEND_VIEW(legend), src, src_length, nodata_given, nodata, out, out_length);
}

static inline LegendAnswer legend_paint_i16(const LegendRecord *legend, const int16_t *src, size_t src_length,
                                            uint32_t nodata_given, int16_t nodata, uint32_t *out, size_t out_length) {
    return legend_view_paint_i16(LEGEND_VIEW(legend), src, src_length, nodata_given, nodata, out, out_length);
}

/* Painting in 4, 8 or 16 lanes: whole chunks by the rule of lanes, what is left of the raster plainly. A categoric legend
 * without a table is painted plainly. Scratch has 16 words or more. After a painting its first `lanes` words hold the
 * colours of the last whole chunk; the others are as they were, and so are all where there was no whole chunk, or where a
 * categoric legend has no table. Beside a refusal out and scratch are as they were. Refused: 14, 15, 13. out and scratch
 * overlap neither each other, nor src, nor the legend. */
LegendAnswer legend_view_paint_lanes_f32(
    LegendView view, LegendBanded banded, const uint32_t cmap[256], const int64_t keys[256],
    const uint32_t colors[256], const uint32_t lookup[513], size_t lanes,
    const float *src, size_t src_length, uint32_t nodata_given, float nodata, uint32_t *out, size_t out_length,
    uint32_t *scratch, size_t scratch_length);
LegendAnswer legend_view_paint_lanes_u8(
    LegendView view, LegendBanded banded, const uint32_t cmap[256], const int64_t keys[256],
    const uint32_t colors[256], const uint32_t lookup[513], size_t lanes,
    const uint8_t *src, size_t src_length, uint32_t nodata_given, uint8_t nodata, uint32_t *out, size_t out_length,
    uint32_t *scratch, size_t scratch_length);
LegendAnswer legend_view_paint_lanes_i16(
    LegendView view, LegendBanded banded, const uint32_t cmap[256], const int64_t keys[256],
    const uint32_t colors[256], const uint32_t lookup[513], size_t lanes,
    const int16_t *src, size_t src_length, uint32_t nodata_given, int16_t nodata, uint32_t *out, size_t out_length,
    uint32_t *scratch, size_t scratch_length);

static inline LegendAnswer legend_paint_lanes_f32(const LegendRecord *legend, size_t lanes, const float *src,
                                                   size_t src_length, uint32_t nodata_given, float nodata,
                                                   uint32_t *out, size_t out_length, uint32_t *scratch,
                                                   size_t scratch_length) {
    return legend_view_paint_lanes_f32(LEGEND_VIEW(legend), lanes, src, src_length, nodata_given, nodata, out,
                                         out_length, scratch, scratch_length);
}

static inline LegendAnswer legend_paint_lanes_u8(const LegendRecord *legend, size_t lanes, const uint8_t *src,
                                                   size_t src_length, uint32_t nodata_given, uint8_t nodata,
                                                   uint32_t *out, size_t out_length, uint32_t *scratch,
                                                   size_t scratch_length) {
    return legend_view_paint_lanes_u8(LEGEND_VIEW(legend), lanes, src, src_length, nodata_given, nodata, out,
                                         out_length, scratch, scratch_length);
}

static inline LegendAnswer legend_paint_lanes_i16(const LegendRecord *legend, size_t lanes, const int16_t *src,
                                                   size_t src_length, uint32_t nodata_given, int16_t nodata,
                                                   uint32_t *out, size_t out_length, uint32_t *scratch,
                                                   size_t scratch_length) {
    return legend_view_paint_lanes_i16(LEGEND_VIEW(legend), lanes, src, src_length, nodata_given, nodata, out,
                                         out_length, scratch, scratch_length);
}

/* The whole range of a legend's values, 0 and 0 beside a refusal, and where there are none. */
typedef struct LegendValueRange {
    LegendAnswer answer;
    float start;
    float end;
} LegendValueRange;

/* Refused: 17 for a stored key. */
LegendValueRange legend_record_total_value_range(LegendRecord legend);

static inline LegendValueRange legend_total_value_range(const LegendRecord *legend) {
    return legend_record_total_value_range(*legend);
}

/* A legend's 256 colours from its lowest to its highest value, as painted plainly, all 0 beside a refusal. */
typedef struct LegendColorList {
    LegendAnswer answer;
    uint32_t colors[256];
} LegendColorList;

/* Refused: 17 for a stored key. */
LegendColorList legend_record_color_list(LegendRecord legend);

static inline LegendColorList legend_color_list(const LegendRecord *legend) {
    return legend_record_color_list(*legend);
}

/* ---- Cards ----
 *
 * A legend as one file, under a title of 0 to 255 bytes; docs/CARD.md has the layout. The bytes of a title are not looked
 * at. Reading a card gives back the entries that were counted, the table, the settings and the title, in the record that a
 * builder makes of them; a NaN is given back as a NaN. Accepted are the cards that the writer writes, and no other bytes. */

/* A buffer of this length has room for every card. */
enum {
    LEGEND_CARD_CAPACITY = 3349
};

/* The card's length, 0 beside a refusal. */
typedef struct LegendWrittenCard {
    LegendAnswer answer;
    size_t length;
} LegendWrittenCard;

/* The card of a legend, in the first bytes of a buffer; its other bytes, and all beside a refusal, are as they were. The
 * buffer overlaps neither the title nor the legend. Refused: 100 for a flag of the legend, 101 for its kind; 16 for a
 * stored count, and for keys that do not ascend or pass the limit of 17 or a table that is not what the keys give; 7; 20
 * for a title above 255 bytes, and for a buffer that is too short. */
LegendWrittenCard legend_record_write_card(LegendRecord legend, const uint8_t *title, size_t title_length,
                                           uint8_t *buffer, size_t buffer_length);

static inline LegendWrittenCard legend_write_card(const LegendRecord *legend, const uint8_t *title, size_t title_length,
                                                  uint8_t *buffer, size_t buffer_length) {
    return legend_record_write_card(*legend, title, title_length, buffer, buffer_length);
}

/* The legend on a card. Refused: 18 where the mark, the version or the kind is wrong or cut off; 19 where the rest breaks
 * the layout; 7. */
LegendMade legend_read_card(const uint8_t *card, size_t card_length);

/* Where the title is among a card's bytes: 0 and 0 where the title is empty or the card is refused. */
typedef struct LegendTitlePart {
    size_t offset;
    size_t length;
} LegendTitlePart;

LegendTitlePart legend_card_title_part(const uint8_t *card, size_t card_length);

/* The title, as a part of the card's own bytes; its length goes to where `title_length` points. */
static inline const uint8_t *legend_card_title(const uint8_t *card, size_t card_length, size_t *title_length) {
    const LegendTitlePart part = legend_card_title_part(card, card_length);
    *title_length = part.length;
    return part.length == 0 ? card : card + part.offset;
}

#ifdef __cplusplus
}
#endif

#endif
