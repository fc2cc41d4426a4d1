/* A first use from C: colours, a ramp, legends of the three kinds, and refusals. The crate's example `first` prints the
 * same lines. */
#include <inttypes.h>
#include <stdio.h>
#include <string.h>

#include "legend.h"

static LegendColor hex(const char *text) {
    return legend_hex((const uint8_t *)text, strlen(text));
}

static void print_words(const uint32_t *words, size_t count) {
    for (size_t i = 0; i < count; i++) {
        printf("%08" PRIx32 "\n", words[i]);
    }
}

int main(void) {
    /* Two colours from text, spread over a ramp. */
    const uint32_t ends[2] = {hex("#0000FF").color, hex("#FF000080").color};
    const LegendRamp ramp = legend_ramp_from_list(ends, 2);
    for (int i = 0; i <= 4; i++) {
        const float fraction = (float)i / 4.0f;
        printf("%08" PRIx32 "\n", legend_get_color(ramp.colors, fraction));
    }

    /* The two rules of the look-up differ at one fraction, 65,793 / 2^25. */
    const float close = 65793.0f / 33554432.0f;
    printf("%08" PRIx32 " %08" PRIx32 "\n", legend_get_color(ramp.colors, close), legend_get_color_simd(ramp.colors, close));

    /* A palette's colours. */
    const LegendPalette accent = legend_palette(27);
    print_words(accent.colors, accent.count);

    /* A linear legend, from 0 to 30 over the palette YL_GN_BU, paints a raster in which -999 is nodata. Nodata, and what is
     * below and above the range, have colours of their own. */
    const LegendSettings settings = {
        .nodata_color = hex("#00000080").color,
        .low_color = hex("#FFFFFF").color,
        .high_color = hex("#FF0000").color,
        .has_low = 1,
        .has_high = 1,
    };
    const LegendRamp blues = legend_ramp_from_palette(24);
    const LegendMade linear = legend_create_linear_from_ramp(blues.colors, 0.0f, 30.0f, settings);
    const float raster[8] = {-999.0f, -5.0f, 0.0f, 7.5f, 15.0f, 22.5f, 30.0f, 31.0f};
    uint32_t out[8];
    if (legend_paint_f32(&linear.legend, raster, 8, 1, -999.0f, out, 8).number == LEGEND_DONE) {
        print_words(out, 8);
    }

    /* Bands, painted four samples at once; the fifth is painted plainly. */
    const LegendMade banded = legend_create_banded_from_ramp(4, blues.colors, 0.0f, 200.0f, settings);
    const uint8_t bytes[5] = {0, 49, 50, 201, 100};
    uint32_t scratch[16] = {0};
    if (legend_paint_lanes_u8(&banded.legend, 4, bytes, 5, 0, 0, out, 5, scratch, 16).number == LEGEND_DONE) {
        print_words(out, 5);
    }

    /* Categories, the range of their keys, and the last of the colours from its lowest to its highest. */
    const int64_t keys[2] = {7, -3};
    const LegendMade categories = legend_create_categoric_for_value_list(ends, 2, keys, 2, settings);
    printf("%08" PRIx32 "\n", legend_color_for_i16(&categories.legend, -3, 0, 0).color);
    const LegendValueRange range = legend_total_value_range(&categories.legend);
    printf("from %.1f to %.1f\n", range.start, range.end);
    const LegendColorList list = legend_color_list(&categories.legend);
    printf("%08" PRIx32 "\n", list.colors[255]);

    /* A refusal has a number, and some an index. Where a painting is refused, its buffers are as they were. */
    printf("refused %" PRIu32 "\n", legend_paint_f32(&linear.legend, raster, 8, 0, 0.0f, out, 7).number);
    const LegendAnswer refused = hex("#00FG00").answer;
    printf("refused %" PRIu32 " at %zu\n", refused.number, refused.index);
    printf("refused %" PRIu32 "\n", legend_ramp_from_palette(32).answer.number);

    /* A sample as a key. */
    printf("key %" PRId64 "\n", legend_to_i64(-5.9f).key);
    return 0;
}
