/* How much stack each call uses: each is called from a thread whose stack was painted first, and the bytes from there
 * down to where the paint begins are printed. They have in them what the C compiler puts on the stack for the call: a
 * struct that is passed by value, and a struct that is the result. What a thread that calls nothing uses is the least
 * that can be seen.
 *
 *     cc -O2 -pthread -I include c/stack.c target/staticlib/liblegend_c.a -o stack && ./stack
 *
 * The test rust/legend/tests/stack.rs runs it and compares the largest with what the header says. */
#define _XOPEN_SOURCE 700 /* pthread_attr_setstack */
#include <pthread.h>
#include <stdio.h>
#include <stdlib.h>
#include <string.h>

#include "legend.h"

enum {
    STACK = 1 << 20,
    PAINT = 0x5a,
    LENGTH = 1029, /* four blocks of u8 or i16 samples, and a rest that is no chunk */
    KNOWN = 40000
};

/* What the calls are given, and what they give: not on the stack. */
static uint32_t colors[256];
static uint32_t ramp[256];
static int64_t values[256];
static LegendBand bands[64];
static LegendRanges ranges;
static LegendSettings settings;
static LegendMade made, linear, banded, table, keys;
static const LegendMade *used;
static LegendRamp ramp_made;
static LegendPalette palette;
static LegendColorList list;
static LegendValueRange range;
static LegendColor color;
static LegendKey key;
static LegendAnswer answer;
static volatile uint32_t word;
static float floats[LENGTH];
static uint8_t bytes[LENGTH];
static int16_t shorts[LENGTH];
static uint32_t out[LENGTH], scratch[16];
static uint8_t card[LEGEND_CARD_CAPACITY];
static const uint8_t *title;
static size_t title_length;
static LegendWrittenCard written;
static LegendTitlePart part;

static void nothing(void) {
}

/* A frame of a known size, to see that it is measured. */
static void known(void) {
    volatile char frame[KNOWN];
    frame[0] = 1;
    frame[KNOWN - 1] = frame[0];
}

static void hex(void) { color = legend_hex((const uint8_t *)"#01020304", 9); }
static void palette_of(void) { palette = legend_palette(3); }
static void ramp_of_list(void) { ramp_made = legend_ramp_from_list(colors, 256); }
static void ramp_of_palette(void) { ramp_made = legend_ramp_from_palette(3); }
static void get_color(void) { word = legend_get_color(ramp, 0.3f); }
static void get_color_simd(void) { word = legend_get_color_simd(ramp, 0.3f); }
static void to_i64(void) { key = legend_to_i64(-5.9f); }
static void create_linear(void) { made = legend_create_linear(colors, 256, 0.0f, 1.0f, settings); }
static void create_linear_from_ramp(void) { made = legend_create_linear_from_ramp(ramp, 0.0f, 1.0f, settings); }
static void create_banded(void) { made = legend_create_banded(64, colors, 64, 0.0f, 1.0f, settings); }
static void create_banded_from_ramp(void) { made = legend_create_banded_from_ramp(64, ramp, 0.0f, 1.0f, settings); }
static void manual_ranges(void) { made = legend_create_banded_manual_ranges(colors, 64, ranges, settings); }
static void manual_ranges_from_ramp(void) { made = legend_create_banded_manual_ranges_from_ramp(ramp, ranges, settings); }
static void as_given(void) { made = legend_create_banded_as_given(bands, 64, settings); }
static void for_values(void) { made = legend_create_categoric_for_value_list(colors, 256, values, 256, settings); }
static void for_values_from_ramp(void) {
    made = legend_create_categoric_for_value_list_from_ramp(ramp, values, 256, settings);
}
static void for_range(void) { made = legend_create_categoric_for_value_range(colors, 256, -128, 127, settings); }
static void for_range_from_ramp(void) {
    made = legend_create_categoric_for_value_range_from_ramp(ramp, 257, 512, settings);
}
static void color_for_f32(void) { color = legend_color_for_f32(&used->legend, 0.5f, 1, 3.0f); }
static void color_for_u8(void) { color = legend_color_for_u8(&used->legend, 5, 1, 3); }
static void color_for_i16(void) { color = legend_color_for_i16(&used->legend, 5, 1, 3); }
static void paint_f32(void) { answer = legend_paint_f32(&used->legend, floats, LENGTH, 1, 3.0f, out, LENGTH); }
static void paint_u8(void) { answer = legend_paint_u8(&used->legend, bytes, LENGTH, 1, 3, out, LENGTH); }
static void paint_i16(void) { answer = legend_paint_i16(&used->legend, shorts, LENGTH, 1, 3, out, LENGTH); }
static size_t lanes;
static void paint_lanes_f32(void) {
    answer = legend_paint_lanes_f32(&used->legend, lanes, floats, LENGTH, 1, 3.0f, out, LENGTH, scratch, 16);
}
static void paint_lanes_u8(void) {
    answer = legend_paint_lanes_u8(&used->legend, lanes, bytes, LENGTH, 1, 3, out, LENGTH, scratch, 16);
}
static void paint_lanes_i16(void) {
    answer = legend_paint_lanes_i16(&used->legend, lanes, shorts, LENGTH, 1, 3, out, LENGTH, scratch, 16);
}
static void total_value_range(void) { range = legend_total_value_range(&used->legend); }
static void color_list(void) { list = legend_color_list(&used->legend); }
static void write_card(void) {
    written = legend_write_card(&used->legend, bytes, 255, card, LEGEND_CARD_CAPACITY);
}
static void read_card(void) { made = legend_read_card(card, written.length); }
static void card_title(void) { title = legend_card_title(card, written.length, &title_length); }
static void card_title_part(void) { part = legend_card_title_part(card, written.length); }

/* Where a thread's function stood on its stack. */
static const unsigned char *above;

static void *in_thread(void *work) {
    const unsigned char here = 0;
    above = &here;
    (*(void (**)(void))work)();
    return NULL;
}

/* How deep the stack was used below that. */
static size_t depth(void (*work)(void)) {
    unsigned char *stack = aligned_alloc(4096, STACK);
    pthread_attr_t attributes;
    pthread_t thread;
    size_t untouched = 0;
    if (stack == NULL) {
        exit(2);
    }
    memset(stack, PAINT, STACK);
    if (pthread_attr_init(&attributes) != 0 || pthread_attr_setstack(&attributes, stack, STACK) != 0 ||
        pthread_create(&thread, &attributes, in_thread, &work) != 0 || pthread_join(thread, NULL) != 0) {
        exit(2);
    }
    pthread_attr_destroy(&attributes);
    while (untouched < STACK && stack[untouched] == PAINT) {
        untouched++;
    }
    const size_t used_by = (size_t)(above - (stack + untouched));
    free(stack);
    return used_by;
}

static size_t most;
static const char *deepest;

static void measure(const char *name, void (*work)(void)) {
    /* Once before, so that what the linker and the C library do at a first call is done. */
    depth(work);
    const size_t used_by = depth(work);
    printf("%6zu %s\n", used_by, name);
    if (used_by > most && work != known) {
        most = used_by;
        deepest = name;
    }
}

#define MEASURE(work) measure(#work, work)

static void fill(void) {
    for (int i = 0; i < 256; i++) {
        colors[i] = ramp[i] = 0xff000000u + (uint32_t)i;
        values[i] = 512 - 3 * i; /* some below 0: no table */
    }
    for (int i = 0; i < 64; i++) {
        bands[i].start = ranges.ranges[i].start = (float)i;
        bands[i].end = ranges.ranges[i].end = (float)(i + 1);
        bands[i].color = colors[i];
    }
    ranges.count = 64;
    for (int i = 0; i < LENGTH; i++) {
        floats[i] = (float)(i % 70) / 2.0f;
        bytes[i] = (uint8_t)i;
        shorts[i] = (int16_t)(i - 200);
    }
    linear = legend_create_linear_from_ramp(ramp, 0.0f, 100.0f, settings);
    banded = legend_create_banded_as_given(bands, 64, settings);
    table = legend_create_categoric_for_value_range(colors, 256, 257, 512, settings);
    keys = legend_create_categoric_for_value_list(colors, 256, values, 256, settings);
    if (linear.answer.number != LEGEND_DONE || banded.answer.number != LEGEND_DONE ||
        table.answer.number != LEGEND_DONE || keys.answer.number != LEGEND_DONE ||
        table.legend.categoric.lookup_count != 513 || keys.legend.categoric.lookup_count != 0) {
        exit(2);
    }
}

int main(void) {
    const LegendMade *const all[4] = {&linear, &banded, &table, &keys};
    const char *const names[4] = {"linear", "banded", "categoric with a table", "categoric without"};
    fill();
    MEASURE(nothing);
    MEASURE(known);
    MEASURE(hex);
    MEASURE(palette_of);
    MEASURE(ramp_of_list);
    MEASURE(ramp_of_palette);
    MEASURE(get_color);
    MEASURE(get_color_simd);
    MEASURE(to_i64);
    MEASURE(create_linear);
    MEASURE(create_linear_from_ramp);
    MEASURE(create_banded);
    MEASURE(create_banded_from_ramp);
    MEASURE(manual_ranges);
    MEASURE(manual_ranges_from_ramp);
    MEASURE(as_given);
    MEASURE(for_values);
    MEASURE(for_values_from_ramp);
    MEASURE(for_range);
    MEASURE(for_range_from_ramp);
    for (int i = 0; i < 4; i++) {
        used = all[i];
        printf("a legend that is %s:\n", names[i]);
        MEASURE(color_for_f32);
        MEASURE(color_for_u8);
        MEASURE(color_for_i16);
        MEASURE(paint_f32);
        MEASURE(paint_u8);
        MEASURE(paint_i16);
        for (lanes = 4; lanes <= 16; lanes *= 2) {
            MEASURE(paint_lanes_f32);
            MEASURE(paint_lanes_u8);
            MEASURE(paint_lanes_i16);
        }
        MEASURE(total_value_range);
        MEASURE(color_list);
        MEASURE(write_card);
        MEASURE(read_card);
        MEASURE(card_title);
        MEASURE(card_title_part);
    }
    printf("most: %zu %s\n", most, deepest);
    return 0;
}
