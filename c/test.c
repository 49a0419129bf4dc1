/*
 * The C interface, called from C: the layout of the header's structs, the rules of docs/RULES.md and its ten worked values, draws on a small frame and their pixels by
 * themselves, each by both engines, every number that a call is turned away with, and then the recorded answers of the Rust original (recorded.c). What is expected is
 * worked out from these rules and the Rust, never taken from the library. Valid as C11 and as C++11; run.sh builds and runs it as both.
 */
#include "check.h"
#include "writeback.h"

#include <assert.h>
#include <math.h>
#include <stdio.h>
#include <string.h>

/* ---- the layout: the fields in the order of the Rattle structs, each at its natural alignment */

static_assert(sizeof(wb_rgba) == 16, "four floats");
static_assert(offsetof(wb_rgba, a) == 12, "alpha is last");

static_assert(sizeof(wb_mode) == 28, "25 bytes and the padding of a uint32_t");
static_assert(offsetof(wb_mode, blender_mux) == 4, "behind cycle_type");
static_assert(offsetof(wb_mode, rgb_dither) == 6, "behind blender_mux");
static_assert(offsetof(wb_mode, cvg_dst) == 8, "the third byte");
static_assert(offsetof(wb_mode, alpha_compare) == 12, "the last number");
static_assert(offsetof(wb_mode, key_enabled) == 13, "the first flag");
static_assert(offsetof(wb_mode, antialias) == 15, "the third flag");
static_assert(offsetof(wb_mode, force_blend) == 18, "the sixth flag");
static_assert(offsetof(wb_mode, cvg_x_alpha) == 24, "the last flag");

static_assert(sizeof(wb_uniform) == 240, "sixty words");
static_assert(offsetof(wb_uniform, tex_enable) == 12, "the fourth word");
static_assert(offsetof(wb_uniform, prim) == 32, "behind eight words");
static_assert(offsetof(wb_uniform, fog_color) == 80, "the fourth colour");
static_assert(offsetof(wb_uniform, lod_params) == 128, "behind two sizes");
static_assert(offsetof(wb_uniform, frame) == 160, "behind four sets of floats");
static_assert(offsetof(wb_uniform, fill_siz) == 188, "the last single word");
static_assert(offsetof(wb_uniform, raster) == 224, "the last four words");

static_assert(sizeof(wb_combiner) == 76, "eight bytes and seventeen floats");
static_assert(offsetof(wb_combiner, prim) == 8, "behind the selectors");
static_assert(offsetof(wb_combiner, lod) == 72, "last");

static_assert(sizeof(wb_answer) == 8 && offsetof(wb_answer, value) == 4, "two words");
static_assert(sizeof(wb_selectors) == 24 && offsetof(wb_selectors, cyc1) == 16, "two words and sixteen bytes");
static_assert(sizeof(wb_color_answer) == 20 && offsetof(wb_color_answer, rgba) == 4, "a flag and a colour");
static_assert(sizeof(wb_strict_answer) == 4 && offsetof(wb_strict_answer, word) == 2, "a flag, padding and a word");
static_assert(sizeof(wb_combiner_answer) == 80 && offsetof(wb_combiner_answer, combiner) == 4, "a flag and a combiner");
static_assert(sizeof(wb_geometry) == 20 && offsetof(wb_geometry, bottom) == 16, "a kind and four sides");
static_assert(sizeof(wb_fragment) == 24 && offsetof(wb_fragment, shade_alpha) == 20, "a mask, a colour and an alpha");
static_assert(sizeof(wb_scissor) == 16 && offsetof(wb_scissor, height) == 12, "four words");
static_assert(sizeof(wb_drawn) == 16 && offsetof(wb_drawn, pixels) == 8, "a number, padding and a count");
static_assert(sizeof(wb_emitted) == 12 && offsetof(wb_emitted, mask) == 8, "three words");
static_assert(sizeof(wb_emitted_run) == 24 && offsetof(wb_emitted_run, listed) == 8 && offsetof(wb_emitted_run, emitted) == 16, "a number, padding and two counts");

static_assert(sizeof(wb_run) == 16 && offsetof(wb_run, words) == 8, "a number, padding and a count");

/* ---- counting */

unsigned long checks, failures;

void check_at(const char *file, int line, const char *what, uint64_t got, uint64_t expected) {
    checks++;
    if (got != expected) {
        failures++;
        fprintf(stderr, "c: %s:%d: %s: 0x%llx in place of 0x%llx\n", file, line, what, (unsigned long long)got, (unsigned long long)expected);
    }
}

/* ---- values */

static wb_rgba rgba(float r, float g, float b, float a) {
    wb_rgba c;
    c.r = r;
    c.g = g;
    c.b = b;
    c.a = a;
    return c;
}

static wb_rgba grey(float v) { return rgba(v, v, v, 1.0f); }

/* A mode that blends nothing: every number 0, every flag off. */
static wb_mode plain_mode(void) {
    wb_mode m;
    memset(&m, 0, sizeof m);
    return m;
}

/* (0 - 0) * 0 + d for the colour, and the same for alpha. */
static wb_combiner only(uint8_t color_d, uint8_t alpha_d) {
    wb_combiner k;
    memset(&k, 0, sizeof k);
    memset(k.selectors, WB_COLOR_ZERO, 8); /* WB_ALPHA_ZERO is the same number */
    k.selectors[3] = color_d;
    k.selectors[7] = alpha_d;
    return k;
}

/* The second cycle's words of the same, by their bits (docs/RULES.md, The combiner), with indices that name Zero in a, b and c. */
static wb_uniform only_words(uint32_t color_d, uint32_t alpha_d) {
    wb_uniform u;
    memset(&u, 0, sizeof u);
    u.combine_l = 8u << 5 | 16u;
    u.combine_h = 8u << 24 | color_d << 6 | 7u << 21 | 7u << 3 | 7u << 18 | alpha_d;
    return u;
}

/* Indices of the slots d. */
enum { INDEX_PRIMITIVE = 3, INDEX_SHADE = 4, INDEX_ONE = 6 };

static wb_geometry rectangle(float left, float top, float right, float bottom) {
    wb_geometry g;
    g.kind = WB_RECTANGLE;
    g.left = left;
    g.top = top;
    g.right = right;
    g.bottom = bottom;
    return g;
}

static wb_geometry of_kind(uint32_t kind) {
    wb_geometry g = rectangle(0, 0, 0, 0);
    g.kind = kind;
    return g;
}

/* The blender's inputs, two bits each: P at 14, A at 10, M at 6, B at 2. */
static uint16_t mux(unsigned p, unsigned a, unsigned m, unsigned b) { return (uint16_t)(p << 14 | a << 10 | m << 6 | b << 2); }

/* ---- selectors */

static void selectors(void) {
    CHECK(wb_color_a(7), WB_COLOR_NOISE);
    CHECK(wb_color_a(16 + 6), WB_COLOR_ONE);
    CHECK(wb_color_b(7), WB_COLOR_K4);
    CHECK(wb_color_b(15), WB_COLOR_ZERO);
    CHECK(wb_color_c(15), WB_COLOR_K5);
    CHECK(wb_color_c(16), WB_COLOR_ZERO);
    CHECK(wb_color_d(6), WB_COLOR_ONE);
    CHECK(wb_color_d(8 + 3), WB_COLOR_PRIMITIVE);
    CHECK(wb_alpha_abd(0), WB_ALPHA_COMBINED);
    CHECK(wb_alpha_abd(6), WB_ALPHA_ONE);
    CHECK(wb_alpha_c(0), WB_ALPHA_LOD_FRACTION);
    CHECK(wb_alpha_c(6), WB_ALPHA_PRIM_LOD_FRAC);

    /* ca l 5/4, cb h 24/4, cc l 0/5, cd h 6/3, aa h 21/3, ab h 3/3, ac h 18/3, ad h 0/3 */
    uint32_t l = 3u << 5 | 10u;
    uint32_t h = 5u << 24 | 4u << 6 | 3u << 21 | 5u << 3 | 6u << 18 | 4u;
    wb_selectors s = wb_decode_combine(l, h);
    CHECK(s.raw_l, l);
    CHECK(s.raw_h, h);
    const uint8_t named[8] = {WB_COLOR_PRIMITIVE, WB_COLOR_ENVIRONMENT, WB_COLOR_PRIMITIVE_ALPHA, WB_COLOR_SHADE,
                              WB_ALPHA_PRIMITIVE, WB_ALPHA_ENVIRONMENT, WB_ALPHA_PRIM_LOD_FRAC,   WB_ALPHA_SHADE};
    for (int i = 0; i < 8; i++) {
        CHECK(s.cyc1[i], named[i]);
    }
    /* the bits of the first cycle are 0: Combined, but LodFraction in alpha's c */
    for (int i = 0; i < 8; i++) {
        CHECK(s.cyc0[i], i == 6 ? WB_ALPHA_LOD_FRACTION : 0);
    }
}

/* ---- floats to whole numbers */

static void numbers(void) {
    CHECK(wb_clamp(-1.0f) == 0.0f, true);
    CHECK(wb_clamp(0.25f) == 0.25f, true);
    CHECK(wb_clamp(2.0f) == 1.0f, true);
    CHECK(isnan(wb_clamp(NAN)) != 0, true);
    CHECK(wb_byte_of(0.5f), 128);
    CHECK(wb_byte_of(1.0f), 255);
    CHECK(wb_byte_of(NAN), 0);
    CHECK(wb_quarter(-0.125f) == -1, true);
    CHECK(wb_quarter(0.125f) == 1, true);
    CHECK(wb_quarter(-1024.0f) == -4096, true);
    CHECK(wb_floor_index(1.75f), 1);
    CHECK(wb_floor_index(-1.0f), 0);
    CHECK(wb_ceil_index(1.25f), 2);
    CHECK(wb_ceil_index(INFINITY), 131072);
    CHECK(wb_is_finite(1.0f), true);
    CHECK(wb_is_finite(-INFINITY), false);
    CHECK(wb_is_finite(NAN), false);
    CHECK(wb_le_total(-0.0f, 0.0f), true);
    CHECK(wb_le_total(0.0f, -0.0f), false);
    CHECK(wb_le_total(1.0f, 2.0f), true);
}

/* ---- the combiner */

#define CHECK_STRICT(call, expected_some, expected_word) \
    do { \
        wb_strict_answer answer_ = (call); \
        CHECK(answer_.some, expected_some); \
        CHECK(answer_.word, expected_word); \
    } while (0)

static void combiner(void) {
    /* Primitive by itself, and the uniform's constants */
    wb_uniform u = only_words(INDEX_PRIMITIVE, INDEX_ONE);
    u.prim = rgba(0.5f, 1.0f, 0.0f, 0.25f);
    u.env = grey(0.125f);
    u.blend_color = grey(0.375f);
    u.fog_color = grey(0.625f);
    u.lod_params[2] = 0.75f;
    wb_combiner_answer made = wb_combiner_new(u, plain_mode());
    wb_combiner expected = only(WB_COLOR_PRIMITIVE, WB_ALPHA_ONE);
    expected.prim = u.prim;
    expected.env = u.env;
    expected.blend = u.blend_color;
    expected.fog = u.fog_color;
    expected.lod = 0.75f;
    CHECK(made.some, true);
    CHECK(memcmp(&made.combiner, &expected, sizeof expected), 0);

    wb_color_answer color = wb_combiner_color(expected, grey(1.0f));
    CHECK(color.some, true);
    CHECK(color.rgba.r == 0.5f && color.rgba.g == 1.0f && color.rgba.b == 0.0f && color.rgba.a == 1.0f, true);

    /* (Primitive - Environment) * PrimLodFrac + Shade, and alpha from LodFraction, which is 1.0 */
    wb_combiner k = expected;
    const uint8_t four[8] = {WB_COLOR_PRIMITIVE, WB_COLOR_ENVIRONMENT, WB_COLOR_PRIM_LOD_FRAC, WB_COLOR_SHADE,
                             WB_ALPHA_PRIMITIVE, WB_ALPHA_COMBINED,    WB_ALPHA_LOD_FRACTION,  WB_ALPHA_SHADE};
    memcpy(k.selectors, four, sizeof four);
    color = wb_combiner_color(k, rgba(0.25f, 0.5f, 0.0f, 0.5f));
    CHECK(color.rgba.r == 0.375f * 0.75f + 0.25f, true);
    CHECK(color.rgba.g == 1.0f, true); /* clamped */
    CHECK(color.rgba.b == 0.0f, true); /* clamped */
    CHECK(color.rgba.a == 0.75f, true);

    /* a texture, and inputs that need one or are never known */
    CHECK(wb_combiner_color(only(WB_COLOR_TEXEL0, WB_ALPHA_ONE), grey(1.0f)).some, false);
    CHECK(wb_combiner_color(only(WB_COLOR_NOISE, WB_ALPHA_ONE), grey(1.0f)).some, false);
    CHECK(wb_combiner_color(only(WB_COLOR_ONE, WB_ALPHA_TEXEL1), grey(1.0f)).some, false);
    u.tex_enable = 1;
    made = wb_combiner_new(u, plain_mode());
    CHECK(made.some, false);
    u.tex_enable = 0;
    wb_mode m = plain_mode();
    m.z_write = true;
    CHECK(wb_combiner_new(u, m).some, false);
    m = plain_mode();
    m.z_test = true;
    CHECK(wb_combiner_new(u, m).some, false);
    m = plain_mode();
    m.blend_class = WB_BLEND_COLOR;
    CHECK(wb_combiner_new(u, m).some, false);
    m.blend_class = WB_ALPHA_OVER;
    CHECK(wb_combiner_new(u, m).some, true);

    /* white, one channel, and a constant that is neither empty nor full */
    CHECK_STRICT(wb_strict_color(only(WB_COLOR_ONE, WB_ALPHA_ONE)), true, 0xfffe);
    k = only(WB_COLOR_PRIMITIVE, WB_ALPHA_ONE);
    k.prim = rgba(0.0f, 1.0f, 0.0f, 1.0f);
    CHECK_STRICT(wb_strict_color(k), true, 0x07c0);
    k.prim.r = 0.5f;
    CHECK_STRICT(wb_strict_color(k), false, 0);
}

/* ---- the blender */

static void blender(void) {
    /* rows 4 and 5 of the table: five samples, memory 4 */
    const uint8_t five = 0x6d, all = 0xff;
    wb_mode forced = plain_mode(), smooth = plain_mode();
    forced.force_blend = true;
    smooth.antialias = true;
    CHECK_ANSWER(wb_destination(forced, five, 4), 0, 7);
    CHECK_ANSWER(wb_destination(smooth, five, 4), 0, 4);
    forced.cvg_dst = smooth.cvg_dst = 1;
    CHECK_ANSWER(wb_destination(forced, five, 4), 0, 1);
    CHECK_ANSWER(wb_destination(smooth, five, 4), 0, 1);
    forced.cvg_dst = 2;
    CHECK_ANSWER(wb_destination(forced, five, 4), 0, 7);
    forced.cvg_dst = 3;
    CHECK_ANSWER(wb_destination(forced, five, 4), 0, 4);

    /* the pixel by its alpha, over memory by the rest */
    forced = plain_mode();
    forced.force_blend = true;
    forced.blender_mux = mux(0, 0, 1, 0);
    CHECK_ANSWER(wb_color_known(forced, 0.5f, all, true, 7, false), 0, 0);
    CHECK_ANSWER(wb_color_known(forced, 0.5f, all, true, 7, true), 0, 1);
    CHECK_ANSWER(wb_color_known(forced, 1.0f, all, true, 7, false), 0, 1); /* an opaque one hides memory */
    CHECK_ANSWER(wb_color_known(plain_mode(), 0.5f, all, false, 0, false), 0, 1);

    /* row 10: unblended 0.5 becomes byte 128 */
    wb_combiner k = only(WB_COLOR_ONE, WB_ALPHA_ONE);
    CHECK_ANSWER(wb_blend(plain_mode(), k, grey(0.5f), grey(0.0f), 1.0f, all, 7), 0, 0xff808080);
    /* red by a quarter of alpha over green: 0.25 and 0.75 */
    CHECK_ANSWER(wb_blend(forced, k, rgba(1.0f, 0.0f, 0.0f, 0.25f), rgba(0.0f, 1.0f, 0.0f, 1.0f), 1.0f, all, 7), 0, 0x4000bf40);
    /* blend colour by shade alpha, and memory by coverage / 8: 0.5 * 0.5 + 1.0 * 0.5 */
    forced.blender_mux = mux(2, 2, 1, 1);
    k.blend = grey(0.5f);
    CHECK_ANSWER(wb_blend(forced, k, grey(0.0f), grey(1.0f), 0.5f, all, 4), 0, 0xffbfbfbf);
    /* fog by fog alpha, and blend colour by 0 */
    forced.blender_mux = mux(3, 1, 2, 3);
    k.fog = rgba(1.0f, 0.0f, 1.0f, 0.5f);
    CHECK_ANSWER(wb_blend(forced, k, grey(0.0f), grey(1.0f), 0.5f, all, 4), 0, 0xff800080);
}

/* ---- words */

static void packing(void) {
    /* row 6: channel 5 packs to 1 at threshold 4 and to 0 at 5; 250 packs to 31 at 0 */
    CHECK_ANSWER(wb_pack_color(5, 0, 4), 0, 1 << 11);
    CHECK_ANSWER(wb_pack_color(5, 0, 5), 0, 0);
    CHECK_ANSWER(wb_pack_color(250, 0, 0), 0, 31 << 11);
    /* five bits of red, green and blue from the top, then the top bit of the coverage */
    CHECK_ANSWER(wb_pack_color(0x0000ff00, 0, 7), 0, 0x07c0);
    CHECK_ANSWER(wb_pack_color(0x00ff0000, 0, 7), 0, 0x003e);
    CHECK_ANSWER(wb_pack_color(0, 4, 7), 0, 1);
    CHECK_ANSWER(wb_pack_color(0, 3, 7), 0, 0);

    /* row 7 */
    CHECK(wb_pack_depth(0.5f), 0x2000);
    CHECK(wb_pack_depth(1.0f), 0xfffc);
    CHECK(wb_pack_depth(INFINITY), 0xfffc);
    CHECK(wb_pack_depth(-1.0f), 0);
    CHECK(wb_pack_depth(NAN), 0);

    /* supported if depth is set, or fmt 0 with siz 2, or fmt 2 to 4 with siz 1 */
    for (uint8_t fmt = 0; fmt < 6; fmt++) {
        for (uint8_t siz = 0; siz < 4; siz++) {
            bool color = (fmt == 0 && siz == 2) || (fmt >= 2 && fmt <= 4 && siz == 1);
            CHECK_ANSWER(wb_supported(fmt, siz, 320, false), 0, color);
            CHECK_ANSWER(wb_supported(fmt, siz, 320, true), 0, 1);
        }
    }
    CHECK_ANSWER(wb_pixel_bytes(0, 0, 320, false), 0, 1);
    CHECK_ANSWER(wb_pixel_bytes(2, 1, 320, false), 0, 1);
    CHECK_ANSWER(wb_pixel_bytes(0, 2, 320, false), 0, 2);
    CHECK_ANSWER(wb_pixel_bytes(0, 3, 320, false), 0, 4);

    /* red 128 and green 255 at threshold 7 with coverage 7: 10000 11111 00000 1 */
    CHECK_ANSWER(wb_encode(0, 2, 320, false, 0x0000ff80, 7, 0, false, 0, 3, true), 0, 0xc187);
    CHECK_ANSWER(wb_encode(0, 2, 320, false, 0x0000ff80, 7, 0, false, 0, 3, false), 0, 0x87c1);
    /* one byte: red at even places of a row, green at odd ones */
    CHECK_ANSWER(wb_encode(2, 1, 320, false, 0x0000ff80, 7, 320, false, 0, 3, true), 0, 0x80);
    CHECK_ANSWER(wb_encode(2, 1, 320, false, 0x0000ff80, 7, 321, false, 0, 3, true), 0, 0xff);
    /* a literal: the half that the pixel names; a depth writer of siz 3 takes a byte of it */
    CHECK_ANSWER(wb_encode(0, 2, 320, false, 0, 0, 0, true, 0x11223344, 0, true), 0, 0x2211);
    CHECK_ANSWER(wb_encode(0, 2, 320, false, 0, 0, 1, true, 0x11223344, 0, true), 0, 0x4433);
    CHECK_ANSWER(wb_encode(0, 3, 320, true, 0, 0, 2, true, 0x11223344, 0, true), 0, 0x33);
    /* a depth of 0.5, whose bits are 3f000000 */
    CHECK_ANSWER(wb_encode(0, 2, 320, true, 0x3f000000, 0, 0, false, 0, 0, true), 0, 0x0020);
    /* an unsupported writer encodes as two zero bytes */
    CHECK_ANSWER(wb_encode(1, 2, 320, false, 0xffffffff, 7, 0, false, 0, 3, true), 0, 0);
}

/* ---- number 11: refused with zeros */

static void refused_calls(void) {
    wb_mode m = plain_mode();
    wb_combiner k = only(WB_COLOR_ONE, WB_ALPHA_ONE);
    wb_rgba white = grey(1.0f);
    CHECK_ANSWER(wb_destination(m, 0, 4), WB_REFUSED, 0);
    CHECK_ANSWER(wb_destination(m, 0xff, 8), WB_REFUSED, 0);
    CHECK_ANSWER(wb_destination(m, 0xff, 7), 0, 7);
    CHECK_ANSWER(wb_color_known(m, 1.0f, 0, true, 0, true), WB_REFUSED, 0);
    CHECK_ANSWER(wb_color_known(m, 1.0f, 0xff, true, 8, true), WB_REFUSED, 0);
    CHECK_ANSWER(wb_color_known(m, 1.0f, 0xff, false, 8, true), 0, 1); /* an unknown coverage is not looked at */
    CHECK_ANSWER(wb_blend(m, k, white, white, 1.0f, 0, 0), WB_REFUSED, 0);
    CHECK_ANSWER(wb_blend(m, k, white, white, 1.0f, 0xff, 8), WB_REFUSED, 0);
    for (int mask = 1; mask < 256; mask++) { /* every other mask is taken */
        CHECK(wb_destination(m, (uint8_t)mask, 7).number, 0);
        CHECK(wb_color_known(m, 1.0f, (uint8_t)mask, true, 7, true).number, 0);
        CHECK(wb_blend(m, k, white, white, 1.0f, (uint8_t)mask, 7).number, 0);
    }
    CHECK_ANSWER(wb_pack_color(0xffffffff, 8, 0), WB_REFUSED, 0);
    CHECK_ANSWER(wb_supported(0, 4, 320, true), WB_REFUSED, 0);
    CHECK_ANSWER(wb_supported(0, 2, 0, false), WB_REFUSED, 0); /* a width counts, though the answer does not turn on it */
    CHECK_ANSWER(wb_supported(0, 2, 1, false), 0, 1);
    CHECK_ANSWER(wb_supported(0, 2, 1024, false), 0, 1);
    CHECK_ANSWER(wb_supported(0, 2, 1025, true), WB_REFUSED, 0);
    CHECK_ANSWER(wb_pixel_bytes(0, 4, 320, false), WB_REFUSED, 0);
    CHECK_ANSWER(wb_pixel_bytes(0, 2, 0, false), WB_REFUSED, 0);
    CHECK_ANSWER(wb_pixel_bytes(0, 2, 1024, false), 0, 2);
    CHECK_ANSWER(wb_pixel_bytes(0, 2, 1025, false), WB_REFUSED, 0);
    CHECK_ANSWER(wb_encode(0, 2, 0, false, 0, 0, 0, false, 0, 0, true), WB_REFUSED, 0);
    CHECK_ANSWER(wb_encode(0, 2, 1025, false, 0, 0, 0, false, 0, 0, true), WB_REFUSED, 0);
    CHECK_ANSWER(wb_encode(0, 4, 320, false, 0, 0, 0, false, 0, 0, true), WB_REFUSED, 0);
    CHECK_ANSWER(wb_encode(0, 2, 320, false, 0, 8, 0, false, 0, 0, true), WB_REFUSED, 0);
    CHECK_ANSWER(wb_encode(0, 2, 320, false, 0xffffffff, 0, 1048576, false, 0, 3, true), WB_REFUSED, 0);
    CHECK_ANSWER(wb_encode(0, 2, 320, false, 0xffffffff, 0, 1048575, false, 0, 3, true), 0, 0xfeff);
}

/* ---- what a draw covers */

/* A vertex at (x, y). */
static void set_vertex(float *to, float x, float y, wb_rgba color) {
    to[0] = x;
    to[1] = y;
    to[2] = color.r;
    to[3] = color.g;
    to[4] = color.b;
    to[5] = color.a;
}

static void raster(void) {
    const float first = -1024.0f, last = 1023.75f, top = -2048.0f, bottom = 2047.75f;
    CHECK(wb_in_range(first, top), true);
    CHECK(wb_in_range(last, bottom), true); /* row 1 */
    CHECK(wb_in_range(1024.0f, 0.0f), false);
    CHECK(wb_in_range(nextafterf(first, -INFINITY), 0.0f), false);
    CHECK(wb_in_range(0.0f, 2048.0f), false);
    CHECK(wb_in_range(0.0f, nextafterf(top, -INFINITY)), false);
    CHECK(wb_in_range(NAN, 0.0f), false);
    CHECK(wb_in_range(0.0f, NAN), false);

    wb_combiner white = only(WB_COLOR_ONE, WB_ALPHA_ONE), shaded = only(WB_COLOR_SHADE, WB_ALPHA_SHADE);
    wb_geometry triangles = of_kind(WB_TRIANGLES);
    float v[18];
    const uint8_t present[3] = {1, 1, 1}, missing[3] = {1, 0, 1};
    const uint32_t indices[3] = {0, 1, 2};
    /* the thin triangle of row 9 */
    set_vertex(v, 0.0f, 0.0f, grey(1.0f));
    set_vertex(v + 6, 0.125f, 0.25f, rgba(1.0f, 1.0f, 1.0f, 0.5f));
    set_vertex(v + 12, 1.0f, 2.0f, grey(1.0f));
    CHECK(wb_admitted(white, triangles, v, 18, present, 3, indices, 3), true);
    CHECK(wb_admitted(shaded, triangles, v, 18, present, 3, indices, 3), false); /* vertex alphas differ */
    CHECK(wb_admitted(white, triangles, v, 18, missing, 3, indices, 3), false);
    CHECK(wb_admitted(white, triangles, v, 18, present, 3, indices, 0), true); /* no triangle */
    CHECK(wb_admitted(white, rectangle(NAN, NAN, NAN, NAN), v, 0, present, 0, indices, 0), true);
    CHECK(wb_admitted(white, of_kind(WB_NO_GEOMETRY), v, 18, present, 3, indices, 3), false);
    CHECK(wb_admitted(white, of_kind(3), v, 18, present, 3, indices, 3), false);

    /* rows 9 and 8, and a NaN side, which covers no sample */
    wb_mode smooth = plain_mode();
    smooth.antialias = true;
    CHECK(wb_pixel(smooth, white, false, triangles, v, 18, present, 3, indices, 3, 0, 1, 0).mask, 0x40);
    CHECK(wb_pixel(smooth, white, false, triangles, v, 18, present, 3, indices, 3, 1, 1, 0).mask, 0); /* no second triangle */
    CHECK(wb_pixel(plain_mode(), white, false, triangles, v, 18, present, 3, indices, 3, 0, 1, 0).mask, 0);
    wb_geometry sides = rectangle(0.25f, 0.0f, 1.0f, 1.0f);
    wb_fragment got = wb_pixel(smooth, white, false, sides, v, 0, present, 0, indices, 0, 0, 0, 0);
    CHECK(got.mask, 0x77);
    CHECK(got.rgba.r == 1.0f && got.rgba.g == 1.0f && got.rgba.b == 1.0f && got.rgba.a == 1.0f && got.shade_alpha == 1.0f, true);
    got = wb_pixel(plain_mode(), white, false, sides, v, 0, present, 0, indices, 0, 0, 0, 0);
    CHECK(got.mask, 0);
    CHECK(got.rgba.r == 0.0f && got.rgba.a == 0.0f && got.shade_alpha == 0.0f, true);
    sides.left = NAN;
    CHECK(wb_pixel(smooth, white, false, sides, v, 0, present, 0, indices, 0, 0, 0, 0).mask, 0);
    /* y comes before x: the second row of the rectangle, not the second column */
    sides = rectangle(0.0f, 1.0f, 1.0f, 2.0f);
    CHECK(wb_pixel(smooth, white, false, sides, v, 0, present, 0, indices, 0, 0, 1, 0).mask, 0xff);
    CHECK(wb_pixel(smooth, white, false, sides, v, 0, present, 0, indices, 0, 0, 0, 1).mask, 0);
}

/* ---- the frame */

enum { SIDE = 4, PIXELS = SIDE * SIDE };

/* A frame and a draw over it. */
typedef struct {
    uint32_t width, height;
    uint8_t colors[3 * PIXELS], coverages[PIXELS], marks[PIXELS];
    size_t colors_len, coverages_len, marks_len;
    wb_mode mode;
    wb_uniform uniform;
    bool cull;
    wb_scissor scissor;
    wb_geometry geometry;
    float vertices[18];
    uint8_t present[3];
    uint32_t indices[3];
    size_t vertices_len, present_len, indices_len;
} scene;

/* Four by four pixels of which nothing is known, with bytes that a known pixel would not have; a white rectangle of the four upper left ones. */
static scene plain_scene(void) {
    scene s;
    memset(&s, 0, sizeof s);
    s.width = s.height = SIDE;
    memset(s.colors, 9, sizeof s.colors);
    memset(s.coverages, 200, sizeof s.coverages);
    s.colors_len = sizeof s.colors;
    s.coverages_len = sizeof s.coverages;
    s.marks_len = sizeof s.marks;
    s.uniform = only_words(INDEX_PRIMITIVE, INDEX_ONE);
    s.uniform.prim = grey(1.0f);
    s.scissor.width = s.scissor.height = SIDE;
    s.geometry = rectangle(0.0f, 0.0f, 2.0f, 2.0f);
    /* for draws of triangles: red grows from left to right by a quarter a pixel */
    set_vertex(s.vertices, 0.0f, 0.0f, rgba(0.0f, 0.0f, 0.0f, 1.0f));
    set_vertex(s.vertices + 6, 4.0f, 0.0f, rgba(1.0f, 0.0f, 0.0f, 1.0f));
    set_vertex(s.vertices + 12, 0.0f, 4.0f, rgba(0.0f, 0.0f, 0.0f, 1.0f));
    s.vertices_len = 18;
    s.present_len = s.indices_len = 3;
    for (uint32_t i = 0; i < 3; i++) {
        s.present[i] = 1;
        s.indices[i] = i;
    }
    return s;
}

static wb_drawn draw_by(uint8_t engine, scene *s) {
    return wb_draw(engine, s->width, s->height, s->colors, s->colors_len, s->coverages, s->coverages_len, s->marks, s->marks_len, s->mode, s->uniform, s->cull,
                   s->scissor, s->geometry, s->vertices, s->vertices_len, s->present, s->present_len, s->indices, s->indices_len);
}

/* By the slow engine on a copy, and by the fast one on the scene: the same answer, and the same in every byte. */
static wb_drawn draw(scene *s, int line) {
    scene slow = *s;
    wb_drawn by_slow = draw_by(WB_ENGINE_SLOW, &slow), by_fast = draw_by(WB_ENGINE_FAST, s);
    check_at(__FILE__, line, "the slow engine's number", by_slow.number, by_fast.number);
    check_at(__FILE__, line, "the slow engine's pixels", by_slow.pixels, by_fast.pixels);
    check_at(__FILE__, line, "whether the slow engine writes other bytes", memcmp(&slow, s, sizeof slow) != 0, false);
    return by_fast;
}

static wb_answer read_word(const scene *s, size_t pixel, uint8_t fmt, uint8_t siz, bool big_endian) {
    return wb_read_word(s->width, s->height, s->colors, s->colors_len, s->coverages, s->coverages_len, s->marks, s->marks_len, pixel, fmt, siz, 3, big_endian);
}

static wb_emitted emitted_by(uint8_t engine, const scene *s, uint64_t k) {
    return wb_emitted_pixel(engine, s->width, s->height, s->colors, s->colors_len, s->coverages, s->coverages_len, s->marks, s->marks_len, s->mode, s->uniform,
                            s->cull, s->scissor, s->geometry, s->vertices, s->vertices_len, s->present, s->present_len, s->indices, s->indices_len, k);
}

static bool same_emitted(wb_emitted a, wb_emitted b) { return a.number == b.number && a.pixel == b.pixel && a.mask == b.mask; }

/* By both engines: the same answer. */
static wb_emitted emitted_pixel(const scene *s, int line, uint64_t k) {
    wb_emitted by_slow = emitted_by(WB_ENGINE_SLOW, s, k), by_fast = emitted_by(WB_ENGINE_FAST, s, k);
    check_at(__FILE__, line, "whether the slow engine answers the same", same_emitted(by_slow, by_fast), true);
    return by_fast;
}

/* Slots for pixels and masks with guards around them, all 77 before they are lent. */
enum { SLOTS = 12, GUARD = 4 };

typedef struct {
    uint32_t pixels[SLOTS + 2 * GUARD];
    uint8_t masks[SLOTS + 2 * GUARD];
} slots;

static slots filled_slots(void) {
    slots t;
    memset(&t, 77, sizeof t);
    return t;
}

static wb_emitted_run run_by(uint8_t engine, const scene *s, uint64_t first, slots *t, size_t pixels_len, size_t masks_len) {
    return wb_emitted_pixels(engine, s->width, s->height, s->colors, s->colors_len, s->coverages, s->coverages_len, s->marks, s->marks_len, s->mode, s->uniform,
                             s->cull, s->scissor, s->geometry, s->vertices, s->vertices_len, s->present, s->present_len, s->indices, s->indices_len, first,
                             t->pixels + GUARD, pixels_len, t->masks + GUARD, masks_len);
}

static bool same_run(wb_emitted_run a, wb_emitted_run b) { return a.number == b.number && a.listed == b.listed && a.emitted == b.emitted; }

/* By both engines: the same answer, and the same in every slot and guard. */
static wb_emitted_run emitted_run(const scene *s, int line, uint64_t first, slots *t, size_t pixels_len, size_t masks_len) {
    slots slow = *t;
    wb_emitted_run by_slow = run_by(WB_ENGINE_SLOW, s, first, &slow, pixels_len, masks_len);
    wb_emitted_run by_fast = run_by(WB_ENGINE_FAST, s, first, t, pixels_len, masks_len);
    check_at(__FILE__, line, "whether the slow engine answers the same", same_run(by_slow, by_fast), true);
    check_at(__FILE__, line, "whether the slow engine writes other slots", memcmp(&slow, t, sizeof slow) != 0, false);
    return by_fast;
}

/* A pixel and its mask at a place, or zeros. */
static void check_emitted(const scene *s, int line, uint64_t k, uint32_t pixel, uint32_t mask) {
    wb_emitted got = emitted_pixel(s, line, k);
    check_at(__FILE__, line, "number of an emitted pixel", got.number, 0);
    check_at(__FILE__, line, "an emitted pixel", got.pixel, pixel);
    check_at(__FILE__, line, "its mask", got.mask, mask);
}

#define CHECK_EMITTED(s, k, pixel, mask) check_emitted(s, __LINE__, k, pixel, mask)

/* A run that is accepted: its slots are the single calls' answers, no byte around them is written, and the scene is as it was. */
static void check_run(const scene *s, int line, uint64_t first, size_t length, uint64_t emitted) {
    scene before = *s;
    slots t = filled_slots(), untouched = filled_slots();
    wb_emitted_run got = emitted_run(s, line, first, &t, length, length);
    check_at(__FILE__, line, "number of a run", got.number, 0);
    check_at(__FILE__, line, "pixels in all", got.emitted, emitted);
    uint64_t left = first < emitted ? emitted - first : 0;
    check_at(__FILE__, line, "pixels of a run", got.listed, left < length ? left : length);
    for (size_t i = 0; i < length; i++) {
        bool there = i < left;
        wb_emitted alone = emitted_pixel(s, line, there ? first + i : UINT64_MAX);
        check_at(__FILE__, line, "a slot's pixel", t.pixels[GUARD + i], alone.pixel);
        check_at(__FILE__, line, "a slot's mask", t.masks[GUARD + i], alone.mask);
        check_at(__FILE__, line, "whether a slot has a pixel", alone.mask != 0, there);
        t.pixels[GUARD + i] = untouched.pixels[GUARD + i];
        t.masks[GUARD + i] = untouched.masks[GUARD + i];
    }
    check_at(__FILE__, line, "whether a byte beside the slots changed", memcmp(&t, &untouched, sizeof t) != 0, false);
    check_at(__FILE__, line, "whether a byte of the scene changed", memcmp(&before, s, sizeof before) != 0, false);
}

#define CHECK_RUN(s, first, length, emitted) check_run(s, __LINE__, first, length, emitted)

/* A run that is turned away: it writes nothing. */
static void check_refused_run(const scene *s, int line, uint64_t first, size_t pixels_len, size_t masks_len, uint32_t number) {
    scene before = *s;
    slots t = filled_slots(), untouched = filled_slots();
    wb_emitted_run got = emitted_run(s, line, first, &t, pixels_len, masks_len);
    check_at(__FILE__, line, "number of a run", got.number, number);
    check_at(__FILE__, line, "counts of a run that is turned away", got.listed | got.emitted, 0);
    check_at(__FILE__, line, "whether a slot changed", memcmp(&t, &untouched, sizeof t) != 0, false);
    check_at(__FILE__, line, "whether a byte of the scene changed", memcmp(&before, s, sizeof before) != 0, false);
}

/* A draw that is turned away, asked for its pixels: the same number from any place on, also where the slices do not match. */
static void check_refused_pixels(const scene *s, int line, uint32_t number) {
    static const uint64_t places[3] = {0, 1, UINT64_MAX};
    for (int i = 0; i < 3; i++) {
        wb_emitted got = emitted_pixel(s, line, places[i]);
        check_at(__FILE__, line, "number of an emitted pixel", got.number, number);
        check_at(__FILE__, line, "pixel and mask that are turned away", got.pixel | got.mask, 0);
        check_refused_run(s, line, places[i], SLOTS, SLOTS, number);
        check_refused_run(s, line, places[i], 0, 1, number);
    }
}

/* A draw that is accepted, asked for its pixels: as many as it emits, and none behind them. */
static void check_accepted_pixels(const scene *s, int line, uint64_t pixels) {
    check_run(s, line, 0, SLOTS, pixels);
    check_run(s, line, pixels, 1, pixels);
    check_at(__FILE__, line, "the mask behind the last pixel", emitted_pixel(s, line, pixels).mask, 0);
    check_at(__FILE__, line, "whether the last pixel has a mask", pixels == 0 || emitted_pixel(s, line, pixels - 1).mask != 0, true);
}

/* A draw that is accepted. */
#define CHECK_DRAWN(s, expected_pixels) \
    do { \
        check_accepted_pixels(s, __LINE__, expected_pixels); \
        wb_drawn drawn_ = draw(s, __LINE__); \
        check_at(__FILE__, __LINE__, "number of the draw", drawn_.number, 0); \
        check_at(__FILE__, __LINE__, "pixels of the draw", drawn_.pixels, expected_pixels); \
    } while (0)

/* A draw that is turned away: it changes no byte. */
#define CHECK_REFUSED(s, expected_number) \
    do { \
        check_refused_pixels(s, __LINE__, expected_number); \
        scene before_ = *(s); \
        wb_drawn drawn_ = draw(s, __LINE__); \
        check_at(__FILE__, __LINE__, "number of the draw", drawn_.number, expected_number); \
        check_at(__FILE__, __LINE__, "pixels of the draw", drawn_.pixels, 0); \
        check_at(__FILE__, __LINE__, "whether a byte changed", memcmp(&before_, (s), sizeof before_) != 0, false); \
    } while (0)

/* One pixel's bytes. */
#define CHECK_PIXEL(s, pixel, red, green, blue, coverage, mark) \
    do { \
        CHECK((s).colors[3 * (pixel)], red); \
        CHECK((s).colors[3 * (pixel) + 1], green); \
        CHECK((s).colors[3 * (pixel) + 2], blue); \
        CHECK((s).coverages[pixel], coverage); \
        CHECK((s).marks[pixel], mark); \
    } while (0)

/* A rectangle: its four pixels are known with a full coverage, the others are as they were; then their words. */
static void draw_rectangle(void) {
    scene s = plain_scene();
    s.uniform.prim = rgba(0.5f, 1.0f, 0.0f, 1.0f);
    CHECK_DRAWN(&s, 4);
    for (int i = 0; i < PIXELS; i++) {
        if (i % SIDE < 2 && i / SIDE < 2) {
            CHECK_PIXEL(s, i, 128, 255, 0, 7, 3);
        } else {
            CHECK_PIXEL(s, i, 9, 9, 9, 200, 0);
        }
    }
    CHECK_ANSWER(read_word(&s, 5, 0, 2, true), 0, 0xc187);
    CHECK_ANSWER(read_word(&s, 5, 0, 2, false), 0, 0x87c1);
    CHECK_ANSWER(read_word(&s, 4, 2, 1, true), 0, 128);
    CHECK_ANSWER(read_word(&s, 5, 2, 1, true), 0, 255);

    /* the scissor cuts it to its right column, and an empty one to nothing */
    s = plain_scene();
    s.scissor.left = 1;
    CHECK_DRAWN(&s, 2);
    CHECK_PIXEL(s, 0, 9, 9, 9, 200, 0);
    CHECK_PIXEL(s, 5, 255, 255, 255, 7, 3);
    s = plain_scene();
    s.scissor.height = 0;
    CHECK_DRAWN(&s, 0);
}

/* A shaded triangle of ten pixels, with red by the pixel's upper left corner: 0, 63.75, 127.5 and 191.25, rounded. The long side cuts four pixels from corner to
 * corner: of their eight samples those at eighths 0 and 4, 2, and 0 of the first three rows lie before it, which is a coverage of 3. */
static void draw_triangle(void) {
    static const uint8_t red[SIDE] = {0, 64, 128, 191};
    scene s = plain_scene();
    s.uniform = only_words(INDEX_SHADE, INDEX_ONE);
    s.geometry = of_kind(WB_TRIANGLES);
    CHECK_DRAWN(&s, 10);
    for (int i = 0; i < PIXELS; i++) {
        int x = i % SIDE, y = i / SIDE;
        if (x + y < SIDE) {
            CHECK_PIXEL(s, i, red[x], 0, 0, x + y == SIDE - 1 ? 3 : 7, 3);
        } else {
            CHECK_PIXEL(s, i, 9, 9, 9, 200, 0);
        }
    }
    /* cull skips a triangle of this turn, and draws one of the other */
    s.cull = true;
    CHECK_DRAWN(&s, 0);
    s.indices[1] = 2;
    s.indices[2] = 1;
    CHECK_DRAWN(&s, 10);
    /* no triangle, and the lists empty */
    s.vertices_len = s.present_len = s.indices_len = 0;
    CHECK_DRAWN(&s, 0);
}

/* Black by half over white, in columns 1 and 2: known ground becomes grey; of unknown ground the colour stays unknown, and the coverage is full and known, since all
 * eight samples are hit and the blend is forced. */
static void draw_blended(void) {
    scene s = plain_scene();
    s.geometry = rectangle(0.0f, 0.0f, 2.0f, 4.0f);
    CHECK_DRAWN(&s, 8);
    s.uniform = only_words(INDEX_PRIMITIVE, INDEX_PRIMITIVE);
    s.uniform.prim = rgba(0.0f, 0.0f, 0.0f, 0.5f);
    s.mode.force_blend = true;
    s.mode.blender_mux = mux(0, 0, 1, 0);
    s.geometry = rectangle(1.0f, 0.0f, 3.0f, 4.0f);
    CHECK_DRAWN(&s, 8);
    /* with cvg_dst 3 neither is known, with cvg_dst 2 the coverage is */
    s.mode.cvg_dst = 3;
    s.geometry = rectangle(3.0f, 0.0f, 4.0f, 2.0f);
    CHECK_DRAWN(&s, 2);
    s.mode.cvg_dst = 2;
    s.geometry = rectangle(3.0f, 2.0f, 4.0f, 4.0f);
    CHECK_DRAWN(&s, 2);
    for (int y = 0; y < SIDE; y++) {
        CHECK_PIXEL(s, y * SIDE, 255, 255, 255, 7, 3);
        CHECK_PIXEL(s, y * SIDE + 1, 128, 128, 128, 7, 3);
        CHECK_PIXEL(s, y * SIDE + 2, 9, 9, 9, 7, 2);
        CHECK_PIXEL(s, y * SIDE + 3, 9, 9, 9, y < 2 ? 200 : 7, y < 2 ? 0 : 2);
    }
    /* over known ground by an unknown colour: the mark goes, the bytes stay */
    s.marks[2] = 1;
    s.coverages[2] = 200;
    s.mode.blender_mux = mux(1, 0, 1, 0);
    s.geometry = rectangle(2.0f, 0.0f, 3.0f, 1.0f);
    CHECK_DRAWN(&s, 1);
    CHECK_PIXEL(s, 2, 9, 9, 9, 7, 3);
    s.marks[2] = 0;
    CHECK_DRAWN(&s, 1);
    CHECK_PIXEL(s, 2, 9, 9, 9, 7, 2);
}

/* A coverage that is not known and stays so. */
enum { UNKNOWN = 8 };

/* F5 by its list of cases: what a pixel of so many samples makes of a coverage that is not known. */
static uint8_t fresh(wb_mode m, int count) {
    if (m.cvg_dst == 2) {
        return 7;
    }
    if (m.cvg_dst != 0) {
        return UNKNOWN;
    }
    if (!m.force_blend && !m.antialias) {
        return (uint8_t)(count - 1);
    }
    return count == 8 || (count == 7 && m.force_blend) ? 7 : UNKNOWN;
}

/* F5 by its eight questions. */
static uint8_t one_number(wb_mode m, uint8_t mask) {
    uint32_t number = wb_destination(m, mask, 0).value;
    for (uint8_t memory = 1; memory < 8; memory++) {
        if (wb_destination(m, mask, memory).value != number) {
            return UNKNOWN;
        }
    }
    return (uint8_t)number;
}

static wb_mode mode_of(int cvg_dst, int flags) {
    wb_mode m = plain_mode();
    m.cvg_dst = (uint8_t)cvg_dst;
    m.force_blend = (flags & 1) != 0;
    m.antialias = (flags & 2) != 0;
    return m;
}

/* Of one pixel so many samples, the first among them, so that it is emitted without antialias too. No rectangle has seven. A triangle's sides along the axes are as
 * long as this; the third leaves out the samples whose x and y come to that or more. */
static const struct {
    int count;
    uint8_t mask;
    bool triangle;
    float right, bottom;
} shapes[11] = {
    {1, 0x80, false, 0.5f, 0.25f},  {2, 0xc0, false, 1.0f, 0.25f},  {3, 0xe0, false, 0.75f, 0.5f}, {4, 0xf0, false, 1.0f, 0.5f},
    {5, 0xec, false, 0.75f, 0.75f}, {6, 0xfc, false, 1.0f, 0.75f},  {8, 0xff, false, 1.0f, 1.0f},  {1, 0x80, true, 0.5f, 0.5f},
    {4, 0xe8, true, 1.0f, 1.0f},    {7, 0xfe, true, 1.5f, 1.5f},    {8, 0xff, true, 2.0f, 2.0f},
};

/* A pixel over a coverage that is not known, whatever byte stands there: it becomes known in the cases of F5 alone, and its byte stays in all others. Its colour is
 * known, so that its word of two bytes turns on the coverage. */
static void unknown_coverages(void) {
    static const uint8_t masks[8] = {0x01, 0x21, 0x54, 0xd8, 0x6d, 0xe7, 0xfb, 0xff}, bytes[3] = {0, 7, 200};
    static const int destinations[6] = {0, 1, 2, 3, 4, 255};
    for (int cvg_dst = 0; cvg_dst < 256; cvg_dst++) {
        for (int flags = 0; flags < 4; flags++) {
            for (int count = 1; count <= 8; count++) {
                CHECK(one_number(mode_of(cvg_dst, flags), masks[count - 1]), fresh(mode_of(cvg_dst, flags), count));
            }
        }
    }
    for (int i = 0; i < 11; i++) {
        scene s = plain_scene();
        s.scissor.width = s.scissor.height = 1;
        s.geometry = shapes[i].triangle ? of_kind(WB_TRIANGLES) : rectangle(0.0f, 0.0f, shapes[i].right, shapes[i].bottom);
        set_vertex(s.vertices, 0.0f, 0.0f, grey(1.0f));
        set_vertex(s.vertices + 6, shapes[i].right, 0.0f, grey(1.0f));
        set_vertex(s.vertices + 12, 0.0f, shapes[i].bottom, grey(1.0f));
        CHECK_EMITTED(&s, 0, 0, shapes[i].mask);
        CHECK_EMITTED(&s, 1, 0, 0);
        /* flat and shaded, the colour known before or not */
        for (int kind = 0; kind < 6 * 4 * 3 * 4; kind++) {
            int shaded = kind % 2, mark = kind / 2 % 2, byte = bytes[kind / 4 % 3], flags = kind / 12 % 4;
            scene drawn = s;
            drawn.mode = mode_of(destinations[kind / 48], flags);
            if (shaded) {
                drawn.uniform = only_words(INDEX_SHADE, INDEX_ONE);
            }
            drawn.marks[0] = (uint8_t)mark;
            drawn.coverages[0] = (uint8_t)byte;
            wb_drawn got = draw(&drawn, __LINE__);
            CHECK(got.number, 0);
            CHECK(got.pixels, 1);
            uint8_t number = fresh(drawn.mode, shapes[i].count);
            bool known = number != UNKNOWN;
            CHECK_PIXEL(drawn, 0, 255, 255, 255, known ? number : byte, known ? 3 : 1);
            CHECK_ANSWER(read_word(&drawn, 0, 0, 2, true), known ? 0 : 10, known ? (number < 4 ? 0xfeff : 0xffff) : 0);
            CHECK_ANSWER(read_word(&drawn, 0, 2, 1, true), 0, 255);
        }
    }
}

/* Solid panels over a frame of which nothing is known. */
static void draw_panels(void) {
    /* forced, the pixel's own colour by 1: its words can be read at once; of the pixels that are hit by half, at the left and at the bottom, bytes alone */
    scene s = plain_scene();
    s.mode.antialias = s.mode.force_blend = true;
    s.mode.blender_mux = mux(0, 3, 0, 2);
    s.uniform.prim = rgba(0.5f, 1.0f, 0.0f, 1.0f);
    s.geometry = rectangle(0.5f, 0.0f, 4.0f, 3.5f);
    CHECK_DRAWN(&s, 16);
    for (int i = 0; i < PIXELS; i++) {
        bool full = i % SIDE > 0 && i / SIDE < 3;
        CHECK_PIXEL(s, i, 128, 255, 0, full ? 7 : 200, full ? 3 : 1);
        CHECK_ANSWER(read_word(&s, (size_t)i, 0, 2, true), full ? 0 : 10, full ? 0xc187 : 0);
        CHECK_ANSWER(read_word(&s, (size_t)i, 2, 1, true), 0, i % 2 == 0 ? 128 : 255);
    }

    /* antialiased over memory by its coverage: whether the first is blended cannot be told, and so its colour is not known. Its coverage is, and then the second's
     * colour */
    s = plain_scene();
    s.mode.antialias = true;
    s.mode.blender_mux = mux(0, 0, 1, 1);
    s.geometry = rectangle(0.0f, 0.0f, 4.0f, 4.0f);
    CHECK_DRAWN(&s, 16);
    for (int i = 0; i < PIXELS; i++) {
        CHECK_PIXEL(s, i, 9, 9, 9, 7, 2);
        CHECK_ANSWER(read_word(&s, (size_t)i, 0, 2, true), 10, 0);
    }
    CHECK_DRAWN(&s, 16);
    for (int i = 0; i < PIXELS; i++) {
        CHECK_PIXEL(s, i, 255, 255, 255, 7, 3);
        CHECK_ANSWER(read_word(&s, (size_t)i, 0, 2, true), 0, 0xffff);
    }

    /* the widest row, whose pixels the fast engine fills many at a time: every mark, over every byte that it lets stand there, in turn */
    enum { ROW = 1024 };
    static uint8_t colors[3 * ROW], coverages[ROW], marks[ROW], covered[ROW], marked[ROW];
    s = plain_scene();
    s.geometry = rectangle(0.0f, 0.0f, ROW, 1.0f);
    s.scissor.width = ROW;
    for (int flags = 0; flags < 4; flags++) {
        for (int cvg_dst = 0; cvg_dst < 5; cvg_dst++) {
            for (uint8_t engine = WB_ENGINE_FAST; engine <= WB_ENGINE_SLOW; engine++) {
                s.mode = mode_of(cvg_dst, flags);
                bool full = fresh(s.mode, 8) == 7;
                for (int i = 0; i < ROW; i++) {
                    marks[i] = (uint8_t)(i % 4);
                    coverages[i] = (uint8_t)(marks[i] < 2 ? i / 4 : i / 4 % 8);
                    marked[i] = (uint8_t)(full ? 3 : marks[i] | 1);
                    /* all eight samples added modulo 8 leave a known one as it was */
                    covered[i] = full ? 7 : coverages[i];
                }
                wb_drawn got = wb_draw(engine, ROW, 1, colors, sizeof colors, coverages, sizeof coverages, marks, sizeof marks, s.mode, s.uniform, s.cull,
                                       s.scissor, s.geometry, s.vertices, 0, s.present, 0, s.indices, 0);
                CHECK(got.pixels, ROW);
                CHECK(memcmp(coverages, covered, sizeof covered), 0);
                CHECK(memcmp(marks, marked, sizeof marked), 0);
            }
        }
    }
}

/* Numbers 1 to 7, each from a scene that is accepted otherwise. */
static void refused_draws(void) {
    static float many[6 * 4097];
    static uint8_t flags[4097];
    static uint32_t list[12291];
    static const uint32_t sizes[3] = {0, 1025, UINT32_MAX};
    scene s;

    for (int i = 0; i < 3; i++) {
        s = plain_scene();
        s.width = sizes[i];
        CHECK_REFUSED(&s, 1);
        s = plain_scene();
        s.height = sizes[i];
        CHECK_REFUSED(&s, 1);
    }

    s = plain_scene();
    s.colors_len--;
    CHECK_REFUSED(&s, 2);
    s = plain_scene();
    s.coverages_len--;
    CHECK_REFUSED(&s, 2);
    s = plain_scene();
    s.marks_len--;
    CHECK_REFUSED(&s, 2);
    s = plain_scene();
    s.height = 3;
    CHECK_REFUSED(&s, 2);

    s = plain_scene();
    s.marks[15] = 4;
    CHECK_REFUSED(&s, 3);
    s = plain_scene();
    s.marks[15] = 2;
    CHECK_REFUSED(&s, 3);
    s.marks[15] = 1;
    CHECK_DRAWN(&s, 4); /* an unmarked coverage may be any byte */

    s = plain_scene();
    s.scissor.left = 65536;
    CHECK_REFUSED(&s, 4);
    s = plain_scene();
    s.scissor.top = 65536;
    CHECK_REFUSED(&s, 4);
    s = plain_scene();
    s.scissor.width = 65536;
    CHECK_REFUSED(&s, 4);
    s = plain_scene();
    s.scissor.height = 65536;
    CHECK_REFUSED(&s, 4);
    s.scissor.height = 65535;
    CHECK_DRAWN(&s, 4);

    s = plain_scene();
    s.vertices_len--;
    CHECK_REFUSED(&s, 5);
    s = plain_scene();
    s.present_len--;
    CHECK_REFUSED(&s, 5);
    s = plain_scene();
    s.present[2] = 2;
    CHECK_REFUSED(&s, 5);
    s = plain_scene();
    s.indices_len--;
    CHECK_REFUSED(&s, 5);
    for (uint8_t engine = WB_ENGINE_FAST; engine <= WB_ENGINE_SLOW; engine++) {
        s = plain_scene();
        wb_drawn got = wb_draw(engine, s.width, s.height, s.colors, s.colors_len, s.coverages, s.coverages_len, s.marks, s.marks_len, s.mode, s.uniform, s.cull,
                               s.scissor, s.geometry, many, 6 * 4097, flags, 4097, list, 0);
        CHECK(got.number, 5);
        got = wb_draw(engine, s.width, s.height, s.colors, s.colors_len, s.coverages, s.coverages_len, s.marks, s.marks_len, s.mode, s.uniform, s.cull, s.scissor,
                      s.geometry, many, 6 * 4096, flags, 4096, list, 12291);
        CHECK(got.number, 5);
        got = wb_draw(engine, s.width, s.height, s.colors, s.colors_len, s.coverages, s.coverages_len, s.marks, s.marks_len, s.mode, s.uniform, s.cull, s.scissor,
                      s.geometry, many, 6 * 4096, flags, 4096, list, 12288);
        CHECK(got.number, 0);
    }

    s = plain_scene();
    s.uniform.tex_enable = 1;
    CHECK_REFUSED(&s, 6);
    s = plain_scene();
    s.mode.alpha_compare = WB_COMPARE_THRESHOLD;
    CHECK_REFUSED(&s, 6);

    s = plain_scene();
    s.geometry = of_kind(WB_NO_GEOMETRY);
    CHECK_REFUSED(&s, 7);
    s = plain_scene();
    s.geometry = of_kind(WB_TRIANGLES);
    s.present[1] = 0;
    CHECK_REFUSED(&s, 7);
    s = plain_scene();
    s.geometry = of_kind(WB_TRIANGLES);
    s.vertices[6] = 1024.0f;
    CHECK_REFUSED(&s, 7);
    s = plain_scene();
    s.geometry = of_kind(WB_TRIANGLES);
    s.indices[2] = 3;
    CHECK_REFUSED(&s, 7);

    /* several at once: the first in the order of the numbers is answered */
    s = plain_scene();
    s.geometry = of_kind(WB_NO_GEOMETRY);
    s.uniform.tex_enable = 1;
    CHECK_REFUSED(&s, 6);
    s.scissor.left = 65536;
    s.indices_len = 1;
    CHECK_REFUSED(&s, 4);
    s.marks[0] = 255;
    CHECK_REFUSED(&s, 3);
    s.width = 0;
    CHECK_REFUSED(&s, 1);
}

/* The pixels of draws by themselves: the two worked values with masks, the order of pixels and of a mask's bits, and places at the ends. */
static void emitted_pixels(void) {
    scene s = plain_scene();
    s.geometry = rectangle(0.25f, 0.0f, 1.0f, 1.0f);
    CHECK_EMITTED(&s, 0, 0, 0);
    s.mode.antialias = true;
    CHECK_EMITTED(&s, 0, 0, 0x77);
    CHECK_EMITTED(&s, 1, 0, 0);
    CHECK_EMITTED(&s, UINT64_MAX, 0, 0);
    CHECK_RUN(&s, 0, 1, 1);
    CHECK_RUN(&s, 0, 0, 1);

    s.geometry = of_kind(WB_TRIANGLES);
    set_vertex(s.vertices + 6, 0.125f, 0.25f, grey(1.0f));
    set_vertex(s.vertices + 12, 1.0f, 2.0f, grey(1.0f));
    CHECK_EMITTED(&s, 0, SIDE, 0x40);
    CHECK_EMITTED(&s, 1, 0, 0);
    s.mode.antialias = false;
    CHECK_EMITTED(&s, 0, 0, 0);
    CHECK_RUN(&s, 0, SLOTS, 0);

    /* an eighth of a pixel around each sample of pixel 6, from bit 7 down: rows 1 and 3 stand two eighths further right */
    s = plain_scene();
    s.mode.antialias = true;
    for (int bit = 7; bit >= 0; bit--) {
        int row = (7 - bit) / 2, right = (7 - bit) % 2;
        float left = 2.0f + (float)(4 * right + 2 * (row % 2)) / 8.0f, top = 1.0f + (float)row / 4.0f;
        s.geometry = rectangle(left, top, left + 0.125f, top + 0.125f);
        CHECK_EMITTED(&s, 0, 6, 1u << bit);
        CHECK_EMITTED(&s, 1, 0, 0);
    }

    /* row by row from left to right: three quarters of columns 0 to 3, from row 1 on, with half of row 2 */
    s.geometry = rectangle(0.25f, 1.0f, 3.0f, 2.5f);
    static const uint32_t at[6] = {4, 5, 6, 8, 9, 10}, masks[6] = {0x77, 0xff, 0xff, 0x70, 0xf0, 0xf0};
    for (uint64_t k = 0; k < 6; k++) {
        CHECK_EMITTED(&s, k, at[k], masks[k]);
    }
    static const uint64_t behind[6] = {6, 7, UINT32_MAX, (uint64_t)UINT32_MAX + 1, UINT64_MAX - 1, UINT64_MAX};
    for (int i = 0; i < 6; i++) {
        CHECK_EMITTED(&s, behind[i], 0, 0);
        CHECK_RUN(&s, behind[i], 0, 6);
        CHECK_RUN(&s, behind[i], SLOTS, 6);
    }
    for (uint64_t first = 0; first < 6; first++) {
        for (size_t length = 0; length <= SLOTS; length++) {
            CHECK_RUN(&s, first, length, 6);
        }
    }

    /* triangle after triangle: the second begins anew, and its pixels count again */
    s = plain_scene();
    s.uniform = only_words(INDEX_SHADE, INDEX_ONE);
    s.geometry = of_kind(WB_TRIANGLES);
    CHECK_EMITTED(&s, 9, 12, 0xe8);
    CHECK_EMITTED(&s, 10, 0, 0);
    uint32_t twice[6] = {0, 1, 2, 2, 1, 0};
    for (uint8_t engine = WB_ENGINE_FAST; engine <= WB_ENGINE_SLOW; engine++) {
        wb_emitted got = wb_emitted_pixel(engine, s.width, s.height, s.colors, s.colors_len, s.coverages, s.coverages_len, s.marks, s.marks_len, s.mode, s.uniform,
                                          s.cull, s.scissor, s.geometry, s.vertices, s.vertices_len, s.present, s.present_len, twice, 6, 13);
        CHECK(got.number, 0);
        CHECK(got.pixel, 3);
        CHECK(got.mask, 0xe8);
    }

    /* the frame's bytes do not count, as long as numbers 1 to 3 let them through */
    memset(s.marks, 3, sizeof s.marks);
    memset(s.coverages, 7, sizeof s.coverages);
    CHECK_EMITTED(&s, 9, 12, 0xe8);

    /* number 20, which comes after the draw's own, and leaves the slots as they were */
    static const size_t lengths[4][2] = {{0, 1}, {1, 0}, {SLOTS, SLOTS - 1}, {3, 4}};
    for (int i = 0; i < 4; i++) {
        check_refused_run(&s, __LINE__, 0, lengths[i][0], lengths[i][1], 20);
        check_refused_run(&s, __LINE__, UINT64_MAX, lengths[i][0], lengths[i][1], 20);
    }
    s.present[0] = 0;
    check_refused_run(&s, __LINE__, 0, 1, 2, 7);
}

/* Every number names an engine, 0 the fast one and every other the slow one, and by each of them a call does the same. */
static void engine_numbers(void) {
    scene drawn = plain_scene();
    drawn.mode.antialias = true;
    drawn.uniform = only_words(INDEX_SHADE, INDEX_ONE);
    drawn.geometry = of_kind(WB_TRIANGLES);
    const scene s = drawn;
    slots listed = filled_slots();
    wb_drawn draw_answer = draw_by(WB_ENGINE_FAST, &drawn);
    wb_emitted pixel_answer = emitted_by(WB_ENGINE_FAST, &s, 9);
    wb_emitted_run run_answer = run_by(WB_ENGINE_FAST, &s, 0, &listed, SLOTS, SLOTS);
    CHECK(draw_answer.pixels, 10);
    CHECK(pixel_answer.mask, 0xe8);
    CHECK(run_answer.listed, 10);
    for (int engine = 1; engine < 256; engine++) {
        scene other = s;
        slots t = filled_slots();
        wb_drawn answer = draw_by((uint8_t)engine, &other);
        CHECK(answer.number == draw_answer.number && answer.pixels == draw_answer.pixels, true);
        CHECK(memcmp(&other, &drawn, sizeof other), 0);
        CHECK(same_emitted(emitted_by((uint8_t)engine, &s, 9), pixel_answer), true);
        CHECK(same_run(run_by((uint8_t)engine, &s, 0, &t, SLOTS, SLOTS), run_answer), true);
        CHECK(memcmp(&t, &listed, sizeof t), 0);
    }
}

/* So many triangles, each over all of the largest frame. */
static void large_triangles(uint8_t engine, uint32_t count) {
    enum { WIDE = 1024, AREA = WIDE * WIDE, INDICES = 12288 };
    static uint8_t colors[3 * AREA], coverages[AREA], marks[AREA];
    static uint32_t indices[INDICES];
    const uint8_t present[3] = {1, 1, 1};
    float v[18];
    uint32_t pixels[3] = {77, 77, 77};
    uint8_t masks[3] = {77, 77, 77};
    scene s = plain_scene();
    s.mode.antialias = true;
    s.scissor.width = s.scissor.height = WIDE;
    s.geometry = of_kind(WB_TRIANGLES);
    set_vertex(v, -1024.0f, 0.0f, grey(1.0f));
    set_vertex(v + 6, 1023.75f, -2048.0f, grey(1.0f));
    set_vertex(v + 12, 1023.75f, 2047.75f, grey(1.0f));
    for (uint32_t i = 0; i < INDICES; i++) {
        indices[i] = i % 3;
    }
    const uint64_t all = (uint64_t)AREA * count;
    wb_emitted got = wb_emitted_pixel(engine, WIDE, WIDE, colors, sizeof colors, coverages, sizeof coverages, marks, sizeof marks, s.mode, s.uniform, s.cull,
                                      s.scissor, s.geometry, v, 18, present, 3, indices, 3 * count, all);
    CHECK(got.number, 0);
    CHECK(got.pixel | got.mask, 0);
    wb_emitted_run run = wb_emitted_pixels(engine, WIDE, WIDE, colors, sizeof colors, coverages, sizeof coverages, marks, sizeof marks, s.mode, s.uniform, s.cull,
                                           s.scissor, s.geometry, v, 18, present, 3, indices, 3 * count, all - 2, pixels, 3, masks, 3);
    CHECK(run.number, 0);
    CHECK(run.listed, 2);
    CHECK(run.emitted, all);
    /* two samples of a row's last pixel lie on the right side, which is left out */
    CHECK(pixels[0], AREA - 2);
    CHECK(masks[0], 0xff);
    CHECK(pixels[1], AREA - 1);
    CHECK(masks[1], 0xee);
    CHECK(pixels[2] | masks[2], 0);
}

/* The most that a draw emits, 2^32: the last place has 32 bits, and the count 33. The slow engine would test 2^35 samples of it, and gets two triangles. */
static void most_pixels(void) {
    large_triangles(WB_ENGINE_FAST, 4096);
    large_triangles(WB_ENGINE_SLOW, 2);
}

/* Numbers 1 to 3 and 8 to 10. */
static void refused_reads(void) {
    scene s = plain_scene();
    CHECK_DRAWN(&s, 4);
    CHECK_ANSWER(read_word(&s, 0, 0, 2, true), 0, 0xffff);
    CHECK_ANSWER(read_word(&s, PIXELS, 0, 2, true), 8, 0);
    CHECK_ANSWER(read_word(&s, SIZE_MAX, 0, 2, true), 8, 0);
    CHECK_ANSWER(read_word(&s, 0, 1, 2, true), 9, 0);
    CHECK_ANSWER(read_word(&s, 0, 0, 1, true), 9, 0);
    CHECK_ANSWER(read_word(&s, 0, 2, 2, true), 9, 0);
    CHECK_ANSWER(read_word(&s, 2, 0, 2, true), 10, 0); /* nothing is known */
    s.marks[0] = 1;
    CHECK_ANSWER(read_word(&s, 0, 0, 2, true), 10, 0); /* two bytes carry the coverage */
    CHECK_ANSWER(read_word(&s, 0, 2, 1, true), 0, 255); /* one byte does not */
    s.marks[0] = 2;
    CHECK_ANSWER(read_word(&s, 0, 2, 1, true), 10, 0);
    s.marks[0] = 4;
    CHECK_ANSWER(read_word(&s, 0, 0, 2, true), 3, 0);
    s.marks[0] = 3;
    s.marks_len--;
    CHECK_ANSWER(read_word(&s, 0, 0, 2, true), 2, 0);
    s.height = 1025;
    CHECK_ANSWER(read_word(&s, PIXELS, 1, 2, true), 1, 0);
}

/* A run: each entry is what the single read of its pixel answers, the pixels past the end with number 8; and number 19, which writes nothing. */
static void read_run(void) {
    enum { ENTRIES = 10, FIRST = 10 };
    scene s = plain_scene();
    uint8_t words[2 * ENTRIES], numbers[ENTRIES], before[2 * ENTRIES];
    s.uniform.prim = rgba(0.5f, 1.0f, 0.0f, 1.0f);
    s.geometry = rectangle(0.0f, 2.0f, 4.0f, 3.0f); /* pixels 8 to 11 */
    CHECK_DRAWN(&s, 4);
    memset(words, 77, sizeof words);
    memset(numbers, 77, sizeof numbers);
    wb_run got = wb_read_words(s.width, s.height, s.colors, s.colors_len, s.coverages, s.coverages_len, s.marks, s.marks_len, FIRST, 0, 2, 3, true, words,
                               sizeof words, numbers, sizeof numbers);
    CHECK(got.number, 0);
    CHECK(got.words, 2); /* pixels 10 and 11 */
    for (int i = 0; i < ENTRIES; i++) {
        bool known = FIRST + i < 12;
        CHECK(numbers[i], known ? 0 : FIRST + i < PIXELS ? 10 : 8);
        CHECK(words[2 * i], known ? 0x87 : 0);
        CHECK(words[2 * i + 1], known ? 0xc1 : 0);
    }
    /* a frame that is refused: its number in every entry */
    s.marks[0] = 4;
    got = wb_read_words(s.width, s.height, s.colors, s.colors_len, s.coverages, s.coverages_len, s.marks, s.marks_len, 0, 0, 2, 3, true, words, sizeof words,
                        numbers, sizeof numbers);
    CHECK(got.number, 0);
    CHECK(got.words, 0);
    for (int i = 0; i < ENTRIES; i++) {
        CHECK(numbers[i], 3);
        CHECK(words[2 * i] + words[2 * i + 1], 0);
    }
    /* not two bytes for each entry */
    memset(words, 77, sizeof words);
    memcpy(before, words, sizeof words);
    got = wb_read_words(s.width, s.height, s.colors, s.colors_len, s.coverages, s.coverages_len, s.marks, s.marks_len, 0, 0, 2, 3, true, words,
                        sizeof words - 1, numbers, sizeof numbers);
    CHECK(got.number, 19);
    CHECK(got.words, 0);
    CHECK(memcmp(words, before, sizeof words), 0);
    CHECK(numbers[0], 3);
}

int main(int count, char **words) {
    if (count != 4) {
        fprintf(stderr, "usage: %s CALLS COUNTS LISTS, the recorded answers\n", words[0]);
        return 2;
    }
    selectors();
    numbers();
    combiner();
    blender();
    packing();
    refused_calls();
    raster();
    draw_rectangle();
    draw_triangle();
    draw_blended();
    unknown_coverages();
    draw_panels();
    refused_draws();
    emitted_pixels();
    engine_numbers();
    most_pixels();
    refused_reads();
    read_run();
    check_recorded_calls(words[1]);
    check_counted_calls(words[2]);
    check_recorded_lists(words[3]);
    if (failures > 0) {
        fprintf(stderr, "c: %lu of %lu checks failed\n", failures, checks);
        return 1;
    }
    printf("c: %lu checks passed\n", checks);
    return 0;
}
