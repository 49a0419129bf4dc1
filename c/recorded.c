/*
 * Asks the library, through the header, what the Rust original was asked before: the single calls of crates/replay/stdin, and the lists of draws, emitted pixels and word
 * reads of crates/replay_lists/stdin, of which both engines are asked the draws and the pixels. A call of c/counts.txt has the number of a pixel's samples in place of their mask, and is asked with every mask of so many ones.
 * docs/replay.md says how they were recorded, oracle/README.md how a line is laid out. Floats agree if they are equal or both NaN.
 * Valid as C11 and as C++11.
 */
#include "check.h"
#include "writeback.h"

#include <math.h>
#include <stdio.h>
#include <stdlib.h>
#include <string.h>

/* ---- reading a file of words */

static const char *file_name; /* of the file at hand */
static int line_number;       /* of the line at hand */
static const char *at;        /* the next character of it */

static void broken(const char *why) {
    fprintf(stderr, "c: %s:%d: %s\n", file_name, line_number, why);
    exit(2);
}

static uint32_t hexadecimal(int digits) {
    uint32_t value = 0;
    for (int i = 0; i < digits; i++, at++) {
        if (*at >= '0' && *at <= '9') {
            value = value * 16 + (uint32_t)(*at - '0');
        } else if (*at >= 'a' && *at <= 'f') {
            value = value * 16 + (uint32_t)(*at - 'a') + 10;
        } else {
            broken("a hexadecimal digit was expected");
        }
    }
    return value;
}

static void space(void) {
    if (*at != ' ') {
        broken("a space was expected");
    }
    at++;
}

static uint32_t word(void) {
    space();
    return hexadecimal(8);
}

static uint8_t byte(void) {
    uint32_t value = word();
    if (value > 0xff) {
        broken("a byte was expected");
    }
    return (uint8_t)value;
}

static bool flag(void) { return byte() != 0; }

static float real(void) {
    uint32_t bits = word();
    float value;
    memcpy(&value, &bits, sizeof value);
    return value;
}

static wb_rgba rgba(void) {
    wb_rgba c;
    c.r = real();
    c.g = real();
    c.b = real();
    c.a = real();
    return c;
}

static wb_mode mode(void) {
    wb_mode m;
    m.cycle_type = word();
    m.blender_mux = (uint16_t)word();
    m.rgb_dither = byte();
    m.alpha_dither = byte();
    m.cvg_dst = byte();
    m.blend_class = byte();
    m.fallback_class = byte();
    m.z_mode = byte();
    m.alpha_compare = byte();
    m.key_enabled = flag();
    m.image_read = flag();
    m.antialias = flag();
    m.alpha_cvg_select = flag();
    m.color_on_coverage = flag();
    m.force_blend = flag();
    m.non_canonical_blend = flag();
    m.z_source_prim = flag();
    m.z_test = flag();
    m.z_write = flag();
    m.fog = flag();
    m.cvg_x_alpha = flag();
    return m;
}

static void four_reals(float *to) {
    for (int i = 0; i < 4; i++) {
        to[i] = real();
    }
}

static void four_words(uint32_t *to) {
    for (int i = 0; i < 4; i++) {
        to[i] = word();
    }
}

static wb_uniform uniform(void) {
    wb_uniform u;
    u.combine_l = word();
    u.combine_h = word();
    u.cycle_type = word();
    u.tex_enable = word();
    u.blender_mux = word();
    u.force_blend = word();
    u.alpha_flags = word();
    u.alpha_threshold = real();
    u.prim = rgba();
    u.env = rgba();
    u.blend_color = rgba();
    u.fog_color = rgba();
    four_reals(u.inv_tex_size);
    four_reals(u.inv_tex1_size);
    four_reals(u.lod_params);
    four_reals(u.inv_detail_size);
    four_words(u.frame);
    u.is_rect = word();
    u.coverage_slot = word();
    u.fill_word = word();
    u.fill_siz = word();
    four_words(u.primitive_depth);
    four_reals(u.native_scale);
    four_words(u.raster);
    return u;
}

static wb_combiner combiner(void) {
    wb_combiner k;
    for (int i = 0; i < 8; i++) {
        k.selectors[i] = byte();
    }
    k.prim = rgba();
    k.env = rgba();
    k.blend = rgba();
    k.fog = rgba();
    k.lod = real();
    return k;
}

/* ---- comparing with the words behind the '=' */

static void answers(void) {
    space();
    if (*at != '=') {
        broken("an = was expected");
    }
    at++;
}

static void same_word(uint64_t got) { check_at(file_name, line_number, "a whole number", got, word()); }

static void same_real(float got) {
    float expected = real();
    bool same = got == expected || (isnan(got) && isnan(expected));
    check_at(file_name, line_number, "whether a float agrees", same, true);
}

static void same_rgba(wb_rgba got) {
    same_real(got.r);
    same_real(got.g);
    same_real(got.b);
    same_real(got.a);
}

static void same_answer(wb_answer got) {
    same_word(got.number);
    same_word(got.value);
}

static void same_bytes(const uint8_t *got, int count) {
    for (int i = 0; i < count; i++) {
        same_word(got[i]);
    }
}

/* ---- single calls */

/* C does not say in which order a call's arguments are worked out, so each is read by a statement of its own. */

static void color_a(void) {
    uint32_t index = word();
    answers();
    same_word(wb_color_a(index));
}

static void color_b(void) {
    uint32_t index = word();
    answers();
    same_word(wb_color_b(index));
}

static void color_c(void) {
    uint32_t index = word();
    answers();
    same_word(wb_color_c(index));
}

static void color_d(void) {
    uint32_t index = word();
    answers();
    same_word(wb_color_d(index));
}

static void alpha_abd(void) {
    uint32_t index = word();
    answers();
    same_word(wb_alpha_abd(index));
}

static void alpha_c(void) {
    uint32_t index = word();
    answers();
    same_word(wb_alpha_c(index));
}

static void decode_combine(void) {
    uint32_t w0 = word();
    uint32_t w1 = word();
    wb_selectors s = wb_decode_combine(w0, w1);
    answers();
    same_word(s.raw_l);
    same_word(s.raw_h);
    same_bytes(s.cyc0, 8);
    same_bytes(s.cyc1, 8);
}

static void clamp(void) {
    float x = real();
    answers();
    same_real(wb_clamp(x));
}

static void byte_of(void) {
    float x = real();
    answers();
    same_word(wb_byte_of(x));
}

/* The recorded word is the answer in two's complement. */
static void quarter(void) {
    float x = real();
    answers();
    int64_t got = wb_quarter(x);
    check_at(file_name, line_number, "whether the answer is from -65,536 to 65,536", got >= -65536 && got <= 65536, true);
    same_word((uint32_t)got);
}

static void floor_index(void) {
    float x = real();
    answers();
    same_word(wb_floor_index(x));
}

static void ceil_index(void) {
    float x = real();
    answers();
    same_word(wb_ceil_index(x));
}

static void is_finite(void) {
    float x = real();
    answers();
    same_word(wb_is_finite(x));
}

static void le_total(void) {
    float a = real();
    float b = real();
    answers();
    same_word(wb_le_total(a, b));
}

static void combiner_new(void) {
    wb_uniform u = uniform();
    wb_mode m = mode();
    wb_combiner_answer got = wb_combiner_new(u, m);
    answers();
    same_word(got.some);
    same_bytes(got.combiner.selectors, 8);
    same_rgba(got.combiner.prim);
    same_rgba(got.combiner.env);
    same_rgba(got.combiner.blend);
    same_rgba(got.combiner.fog);
    same_real(got.combiner.lod);
}

static void combiner_color(void) {
    wb_combiner k = combiner();
    wb_rgba shade = rgba();
    wb_color_answer got = wb_combiner_color(k, shade);
    answers();
    same_word(got.some);
    same_rgba(got.rgba);
}

static void strict_color(void) {
    wb_combiner k = combiner();
    answers();
    wb_strict_answer got = wb_strict_color(k);
    same_word(got.some);
    same_word(got.word);
}

static void destination(void) {
    wb_mode m = mode();
    uint8_t mask = byte();
    uint8_t memory = byte();
    answers();
    same_answer(wb_destination(m, mask, memory));
}

static void color_known(void) {
    wb_mode m = mode();
    float alpha = real();
    uint8_t mask = byte();
    bool known = flag();
    uint8_t coverage = byte();
    bool memory_rgb = flag();
    answers();
    same_answer(wb_color_known(m, alpha, mask, known, coverage, memory_rgb));
}

static void blend(void) {
    wb_mode m = mode();
    wb_combiner k = combiner();
    wb_rgba pixel = rgba();
    wb_rgba memory = rgba();
    float shade_alpha = real();
    uint8_t mask = byte();
    uint8_t coverage = byte();
    answers();
    same_answer(wb_blend(m, k, pixel, memory, shade_alpha, mask, coverage));
}

static void pack_color(void) {
    uint32_t bytes = word();
    uint8_t coverage = byte();
    uint8_t dither = byte();
    answers();
    same_answer(wb_pack_color(bytes, coverage, dither));
}

static void pack_depth(void) {
    float depth = real();
    answers();
    same_word(wb_pack_depth(depth));
}

static void supported(void) {
    uint8_t fmt = byte();
    uint8_t siz = byte();
    uint32_t width = word();
    bool depth = flag();
    answers();
    same_answer(wb_supported(fmt, siz, width, depth));
}

static void pixel_bytes(void) {
    uint8_t fmt = byte();
    uint8_t siz = byte();
    uint32_t width = word();
    bool depth = flag();
    answers();
    same_answer(wb_pixel_bytes(fmt, siz, width, depth));
}

static void encode(void) {
    uint8_t fmt = byte();
    uint8_t siz = byte();
    uint32_t width = word();
    bool depth = flag();
    uint32_t bytes = word();
    uint8_t coverage = byte();
    uint32_t pixel = word();
    bool literal = flag();
    uint32_t given = word();
    uint8_t rgb_dither = byte();
    bool big_endian = flag();
    answers();
    same_answer(wb_encode(fmt, siz, width, depth, bytes, coverage, pixel, literal, given, rgb_dither, big_endian));
}

/* ---- lists of draws, emitted pixels and word reads */

/* Room for a slice of bytes, for a list of words and for a line of c/counts.txt; a line that needs more is told. */
#define SLICE 512
#define LIST 4096
#define LINE 1024

typedef struct {
    uint8_t at[SLICE];
    size_t length;
} slice;

static uint32_t width, height; /* of the frame at hand */
static slice colors, coverages, marks;

static size_t room(size_t length, size_t limit) {
    if (length > limit) {
        broken("a list is longer than there is room");
    }
    return length;
}

static void bytes_into(slice *to) {
    to->length = room(word(), SLICE);
    if (to->length > 0) {
        space();
    }
    for (size_t i = 0; i < to->length; i++) {
        to->at[i] = (uint8_t)hexadecimal(2);
    }
}

static void same_slice(const char *what, const slice *got) {
    slice expected;
    bytes_into(&expected);
    bool same = got->length == expected.length && memcmp(got->at, expected.at, expected.length) == 0;
    check_at(file_name, line_number, what, same, true);
}

static void frame(void) {
    width = word();
    height = word();
    bytes_into(&colors);
    bytes_into(&coverages);
    bytes_into(&marks);
}

static uint32_t smaller(uint32_t a, uint32_t b) { return a < b ? a : b; }

/* A draw as a line has it. */
typedef struct {
    wb_mode mode;
    wb_uniform uniform;
    bool cull;
    wb_scissor scissor;
    wb_geometry geometry;
    float vertices[LIST];
    size_t floats;
    slice present;
    uint32_t indices[LIST];
    size_t count;
} drawing;

static void drawing_into(drawing *d) {
    d->mode = mode();
    d->uniform = uniform();
    d->cull = flag();
    d->scissor.left = word();
    d->scissor.top = word();
    d->scissor.width = word();
    d->scissor.height = word();
    d->geometry.kind = word();
    d->geometry.left = real();
    d->geometry.top = real();
    d->geometry.right = real();
    d->geometry.bottom = real();
    d->floats = room(word(), LIST);
    for (size_t i = 0; i < d->floats; i++) {
        d->vertices[i] = real();
    }
    bytes_into(&d->present);
    d->count = room(word(), LIST);
    for (size_t i = 0; i < d->count; i++) {
        d->indices[i] = word();
    }
}

/* Both are held to the recorded answers; the frame goes on with what the last one drew. */
static const uint8_t engines[2] = {WB_ENGINE_SLOW, WB_ENGINE_FAST};

static wb_emitted emitted_pixel(uint8_t engine, const drawing *d, uint64_t k) {
    return wb_emitted_pixel(engine, width, height, colors.at, colors.length, coverages.at, coverages.length, marks.at, marks.length, d->mode, d->uniform, d->cull,
                            d->scissor, d->geometry, d->vertices, d->floats, d->present.at, d->present.length, d->indices, d->count, k);
}

/* Besides the draw itself: `wb_combiner_new` answers none exactly for number 6, `wb_admitted` no exactly for number 7, as far as they are asked; and an accepted draw's
 * pixels are those inside the scissor that emit by themselves: as many, and `wb_emitted_pixel` has them in this order with these masks. */
static void draw(void) {
    static drawing d;
    drawing_into(&d);
    answers();
    const char *recorded = at;
    slice old_colors = colors, old_coverages = coverages, old_marks = marks;
    wb_drawn got = {0, 0};
    for (int i = 0; i < 2; i++) {
        at = recorded;
        colors = old_colors;
        coverages = old_coverages;
        marks = old_marks;
        got = wb_draw(engines[i], width, height, colors.at, colors.length, coverages.at, coverages.length, marks.at, marks.length, d.mode, d.uniform, d.cull,
                      d.scissor, d.geometry, d.vertices, d.floats, d.present.at, d.present.length, d.indices, d.count);
        same_word(got.number);
        same_word(got.pixels);
        same_slice("whether the colours agree", &colors);
        same_slice("whether the coverages agree", &coverages);
        same_slice("whether the marks agree", &marks);
    }
    if (got.number != 0 && got.number < 6) {
        return;
    }

    wb_combiner_answer made = wb_combiner_new(d.uniform, d.mode);
    check_at(file_name, line_number, "whether there is a combiner", made.some, got.number != 6);
    if (!made.some) {
        return;
    }
    bool admitted = wb_admitted(made.combiner, d.geometry, d.vertices, d.floats, d.present.at, d.present.length, d.indices, d.count);
    check_at(file_name, line_number, "whether the draw is admitted", admitted, got.number == 0);
    if (!admitted) {
        return;
    }
    uint64_t emitted = 0, listed[2] = {0, 0};
    for (size_t i = 0; i < (d.geometry.kind == WB_TRIANGLES ? d.count / 3 : 1); i++) {
        for (uint32_t y = d.scissor.top; y < smaller(height, d.scissor.top + d.scissor.height); y++) {
            for (uint32_t x = d.scissor.left; x < smaller(width, d.scissor.left + d.scissor.width); x++) {
                uint32_t mask = wb_pixel(d.mode, made.combiner, d.cull, d.geometry, d.vertices, d.floats, d.present.at, d.present.length, d.indices, d.count, i, y, x).mask;
                if (mask != 0) {
                    for (int by = 0; by < 2; by++) {
                        wb_emitted here = emitted_pixel(engines[by], &d, emitted);
                        listed[by] += here.number == 0 && here.pixel == y * width + x && here.mask == mask;
                    }
                    emitted++;
                }
            }
        }
    }
    check_at(file_name, line_number, "pixels that emit", emitted, got.pixels);
    for (int by = 0; by < 2; by++) {
        check_at(file_name, line_number, "pixels that are emitted at their place", listed[by], got.pixels);
        check_at(file_name, line_number, "the mask behind the last pixel", emitted_pixel(engines[by], &d, emitted).mask, 0);
    }
}

/* The upper half first. */
static uint64_t two_words(void) {
    uint64_t upper = word();
    return upper << 32 | word();
}

static void mask(void) {
    static drawing d;
    drawing_into(&d);
    uint64_t k = two_words();
    answers();
    const char *recorded = at;
    for (int i = 0; i < 2; i++) {
        at = recorded;
        wb_emitted got = emitted_pixel(engines[i], &d, k);
        same_word(got.number);
        same_word(got.pixel);
        same_word(got.mask);
    }
}

static size_t pixels_into(uint32_t *to) {
    size_t length = room(word(), LIST);
    for (size_t i = 0; i < length; i++) {
        to[i] = word();
    }
    return length;
}

static void masks(void) {
    static drawing d;
    static uint32_t pixels[LIST], expected[LIST];
    slice of_pixels;
    drawing_into(&d);
    uint64_t first = two_words();
    const char *slots = at;
    for (int i = 0; i < 2; i++) {
        at = slots;
        size_t length = pixels_into(pixels);
        bytes_into(&of_pixels);
        wb_emitted_run got = wb_emitted_pixels(engines[i], width, height, colors.at, colors.length, coverages.at, coverages.length, marks.at, marks.length, d.mode,
                                               d.uniform, d.cull, d.scissor, d.geometry, d.vertices, d.floats, d.present.at, d.present.length, d.indices, d.count,
                                               first, pixels, length, of_pixels.at, of_pixels.length);
        answers();
        same_word(got.number);
        same_word(got.listed);
        same_word(got.emitted);
        bool same = pixels_into(expected) == length && memcmp(pixels, expected, length * sizeof *pixels) == 0;
        check_at(file_name, line_number, "whether the pixels agree", same, true);
        same_slice("whether the masks agree", &of_pixels);
    }
}

static void read_word(void) {
    uint32_t pixel = word();
    uint8_t fmt = byte();
    uint8_t siz = byte();
    uint8_t rgb_dither = byte();
    bool big_endian = flag();
    answers();
    same_answer(wb_read_word(width, height, colors.at, colors.length, coverages.at, coverages.length, marks.at, marks.length, pixel, fmt, siz, rgb_dither,
                             big_endian));
}

/* ---- single calls by a count */

static int ones(int mask) { return mask == 0 ? 0 : (mask & 1) + ones(mask >> 1); }

/* Asks the line with every mask of as many ones as its word at that place says. No mask has more than eight, and such a line was turned away. */
static void with_masks(int place, void (*ask)(void)) {
    char line[LINE];
    size_t length = room(strcspn(at, "\n"), LINE - 1);
    const char *end = at + length;
    memcpy(line, at, length);
    line[length] = '\0';
    char *samples = line + 9 * place; /* a space and eight digits for each word */
    at = samples;
    int count = byte();
    for (int mask = 0; mask < 256; mask++) {
        if (ones(mask) == count) {
            char digits[10];
            snprintf(digits, sizeof digits, " %08x", (unsigned)mask);
            memcpy(samples, digits, 9);
            at = line;
            ask();
        }
    }
    if (count > 8) {
        wb_answer refused = {WB_REFUSED, 0};
        at = line + strcspn(line, "=");
        at++;
        same_answer(refused);
    }
    if (*at != '\0') {
        broken("the line goes on");
    }
    at = end;
}

/* Behind the mode's 21 words; its alpha; or the combiner's 25, two colours and the shade's alpha. */
static void counted_destination(void) { with_masks(21, destination); }
static void counted_color_known(void) { with_masks(22, color_known); }
static void counted_blend(void) { with_masks(55, blend); }

/* ---- files */

typedef struct {
    const char *name;
    void (*ask)(void);
    unsigned long lines; /* asked so far */
} call;

#define CALL(name) {#name, name, 0}
static call calls[] = {
    CALL(color_a), CALL(color_b), CALL(color_c), CALL(color_d), CALL(alpha_abd), CALL(alpha_c), CALL(decode_combine),
    CALL(clamp), CALL(byte_of), CALL(quarter), CALL(floor_index), CALL(ceil_index), CALL(is_finite), CALL(le_total),
    CALL(combiner_new), CALL(combiner_color), CALL(strict_color),
    CALL(destination), CALL(color_known), CALL(blend),
    CALL(pack_color), CALL(pack_depth), CALL(supported), CALL(pixel_bytes), CALL(encode),
};

static call counted_calls[] = {{"destination", counted_destination, 0}, {"color_known", counted_color_known, 0}, {"blend", counted_blend, 0}};

static call list_calls[] = {CALL(frame), CALL(draw), {"read", read_word, 0}, CALL(mask), CALL(masks)};

/* The whole file as a string; the caller frees it. */
static char *text_of(const char *path) {
    FILE *in = fopen(path, "rb");
    if (!in || fseek(in, 0, SEEK_END) != 0) {
        perror(path);
        exit(2);
    }
    long size = ftell(in);
    char *text = (char *)malloc((size_t)size + 1);
    rewind(in);
    if (!text || fread(text, 1, (size_t)size, in) != (size_t)size) {
        perror(path);
        exit(2);
    }
    fclose(in);
    text[size] = '\0';
    return text;
}

/* Asks every line of a file. Each call must come at least once. */
static void ask_all(const char *path, call *known, size_t count) {
    char *text = text_of(path);
    file_name = path;
    line_number = 1;
    for (at = text; *at != '\0'; at++, line_number++) {
        size_t length = strcspn(at, " ");
        size_t i = 0;
        while (i < count && (strlen(known[i].name) != length || strncmp(known[i].name, at, length) != 0)) {
            i++;
        }
        if (i == count) {
            broken("no call has this name");
        }
        at += length;
        known[i].ask();
        known[i].lines++;
        if (*at != '\n') {
            broken("the line goes on");
        }
    }
    free(text);
    for (size_t i = 0; i < count; i++) {
        check_at(path, line_number, known[i].name, known[i].lines > 0, true);
    }
}

void check_recorded_calls(const char *path) { ask_all(path, calls, sizeof calls / sizeof calls[0]); }

void check_counted_calls(const char *path) { ask_all(path, counted_calls, sizeof counted_calls / sizeof counted_calls[0]); }

void check_recorded_lists(const char *path) { ask_all(path, list_calls, sizeof list_calls / sizeof list_calls[0]); }
