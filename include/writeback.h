/*
 * The pixel write-back port for C: draws, their pixels by themselves and word reads over a lent frame, the single-pixel calls, and a test entry for what one pixel of a
 * draw emits.
 *
 * Every function is total and keeps no state. It takes and gives plain values, but for lists, which are lent for the call: a list is given by where it starts, which is not
 * NULL even of an empty one, and how many elements it has. Only wb_draw writes the frame's three lists; wb_read_words and wb_emitted_pixels write the two lists for their
 * answers, and no other function writes anything. What is written overlaps no other list of the call. What each function
 * answers is proved: the contracts stand in crates/exports/src, the definitions that they cite in the specs/ of the crates below it. c/run.sh holds this file to those crates
 * and calls every function from C.
 *
 * docs/RULES.md says in words what is answered and written: the frame and its marks, the pixels that a draw emits, rules F1 to F5 for each of them, words, and the
 * numbers that a call is turned away with.
 *
 * A number that an enum lacks stands for the enum's last case, but for a geometry's kind.
 */
#ifndef WRITEBACK_H
#define WRITEBACK_H

#include <stdbool.h>
#include <stddef.h>
#include <stdint.h>

#ifdef __cplusplus
extern "C" {
#endif

typedef struct {
    float r, g, b, a;
} wb_rgba;

/* What a colour slot reads. */
enum wb_color_in {
    WB_COLOR_COMBINED = 0,
    WB_COLOR_TEXEL0 = 1,
    WB_COLOR_PRIMITIVE = 2,
    WB_COLOR_SHADE = 3,
    WB_COLOR_ENVIRONMENT = 4,
    WB_COLOR_ZERO = 5,
    WB_COLOR_ONE = 6,
    WB_COLOR_TEXEL1 = 7,
    WB_COLOR_KEY_CENTER = 8,
    WB_COLOR_K4 = 9,
    WB_COLOR_KEY_SCALE = 10,
    WB_COLOR_COMBINED_ALPHA = 11,
    WB_COLOR_TEXEL0_ALPHA = 12,
    WB_COLOR_TEXEL1_ALPHA = 13,
    WB_COLOR_PRIMITIVE_ALPHA = 14,
    WB_COLOR_SHADE_ALPHA = 15,
    WB_COLOR_ENV_ALPHA = 16,
    WB_COLOR_LOD_FRACTION = 17,
    WB_COLOR_PRIM_LOD_FRAC = 18,
    WB_COLOR_K5 = 19,
    WB_COLOR_NOISE = 20
};

/* What an alpha slot reads. */
enum wb_alpha_in {
    WB_ALPHA_COMBINED = 0,
    WB_ALPHA_TEXEL0 = 1,
    WB_ALPHA_PRIMITIVE = 2,
    WB_ALPHA_SHADE = 3,
    WB_ALPHA_ENVIRONMENT = 4,
    WB_ALPHA_ZERO = 5,
    WB_ALPHA_ONE = 6,
    WB_ALPHA_TEXEL1 = 7,
    WB_ALPHA_LOD_FRACTION = 8,
    WB_ALPHA_PRIM_LOD_FRAC = 9
};

enum wb_blend_class { WB_REPLACE = 0, WB_BLEND_COLOR = 1, WB_ALPHA_OVER = 2, WB_DUAL_SRC = 3 };

enum wb_z_mode { WB_OPA = 0, WB_INTER = 1, WB_XLU = 2, WB_DECAL = 3 };

enum wb_alpha_compare { WB_COMPARE_NONE = 0, WB_COMPARE_THRESHOLD = 1, WB_COMPARE_DITHER = 2 };

/* The decoded render mode. */
typedef struct {
    uint32_t cycle_type;
    uint16_t blender_mux;
    uint8_t rgb_dither;
    uint8_t alpha_dither;
    uint8_t cvg_dst;
    uint8_t blend_class;    /* enum wb_blend_class */
    uint8_t fallback_class; /* enum wb_blend_class */
    uint8_t z_mode;         /* enum wb_z_mode */
    uint8_t alpha_compare;  /* enum wb_alpha_compare */
    bool key_enabled;
    bool image_read;
    bool antialias;
    bool alpha_cvg_select;
    bool color_on_coverage;
    bool force_blend;
    bool non_canonical_blend;
    bool z_source_prim;
    bool z_test;
    bool z_write;
    bool fog;
    bool cvg_x_alpha;
} wb_mode;

/* The combiner uniform of a draw, 240 bytes. */
typedef struct {
    uint32_t combine_l;
    uint32_t combine_h;
    uint32_t cycle_type;
    uint32_t tex_enable;
    uint32_t blender_mux;
    uint32_t force_blend;
    uint32_t alpha_flags;
    float alpha_threshold;
    wb_rgba prim;
    wb_rgba env;
    wb_rgba blend_color;
    wb_rgba fog_color;
    float inv_tex_size[4];
    float inv_tex1_size[4];
    float lod_params[4];
    float inv_detail_size[4];
    uint32_t frame[4];
    uint32_t is_rect;
    uint32_t coverage_slot;
    uint32_t fill_word;
    uint32_t fill_siz;
    uint32_t primitive_depth[4];
    float native_scale[4];
    uint32_t raster[4];
} wb_uniform;

/* A combiner. The selectors are ca, cb, cc, cd (enum wb_color_in), aa, ab, ac, ad (enum wb_alpha_in). */
typedef struct {
    uint8_t selectors[8];
    wb_rgba prim;
    wb_rgba env;
    wb_rgba blend;
    wb_rgba fog;
    float lod;
} wb_combiner;

/* A number, 0 where the call is accepted, and the value: a coverage, 1 for yes, a word, or bytes with the first lowest. It is 0 beside any other number. */
typedef struct {
    uint32_t number;
    uint32_t value;
} wb_answer;

/* Both cycles' selectors in the order of wb_combiner, and the two words that they were taken from. */
typedef struct {
    uint32_t raw_l;
    uint32_t raw_h;
    uint8_t cyc0[8];
    uint8_t cyc1[8];
} wb_selectors;

/* A colour, if there is one, else zeros. */
typedef struct {
    bool some;
    wb_rgba rgba;
} wb_color_answer;

/* A word, if there is one, else 0. */
typedef struct {
    bool some;
    uint16_t word;
} wb_strict_answer;

/* A combiner, if there is one, else zeros. */
typedef struct {
    bool some;
    wb_combiner combiner;
} wb_combiner_answer;

enum wb_geometry_kind { WB_NO_GEOMETRY = 0, WB_TRIANGLES = 1, WB_RECTANGLE = 2 };

/* What a draw covers. The sides are looked at only of a rectangle, and a kind above 2 is no geometry. */
typedef struct {
    uint32_t kind; /* enum wb_geometry_kind */
    float left, top, right, bottom;
} wb_geometry;

/* What a pixel emits: the mask of its eight samples, its combined colour and its shade alpha. A mask of 0 is nothing, with zeros beside it. */
typedef struct {
    uint32_t mask;
    wb_rgba rgba;
    float shade_alpha;
} wb_fragment;

/* The number of a single-pixel call that is turned away for its arguments: a mask of 0, a coverage above 7, a width outside 1 to 1024, a siz
 * above 3 or a pixel above 1,048,575, as far as the call takes them. */
#define WB_REFUSED 11u

/* ---- what a slot of a combine word names: an enum wb_color_in or wb_alpha_in. Bits above the slot's width are dropped. */
uint32_t wb_color_a(uint32_t index);
uint32_t wb_color_b(uint32_t index);
uint32_t wb_color_c(uint32_t index);
uint32_t wb_color_d(uint32_t index);
uint32_t wb_alpha_abd(uint32_t index);
uint32_t wb_alpha_c(uint32_t index);

/* The upper word first. */
wb_selectors wb_decode_combine(uint32_t w0, uint32_t w1);

/* ---- floats to whole numbers, on every bit pattern */

/* From 0.0 to 1.0; a NaN stays one. */
float wb_clamp(float x);

/* The clamped value times 255, rounded. */
uint8_t wb_byte_of(float x);

/* Four times x, rounded, halves away from zero, from -65,536 to 65,536. */
int64_t wb_quarter(float x);

/* From 0 to 131,072. */
uint32_t wb_floor_index(float x);
uint32_t wb_ceil_index(float x);

bool wb_is_finite(float x);

/* Whether a is at or before b, with -0.0 before 0.0; no for a NaN. */
bool wb_le_total(float a, float b);

/* ---- the combiner */
wb_combiner_answer wb_combiner_new(wb_uniform uniform, wb_mode mode);
wb_color_answer wb_combiner_color(wb_combiner combiner, wb_rgba shade);

/* The word of a combiner that gives one constant colour, each channel of it empty or full. */
wb_strict_answer wb_strict_color(wb_combiner combiner);

/* ---- the blender. A pixel's eight samples are the bits of its mask; how many of them are 1 is what counts here. */

/* The coverage that memory keeps. */
wb_answer wb_destination(wb_mode mode, uint8_t mask, uint8_t memory);

/* Whether a pixel's colour can be told. The coverage is looked at only where it is known. */
wb_answer wb_color_known(wb_mode mode, float alpha, uint8_t mask, bool known, uint8_t coverage, bool memory_rgb);

/* The four bytes of a pixel blended with memory. */
wb_answer wb_blend(wb_mode mode, wb_combiner combiner, wb_rgba rgba, wb_rgba memory, float shade_alpha, uint8_t mask, uint8_t coverage);

/* ---- packing. rgba holds four bytes, red lowest. */

/* A 16-bit word. */
wb_answer wb_pack_color(uint32_t rgba, uint8_t coverage, uint8_t dither);
uint32_t wb_pack_depth(float depth);

/* An image is named by its fmt, siz and width, and by whether it holds depths. These two ask whether its pixels can be encoded, and how many bytes one takes; a
 * width out of range is turned away, though the answer does not turn on it. */
wb_answer wb_supported(uint8_t fmt, uint8_t siz, uint32_t width, bool depth);
wb_answer wb_pixel_bytes(uint8_t fmt, uint8_t siz, uint32_t width, bool depth);

/* The two bytes of a pixel, the lower address lowest. `word` is looked at only where there is a literal; a depth image's rgba holds a float's bits. */
wb_answer wb_encode(uint8_t fmt, uint8_t siz, uint32_t width, bool depth, uint32_t rgba, uint8_t coverage, uint32_t pixel, bool literal, uint32_t word,
                    uint8_t rgb_dither, bool big_endian);

/* ---- what a draw covers. Its lists have six floats for each vertex, x, y, red, green, blue and alpha; a byte for each vertex, 1 where it is present; and three indices for
 * each triangle. */

/* Whether a vertex may stand here. */
bool wb_in_range(float x, float y);

/* Whether every triangle passes its checks. A rectangle always does, and no geometry never. */
bool wb_admitted(wb_combiner combiner, wb_geometry geometry, const float *vertices, size_t vertices_len, const uint8_t *present, size_t present_len,
                 const uint32_t *indices, size_t indices_len);

/* What pixel (x, y) of triangle i emits, or of the rectangle, whose i is not looked at. It is nothing where x or y is 1024 or more, where there is no such
 * triangle, or where one of its vertices is missing or out of range. */
wb_fragment wb_pixel(wb_mode mode, wb_combiner combiner, bool cull, wb_geometry geometry, const float *vertices, size_t vertices_len,
                     const uint8_t *present, size_t present_len, const uint32_t *indices, size_t indices_len, size_t i, uint32_t y, uint32_t x);

/* ---- the frame: width * height pixels in three lists, three colour bytes, one coverage and one mark for each. Mark 1 says that a colour is known, mark 2 that a
 * coverage is; a mark byte is their sum. A draw makes a coverage known where memory keeps the same one (wb_destination) whatever it had: so where
 * cvg_dst is 2, and where it is 0 and all eight samples are hit (docs/RULES.md, F5, has every case). */

typedef struct {
    uint32_t left, top, width, height;
} wb_scissor;

typedef struct {
    uint32_t number; /* 0, or why the draw was turned away: 1 to 7 */
    uint64_t pixels; /* the pixels emitted, counted with repeats */
} wb_drawn;

/* Which engine finds a draw's pixels. Nothing that is answered or written turns on it. The slow one is there to be read beside the console's papers: for each triangle, or
 * for the rectangle, it visits every pixel of the frame inside the scissor and tests its eight samples, so that it takes triangles times the scissor's area times eight
 * tests. docs/RASTERISER.md walks through it. */
enum wb_engine { WB_ENGINE_FAST = 0, WB_ENGINE_SLOW = 1 };

/* Draws every triangle, or the rectangle. Turned away, it changes nothing. `engine` is an enum wb_engine, here and below. */
wb_drawn wb_draw(uint8_t engine, uint32_t width, uint32_t height, uint8_t *colors, size_t colors_len, uint8_t *coverages, size_t coverages_len, uint8_t *marks,
                 size_t marks_len, wb_mode mode, wb_uniform uniform, bool cull, wb_scissor scissor, wb_geometry geometry, const float *vertices,
                 size_t vertices_len, const uint8_t *present, size_t present_len, const uint32_t *indices, size_t indices_len);

typedef struct {
    uint32_t number; /* 0, or why the draw would be turned away: 1 to 7 */
    uint32_t pixel;  /* the k-th emitted pixel's number, or 0 */
    uint32_t mask;   /* its eight samples, or 0: past the last pixel, or turned away */
} wb_emitted;

/* The k-th pixel that wb_draw would emit, counted from 0 and with repeats, and which of its samples are hit. A pixel has four rows of two samples: bit 7 of the mask
 * is the upper row's left one, bit 6 its right one, and so on to bit 0, the lowest row's right one. Nothing is drawn, and the frame is only read. The mask of an
 * emitted pixel is never 0: beside number 0 a mask of 0, and not a pixel of 0, says that the draw emits no more than k pixels. */
wb_emitted wb_emitted_pixel(uint8_t engine, uint32_t width, uint32_t height, const uint8_t *colors, size_t colors_len, const uint8_t *coverages,
                            size_t coverages_len, const uint8_t *marks, size_t marks_len, wb_mode mode, wb_uniform uniform, bool cull, wb_scissor scissor,
                            wb_geometry geometry, const float *vertices, size_t vertices_len, const uint8_t *present, size_t present_len,
                            const uint32_t *indices, size_t indices_len, uint64_t k);

typedef struct {
    uint32_t number;  /* 0, or why it was turned away: 1 to 7, or 20 */
    uint64_t listed;  /* how many of the slots have a pixel */
    uint64_t emitted; /* how many pixels the draw emits in all, the count that wb_draw would answer */
} wb_emitted_run;

/* The emitted pixels from first on, as many as there are slots: pixels[i] and masks[i] are what wb_emitted_pixel answers for first + i, so that both are 0 past the
 * last pixel, and also where first + i is more than 2^64 - 1. With no slots it answers how many pixels the draw emits. Number 20, which comes after 1 to 7: pixels and masks
 * have not the same length. Turned away, it writes nothing, and both counts are 0. */
wb_emitted_run wb_emitted_pixels(uint8_t engine, uint32_t width, uint32_t height, const uint8_t *colors, size_t colors_len, const uint8_t *coverages,
                                 size_t coverages_len, const uint8_t *marks, size_t marks_len, wb_mode mode, wb_uniform uniform, bool cull,
                                 wb_scissor scissor, wb_geometry geometry, const float *vertices, size_t vertices_len, const uint8_t *present,
                                 size_t present_len, const uint32_t *indices, size_t indices_len, uint64_t first, uint32_t *pixels, size_t pixels_len,
                                 uint8_t *masks, size_t masks_len);

/* The two bytes of a pixel's word, the first lowest, or why the read was turned away: 1 to 3 and 8 to 10. A word that is answered does not turn
 * on what is not known: it is the word of every frame that has the same known bytes and knows the rest (docs/THEOREMS.md). */
wb_answer wb_read_word(uint32_t width, uint32_t height, const uint8_t *colors, size_t colors_len, const uint8_t *coverages, size_t coverages_len,
                       const uint8_t *marks, size_t marks_len, size_t pixel, uint8_t fmt, uint8_t siz, uint8_t rgb_dither, bool big_endian);

typedef struct {
    uint32_t number; /* 0, or why the run was turned away as a whole: 19 */
    uint64_t words;  /* how many words were read */
} wb_run;

/* The words of the pixels from first on, as many as numbers has bytes. numbers[i] is the number of the read of pixel first + i: 0, 1 to 3 or 8 to 10. words[2 * i] and
 * words[2 * i + 1] are its two bytes, or zeros where it was turned away. Number 19: words has not exactly two bytes for each byte of numbers; nothing is written then. */
wb_run wb_read_words(uint32_t width, uint32_t height, const uint8_t *colors, size_t colors_len, const uint8_t *coverages, size_t coverages_len,
                     const uint8_t *marks, size_t marks_len, size_t first, uint8_t fmt, uint8_t siz, uint8_t rgb_dither, bool big_endian, uint8_t *words,
                     size_t words_len, uint8_t *numbers, size_t numbers_len);

#ifdef __cplusplus
}
#endif

#endif
