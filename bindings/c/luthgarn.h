/* Text shaping with a font file, for C. Library: libluthgarn.a or libluthgarn.so, which `make -C bindings/c` builds of
 * the archive of crates/luthgarn_c.
 *
 * A call reads arrays of the caller's, writes into arrays of the caller's, and returns. It frees the memory that it takes
 * by malloc before it returns, but for what a `luthgarn_font` keeps up to `luthgarn_font_free`. Nothing is global.
 *
 * A font and a text may hold any bytes, and coordinates any numbers: a hostile one changes which glyphs come out, or is
 * refused.
 *
 * What the caller owes, which nothing checks:
 *   - A pointer and its count name as many elements, which the call may read, and write where they aren't const. With
 *     count 0 the pointer isn't read, and features, text, runs, glyphs, wishes, coordinates and a name may be NULL. (The
 *     library itself takes no NULL: the functions of this header put another pointer in its place. Who calls the library
 *     without this header does the same.)
 *   - What a call writes (`font`, `copy`, `runs`, `glyphs`, `feature`, and `coordinates` and `count` of luthgarn_coordinates)
 *     overlaps nothing else that the call is given.
 *   - A `luthgarn_font` begins as zeros, and is written by these calls alone. It may be moved in memory; of two copies one
 *     is used.
 *   - The bytes of a font stay where and as they are until the last font that was opened of them, or shares it, is freed;
 *     and so do the coordinates that luthgarn_font_new_at was given.
 *   - While a call runs, no other thread writes what it reads, or touches what it writes: a `luthgarn_font` is for one
 *     thread at a time. Each further thread gets one of its own, by `luthgarn_font_share`, with plans of its own; such
 *     fonts are used and freed at the same time. Calls that share nothing of this kind may run at the same time.
 *   - malloc, realloc and free are of one allocator, and aligned to 16 bytes. No call is made from a signal handler.
 *   - The stack has 1 MiB for a call. */
#ifndef LUTHGARN_H
#define LUTHGARN_H

#include <stddef.h>
#include <stdint.h>

#define LUTHGARN_VERSION_MAJOR 0
#define LUTHGARN_VERSION_MINOR 2
#define LUTHGARN_VERSION_PATCH 0

#ifdef __cplusplus
extern "C" {
#endif

/* Why a call stopped. */
enum {
  LUTHGARN_DONE = 0,
  LUTHGARN_MEMORY = 1, /* malloc or realloc returned NULL */
  LUTHGARN_LENGTH = 2, /* a list would have passed the run's limit: 64 glyphs a character, or 16384 */
  LUTHGARN_FONT = 3,   /* the bytes have no font with this number; or no font is kept */
  LUTHGARN_TEXT = 4,   /* the text of a run, or what stands beside it, isn't UTF-8; a text is no feature */
  LUTHGARN_RUN = 5,    /* a run's places aren't in order or not in the text, or it has no such direction or level */
  LUTHGARN_ROOM = 6    /* the array of glyphs, or that of coordinates, is too short */
};

/* A code in words. */
static inline const char *
luthgarn_error_name(uint32_t code)
{
  static const char *const names[] = {
    "done", "no memory", "too many glyphs", "no such font", "not UTF-8, or no feature", "no such run", "no room in an array"};
  return code <= LUTHGARN_ROOM ? names[code] : "no such code";
}

/* Directions, by HarfBuzz's numbers. 0 asks for a guess, by the script. */
enum { LUTHGARN_GUESS = 0, LUTHGARN_LTR = 4, LUTHGARN_RTL = 5, LUTHGARN_TTB = 6, LUTHGARN_BTT = 7 };

/* What a run asks for: a sum of these. Below 64 they are twice HarfBuzz's numbers. */
enum {
  LUTHGARN_BEGINNING_OF_TEXT = 2,
  LUTHGARN_END_OF_TEXT = 4,
  LUTHGARN_PRESERVE_DEFAULT_IGNORABLES = 8,
  LUTHGARN_REMOVE_DEFAULT_IGNORABLES = 16,
  LUTHGARN_DO_NOT_INSERT_DOTTED_CIRCLE = 32,
  LUTHGARN_PRODUCE_UNSAFE_TO_CONCAT = 64,
  LUTHGARN_PRODUCE_SAFE_TO_INSERT_TATWEEL = 128
};

/* Flags of a glyph. */
enum { LUTHGARN_UNSAFE_TO_BREAK = 1, LUTHGARN_UNSAFE_TO_CONCAT = 2, LUTHGARN_SAFE_TO_INSERT_TATWEEL = 4 };

/* A feature with a value, for the characters whose cluster is in start..end (0 and UINT32_MAX: all). */
typedef struct {
  uint32_t tag, value, start, end;
} luthgarn_feature;

/* A tag of four letters as a number: LUTHGARN_TAG('w', 'g', 'h', 't') is 0x77676874. */
#define LUTHGARN_TAG(a, b, c, d) \
  ((uint32_t) (uint8_t) (a) << 24 | (uint32_t) (uint8_t) (b) << 16 | (uint32_t) (uint8_t) (c) << 8 | (uint8_t) (d))

/* What is wished of an axis of a variable font: its tag and a value, as `wght` 700. */
typedef struct {
  uint32_t tag;
  float value;
} luthgarn_variation;

/* A run of the text: the units from `start` up to `end`, of one direction, script and language. The units of a text in
 * UTF-8 are its bytes. Those from `before` up to `start`, and from `end` up to `after`, are looked at (five characters at
 * most) and not shaped; for a text of its own before = start and end = after. Each of these places stands between two
 * characters. `direction` and `script` 0 ask for a guess. `level` is 0, 1 or 2: how far clusters are merged. `language` is
 * a name of BCP 47, filled up with zeros, as luthgarn_set_language writes it; all zeros name none. A call writes `glyphs`:
 * how many glyphs there are up to the end of this run. */
typedef struct {
  uint32_t before, start, end, after;
  uint32_t direction, script, flags, level;
  uint8_t language[64];
  size_t glyphs;
} luthgarn_run;

/* A glyph, by its number in the font. `cluster` is the first unit of its characters, counted from the start of the run
 * (luthgarn_count_from_text makes it count from the start of the text).
 * Advances and offsets count in units of the font. */
typedef struct {
  uint32_t glyph, cluster, flags;
  int32_t x_advance, y_advance, x_offset, y_offset;
} luthgarn_glyph;

/* What became of a call: `code` says why it stopped; `runs` of the runs are done, the first ones, and have `glyphs`
 * glyphs. After LUTHGARN_ROOM the next run has `needed` glyphs. */
typedef struct {
  uint32_t code;
  size_t runs, glyphs, needed;
} luthgarn_outcome;

/* A font that is kept open, and the plans that its texts needed, or none: all zeros keep none. */
typedef struct {
  void *kept;
  uint32_t is_open;
} luthgarn_font;

/* The version of the library, as 65536 * major + 256 * minor + patch. */
uint32_t luthgarn_version(void);

/* How many units the em square has of the font with this number in the file (0, if it isn't a collection); 0 if the
 * bytes have no such font. */
uint32_t luthgarn_units_per_em(const uint8_t *font, size_t font_size, uint32_t index);

/* Reads a feature as hb_feature_from_string does: "kern=0", "-liga", "aalt[3:5]=2". Returns LUTHGARN_DONE, or
 * LUTHGARN_TEXT for any other text, and leaves `feature` as it was then. */
uint32_t luthgarn_parse_feature(const uint8_t *text, size_t size, luthgarn_feature *feature);

/* A direction by the first letter of its name, l, r, t or b; 0 for any other text. */
uint32_t luthgarn_parse_direction(const uint8_t *text, size_t size);

/* A script by its name of ISO 15924, in any case; 0 for an empty text. */
uint32_t luthgarn_parse_script(const uint8_t *text, size_t size);

/* Makes a run ask for the language with this name of BCP 47. Of a name of more than 64 bytes it has the subtags that fit, without
 * a last one of a single letter, as RFC 5646 cuts names (4.4.2). Returns LUTHGARN_DONE. (A name that isn't UTF-8 is refused by
 * the call that shapes.) */
uint32_t luthgarn_set_language(luthgarn_run *run, const uint8_t *name, size_t size);

/* Shapes the runs of a text, by the shaper of each script, with the tables GDEF, GSUB, GPOS and kern of the font. The
 * glyphs of run k are glyphs[k ? runs[k - 1].glyphs : 0] up to glyphs[runs[k].glyphs - 1], from left to right or from top
 * to bottom. A call opens the font, in time in step with its tables (luthgarn_shape_font opens nothing), and runs of one
 * direction, script and language share a plan: so many runs in one call cost less than as many calls. The call stops at
 * the first run that is refused; it writes nothing past the glyphs of the runs before that, and no other run. A caller
 * may go on from there, with more room, by a call for the runs that are left: `glyphs` of these then counts from the
 * first of them. */
luthgarn_outcome luthgarn_shape(const uint8_t *font, size_t font_size, uint32_t index,
                                const luthgarn_feature *features, size_t feature_count,
                                const uint8_t *text, size_t text_size,
                                luthgarn_run *runs, size_t run_count,
                                luthgarn_glyph *glyphs, size_t glyph_count);

/* As luthgarn_shape, of a text in UTF-16: the places of runs and features and the clusters count its units. Any units are a
 * text: a surrogate without its partner stands for U+FFFD, and so do both where a run begins or ends between them. */
luthgarn_outcome luthgarn_shape_utf16(const uint8_t *font, size_t font_size, uint32_t index,
                                      const luthgarn_feature *features, size_t feature_count,
                                      const uint16_t *text, size_t text_size,
                                      luthgarn_run *runs, size_t run_count,
                                      luthgarn_glyph *glyphs, size_t glyph_count);

/* Opens the font with this number in the file (0, if it isn't a collection), in time in step with its tables. Returns
 * LUTHGARN_DONE, and `font` keeps it, in place of what it kept; else LUTHGARN_FONT or LUTHGARN_MEMORY, and leaves `font`. */
uint32_t luthgarn_font_new(const uint8_t *bytes, size_t size, uint32_t index, luthgarn_font *font);

/* Writes the coordinates of a variable font at which wishes are met, by its tables `fvar` and `avar`: one for each axis, in
 * units of 1/16384. An axis without a wish is at its default, a value past an axis's end at that end, and of several wishes
 * for one axis the last counts; a wish for an axis that the font lacks says nothing. `count` becomes how many there are: 0 if
 * nothing is wished, or the font has no axes. Returns LUTHGARN_DONE; or LUTHGARN_ROOM, if there are more than `room`, and
 * leaves `coordinates`; or LUTHGARN_MEMORY, and leaves `count`, too. */
uint32_t luthgarn_coordinates(const uint8_t *bytes, size_t size, uint32_t index,
                              const luthgarn_variation *wishes, size_t wish_count,
                              int32_t *coordinates, size_t room, size_t *count);

/* As luthgarn_font_new, at coordinates as luthgarn_coordinates writes them; none are the default instance. Advances, kerning,
 * places of marks and the choice of lookups are those of the font there. It stays there, and so do those that share it: for
 * other coordinates open one more. Advances that vary take at most 2^24 steps of the opening. */
uint32_t luthgarn_font_new_at(const uint8_t *bytes, size_t size, uint32_t index,
                              const int32_t *coordinates, size_t coordinate_count, luthgarn_font *font);

/* Makes `copy` keep the same font, in place of what it kept. Both share what was opened, each has its plans, and each is
 * freed by itself.
 * Returns LUTHGARN_DONE; else LUTHGARN_FONT, if `font` keeps none, or LUTHGARN_MEMORY, and leaves `copy`. */
uint32_t luthgarn_font_share(luthgarn_font *font, luthgarn_font *copy);

/* Frees what `font` keeps, if anything. It keeps none then. */
void luthgarn_font_free(luthgarn_font *font);

/* As luthgarn_units_per_em, of the font that is kept; 0 if none is. */
uint32_t luthgarn_font_units_per_em(luthgarn_font *font);

/* How many bytes the name of a glyph has by the table `post` or `CFF `; 0 if it has none, or no font is kept. Writes the name if
 * `size` is enough; else `name` stays as it is. No zero ends it. */
size_t luthgarn_font_glyph_name(luthgarn_font *font, uint32_t glyph, uint8_t *name, size_t size);

/* As luthgarn_shape, with the font that is kept; LUTHGARN_FONT if none is. The font keeps what was planned for a direction,
 * script, language and list of features, for later calls: 32 plans at most, and all are let go of where one more is needed. */
luthgarn_outcome luthgarn_shape_font(luthgarn_font *font, const luthgarn_feature *features, size_t feature_count,
                                     const uint8_t *text, size_t text_size,
                                     luthgarn_run *runs, size_t run_count,
                                     luthgarn_glyph *glyphs, size_t glyph_count);

/* As luthgarn_shape_utf16, with the font that is kept; LUTHGARN_FONT if none is. */
luthgarn_outcome luthgarn_shape_font_utf16(luthgarn_font *font, const luthgarn_feature *features, size_t feature_count,
                                           const uint16_t *text, size_t text_size,
                                           luthgarn_run *runs, size_t run_count,
                                           luthgarn_glyph *glyphs, size_t glyph_count);

/* Makes the clusters of glyphs count from the start of the text, of the first runs, so many, that a call has done, and their
 * glyphs: once for each call. */
static inline void
luthgarn_count_from_text(const luthgarn_run *runs, size_t done, luthgarn_glyph *glyphs)
{
  size_t at = 0;
  for (size_t k = 0; k < done; k++)
    for (; at < runs[k].glyphs; at++) glyphs[at].cluster += runs[k].start;
}

/* Below are the calls as this header makes them: a NULL with count 0 becomes another pointer. */
static const uint64_t luthgarn_nothing = 0;
#define LUTHGARN_SOME(type, array) ((array) ? (array) : (type *) &luthgarn_nothing)

static inline luthgarn_outcome
luthgarn_shape_some(const uint8_t *font, size_t font_size, uint32_t index,
                    const luthgarn_feature *features, size_t feature_count,
                    const uint8_t *text, size_t text_size,
                    luthgarn_run *runs, size_t run_count,
                    luthgarn_glyph *glyphs, size_t glyph_count)
{
  return luthgarn_shape(font, font_size, index, LUTHGARN_SOME(const luthgarn_feature, features), feature_count,
                        LUTHGARN_SOME(const uint8_t, text), text_size, LUTHGARN_SOME(luthgarn_run, runs), run_count,
                        LUTHGARN_SOME(luthgarn_glyph, glyphs), glyph_count);
}

static inline luthgarn_outcome
luthgarn_shape_font_some(luthgarn_font *font, const luthgarn_feature *features, size_t feature_count,
                         const uint8_t *text, size_t text_size,
                         luthgarn_run *runs, size_t run_count,
                         luthgarn_glyph *glyphs, size_t glyph_count)
{
  return luthgarn_shape_font(font, LUTHGARN_SOME(const luthgarn_feature, features), feature_count,
                             LUTHGARN_SOME(const uint8_t, text), text_size, LUTHGARN_SOME(luthgarn_run, runs), run_count,
                             LUTHGARN_SOME(luthgarn_glyph, glyphs), glyph_count);
}

static inline luthgarn_outcome
luthgarn_shape_utf16_some(const uint8_t *font, size_t font_size, uint32_t index,
                          const luthgarn_feature *features, size_t feature_count,
                          const uint16_t *text, size_t text_size,
                          luthgarn_run *runs, size_t run_count,
                          luthgarn_glyph *glyphs, size_t glyph_count)
{
  return luthgarn_shape_utf16(font, font_size, index, LUTHGARN_SOME(const luthgarn_feature, features), feature_count,
                              LUTHGARN_SOME(const uint16_t, text), text_size, LUTHGARN_SOME(luthgarn_run, runs), run_count,
                              LUTHGARN_SOME(luthgarn_glyph, glyphs), glyph_count);
}

static inline luthgarn_outcome
luthgarn_shape_font_utf16_some(luthgarn_font *font, const luthgarn_feature *features, size_t feature_count,
                               const uint16_t *text, size_t text_size,
                               luthgarn_run *runs, size_t run_count,
                               luthgarn_glyph *glyphs, size_t glyph_count)
{
  return luthgarn_shape_font_utf16(font, LUTHGARN_SOME(const luthgarn_feature, features), feature_count,
                                   LUTHGARN_SOME(const uint16_t, text), text_size, LUTHGARN_SOME(luthgarn_run, runs),
                                   run_count, LUTHGARN_SOME(luthgarn_glyph, glyphs), glyph_count);
}

static inline size_t
luthgarn_font_glyph_name_some(luthgarn_font *font, uint32_t glyph, uint8_t *name, size_t size)
{
  return luthgarn_font_glyph_name(font, glyph, LUTHGARN_SOME(uint8_t, name), size);
}

static inline uint32_t
luthgarn_coordinates_some(const uint8_t *bytes, size_t size, uint32_t index,
                          const luthgarn_variation *wishes, size_t wish_count,
                          int32_t *coordinates, size_t room, size_t *count)
{
  return luthgarn_coordinates(bytes, size, index, LUTHGARN_SOME(const luthgarn_variation, wishes), wish_count,
                              LUTHGARN_SOME(int32_t, coordinates), room, count);
}

static inline uint32_t
luthgarn_font_new_at_some(const uint8_t *bytes, size_t size, uint32_t index,
                          const int32_t *coordinates, size_t coordinate_count, luthgarn_font *font)
{
  return luthgarn_font_new_at(bytes, size, index, LUTHGARN_SOME(const int32_t, coordinates), coordinate_count, font);
}

static inline uint32_t
luthgarn_parse_feature_some(const uint8_t *text, size_t size, luthgarn_feature *feature)
{
  return luthgarn_parse_feature(LUTHGARN_SOME(const uint8_t, text), size, feature);
}

static inline uint32_t
luthgarn_parse_direction_some(const uint8_t *text, size_t size)
{
  return luthgarn_parse_direction(LUTHGARN_SOME(const uint8_t, text), size);
}

static inline uint32_t
luthgarn_parse_script_some(const uint8_t *text, size_t size)
{
  return luthgarn_parse_script(LUTHGARN_SOME(const uint8_t, text), size);
}

static inline uint32_t
luthgarn_set_language_some(luthgarn_run *run, const uint8_t *name, size_t size)
{
  return luthgarn_set_language(run, LUTHGARN_SOME(const uint8_t, name), size);
}

#undef LUTHGARN_SOME
#define luthgarn_shape luthgarn_shape_some
#define luthgarn_shape_font luthgarn_shape_font_some
#define luthgarn_shape_utf16 luthgarn_shape_utf16_some
#define luthgarn_shape_font_utf16 luthgarn_shape_font_utf16_some
#define luthgarn_font_glyph_name luthgarn_font_glyph_name_some
#define luthgarn_coordinates luthgarn_coordinates_some
#define luthgarn_font_new_at luthgarn_font_new_at_some
#define luthgarn_parse_feature luthgarn_parse_feature_some
#define luthgarn_parse_direction luthgarn_parse_direction_some
#define luthgarn_parse_script luthgarn_parse_script_some
#define luthgarn_set_language luthgarn_set_language_some

#ifdef __cplusplus
}
#endif
#endif
