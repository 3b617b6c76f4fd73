/* One program with HarfBuzz and the library (crates/bench_runs, a static library), over the same texts and the same face.
 *
 *   bench ENGINE LEVEL KIND SIZE TIMES
 *
 * ENGINE: hb (hb_shape), hbplan (hb_shape_plan_execute, one plan), ours (shape), kept (shape_with_plan, one plan), and to delete
 * each 'x' of a text in place of shaping it hbdelete and delete. buffer does the work of the buffer whose number is LEVEL, and
 * lines cuts glyphs into lines; its KIND is EVEN,ODD,WIDTH, two advances and the width of a line. LEVEL is that of clusters. The texts of KIND are made here,
 * by a fixed rule; those whose clusters chain or fall are filled character by character, with a cluster each, all others as
 * UTF-8. One buffer is filled, worked on and cleared so many TIMES. The script of Hebrew counts as Lydian, which runs
 * right to left too, but has no shaper of its own in HarfBuzz. */
#include <hb.h>
#include <stdint.h>
#include <stdio.h>
#include <stdlib.h>
#include <string.h>

size_t bench_shape(const uint8_t *utf8, size_t u, const uint32_t *chars, size_t n, const uint32_t *clusters, size_t m,
                   const uint32_t *glyphs, size_t g, const int32_t *advances, size_t a, const int32_t *boxes, size_t b,
                   uint32_t kept, uint32_t level, uint32_t times);
size_t bench_delete(const uint32_t *chars, size_t n, const uint32_t *clusters, size_t m, uint32_t times);
size_t bench_buffer(uint32_t work, uint32_t count);
size_t bench_lines(int32_t even, int32_t odd, uint32_t width, uint32_t count);
void hidden_delete(hb_buffer_t *buffer);

/* ---- texts ---- */

static uint64_t seed = 88172645463325252ull;
static uint32_t
pick(uint32_t n)
{
  seed ^= seed << 13; seed ^= seed >> 7; seed ^= seed << 17;
  return (uint32_t) ((seed >> 11) % n);
}

static uint32_t *text, *clusters;
static size_t made, size, given;
static void put(uint32_t c) { if (made < size) text[made++] = c; }

/* Makes a bit of a text of this kind; returns whether there is such a kind. */
static int
make_bit(const char *kind)
{
  static const uint32_t three[] = {0x301, 0x302, 0x323}, five[] = {0x301, 0x302, 0x308, 0x30A, 0x323};
  static const uint32_t composed[] = {0xC2, 0xC5, 0xE1, 0xE9, 0x1EA4};
  uint32_t k, j;
  if (!strcmp(kind, "letters")) { for (k = 1 + pick(10); k; k--) put('a' + pick(26)); put(' '); }
  else if (!strcmp(kind, "digits")) { for (k = 1 + pick(10); k; k--) put('0' + pick(10)); put(' '); }
  else if (!strcmp(kind, "accents")) {
    for (k = 1 + pick(10); k; k--) {
      put(pick(3) == 0 ? (pick(2) ? 'a' : 'e') : 'a' + pick(26));
      if (pick(3) == 0) for (j = 1 + pick(2); j; j--) put(three[pick(3)]);
    }
    put(' ');
  }
  else if (!strcmp(kind, "stacks")) { put('a' + pick(26)); for (k = 3 + pick(10); k; k--) put(five[pick(5)]); }
  else if (!strcmp(kind, "hebrew")) {
    for (k = 2 + pick(5); k; k--) { put(0x5D0 + pick(27)); for (j = pick(3); j; j--) put(pick(2) ? 0x5BC : 0x5C1); }
    put(' ');
  }
  else if (!strcmp(kind, "precomposed")) { for (k = 1 + pick(10); k; k--) put(pick(4) == 0 ? composed[pick(5)] : 'a' + pick(26)); put(' '); }
  else if (!strcmp(kind, "worst32")) { put('a' + pick(26)); for (k = 0; k < 32; k++) put(k < 16 ? 0x301 : 0x323); }
  else if (!strcmp(kind, "sorted32")) { put('a' + pick(26)); for (k = 0; k < 32; k++) put(0x301); }
  else if (!strcmp(kind, "onerun")) put(made ? five[pick(5)] : 'o');
  else if (!strcmp(kind, "hide")) put(made < size / 2 ? 0x200C : made == size / 2 ? 0x5D0 : 0x5BC);
  else if (!strcmp(kind, "chain")) { put('a'); put(0x301); put(0x323); }
  else if (!strcmp(kind, "graphemes")) { put('a'); put(0x301); }
  else if (!strcmp(kind, "variants")) { put('a'); put(0xFE00); }
  else if (!strcmp(kind, "deleted")) put(made < size / 2 ? 'a' : 'x');
  else return 0;
  return 1;
}

/* Clusters of the hostile kinds: each merge reaches back to the beginning of the text. */
static void
make_clusters(const char *kind)
{
  size_t k;
  given = size;
  if (!strcmp(kind, "chain")) for (k = 0; k < size; k++) clusters[k] = (uint32_t) (size - k / 3 - (k % 3 == 2));
  else if (!strcmp(kind, "graphemes") || !strcmp(kind, "variants")) for (k = 0; k < size; k++) clusters[k] = (uint32_t) (size - k / 2 - k % 2);
  else if (!strcmp(kind, "deleted")) for (k = 0; k < size; k++) clusters[k] = (uint32_t) (k < size / 2 ? size : size - k);
  else given = 0;
}

static char *utf8;
static size_t bytes;
static void
encode(void)
{
  utf8 = malloc(4 * size + 1);
  for (size_t k = 0; k < size; k++) {
    uint32_t c = text[k];
    if (c < 0x80) utf8[bytes++] = (char) c;
    else if (c < 0x800) { utf8[bytes++] = (char) (0xC0 | c >> 6); utf8[bytes++] = (char) (0x80 | (c & 63)); }
    else { utf8[bytes++] = (char) (0xE0 | c >> 12); utf8[bytes++] = (char) (0x80 | (c >> 6 & 63)); utf8[bytes++] = (char) (0x80 | (c & 63)); }
  }
}

/* ---- the face ---- */

enum { TABLE = 0x2000, GLYPHS = 512 };
static uint32_t table[TABLE];
static int32_t advances[GLYPHS], boxes[4 * GLYPHS];
static void
add(uint32_t c, uint32_t g, int32_t advance, int32_t x, int32_t y, int32_t width, int32_t height)
{
  table[c] = g; advances[g] = advance;
  boxes[4 * g] = x; boxes[4 * g + 1] = y; boxes[4 * g + 2] = width; boxes[4 * g + 3] = height;
}

static void
make_face(const char *kind)
{
  static const uint32_t above[] = {0x301, 0x302, 0x308, 0x30A}, composed[] = {0xC2, 0xC5, 0xE1, 0xE2, 0xE9, 0x1EA1, 0x1EA4, 0x1EB9};
  uint32_t c, i;
  if (strcmp(kind, "hide")) add(' ', 3, 250, 0, 0, 0, 0);
  for (c = '0'; c <= '9'; c++) add(c, c, 500, 20, 700, 500, -700);
  for (c = 'A'; c <= 'Z'; c++) add(c, c, 550, 20, 700, 500, -700);
  for (c = 'a'; c <= 'z'; c++) add(c, c, 450, 20, 500, 420, -500);
  for (i = 0; i < 4; i++) add(above[i], 200 + i, 200, 50, 800, 200, -150);
  add(0x323, 210, 200, 50, -50, 200, -100);
  for (c = 0x5D0; c <= 0x5EA; c++) add(c, 300 + c - 0x5D0, 500, 20, 550, 450, -550);
  add(0x5BC, 220, 0, 0, 300, 60, -60);
  add(0x5C1, 221, 0, 0, 650, 60, -60);
  if (!strcmp(kind, "accents")) for (i = 0; i < 8; i++) add(composed[i], 400 + i, 500, 20, 750, 450, -750);
}

static hb_bool_t
nominal(hb_font_t *f, void *d, hb_codepoint_t c, hb_codepoint_t *g, void *u)
{ (void) f; (void) d; (void) u; *g = c < TABLE ? table[c] : 0; return *g != 0; }

static hb_bool_t
variation(hb_font_t *f, void *d, hb_codepoint_t c, hb_codepoint_t s, hb_codepoint_t *g, void *u)
{ (void) f; (void) d; (void) u; *g = 7; return c == 'a' && s == 0xFE00; }

static hb_position_t
advance(hb_font_t *f, void *d, hb_codepoint_t g, void *u)
{ (void) f; (void) d; (void) u; return g < GLYPHS ? advances[g] : 0; }

static hb_bool_t
extents(hb_font_t *f, void *d, hb_codepoint_t g, hb_glyph_extents_t *e, void *u)
{
  (void) f; (void) d; (void) u;
  if (GLYPHS <= g) return 0;
  *e = (hb_glyph_extents_t) {boxes[4 * g], boxes[4 * g + 1], boxes[4 * g + 2], boxes[4 * g + 3]};
  return 1;
}

static hb_font_t *
make_font(void)
{
  hb_font_funcs_t *funcs = hb_font_funcs_create();
  hb_font_funcs_set_nominal_glyph_func(funcs, nominal, NULL, NULL);
  hb_font_funcs_set_variation_glyph_func(funcs, variation, NULL, NULL);
  hb_font_funcs_set_glyph_h_advance_func(funcs, advance, NULL, NULL);
  hb_font_funcs_set_glyph_extents_func(funcs, extents, NULL, NULL);
  hb_face_t *face = hb_face_create(hb_blob_get_empty(), 0); /* the empty face itself has no shaper */
  hb_face_set_upem(face, 1000);
  hb_font_t *font = hb_font_create(face);
  hb_font_set_scale(font, 1000, 1000);
  hb_font_set_funcs(font, funcs, NULL, NULL);
  return font;
}

static hb_script_t
script(hb_unicode_funcs_t *f, hb_codepoint_t c, void *parent)
{
  (void) f;
  hb_script_t s = hb_unicode_script(parent, c);
  return s == HB_SCRIPT_HEBREW ? HB_SCRIPT_LYDIAN : s;
}

/* ---- work ---- */

static const char *const only_ot[] = {"ot", NULL};
static size_t
work_harfbuzz(const char *engine, int level, int times)
{
  hb_unicode_funcs_t *parent = hb_unicode_funcs_get_default(), *unicode = hb_unicode_funcs_create(parent);
  hb_unicode_funcs_set_script_func(unicode, script, parent, NULL);
  hb_font_t *font = make_font();
  hb_buffer_t *buffer = hb_buffer_create();
  hb_shape_plan_t *plan = NULL;
  size_t count = 0;
  hb_bool_t done = 1;
  for (int i = 0; i < times && done; i++) {
    hb_buffer_clear_contents(buffer);
    hb_buffer_set_unicode_funcs(buffer, unicode);
    hb_buffer_set_cluster_level(buffer, (hb_buffer_cluster_level_t) level);
    if (given) for (size_t k = 0; k < size; k++) hb_buffer_add(buffer, text[k], clusters[k]);
    else hb_buffer_add_utf8(buffer, utf8, (int) bytes, 0, (int) bytes);
    hb_buffer_set_content_type(buffer, HB_BUFFER_CONTENT_TYPE_UNICODE);
    if (!strcmp(engine, "hbdelete")) hidden_delete(buffer);
    else {
      hb_buffer_guess_segment_properties(buffer);
      if (!strcmp(engine, "hb")) done = hb_shape_full(font, buffer, NULL, 0, only_ot);
      else {
        if (!plan) {
          hb_segment_properties_t p;
          hb_buffer_get_segment_properties(buffer, &p);
          plan = hb_shape_plan_create(hb_font_get_face(font), &p, NULL, 0, only_ot);
        }
        done = hb_shape_plan_execute(plan, font, buffer, NULL, 0);
      }
    }
    count = done ? hb_buffer_get_length(buffer) : 0;
  }
  return count;
}

/* Works on the library's buffer alone, and cuts glyphs into lines. */
static size_t
work_buffer(const char *engine, int level, const char *kind, int times)
{
  int even = 0, odd = 0;
  unsigned width = 0;
  size_t count = 0;
  if (!strcmp(engine, "lines") && sscanf(kind, "%d,%d,%u", &even, &odd, &width) != 3) return 0;
  for (int i = 0; i < times; i++)
    count = strcmp(engine, "lines") ? bench_buffer((uint32_t) level, (uint32_t) size) : bench_lines(even, odd, width, (uint32_t) size);
  return count;
}

int
main(int argc, char **argv)
{
  if (argc != 6) return 2;
  const char *engine = argv[1], *kind = argv[3];
  int level = atoi(argv[2]), times = atoi(argv[5]);
  size = (size_t) atol(argv[4]);
  if (!strcmp(engine, "buffer") || !strcmp(engine, "lines")) {
    printf("%zu glyphs\n", work_buffer(engine, level, kind, times));
    return 0;
  }
  text = malloc(4 * size + 4); clusters = malloc(4 * size + 4);
  while (made < size) if (!make_bit(kind)) return 2;
  make_clusters(kind);
  encode();
  make_face(kind);
  size_t count;
  if (!strncmp(engine, "hb", 2)) count = work_harfbuzz(engine, level, times);
  else if (!strcmp(engine, "delete")) count = bench_delete(text, size, clusters, given, (uint32_t) times);
  else
    count = bench_shape((const uint8_t *) utf8, bytes, text, size, clusters, given, table, TABLE, advances, GLYPHS, boxes, 4 * GLYPHS,
                        !strcmp(engine, "kept"), (uint32_t) level, (uint32_t) times);
  printf("%zu glyphs\n", count);
  return 0;
}
