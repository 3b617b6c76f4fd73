/* Faces over the bytes of a font file, beside HarfBuzz's over the same bytes (crates/bench_runs, a static
 * library).
 *
 *   faces ENGINE FONT TEXT TIMES
 *
 * ENGINE: hblook, look, opened (glyph and advance of each character of a text, by HarfBuzz, by the face, by the face that is
 * opened once), hbrun, rbrun, run, runopened, kern, kernopened, layout, layoutopened (whole runs without lookups, with kern alone
 * or with all tables of lookups, one plan; built with -DRUNS, rbrun by rustybuzz with -DRUSTYBUZZ), scripted (the last over the
 * face that is opened once, by the shaper of the text's script, as HarfBuzz and rustybuzz choose one), hbplan, rbplan, plan,
 * planopened (the same with all tables, and a plan for each run), hbfirst, rbfirst, first, firstopened (the face opened for each
 * run, too), hbopen, open, openonce (the face alone made anew each time). TEXT is a file in UTF-8. Prints a sum, or the number of
 * glyphs, which must be equal for all.
 * check in place of ENGINE compares the look-ups of the three for every character of Unicode. */
#include <hb.h>
#include <stdint.h>
#include <stdio.h>
#include <stdlib.h>
#include <string.h>

size_t bench_look_up(const uint8_t *font, size_t n, const uint32_t *chars, size_t m, uint32_t opened, uint32_t times);
size_t bench_open(const uint8_t *font, size_t n, uint32_t opened, uint32_t times);
#ifdef RUNS
size_t bench_font(const uint8_t *font, size_t n, const uint8_t *utf8, size_t u, uint32_t how, uint32_t times);
#endif
#ifdef RUSTYBUZZ
size_t rustybuzz_runs(const uint8_t *font, size_t n, const uint8_t *utf8, size_t u, uint32_t fresh, uint32_t times);
#endif

static char *
slurp(const char *path, size_t *n)
{
  FILE *f = fopen(path, "rb");
  if (!f) { perror(path); exit(2); }
  fseek(f, 0, SEEK_END); *n = (size_t) ftell(f); rewind(f);
  char *b = malloc(*n + 1);
  if (fread(b, 1, *n, f) != *n) exit(2);
  fclose(f);
  return b;
}

static char *font_bytes, *text;
static size_t font_size, text_size;

__attribute__((noinline)) static hb_font_t *
hb_opened(void)
{
  hb_blob_t *blob = hb_blob_create(font_bytes, (unsigned) font_size, HB_MEMORY_MODE_READONLY, NULL, NULL);
  hb_face_t *face = hb_face_create(blob, 0);
  hb_font_t *font = hb_font_create(face);
  hb_face_destroy(face); hb_blob_destroy(blob);
  return font;
}

__attribute__((noinline)) static uint32_t
hb_looked_up(hb_font_t *font, const uint32_t *chars, size_t n, uint32_t sum)
{
  hb_codepoint_t glyph;
  for (size_t k = 0; k < n; k++)
    if (hb_font_get_nominal_glyph(font, chars[k], &glyph))
      sum = sum * 31 + glyph + (uint32_t) hb_font_get_glyph_h_advance(font, glyph);
  return sum;
}

__attribute__((noinline)) static void
hb_fill(hb_buffer_t *b)
{
  hb_buffer_clear_contents(b);
  hb_buffer_add_utf8(b, text, (int) text_size, 0, (int) text_size);
}

__attribute__((noinline)) static void
hb_run(hb_shape_plan_t *plan, hb_font_t *font, hb_buffer_t *b)
{
  hb_buffer_guess_segment_properties(b);
  hb_shape_plan_execute(plan, font, b, NULL, 0);
}

/* A plan for what a buffer is filled with. */
static hb_shape_plan_t *
hb_planned(hb_font_t *font, hb_buffer_t *b)
{
  static const char *const only_ot[] = {"ot", NULL};
  hb_segment_properties_t p;
  hb_buffer_guess_segment_properties(b);
  hb_buffer_get_segment_properties(b, &p);
  return hb_shape_plan_create(hb_font_get_face(font), &p, NULL, 0, only_ot);
}

/* Runs with one plan, or with a plan for each. */
static unsigned
hb_runs(int fresh, int times)
{
  hb_font_t *font = hb_opened();
  hb_buffer_t *b = hb_buffer_create();
  hb_shape_plan_t *plan = NULL;
  for (int k = 0; k < times; k++) {
    hb_fill(b);
    if (fresh || !plan) { hb_shape_plan_destroy(plan); plan = hb_planned(font, b); }
    hb_run(plan, font, b);
  }
  unsigned n = hb_buffer_get_length(b);
  hb_shape_plan_destroy(plan); hb_buffer_destroy(b); hb_font_destroy(font);
  return n;
}

static uint32_t *
decoded(size_t *n)
{
  uint32_t *chars = malloc(4 * text_size + 4);
  *n = 0;
  for (size_t k = 0; k < text_size;) {
    uint8_t c = (uint8_t) text[k++];
    uint32_t more = c < 0x80 ? 0 : c < 0xE0 ? 1 : c < 0xF0 ? 2 : 3, u = more ? c & (0x3Fu >> more) : c;
    while (more--) u = u << 6 | ((uint8_t) text[k++] & 0x3F);
    chars[(*n)++] = u;
  }
  return chars;
}

/* How many characters of Unicode the three look up differently. */
static int
differences(void)
{
  hb_font_t *font = hb_opened();
  int count = 0;
  for (uint32_t c = 0; c < 0x110000; c += 256) {
    uint32_t page[256];
    for (uint32_t k = 0; k < 256; k++) page[k] = c + k;
    if (c >= 0xD800 && c < 0xE000) continue; /* no characters */
    uint32_t theirs = hb_looked_up(font, page, 256, 0);
    uint32_t look = (uint32_t) bench_look_up((uint8_t *) font_bytes, font_size, page, 256, 0, 1);
    /* opening is long, so the opened face is asked for all pages at once below */
    if (theirs != look) { printf("page %X: %08X %08X\n", c, theirs, look); count++; }
  }
  uint32_t *all = malloc(4 * 0x110000), n = 0;
  for (uint32_t c = 0; c < 0x110000; c++) if (c < 0xD800 || c >= 0xE000) all[n++] = c;
  uint32_t look = (uint32_t) bench_look_up((uint8_t *) font_bytes, font_size, all, n, 0, 1);
  uint32_t opened = (uint32_t) bench_look_up((uint8_t *) font_bytes, font_size, all, n, 1, 1);
  if (look != opened) { printf("opened: %08X %08X\n", look, opened); count++; }
  return count;
}

int
main(int argc, char **argv)
{
  if (argc < 3) return 2;
  font_bytes = slurp(argv[2], &font_size);
  if (!strcmp(argv[1], "check")) { int n = differences(); printf("%s: %d differences\n", argv[2], n); return n != 0; }
  if (argc < 5) return 2;
  text = slurp(argv[3], &text_size);
  const char *engine = argv[1];
  int times = atoi(argv[4]);
  size_t n, sum = 0;
  uint32_t *chars = decoded(&n);
  uint8_t *bytes = (uint8_t *) font_bytes;
  if (!strcmp(engine, "look") || !strcmp(engine, "opened"))
    sum = bench_look_up(bytes, font_size, chars, n, engine[0] == 'o', (uint32_t) times);
  else if (!strcmp(engine, "open") || !strcmp(engine, "openonce"))
    sum = bench_open(bytes, font_size, engine[4] != 0, (uint32_t) times);
  else if (!strcmp(engine, "hblook")) {
    hb_font_t *font = hb_opened();
    for (int k = 0; k < times; k++) sum = hb_looked_up(font, chars, n, (uint32_t) sum);
  }
  else if (!strcmp(engine, "hbopen"))
    for (int k = 0; k < times; k++) { hb_font_t *font = hb_opened(); sum = hb_looked_up(font, chars, 1, 0); hb_font_destroy(font); }
  else if (!strcmp(engine, "hbrun") || !strcmp(engine, "hbplan")) sum = hb_runs(engine[2] == 'p', times);
  else if (!strcmp(engine, "hbfirst"))
    for (int k = 0; k < times; k++) sum = hb_runs(0, 1);
#ifdef RUSTYBUZZ
  else if (!strcmp(engine, "rbrun") || !strcmp(engine, "rbplan"))
    sum = rustybuzz_runs(bytes, font_size, (uint8_t *) text, text_size, engine[2] == 'p', (uint32_t) times);
  else if (!strcmp(engine, "rbfirst"))
    for (int k = 0; k < times; k++) sum = rustybuzz_runs(bytes, font_size, (uint8_t *) text, text_size, 0, 1);
#endif
#ifdef RUNS
  else if (!strncmp(engine, "plan", 4) || !strncmp(engine, "first", 5)) {
    uint32_t how = 8 | (strstr(engine, "opened") != NULL) << 2 | (engine[0] == 'f');
    uint32_t calls = engine[0] == 'f' ? (uint32_t) times : 1;
    for (uint32_t k = 0; k < calls; k++)
      sum = bench_font(bytes, font_size, (uint8_t *) text, text_size, how, engine[0] == 'f' ? 1 : (uint32_t) times);
  }
  else if (!strncmp(engine, "run", 3) || !strncmp(engine, "kern", 4) || !strncmp(engine, "layout", 6) || !strcmp(engine, "scripted")) {
    uint32_t how = 1 | (engine[0] == 'k') << 1 | (strstr(engine, "opened") != NULL) << 2 | (engine[0] == 'l') << 3;
    if (engine[0] == 's') how = 1 | 4 | 8 | 16;
    sum = bench_font(bytes, font_size, (uint8_t *) text, text_size, how, (uint32_t) times);
  }
#endif
  else return 2;
  printf("%zu\n", sum);
  return 0;
}
