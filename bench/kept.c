/* A text that is shaped again and again over a kept font, by the library for C and by HarfBuzz (a call for each time):
 *
 *   kept ENGINE FONT TIMES [TAG=VALUE..] < TEXT
 *
 * ENGINE: ours (luthgarn_shape_font over one font), shared (each time over a font that shares it, so with a new plan), opened
 * (luthgarn_shape, which opens the font), hb (hb_shape over one hb_font_t and one hb_buffer_t). The text is the first line, of at
 * most 4,096 bytes. All but opened put axes of a variable font at these values. Prints how many glyphs there are, and the sum of
 * their advances. */
#include "../bindings/c/luthgarn.h"

#include <hb.h>
#include <stdio.h>
#include <stdlib.h>
#include <string.h>

static uint8_t *font_bytes;
static size_t font_size, text_size;
static char text[4097];
static luthgarn_variation wishes[16];
static size_t wish_count;
static long advances;

static void
slurp(const char *path)
{
  FILE *f = fopen(path, "rb");
  if (!f) { perror(path); exit(2); }
  fseek(f, 0, SEEK_END); font_size = (size_t) ftell(f); rewind(f);
  font_bytes = malloc(font_size + 1);
  if (!font_bytes || fread(font_bytes, 1, font_size, f) != font_size) exit(2);
  fclose(f);
}

static size_t
by_harfbuzz(long times)
{
  hb_blob_t *blob = hb_blob_create((const char *) font_bytes, (unsigned) font_size, HB_MEMORY_MODE_READONLY, NULL, NULL);
  hb_face_t *face = hb_face_create(blob, 0);
  hb_font_t *font = hb_font_create(face);
  hb_buffer_t *buffer = hb_buffer_create();
  hb_variation_t wished[16];
  size_t count = 0;
  for (size_t k = 0; k < wish_count; k++) wished[k] = (hb_variation_t) {wishes[k].tag, wishes[k].value};
  if (wish_count) hb_font_set_variations(font, wished, (unsigned) wish_count);
  for (long k = 0; k < times; k++) {
    unsigned n;
    hb_buffer_clear_contents(buffer);
    hb_buffer_add_utf8(buffer, text, (int) text_size, 0, (int) text_size);
    hb_buffer_guess_segment_properties(buffer);
    hb_shape(font, buffer, NULL, 0);
    hb_buffer_get_glyph_infos(buffer, &n);
    hb_glyph_position_t *places = hb_buffer_get_glyph_positions(buffer, &n);
    count = n;
    for (advances = 0; n; n--) advances += places[n - 1].x_advance;
  }
  hb_buffer_destroy(buffer);
  hb_font_destroy(font);
  hb_face_destroy(face);
  hb_blob_destroy(blob);
  return count;
}

static size_t
by_library(const char *engine, long times)
{
  size_t room = text_size + 64, count = 0;
  luthgarn_glyph *glyphs = malloc(room * sizeof *glyphs);
  luthgarn_font font = {0};
  int32_t there[64];
  if (luthgarn_coordinates(font_bytes, font_size, 0, wishes, wish_count, there, 64, &count)) exit(2);
  if (!glyphs || luthgarn_font_new_at(font_bytes, font_size, 0, there, count, &font)) exit(2);
  for (long k = 0; k < times; k++) {
    luthgarn_run run = {.end = (uint32_t) text_size, .after = (uint32_t) text_size};
    luthgarn_font copy = {0};
    luthgarn_outcome o;
    if (!strcmp(engine, "shared") && luthgarn_font_share(&font, &copy)) exit(2);
    if (!strcmp(engine, "opened"))
      o = luthgarn_shape(font_bytes, font_size, 0, NULL, 0, (const uint8_t *) text, text_size, &run, 1, glyphs, room);
    else
      o = luthgarn_shape_font(copy.is_open ? &copy : &font, NULL, 0, (const uint8_t *) text, text_size, &run, 1, glyphs, room);
    if (o.code) exit(2);
    count = o.glyphs;
    advances = 0;
    for (size_t g = 0; g < count; g++) advances += glyphs[g].x_advance;
    luthgarn_font_free(&copy);
  }
  luthgarn_font_free(&font);
  free(glyphs);
  return count;
}

int
main(int argc, char **argv)
{
  if (argc < 4 || argc > 20 || !fgets(text, sizeof text, stdin)) return 2;
  for (int k = 4; k < argc; k++) {
    const char *wish = argv[k];
    if (strlen(wish) < 6 || wish[4] != '=') return 2;
    wishes[wish_count++] = (luthgarn_variation) {LUTHGARN_TAG(wish[0], wish[1], wish[2], wish[3]), strtof(wish + 5, NULL)};
  }
  slurp(argv[2]);
  text_size = strcspn(text, "\n");
  size_t count = strcmp(argv[1], "hb") ? by_library(argv[1], atol(argv[3])) : by_harfbuzz(atol(argv[3]));
  printf("%zu %ld\n", count, advances);
  return 0;
}
