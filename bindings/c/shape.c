/* Shapes each line of standard input with a font file, all in one call, and writes the glyphs as
 * `hb-shape --no-glyph-names` does: number, cluster, offset, advance.
 *
 *   shape FONT [-f FEATURE].. [-v AXIS=VALUE].. [-d DIRECTION] [-s SCRIPT] [-l LANGUAGE] < TEXT */
#include "luthgarn.h"

#include <stdio.h>
#include <stdlib.h>
#include <string.h>

static void
fail(const char *what)
{
  fprintf(stderr, "shape: %s\n", what);
  exit(1);
}

/* Makes an array longer. */
static void *
grown(void *array, size_t bytes)
{
  array = realloc(array, bytes ? bytes : 1);
  if (!array) fail("no memory");
  return array;
}

/* All bytes of a file. */
static uint8_t *
slurp(FILE *file, size_t *size)
{
  uint8_t *bytes = grown(NULL, 65536);
  size_t room = 65536, n;
  *size = 0;
  while ((n = fread(bytes + *size, 1, room - *size, file)) > 0) {
    *size += n;
    if (*size == room) bytes = grown(bytes, room *= 2);
  }
  if (ferror(file)) fail("a file can't be read");
  return bytes;
}

/* What is wished of an axis of a variable font, as "wght=700". */
static luthgarn_variation
wish_of(const char *word)
{
  if (strlen(word) < 6 || word[4] != '=') fail("an axis has four letters, as wght=700");
  return (luthgarn_variation) {LUTHGARN_TAG(word[0], word[1], word[2], word[3]), strtof(word + 5, NULL)};
}

/* A run for each line, like the first one but for its places. */
static luthgarn_run *
lines_of(const uint8_t *text, size_t size, luthgarn_run like, size_t *count)
{
  luthgarn_run *runs = NULL;
  size_t room = 0;
  *count = 0;
  for (size_t start = 0; start < size;) {
    const uint8_t *mark = memchr(text + start, '\n', size - start);
    size_t end = mark ? (size_t) (mark - text) : size;
    if (*count == room) runs = grown(runs, (room = 2 * room + 64) * sizeof *runs);
    like.before = like.start = (uint32_t) start;
    like.end = like.after = (uint32_t) end;
    runs[(*count)++] = like;
    start = end + 1;
  }
  return grown(runs, *count * sizeof *runs);
}

/* Shapes all runs: where the array of glyphs is too short, it is made longer, and the rest of the runs follow. */
static luthgarn_glyph *
shaped(luthgarn_font *font, const luthgarn_feature *features, size_t feature_count, const uint8_t *text, size_t text_size,
       luthgarn_run *runs, size_t run_count)
{
  size_t room = text_size + 64, used = 0, done = 0;
  luthgarn_glyph *glyphs = grown(NULL, room * sizeof *glyphs);
  for (;;) {
    luthgarn_outcome outcome = luthgarn_shape_font(font, features, feature_count, text, text_size, runs + done,
                                                   run_count - done, glyphs + used, room - used);
    for (size_t k = done; k < done + outcome.runs; k++) runs[k].glyphs += used;
    done += outcome.runs;
    used += outcome.glyphs;
    if (outcome.code == LUTHGARN_DONE) return glyphs;
    if (outcome.code != LUTHGARN_ROOM) {
      fprintf(stderr, "shape: line %zu: ", done + 1);
      fail(luthgarn_error_name(outcome.code));
    }
    room = 2 * room + outcome.needed;
    glyphs = grown(glyphs, room * sizeof *glyphs);
  }
}

static void
write_line(const luthgarn_glyph *glyphs, size_t count)
{
  putchar('[');
  for (size_t k = 0; k < count; k++) {
    const luthgarn_glyph *g = glyphs + k;
    printf("%s%u=%u", k ? "|" : "", g->glyph, g->cluster);
    if (g->x_offset || g->y_offset) printf("@%d,%d", g->x_offset, g->y_offset);
    printf("+%d", g->x_advance);
    if (g->y_advance) printf(",%d", g->y_advance);
  }
  puts("]");
}

int
main(int argc, char **argv)
{
  luthgarn_feature features[64];
  luthgarn_variation wishes[64];
  int32_t coordinates[64];
  size_t feature_count = 0, wish_count = 0, axis_count, font_size, text_size, run_count;
  luthgarn_run like = {0};
  if (argc < 2 || argc % 2)
    fail("usage: shape FONT [-f FEATURE].. [-v AXIS=VALUE].. [-d DIRECTION] [-s SCRIPT] [-l LANGUAGE] < TEXT");
  for (int k = 2; k < argc; k += 2) {
    const uint8_t *word = (const uint8_t *) argv[k + 1];
    size_t size = strlen(argv[k + 1]);
    switch (argv[k][0] == '-' ? argv[k][1] : 0) {
    case 'f':
      if (feature_count == 64 || luthgarn_parse_feature(word, size, features + feature_count)) fail("no such feature");
      feature_count++;
      break;
    case 'v':
      if (wish_count == 64) fail("too many axes");
      wishes[wish_count++] = wish_of(argv[k + 1]);
      break;
    case 'd':
      like.direction = luthgarn_parse_direction(word, size);
      if (!like.direction) fail("no such direction");
      break;
    case 's': like.script = luthgarn_parse_script(word, size); break;
    case 'l':
      luthgarn_set_language(&like, word, size);
      break;
    default: fail("no such option");
    }
  }
  FILE *file = fopen(argv[1], "rb");
  if (!file) fail("the font can't be opened");
  uint8_t *bytes = slurp(file, &font_size);
  fclose(file);
  luthgarn_font font = {0};
  uint32_t code = luthgarn_coordinates(bytes, font_size, 0, wishes, wish_count, coordinates, 64, &axis_count);
  if (code == LUTHGARN_DONE) code = luthgarn_font_new_at(bytes, font_size, 0, coordinates, axis_count, &font);
  if (code != LUTHGARN_DONE) fail(luthgarn_error_name(code));
  uint8_t *text = slurp(stdin, &text_size);
  luthgarn_run *runs = lines_of(text, text_size, like, &run_count);
  luthgarn_glyph *glyphs = shaped(&font, features, feature_count, text, text_size, runs, run_count);
  for (size_t k = 0, from = 0; k < run_count; from = runs[k++].glyphs)
    write_line(glyphs + from, runs[k].glyphs - from);
  luthgarn_font_free(&font);
  free(glyphs);
  free(runs);
  free(text);
  free(bytes);
  return 0;
}
