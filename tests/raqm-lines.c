/* Prints raqm's glyphs of each line of a text in UTF-8, from left to right: number, byte of the line,
   offsets if there are any, and advance, in units of the font. */
#include <stdio.h>
#include <stdlib.h>
#include <string.h>
#include <raqm.h>
#include <ft2build.h>
#include FT_FREETYPE_H

static void print_glyphs(raqm_t *line) {
  size_t count = 0;
  raqm_glyph_t *glyphs = raqm_get_glyphs(line, &count);
  for (size_t i = 0; i < count; i++) {
    raqm_glyph_t *it = &glyphs[i];
    printf("%s%u=%u", i ? "|" : "", it->index, it->cluster);
    if (it->x_offset || it->y_offset)
      printf("@%d,%d", (int)it->x_offset / 64, (int)it->y_offset / 64);
    printf("+%d", (int)it->x_advance / 64);
  }
}

int main(int argc, char **argv) {
  FT_Library library;
  FT_Face face;
  if (argc < 2 || FT_Init_FreeType(&library) || FT_New_Face(library, argv[1], 0, &face)) return 1;
  /* a unit of the font is a pixel, 64 of FreeType's */
  if (FT_Set_Pixel_Sizes(face, face->units_per_EM, face->units_per_EM)) return 1;
  char *text = NULL;
  size_t room = 0;
  ssize_t length;
  while ((length = getline(&text, &room, stdin)) > 0) {
    if (text[length - 1] == '\n') length--;
    raqm_t *line = raqm_create();
    if (line && length && raqm_set_text_utf8(line, text, (size_t)length)
        && raqm_set_freetype_face(line, face)
        && raqm_set_freetype_load_flags(line, FT_LOAD_NO_HINTING | FT_LOAD_NO_BITMAP)
        && raqm_set_par_direction(line, RAQM_DIRECTION_DEFAULT) && raqm_layout(line))
      print_glyphs(line);
    putchar('\n');
    raqm_destroy(line);
  }
  free(text);
  return 0;
}
