/* Prints raqm's runs of each line of code points: raqm's calls of HarfBuzz are answered here, and shape nothing. */
#include <stdio.h>
#include <stdlib.h>
#include <string.h>
#include <hb.h>
#include <raqm.h>
#include <ft2build.h>
#include FT_FREETYPE_H

struct run { int pos, len; hb_script_t script; hb_direction_t direction; };
static struct run runs[100000];
static int count;

void hb_buffer_add_utf32(hb_buffer_t *b, const uint32_t *t, int n, unsigned int pos, int len) {
  (void)b; (void)t; (void)n; runs[count].pos = (int)pos; runs[count].len = len; }
void hb_buffer_set_script(hb_buffer_t *b, hb_script_t s) { (void)b; runs[count].script = s; }
void hb_buffer_set_direction(hb_buffer_t *b, hb_direction_t d) { (void)b; runs[count].direction = d; }
hb_bool_t hb_shape_full(hb_font_t *f, hb_buffer_t *b, const hb_feature_t *x, unsigned int n, const char *const *l) {
  (void)f; (void)b; (void)x; (void)n; (void)l; count++; return 1; }
void hb_shape(hb_font_t *f, hb_buffer_t *b, const hb_feature_t *x, unsigned int n) { (void)f;(void)b;(void)x;(void)n; count++; }

static int by_pos(const void *a, const void *b) { return ((const struct run *)a)->pos - ((const struct run *)b)->pos; }

int main(int argc, char **argv) {
  (void)argc;
  FT_Library lib; FT_Face face;
  FT_Init_FreeType(&lib);
  if (FT_New_Face(lib, argv[1], 0, &face)) return 1;
  FT_Set_Char_Size(face, 16 * 64, 0, 0, 0);
  char *line = NULL; size_t cap = 0;
  static uint32_t text[100000];
  while (getline(&line, &cap, stdin) > 0) {
    size_t n = 0; char *p = line, *e;
    for (;;) { unsigned long v = strtoul(p, &e, 16); if (e == p) break; text[n++] = (uint32_t)v; p = e; }
    int dir = *p == ';' ? atoi(p + 1) : 2;
    raqm_t *rq = raqm_create();
    count = 0;
    if (n) {
      raqm_set_text(rq, text, n);
      raqm_set_freetype_face(rq, face);
      raqm_set_par_direction(rq, dir == 0 ? RAQM_DIRECTION_LTR : dir == 1 ? RAQM_DIRECTION_RTL : RAQM_DIRECTION_DEFAULT);
      if (!raqm_layout(rq)) { puts("failed"); raqm_destroy(rq); continue; }
    }
    qsort(runs, count, sizeof *runs, by_pos);
    for (int i = 0; i < count; i++) {
      char tag[5]; hb_tag_to_string(runs[i].script, tag); tag[4] = 0;
      printf("%s%d %d %s %d", i ? ";" : "", runs[i].pos, runs[i].pos + runs[i].len, tag, runs[i].direction == HB_DIRECTION_RTL);
    }
    putchar('\n');
    raqm_destroy(rq);
  }
  return 0;
}
