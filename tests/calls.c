/* Calls each function of luthgarn.h with right and wrong inputs, and then at random.
 *
 *   calls FONT CALLS [SEED [VARIABLE]]
 *
 * Every array that a call is given ends where a page begins that can't be read, so that an element past its end ends the
 * program by a signal. Memory that the library takes is counted: each call has to give all of it back, but for what fonts
 * that are kept have. Every third call is refused one of its blocks. A font that is kept has to give what `luthgarn_shape`
 * gives, and four threads share one. VARIABLE is the font of bindings.py whose A gets wider with its weight, and is another
 * glyph from the middle of the axis on. The program is linked with --wrap for malloc, realloc and free. */
#include "../bindings/c/luthgarn.h"

#define _GNU_SOURCE
#include <pthread.h>
#include <stdio.h>
#include <stdlib.h>
#include <string.h>
#include <sys/mman.h>

void *__real_malloc(size_t);
void *__real_realloc(void *, size_t);
void __real_free(void *);

static long held, taken, refuse_in = -1; /* (no block is refused while there are threads) */

static void
count_blocks(long more)
{
  __atomic_add_fetch(&held, more, __ATOMIC_SEQ_CST);
  if (more > 0) __atomic_add_fetch(&taken, more, __ATOMIC_SEQ_CST);
}

static int
is_refused(void)
{
  return refuse_in >= 0 && refuse_in-- == 0;
}

void *
__wrap_malloc(size_t n)
{
  void *block = is_refused() ? NULL : __real_malloc(n);
  count_blocks(block != NULL);
  return block;
}

void *
__wrap_realloc(void *old, size_t n)
{
  void *block = is_refused() ? NULL : __real_realloc(old, n);
  count_blocks(!old && block);
  return block;
}

void
__wrap_free(void *old)
{
  count_blocks(-(old != NULL));
  __real_free(old);
}

static unsigned long long state = 1;

static unsigned
below(unsigned n)
{
  state = state * 6364136223846793005ull + 1442695040888963407ull;
  return n ? (unsigned) (state >> 33) % n : 0;
}

static void
wrong(const char *what, size_t number)
{
  printf("calls: %s (%zu)\n", what, number);
  exit(1);
}

#define IS(what, condition) do { if (!(condition)) wrong(what, __LINE__); } while (0)

/* Room for arrays, each of which ends where the room does. */
enum { PAGE = 4096 };
struct room { uint8_t *end; size_t size; };

static struct room
room_for(size_t size)
{
  size_t pages = (size + PAGE - 1) / PAGE + 1;
  uint8_t *at = mmap(NULL, (pages + 1) * PAGE, PROT_READ | PROT_WRITE, MAP_PRIVATE | MAP_ANONYMOUS, -1, 0);
  if (at == MAP_FAILED || mprotect(at + pages * PAGE, PAGE, PROT_NONE)) wrong("no memory", size);
  struct room room = {at + pages * PAGE, pages * PAGE};
  return room;
}

static void *
fenced(struct room room, const void *from, size_t size)
{
  if (size > room.size) wrong("too large for its room", size);
  if (from) memcpy(room.end - size, from, size);
  return room.end - size;
}

/* The bytes of a file, which end where their room does. No block is held for them. */
static uint8_t *
slurp(const char *path, size_t *size)
{
  FILE *file = fopen(path, "rb");
  if (!file || fseek(file, 0, SEEK_END)) wrong("no font file", 0);
  *size = (size_t) ftell(file);
  rewind(file);
  uint8_t *bytes = room_for(*size).end - *size;
  if (fread(bytes, 1, *size, file) != *size) wrong("no font file", 1);
  fclose(file);
  held = 0;
  return bytes;
}

static struct room font_room, text_room, unit_room, feature_room, run_room, glyph_room, name_room;
static uint8_t *whole_font;
static size_t whole_size;

static const char *const texts[] = {
  "AVATAR office fjord 1/2", "C\xCC\x8C" "au, p\xC5\x99i\xCC\x81li\xC5\xA1", "\xD7\xA9\xD6\xB8\xD7\x9C\xD7\x95\xD6\xB9\xD7\x9D",
  "\xD8\xA7\xD9\x84\xD8\xB3\xD9\x91\xD9\x8E\xD9\x84\xD8\xA7\xD9\x85", "\xE0\xB8\x99\xE0\xB9\x89\xE0\xB8\xB3", "\xEA\xB0\x80\xE1\x86\xA8",
  "\xCE\xB1\xCC\x81\xE2\x80\x8D\xE2\x80\x8C\xEF\xB8\x8F", "\xF0\x9F\x98\x80", "\xFF\xC3(", "", "\xE2\x80", "x\xCC\x81\xCC\xA3\xCC\x81\xCC\xA3",
};
static const char *const words[] = {"kern=0", "-liga", "aalt[3:5]=2", "smcp", "rlig off", "", "====", "kern[", "\xFF", "dlig=4294967295"};

static uint32_t
any(void)
{
  return below(4) ? below(64) : below(2) ? 0xFFFFFFFFu - below(3) : below(0x7FFFFFFF);
}

static luthgarn_run
run_of(uint32_t start, uint32_t end)
{
  luthgarn_run run = {start, start, end, end, 0, 0, 0, 0, {0}, 0xAAAA};
  return run;
}

static luthgarn_run
any_run(uint32_t size)
{
  uint32_t a = below(size + 1), b = a + below(size + 1 - a);
  luthgarn_run run = run_of(below(2) ? 0 : a, below(2) ? size : b);
  static const uint32_t scripts[] = {0, 0, 0x4C61746E, 0x41726162, 0x48656272, 0x54686169, 0x48616E67, 0x4672616E};
  if (below(3) == 0) { run.before = below(run.start + 1); run.after = run.end + below(size + 1 - run.end); }
  if (below(12) == 0) run.before = any();
  if (below(12) == 0) run.start = any();
  if (below(12) == 0) run.end = any();
  if (below(12) == 0) run.after = any();
  run.direction = below(2) ? 0 : below(8) ? 4 + below(4) : any();
  run.script = below(6) ? scripts[below(8)] : any();
  run.flags = below(3) ? 0 : any();
  run.level = below(6) ? below(3) : any();
  if (below(4) == 0) memcpy(run.language, below(2) ? "sr" : "zh-hant-x-\xFF!", 3);
  if (below(9) == 0) memset(run.language, 'a' + (int) below(26), 16);
  return run;
}

/* What any outcome says of the arrays. */
static void
judge(luthgarn_outcome o, const luthgarn_run *runs, size_t run_count, const luthgarn_glyph *glyphs, size_t glyph_count, size_t call)
{
  if (o.code > LUTHGARN_ROOM || o.runs > run_count || o.glyphs > glyph_count) wrong("an outcome past its arrays", call);
  if ((o.code == LUTHGARN_DONE) != (o.runs == run_count) && run_count) wrong("an outcome that stopped and didn't", call);
  size_t from = 0;
  for (size_t k = 0; k < o.runs; k++) {
    if (runs[k].glyphs < from) wrong("glyphs that shrink", call);
    for (; from < runs[k].glyphs; from++)
      if (glyphs[from].cluster >= runs[k].end - runs[k].start) wrong("a cluster outside its run", call);
  }
  if (from != o.glyphs) wrong("a count of glyphs that isn't the last run's", call);
  for (size_t k = o.runs; k < run_count; k++)
    if (runs[k].glyphs != 0xAAAA) wrong("a run written past the last", call);
  for (size_t k = o.glyphs; k < glyph_count; k++)
    if (glyphs[k].cluster != 0xBBBB) wrong("a glyph written past the last", call);
  if (held) wrong("blocks that weren't given back", (size_t) held);
}

/* What a call is given. */
struct input {
  const uint8_t *font;
  size_t font_size;
  uint32_t index;
  const luthgarn_feature *features;
  size_t feature_count;
  const uint8_t *text;
  size_t text_size;
  luthgarn_run runs[8];
  size_t run_count, glyph_count;
};

/* Whether a font that is kept, or one that shares it, gives what `luthgarn_shape` gave. */
static void
kept_call(const struct input *in, luthgarn_outcome wanted, const luthgarn_run *runs, const luthgarn_glyph *glyphs, size_t call)
{
  luthgarn_font font = {0}, copy = {0};
  uint32_t code = luthgarn_font_new(in->font, in->font_size, in->index, &font);
  if ((code == LUTHGARN_FONT) != (wanted.code == LUTHGARN_FONT)) wrong("a font that is and isn't", call);
  if (code == LUTHGARN_FONT) return;
  if (code || luthgarn_font_share(&font, &copy)) wrong("a font that isn't kept", call);
  if (luthgarn_font_units_per_em(&copy) != luthgarn_units_per_em(in->font, in->font_size, in->index)) wrong("units", call);
  uint8_t *name = fenced(name_room, "nnn", 3);
  if (luthgarn_font_glyph_name(&copy, any(), name, 3) > 3 && memcmp(name, "nnn", 3)) wrong("a name without room", call);
  if (below(2)) luthgarn_font_free(&font);
  luthgarn_run *own = fenced(run_room, in->runs, in->run_count * sizeof *own);
  luthgarn_glyph *found = fenced(glyph_room, NULL, in->glyph_count * sizeof *found);
  for (size_t k = 0; k < in->glyph_count; k++) found[k] = (luthgarn_glyph) {.cluster = 0xBBBB};
  luthgarn_outcome o = luthgarn_shape_font(below(2) && font.is_open ? &font : &copy, in->features, in->feature_count, in->text,
                                           in->text_size, own, in->run_count, found, in->glyph_count);
  if (o.code != wanted.code || o.runs != wanted.runs || o.glyphs != wanted.glyphs || o.needed != wanted.needed)
    wrong("another outcome of a kept font", call);
  if (memcmp(own, runs, in->run_count * sizeof *own)) wrong("other runs of a kept font", call);
  if (memcmp(found, glyphs, in->glyph_count * sizeof *found)) wrong("other glyphs of a kept font", call);
  luthgarn_font_free(&copy);
  luthgarn_font_free(&font);
  if (held || font.is_open || copy.is_open) wrong("a font that isn't freed", call);
}

static void
random_call(size_t call)
{
  uint8_t text[256];
  size_t text_size = 0, font_size = below(8) ? whole_size : below((unsigned) whole_size + 1);
  uint8_t *font = fenced(font_room, whole_font, font_size);
  if (below(4) == 0)
    for (unsigned k = below(200); k > 0 && font_size; k--) font[below((unsigned) font_size)] = (uint8_t) below(256);
  for (unsigned k = below(5); k > 0; k--) {
    const char *more = texts[below(12)];
    memcpy(text + text_size, more, strlen(more));
    text_size += strlen(more);
  }
  size_t feature_count = below(4), run_count = below(5), glyph_count = below(4) ? 300 : below(20);
  uint8_t *own = fenced(text_room, text, text_size);
  luthgarn_feature *features = fenced(feature_room, NULL, feature_count * sizeof *features);
  for (size_t k = 0; k < feature_count; k++) {
    luthgarn_feature feature = {any(), any(), any(), any()};
    const char *word = words[below(10)];
    luthgarn_parse_feature((const uint8_t *) word, strlen(word), &feature);
    features[k] = feature;
  }
  struct input in = {font, font_size, below(16) ? 0 : any(), features, feature_count, own, text_size, {{0}}, run_count,
                     glyph_count};
  for (size_t k = 0; k < run_count; k++) in.runs[k] = any_run((uint32_t) text_size);
  luthgarn_run *runs = fenced(run_room, in.runs, run_count * sizeof *runs);
  luthgarn_glyph *glyphs = fenced(glyph_room, NULL, glyph_count * sizeof *glyphs);
  for (size_t k = 0; k < glyph_count; k++) glyphs[k] = (luthgarn_glyph) {.cluster = 0xBBBB};
  refuse_in = call % 3 ? -1 : (long) below(60);
  luthgarn_outcome outcome = luthgarn_shape(font, font_size, in.index, features, feature_count, own, text_size, runs,
                                            run_count, glyphs, glyph_count);
  refuse_in = -1;
  judge(outcome, runs, run_count, glyphs, glyph_count, call);
  if (outcome.code == LUTHGARN_MEMORY) return;
  luthgarn_run wanted_runs[8];
  luthgarn_glyph wanted[300];
  memcpy(wanted_runs, runs, run_count * sizeof *runs);
  memcpy(wanted, glyphs, glyph_count * sizeof *glyphs);
  kept_call(&in, outcome, wanted_runs, wanted, call);
}

static const luthgarn_feature *
no_features(void)
{
  return (const luthgarn_feature *) feature_room.end;
}

/* One run of a text over the whole font, with room for so many glyphs. */
static luthgarn_outcome
one(const char *text, luthgarn_run run, size_t room)
{
  luthgarn_glyph *glyphs = fenced(glyph_room, NULL, room * sizeof *glyphs);
  luthgarn_run *own = fenced(run_room, &run, sizeof run);
  for (size_t k = 0; k < room; k++) glyphs[k].cluster = 0xBBBB;
  luthgarn_outcome outcome = luthgarn_shape(whole_font, whole_size, 0, no_features(), 0, (const uint8_t *) text, strlen(text),
                                            own, 1, glyphs, room);
  judge(outcome, own, 1, glyphs, room, 0);
  return outcome;
}

static void
refusals_of_a_run(void)
{
  luthgarn_run run = run_of(0, 5), other = run;
  IS("a run that is done", one("AVATAR", run, 5).code == LUTHGARN_DONE);
  luthgarn_outcome outcome = one("AVATAR", run, 4);
  IS("no room", outcome.code == LUTHGARN_ROOM && outcome.needed == 5 && outcome.runs == 0);
  other.end = 7, other.after = 7;
  IS("an end past the text", one("AVATAR", other, 9).code == LUTHGARN_RUN);
  other = run, other.start = 6;
  IS("a start past the end", one("AVATAR", other, 9).code == LUTHGARN_RUN);
  other = run, other.before = 1;
  IS("a context that begins in the run", one("AVATAR", other, 9).code == LUTHGARN_RUN);
  other = run, other.after = 7;
  IS("a context past the text", one("AVATAR", other, 9).code == LUTHGARN_RUN);
  other = run, other.direction = 3;
  IS("no such direction", one("AVATAR", other, 9).code == LUTHGARN_RUN);
  other = run, other.level = 3;
  IS("no such level", one("AVATAR", other, 9).code == LUTHGARN_RUN);
  other = run, memcpy(other.language, "\xFF", 1);
  IS("a language that isn't UTF-8", one("AVATAR", other, 9).code == LUTHGARN_TEXT);
  IS("a run that cuts a character", one("AVAT\xC3\x89", run, 9).code == LUTHGARN_TEXT);
  IS("no text", one("", run_of(0, 0), 0).code == LUTHGARN_DONE);
}

static void
refusals_of_others(void)
{
  luthgarn_feature feature = {1, 2, 3, 4};
  const uint8_t *kern = (const uint8_t *) "kern[3:5]=2";
  IS("a feature that is none", luthgarn_parse_feature(kern, 7, &feature) == LUTHGARN_TEXT && feature.tag == 1 && feature.end == 4);
  IS("a feature that isn't UTF-8", luthgarn_parse_feature((const uint8_t *) "\xFF", 1, &feature) == LUTHGARN_TEXT);
  IS("a feature", luthgarn_parse_feature(kern, 11, &feature) == LUTHGARN_DONE);
  IS("its parts", feature.tag == 0x6B65726E && feature.value == 2 && feature.start == 3 && feature.end == 5);
  IS("directions", luthgarn_parse_direction((const uint8_t *) "rtl", 3) == 5 && luthgarn_parse_direction(kern, 0) == 0);
  IS("no direction", luthgarn_parse_direction(kern, 4) == 0 && luthgarn_parse_direction((const uint8_t *) "\xFF", 1) == 0);
  IS("scripts", luthgarn_parse_script((const uint8_t *) "latn", 4) == 0x4C61746E && luthgarn_parse_script(kern, 0) == 0);
  IS("no script", luthgarn_parse_script((const uint8_t *) "\xFF", 1) == 0);
  IS("a font", luthgarn_units_per_em(whole_font, whole_size, 0) == 2048);
  IS("no font of this number", luthgarn_units_per_em(whole_font, whole_size, 1) == 0);
  IS("no font", luthgarn_units_per_em(whole_font, 11, 0) == 0 && luthgarn_units_per_em(whole_font, 0, 0) == 0);
  luthgarn_outcome outcome = luthgarn_shape(whole_font, 11, 0, no_features(), 0, kern, 0, (luthgarn_run *) run_room.end, 0,
                                            (luthgarn_glyph *) glyph_room.end, 0);
  IS("a run over no font", outcome.code == LUTHGARN_FONT && outcome.runs == 0 && outcome.glyphs == 0);
}

/* NULL with count 0 is an empty array, and clusters count from the start of the text if that is asked for. */
static void
empty_arrays(void)
{
  luthgarn_font font = {0};
  luthgarn_run runs[2] = {run_of(0, 1), run_of(1, 3)};
  luthgarn_glyph glyphs[3];
  const uint8_t *text = (const uint8_t *) "AVA";
  IS("a font", luthgarn_font_new(whole_font, whole_size, 0, &font) == LUTHGARN_DONE);
  luthgarn_outcome o = luthgarn_shape_font(&font, NULL, 0, NULL, 0, NULL, 0, NULL, 0);
  IS("nothing at all", o.code == LUTHGARN_DONE && o.runs == 0 && o.glyphs == 0);
  o = luthgarn_shape(whole_font, whole_size, 0, NULL, 0, NULL, 0, NULL, 0, NULL, 0);
  IS("nothing of bytes", o.code == LUTHGARN_DONE && o.runs == 0 && o.glyphs == 0);
  o = luthgarn_shape_font(&font, NULL, 0, text, 3, runs, 2, NULL, 0);
  IS("no room", o.code == LUTHGARN_ROOM && o.needed == 1);
  IS("the size of a name", luthgarn_font_glyph_name(&font, 3, NULL, 0) == 5);
  o = luthgarn_shape_font(&font, NULL, 0, text, 3, runs, 2, glyphs, 3);
  IS("two runs", o.code == LUTHGARN_DONE && glyphs[0].cluster == 0 && glyphs[1].cluster == 0 && glyphs[2].cluster == 1);
  luthgarn_count_from_text(runs, o.runs, glyphs);
  IS("clusters of the text", glyphs[0].cluster == 0 && glyphs[1].cluster == 1 && glyphs[2].cluster == 2);
  luthgarn_font_free(&font);
  IS("all is freed", held == 0);
}

/* Fonts that are kept: none, one, one in place of another, one of two that share. */
static void
kept_fonts(void)
{
  luthgarn_font font = {0}, copy = {0}, none = {0};
  luthgarn_run run = run_of(0, 2);
  luthgarn_glyph glyphs[2];
  uint8_t *name = fenced(name_room, "nnn", 3);
  IS("a version", luthgarn_version()
     == LUTHGARN_VERSION_MAJOR * 65536 + LUTHGARN_VERSION_MINOR * 256 + LUTHGARN_VERSION_PATCH);
  IS("names of codes", !strcmp(luthgarn_error_name(LUTHGARN_FONT), "no such font") && luthgarn_error_name(7));
  IS("no font to open", luthgarn_font_new(whole_font, 11, 0, &font) == LUTHGARN_FONT && !font.is_open);
  IS("no font to share", luthgarn_font_share(&none, &copy) == LUTHGARN_FONT && !copy.is_open);
  IS("no units", luthgarn_font_units_per_em(&none) == 0);
  IS("no name", luthgarn_font_glyph_name(&none, 36, name, 3) == 0 && !memcmp(name, "nnn", 3));
  luthgarn_outcome outcome = luthgarn_shape_font(&none, no_features(), 0, (const uint8_t *) "AV", 2, &run, 1, glyphs, 2);
  IS("a run over no font", outcome.code == LUTHGARN_FONT && outcome.runs == 0 && outcome.glyphs == 0 && run.glyphs == 0xAAAA);
  luthgarn_font_free(&none);
  IS("a font", luthgarn_font_new(whole_font, whole_size, 0, &font) == LUTHGARN_DONE && font.is_open);
  long one_font = held;
  IS("its units", luthgarn_font_units_per_em(&font) == 2048);
  IS("the name A", luthgarn_font_glyph_name(&font, 36, name, 3) == 1 && !memcmp(name, "Ann", 3));
  IS("a longer name", luthgarn_font_glyph_name(&font, 3, name, 3) == 5 && !memcmp(name, "Ann", 3));
  IS("no glyph", luthgarn_font_glyph_name(&font, 0xFFFFFFFF, name, 3) == 0);
  IS("a font in its place", luthgarn_font_new(whole_font, whole_size, 0, &font) == LUTHGARN_DONE && held == one_font);
  IS("no font leaves it", luthgarn_font_new(whole_font, whole_size, 9, &font) == LUTHGARN_FONT && font.is_open);
  IS("a shared font", luthgarn_font_share(&font, &copy) == LUTHGARN_DONE && copy.is_open);
  IS("shared again", luthgarn_font_share(&font, &copy) == LUTHGARN_DONE && held == one_font + 2);
  luthgarn_font_free(&font);
  luthgarn_font_free(&font);
  outcome = luthgarn_shape_font(&copy, no_features(), 0, (const uint8_t *) "AV", 2, &run, 1, glyphs, 2);
  IS("a font that outlives another", outcome.code == LUTHGARN_DONE && outcome.glyphs == 2 && glyphs[0].glyph == 36);
  luthgarn_font_free(&copy);
  IS("all is freed", held == 0);
}

/* More plans than a font keeps: each text has the glyphs that it has without any, a plan is made once while it is kept, and
 * what is kept doesn't grow for ever. */
static void
kept_plans(void)
{
  luthgarn_font font = {0};
  long most = 0;
  const uint8_t *text = (const uint8_t *) "AVATAR";
  IS("a font", luthgarn_font_new(whole_font, whole_size, 0, &font) == LUTHGARN_DONE);
  for (uint32_t k = 0; k < 100; k++) {
    luthgarn_feature feature = {0x6B65726E, k & 1, 0, 2 + k};
    luthgarn_run run = run_of(0, 6), again = run, other = run;
    luthgarn_glyph wanted[6], glyphs[6];
    luthgarn_outcome w = luthgarn_shape(whole_font, whole_size, 0, &feature, 1, text, 6, &other, 1, wanted, 6);
    long start = taken;
    luthgarn_outcome o = luthgarn_shape_font(&font, &feature, 1, text, 6, &run, 1, glyphs, 6);
    IS("glyphs by a new plan", w.glyphs == 6 && o.glyphs == 6 && !memcmp(glyphs, wanted, sizeof glyphs));
    long first = taken - start, before = held;
    o = luthgarn_shape_font(&font, &feature, 1, text, 6, &again, 1, glyphs, 6);
    IS("glyphs by a kept plan", o.glyphs == 6 && !memcmp(glyphs, wanted, sizeof glyphs));
    IS("a plan that is made once", taken - start - first < first && held == before);
    if (k < 32) most = held;
    IS("plans without end", held <= most);
  }
  luthgarn_font_free(&font);
  IS("all is freed", held == 0);
}

/* Each block of a font refused in turn: it stays as it was. */
static void
refused_fonts(void)
{
  for (long n = 0; n < 1000; n++) {
    luthgarn_font font = {0}, copy = {0};
    refuse_in = n;
    uint32_t opened = luthgarn_font_new(whole_font, whole_size, 0, &font);
    uint32_t shared = opened ? LUTHGARN_MEMORY : luthgarn_font_share(&font, &copy);
    int whole = refuse_in >= 0;
    refuse_in = -1;
    IS("a refused font", opened == (font.is_open ? LUTHGARN_DONE : LUTHGARN_MEMORY));
    IS("a refused copy", shared == (copy.is_open ? LUTHGARN_DONE : LUTHGARN_MEMORY));
    luthgarn_font_free(&font);
    luthgarn_font_free(&copy);
    IS("all is freed", held == 0);
    if (whole) { printf("calls: each of %ld blocks of a font refused\n", n); return; }
  }
  wrong("no font is whole", 1000);
}

static int32_t sums[2];

/* How long AVATAR is without or with kerning; -1 if it isn't shaped. */
static int32_t
length_of(luthgarn_font *font, uint32_t kerned)
{
  luthgarn_glyph glyphs[6];
  luthgarn_run run = run_of(0, 6);
  luthgarn_feature kern = {0x6B65726E, kerned, 0, 0xFFFFFFFF};
  luthgarn_outcome o = luthgarn_shape_font(font, &kern, 1, (const uint8_t *) "AVATAR", 6, &run, 1, glyphs, 6);
  int32_t sum = 0;
  for (size_t k = 0; k < o.glyphs; k++) sum += glyphs[k].x_advance;
  return o.code ? -1 : sum;
}

/* One of the threads that share a font: it shares its own again and again, frees it, and shapes with what is left. */
static void *
thread_with(void *given)
{
  luthgarn_font font = *(luthgarn_font *) given;
  for (unsigned k = 0; k < 50; k++) {
    luthgarn_font other = {0};
    if (luthgarn_font_share(&font, &other)) return "a font that isn't shared";
    luthgarn_font_free(&font);
    font = other;
    if (length_of(&font, k % 2) != sums[k % 2]) return "other glyphs in a thread";
  }
  luthgarn_font_free(&font);
  return NULL;
}

static void
threads(void)
{
  pthread_t started[4];
  luthgarn_font font = {0}, fonts[4] = {{0}};
  IS("a font", luthgarn_font_new(whole_font, whole_size, 0, &font) == LUTHGARN_DONE);
  for (uint32_t k = 0; k < 2; k++) sums[k] = length_of(&font, k);
  IS("kerning", 0 < sums[1] && sums[1] < sums[0]);
  for (size_t k = 0; k < 4; k++) IS("a copy", luthgarn_font_share(&font, fonts + k) == LUTHGARN_DONE);
  for (size_t k = 0; k < 4; k++) IS("a thread", pthread_create(started + k, NULL, thread_with, fonts + k) == 0);
  luthgarn_font_free(&font);
  for (size_t k = 0; k < 4; k++) {
    void *what = NULL;
    pthread_join(started[k], &what);
    if (what) wrong(what, k);
  }
  IS("all is freed", held == 0);
}

/* A language's name of at most 64 bytes is written whole, and of a longer one the subtags that fit. */
static void
names_of_languages(void)
{
  static const uint8_t zeros[64];
  luthgarn_run run = run_of(0, 2);
  char name[80];
  memset(name, 'a', sizeof name);
  IS("a name", luthgarn_set_language(&run, (const uint8_t *) "sr", 2) == LUTHGARN_DONE);
  IS("its bytes", !memcmp(run.language, "sr\0", 3) && run.language[63] == 0 && run.end == 2 && run.glyphs == 0xAAAA);
  IS("the longest", luthgarn_set_language(&run, (const uint8_t *) name, 64) == LUTHGARN_DONE && !memcmp(run.language, name, 64));
  IS("a longer one", luthgarn_set_language(&run, (const uint8_t *) name, 65) == LUTHGARN_DONE && !memcmp(run.language, zeros, 64));
  memcpy(name, "fa-x-", 5);
  luthgarn_set_language(&run, (const uint8_t *) name, 80);
  IS("a language and no more", !memcmp(run.language, "fa", 2) && !memcmp(run.language + 2, zeros, 62) && run.end == 2);
  name[60] = '_';
  luthgarn_set_language(&run, (const uint8_t *) name, 80);
  IS("what fits", !memcmp(run.language, name, 60) && !memcmp(run.language + 60, zeros, 4));
  name[60] = 'a', name[64] = '-';
  luthgarn_set_language(&run, (const uint8_t *) name, 80);
  IS("all that fits", !memcmp(run.language, name, 64));
  IS("none", luthgarn_set_language(&run, NULL, 0) == LUTHGARN_DONE && run.language[0] == 0 && run.language[63] == 0);
}

/* One run of units over the whole font, with room for four glyphs, which are `glyphs` then. */
static luthgarn_outcome
one_of_units(const uint16_t *units, size_t count, luthgarn_run run, luthgarn_glyph *glyphs)
{
  luthgarn_glyph *found = fenced(glyph_room, NULL, 4 * sizeof *found);
  luthgarn_run *own = fenced(run_room, &run, sizeof run);
  for (size_t k = 0; k < 4; k++) found[k].cluster = 0xBBBB;
  luthgarn_outcome outcome = luthgarn_shape_utf16(whole_font, whole_size, 0, no_features(), 0,
                                                  fenced(unit_room, units, count * sizeof *units), count, own, 1, found, 4);
  judge(outcome, own, 1, found, 4, 0);
  memcpy(glyphs, found, 4 * sizeof *found);
  return outcome;
}

/* Surrogates with and without a partner, and where runs may not be. */
static void
texts_in_utf16(void)
{
  static const uint16_t replaced[] = {0xFFFD}, smile[] = {'a', 0xD83D, 0xDE00, 'b'}, turned[] = {0xDE00, 0xD83D};
  luthgarn_glyph g[4], r[4];
  IS("U+FFFD", one_of_units(replaced, 1, run_of(0, 1), r).glyphs == 1);
  IS("a pair", one_of_units(smile, 4, run_of(0, 4), g).glyphs == 3 && g[1].cluster == 1 && g[2].cluster == 3);
  IS("its glyph", g[1].glyph != r[0].glyph);
  IS("a run that cuts it", one_of_units(smile, 4, run_of(0, 2), g).glyphs == 2 && g[1].glyph == r[0].glyph && g[1].cluster == 1);
  IS("its other half", one_of_units(smile, 4, run_of(2, 4), g).glyphs == 2 && g[0].glyph == r[0].glyph && g[1].cluster == 1);
  IS("one turned", one_of_units(turned, 2, run_of(0, 2), g).glyphs == 2 && g[0].glyph == r[0].glyph && g[1].glyph == r[0].glyph);
  IS("past the text", one_of_units(smile, 4, run_of(0, 5), g).code == LUTHGARN_RUN);
  IS("backward", one_of_units(smile, 4, run_of(3, 2), g).code == LUTHGARN_RUN);
  IS("no room", one_of_units((const uint16_t[]) {'a', 'b', 'c', 'd', 'e'}, 5, run_of(0, 5), g).needed == 5);
  luthgarn_run run = run_of(0, 4);
  memcpy(run.language, "\xFF", 1);
  IS("a language that isn't UTF-8", one_of_units(smile, 4, run, g).code == LUTHGARN_TEXT);
  luthgarn_font none = {0};
  luthgarn_outcome o = luthgarn_shape_font_utf16(&none, NULL, 0, smile, 4, &run, 1, g, 4);
  IS("no font", o.code == LUTHGARN_FONT && o.runs == 0);
  o = luthgarn_shape_utf16(whole_font, whole_size, 0, NULL, 0, NULL, 0, NULL, 0, NULL, 0);
  IS("nothing at all", o.code == LUTHGARN_DONE && o.glyphs == 0);
}

/* A text in UTF-16 and in UTF-8, and where each character begins in either. */
struct both {
  uint16_t units[64];
  uint8_t bytes[256];
  uint32_t unit[65], byte[65];
  size_t count;
};

/* Decodes units, by the words of the standard. */
static void
decode(struct both *text, size_t unit_count)
{
  size_t at = 0, to = 0;
  for (text->count = 0; at < unit_count; text->count++) {
    uint32_t c = text->units[at], next = at + 1 < unit_count ? text->units[at + 1] : 0;
    text->unit[text->count] = (uint32_t) at++;
    text->byte[text->count] = (uint32_t) to;
    if (c >> 10 == 0x36 && next >> 10 == 0x37) c = 0x10000 + ((c & 0x3FF) << 10 | (next & 0x3FF)), at++;
    else if (c >> 11 == 0x1B) c = 0xFFFD;
    int more = c < 0x80 ? 0 : c < 0x800 ? 1 : c < 0x10000 ? 2 : 3;
    text->bytes[to++] = (uint8_t) (more ? (0xFF00 >> (more + 1) & 0xFF) | c >> 6 * more : c);
    while (more-- > 0) text->bytes[to++] = (uint8_t) (0x80 | (c >> 6 * more & 0x3F));
  }
  text->unit[text->count] = (uint32_t) at;
  text->byte[text->count] = (uint32_t) to;
}

/* A text in UTF-16 has to give what the same text in UTF-8 gives, in clusters of its own. */
static void
utf16_call(size_t call)
{
  static const uint16_t some[] = {'A', 'V', 'f', 'i', ' ', 0x10D, 0x301, 0x5D0, 0x5B8, 0x627, 0x644, 0xE19, 0xE33, 0x1100, 0x1161, 0x200D,
                                  0xD7FF, 0xE000, 0xFFFF, 0xD83D, 0xDE00, 0xD800, 0xDC00, 0xDBFF, 0xDFFF};
  struct both text;
  size_t unit_count = below(33);
  for (size_t k = 0; k < unit_count; k++) text.units[k] = some[below(25)];
  decode(&text, unit_count);
  unsigned n = (unsigned) text.count, a = below(n + 1), b = a + below(n + 1 - a), from = below(a + 1), to = b + below(n + 1 - b);
  luthgarn_run run = {text.byte[from], text.byte[a], text.byte[b], text.byte[to], below(2) ? 0 : 4 + below(4), 0, 0, below(3), {0}, 0xAAAA};
  luthgarn_run own = run, *owns = &own;
  own.before = text.unit[from], own.start = text.unit[a], own.end = text.unit[b], own.after = text.unit[to];
  unsigned first = a + below(b - a + 1), last = first + below(b - first + 1);
  luthgarn_feature feature = {0x6B65726E, below(2), text.byte[first] - text.byte[a], text.byte[last] - text.byte[a]}, other = feature;
  other.start = text.unit[first] - text.unit[a], other.end = text.unit[last] - text.unit[a];
  luthgarn_glyph wanted[150], *found = fenced(glyph_room, NULL, 150 * sizeof *found);
  luthgarn_outcome w = luthgarn_shape(whole_font, whole_size, 0, &feature, 1, text.bytes, text.byte[n], &run, 1, wanted, 150);
  for (size_t k = 0; k < 150; k++) found[k] = (luthgarn_glyph) {.cluster = 0xBBBB};
  uint16_t *units = fenced(unit_room, text.units, unit_count * sizeof *units);
  luthgarn_outcome o;
  if (below(2)) {
    luthgarn_font font = {0};
    if (luthgarn_font_new(whole_font, whole_size, 0, &font)) wrong("a font that isn't kept", call);
    o = luthgarn_shape_font_utf16(&font, &other, 1, units, unit_count, owns, 1, found, 150);
    luthgarn_font_free(&font);
  } else {
    o = luthgarn_shape_utf16(whole_font, whole_size, 0, &other, 1, units, unit_count, owns, 1, found, 150);
  }
  judge(o, owns, 1, found, 150, call);
  if (o.code != w.code || o.glyphs != w.glyphs || o.needed != w.needed || own.glyphs != run.glyphs) wrong("another outcome in UTF-16", call);
  for (size_t k = 0; k < o.glyphs; k++) {
    unsigned c = a;
    while (c < b && text.byte[c] - text.byte[a] != wanted[k].cluster) c++;
    wanted[k].cluster = text.unit[c] - text.unit[a];
    if (memcmp(wanted + k, found + k, sizeof *found)) wrong("another glyph in UTF-16", call);
  }
}

/* Each block of a call refused in turn. */
static void
refused_blocks(void)
{
  luthgarn_run run = run_of(0, 6);
  for (long n = 0; n < 1000; n++) {
    refuse_in = n;
    luthgarn_outcome outcome = one("AVATAR", run, 9);
    int whole = refuse_in >= 0;
    refuse_in = -1;
    IS("a refused block", outcome.code == (whole ? LUTHGARN_DONE : LUTHGARN_MEMORY));
    if (whole) { printf("calls: each of %ld blocks refused\n", n); return; }
  }
  wrong("no call is whole", 1000);
}

/* How wide an A of a kept font is, shaped twice, so that the second time a plan is found. */
static int32_t
wide(luthgarn_font *font)
{
  luthgarn_glyph glyphs[2];
  for (size_t k = 0; k < 2; k++) {
    luthgarn_run run = run_of(0, 1);
    luthgarn_outcome o = luthgarn_shape_font(font, NULL, 0, (const uint8_t *) "A", 1, &run, 1, glyphs + k, 1);
    IS("an A", o.code == LUTHGARN_DONE && o.glyphs == 1 && !memcmp(glyphs, glyphs + k, sizeof *glyphs));
  }
  return glyphs[0].x_advance;
}

/* Opens a font at coordinates in place of what `font` keeps. How wide its A is, and that of a font that shares it. */
static int32_t
wide_at(const uint8_t *bytes, size_t size, const int32_t *there, size_t count, luthgarn_font *font)
{
  luthgarn_font copy = {0};
  IS("a font at coordinates", luthgarn_font_new_at(bytes, size, 0, there, count, font) == LUTHGARN_DONE && font->is_open);
  IS("a font that shares it", luthgarn_font_share(font, &copy) == LUTHGARN_DONE && wide(font) == wide(&copy));
  luthgarn_font_free(&copy);
  return wide(font);
}

/* The coordinates of a weight. */
static const int32_t *
weighing(const uint8_t *bytes, size_t size, float weight, struct room room)
{
  const luthgarn_variation wish = {LUTHGARN_TAG('w', 'g', 'h', 't'), weight};
  int32_t *there = fenced(room, NULL, 4);
  size_t count = 9;
  IS("a weight", luthgarn_coordinates(bytes, size, 0, &wish, 1, there, 1, &count) == LUTHGARN_DONE && count == 1);
  return there;
}

/* Coordinates, with room and without, refused, and of fonts that have none; and a font opened at them. */
static void
variable_fonts(const char *path)
{
  size_t size, count = 9;
  uint8_t *bytes = slurp(path, &size);
  struct room room = room_for(8);
  int32_t *there = fenced(room, NULL, 4);
  luthgarn_variation wishes[2] = {{LUTHGARN_TAG('w', 'g', 'h', 't'), 900}, {LUTHGARN_TAG('w', 'd', 't', 'h'), 50}};
  there[0] = 7;
  IS("nothing wished", luthgarn_coordinates(bytes, size, 0, NULL, 0, there, 1, &count) == LUTHGARN_DONE && count == 0);
  IS("no room", luthgarn_coordinates(bytes, size, 0, wishes, 2, NULL, 0, &count) == LUTHGARN_ROOM && count == 1);
  IS("no axes", luthgarn_coordinates(whole_font, whole_size, 0, wishes, 2, there, 1, &count) == LUTHGARN_DONE && count == 0);
  IS("nothing written", there[0] == 7);
  for (long n = 0, code = LUTHGARN_MEMORY; code == LUTHGARN_MEMORY; n++) {
    count = 9;
    refuse_in = n;
    code = luthgarn_coordinates(bytes, size, 0, wishes, 2, there, 1, &count);
    refuse_in = -1;
    IS("a refused block", code == LUTHGARN_MEMORY ? count == 9 && there[0] == 7 : n > 0 && count == 1 && there[0] == 16384);
    IS("all is freed", held == 0);
  }
  luthgarn_font font = {0}, other = {0};
  IS("no font", luthgarn_font_new_at(bytes, 11, 0, there, 1, &font) == LUTHGARN_FONT && !font.is_open);
  IS("at the greatest weight", wide_at(bytes, size, there, 1, &other) == 900);
  IS("no font, and another stays", luthgarn_font_new_at(bytes, 11, 0, NULL, 0, &other) == LUTHGARN_FONT && wide(&other) == 900);
  IS("at the default", wide_at(bytes, size, NULL, 0, &font) == 600);
  IS("on the way", wide_at(bytes, size, weighing(bytes, size, 525, room_for(8)), 1, &font) == 625);
  IS("where another glyph comes", wide_at(bytes, size, weighing(bytes, size, 650, room_for(8)), 1, &font) == 850);
  IS("before that", wide_at(bytes, size, weighing(bytes, size, 649, room_for(8)), 1, &font) == 650);
  IS("past the axis", wide_at(bytes, size, weighing(bytes, size, 2000, room_for(8)), 1, &font) == 900);
  IS("below the default", wide_at(bytes, size, weighing(bytes, size, 100, room_for(8)), 1, &font) == 600);
  IS("the other stays where it is", wide(&other) == 900);
  IS("opened without", luthgarn_font_new(bytes, size, 0, &other) == LUTHGARN_DONE && wide(&other) == 600);
  IS("without axes", wide_at(whole_font, whole_size, there, 1, &font) == wide_at(whole_font, whole_size, NULL, 0, &other));
  luthgarn_font_free(&font);
  luthgarn_font_free(&other);
  IS("all is freed", held == 0);
  printf("calls: a font at six places of its axis\n");
}

int
main(int argc, char **argv)
{
  if (argc < 3) wrong("no font file", 0);
  whole_font = slurp(argv[1], &whole_size);
  if (argc > 3) state = strtoull(argv[3], NULL, 10);
  font_room = room_for(whole_size);
  text_room = room_for(256);
  unit_room = room_for(64);
  feature_room = room_for(64);
  run_room = room_for(8 * sizeof(luthgarn_run));
  glyph_room = room_for(300 * sizeof(luthgarn_glyph));
  name_room = room_for(8);
  refusals_of_a_run();
  refusals_of_others();
  empty_arrays();
  kept_fonts();
  kept_plans();
  names_of_languages();
  texts_in_utf16();
  refused_blocks();
  refused_fonts();
  threads();
  if (argc > 4) variable_fonts(argv[4]);
  size_t calls = strtoull(argv[2], NULL, 10);
  for (size_t k = 0; k < calls; k++) random_call(k);
  for (size_t k = 0; k < calls; k++) utf16_call(k);
  printf("calls: %zu random calls, and as many in UTF-16\n", calls);
  return 0;
}
