/* Words found in a cache and lines that are cut (crates/bench_runs, a static library).
 *
 *   users ENGINE FONT TEXT TIMES
 *
 * ENGINE: find finds each word of TEXT, a file with a word a line, so many TIMES in a cache that has them all; normalise
 * normalises each; cut and cutat cut TEXT, which is ASCII, into lines of 72 glyphs, anywhere and where its lines may end.
 * Prints how many words or lines there are, and the nanoseconds of processor time. */
#include <stdint.h>
#include <stdio.h>
#include <stdlib.h>
#include <string.h>
#include <time.h>

size_t bench_words(const uint8_t *font, size_t n, const uint8_t *utf8, size_t u, uint32_t found, uint32_t times);
size_t bench_text_lines(const uint8_t *utf8, size_t u, uint32_t width, uint32_t allowed, uint32_t times);

static uint8_t *
slurp(const char *path, size_t *n)
{
  FILE *f = fopen(path, "rb");
  if (!f) { perror(path); exit(2); }
  fseek(f, 0, SEEK_END); *n = (size_t) ftell(f); rewind(f);
  uint8_t *b = malloc(*n + 1);
  if (!b || fread(b, 1, *n, f) != *n) exit(2);
  fclose(f);
  return b;
}

int
main(int argc, char **argv)
{
  if (argc != 5) return 2;
  size_t n, u, count;
  const char *engine = argv[1];
  uint8_t *font = slurp(argv[2], &n), *text = slurp(argv[3], &u);
  uint32_t times = (uint32_t) atoi(argv[4]);
  clock_t start = clock();
  if (!strncmp(engine, "cut", 3)) count = bench_text_lines(text, u, 72 * 600, !strcmp(engine, "cutat"), times);
  else count = bench_words(font, n, text, u, !strcmp(engine, "find"), times);
  printf("%zu %.0f\n", count, (double) (clock() - start) * 1e9 / CLOCKS_PER_SEC);
  return count == 0;
}
