/*
 * Feeds a script of structs to a scheduler and tells how long its calls took: `feed FILE [RUNS]`. The file has a
 * struct mapsched_config, and then as many struct mapsched_call as it goes on; `script_to_structs` makes it of the
 * JSON that `mapsched run` reads. Prints the nanoseconds of a call in the quickest run, and a sum of all MAP bytes.
 */
#define _POSIX_C_SOURCE 200809L
#include <mapsched.h>
#include <stdio.h>
#include <stdlib.h>
#include <time.h>

static double now(void) {
  struct timespec at;
  clock_gettime(CLOCK_PROCESS_CPUTIME_ID, &at);
  return (double)at.tv_sec * 1e9 + (double)at.tv_nsec;
}

/* Makes all calls once, and tells what they took. The replies go into a sum. */
static uint64_t feed(const struct mapsched_config *config, const struct mapsched_call *calls, size_t count,
                     double *took) {
  struct mapsched_scheduler scheduler = {0};
  struct mapsched_stamp stamp = {0};
  struct mapsched_reply reply;
  uint64_t sum = 0;
  if (mapsched_open(&scheduler, config) != MAPSCHED_OK) return 0;
  double start = now();
  for (size_t i = 0; i < count; i++) {
    stamp.ticket = i;
    if (mapsched_call(&scheduler, &stamp, &calls[i], &reply) != MAPSCHED_OK) continue;
    sum += reply.kind + reply.value + reply.length + (reply.length ? reply.payload[reply.length - 1] : 0);
  }
  *took = now() - start;
  mapsched_close(&scheduler);
  return sum;
}

int main(int argc, char **argv) {
  FILE *file = argc > 1 ? fopen(argv[1], "rb") : NULL;
  int runs = argc > 2 ? atoi(argv[2]) : 1;
  static struct mapsched_call calls[200000];
  struct mapsched_config config;
  double took = 0, best = 0;
  uint64_t sum = 0;
  if (!file || fread(&config, sizeof config, 1, file) != 1) return 2;
  size_t count = fread(calls, sizeof *calls, sizeof calls / sizeof *calls, file);
  fclose(file);
  for (int run = 0; run < runs; run++) {
    sum = feed(&config, calls, count, &took);
    if (run == 0 || took < best) best = took;
  }
  printf("%zu calls, %.0f ns each, %.4f s, sum %llu\n", count, count ? best / (double)count : 0, best / 1e9,
         (unsigned long long)sum);
  return 0;
}
