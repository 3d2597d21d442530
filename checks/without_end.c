/*
 * What a scheduler costs that goes on without end: drawn calls of all kinds, forgotten every thousand; checks/figures
 * reads what it prints. `after`: behind so many calls, the nanoseconds of a call by processor time, with its drawing,
 * since the beginning and since the line before, and the kilobytes of memory that are resident, and that were at most.
 * `forgetting`: the nanoseconds of forgetting a thousand calls by the clock, the middle and the 99th percentile, up to
 * 10 nanoseconds.
 *
 * `without_end [CALLS [CHANGES]]`: a hundred million where no number is given; so many of a hundred, else none, change
 * a flow, replace its requests, or let it rest or wake.
 */
#include "drawn_calls.h"
#include <string.h>

enum { CALLS = 100000000, FIRST = 100000, KEPT = 1000, STEP = 10, STEPS = 100000 };

/* How often forgetting took so many steps of nanoseconds. */
static unsigned forgotten[STEPS];

/* The kilobytes of memory that the kernel tells under a name. */
static long kilobytes(const char *name) {
  char line[256];
  long told = -1;
  FILE *file = fopen("/proc/self/status", "r");
  if (!file) fail("no status");
  while (told < 0 && fgets(line, sizeof line, file))
    if (strncmp(line, name, strlen(name)) == 0) told = strtol(line + strlen(name), NULL, 10);
  fclose(file);
  return told;
}

/* Prints what was taken since two moments of processor time, and the memory. */
static void print_after(size_t calls, double start, size_t calls_before, double before) {
  double at = now(CLOCK_PROCESS_CPUTIME_ID);
  printf("after %zu: %.1f %.1f ns, %ld %ld kB\n", calls, (at - start) / (double)calls,
         (at - before) / (double)(calls - calls_before), kilobytes("VmRSS:"), kilobytes("VmHWM:"));
  fflush(stdout);
}

/* Forgets what is kept, and counts how long that took. */
static void forget(struct mapsched_scheduler *scheduler) {
  double start = now(CLOCK_MONOTONIC);
  if (mapsched_forget(scheduler) != MAPSCHED_OK) fail("nothing is forgotten");
  double steps = (now(CLOCK_MONOTONIC) - start) / STEP;
  forgotten[steps < STEPS - 1 ? (size_t)steps : STEPS - 1]++;
}

/* The nanoseconds that so many in a hundred did not exceed. */
static size_t percentile(size_t times, size_t hundredths) {
  size_t place = 0;
  for (size_t seen = forgotten[0]; 100 * seen < hundredths * times; seen += forgotten[place]) place++;
  return (place + 1) * STEP;
}

/* Draws and makes so many calls. */
static void make_all(struct mapsched_scheduler *scheduler, size_t calls) {
  static struct mapsched_reply reply;
  uint64_t next = config.start;
  double start = now(CLOCK_PROCESS_CPUTIME_ID), before = start;
  for (size_t made = 0, told = 0, tell = FIRST; made < calls;) {
    struct mapsched_call call = drawn(next);
    make(scheduler, made, &call, &reply);
    next = next_after(&reply, next);
    if (++made % KEPT == 0) forget(scheduler);
    if (made != tell) continue;
    print_after(made, start, told, before);
    before = now(CLOCK_PROCESS_CPUTIME_ID);
    told = made;
    tell *= 10;
  }
}

int main(int words, char **word) {
  size_t calls = words > 1 ? strtoull(word[1], NULL, 10) : CALLS, kept_from = 0;
  struct mapsched_config brief = config;
  struct mapsched_scheduler scheduler;
  brief.calls = KEPT;
  if (words > 2) changes_in_hundred = strtoull(word[2], NULL, 10);
  for (size_t i = 0; i < STEPS; i++) ((volatile unsigned *)forgotten)[i] = 0;
  open(&scheduler, &brief);
  make_all(&scheduler, calls);
  if (mapsched_kept_from(&scheduler, &kept_from) != MAPSCHED_OK || kept_from != calls / KEPT * KEPT) fail("kept");
  if (calls >= KEPT)
    printf("forgetting: %zu %zu ns\n", percentile(calls / KEPT, 50), percentile(calls / KEPT, 99));
  return mapsched_close(&scheduler) != MAPSCHED_OK;
}
