/*
 * Goes on after a journal, as `journal` writes one: `resume FILE` judges the journal in FILE, cuts off what a crash has
 * left behind its last newline, makes one call more, adds its line, and prints how many entries the journal has then.
 */
#define _POSIX_C_SOURCE 200809L
#include <mapsched.h>
#include <stdio.h>
#include <stdlib.h>
#include <unistd.h>

/* Says what went wrong, and whether something did. */
static int wrong(const char *what, uint32_t status) {
  if (status != MAPSCHED_OK) fprintf(stderr, "%s: %s\n", what, mapsched_status_text(status));
  return status != MAPSCHED_OK;
}

/* All bytes of a file, or NULL. */
static uint8_t *bytes_of(FILE *file, size_t *length) {
  if (fseek(file, 0, SEEK_END) != 0) return NULL;
  long end = ftell(file);
  uint8_t *bytes = end > 0 ? malloc((size_t)end) : NULL;
  if (!bytes || fseek(file, 0, SEEK_SET) != 0 || fread(bytes, 1, (size_t)end, file) != (size_t)end) {
    free(bytes);
    return NULL;
  }
  *length = (size_t)end;
  return bytes;
}

/* Opens the scheduler that goes on after the journal in a file, and leaves the file at the end of its whole lines. */
static int resume(struct mapsched_scheduler *scheduler, FILE *file) {
  size_t length = 0, place = 0;
  uint8_t *journal = bytes_of(file, &length);
  if (!journal) return wrong("read", MAPSCHED_NO_HISTORY);
  uint32_t status = mapsched_resume(scheduler, journal, length, &place);
  free(journal);
  if (status == MAPSCHED_ILLEGAL || status == MAPSCHED_NO_HISTORY) fprintf(stderr, "at %zu: ", place);
  if (wrong("journal", status)) return 1;
  return ftruncate(fileno(file), (off_t)place) != 0 || fseek(file, 0, SEEK_END) != 0;
}

/* Makes a call with the next ticket, adds its line to the file, and lets it go. */
static int go_on(struct mapsched_scheduler *scheduler, FILE *file) {
  static struct mapsched_reply reply;
  static uint8_t line[4096];
  struct mapsched_call call = {.kind = MAPSCHED_STATUS, .sid = 17};
  struct mapsched_stamp stamp = {0};
  size_t entries = 0, length = 0;
  if (wrong("count", mapsched_count(scheduler, &entries))) return 1;
  stamp.ticket = entries;
  if (wrong("call", mapsched_call(scheduler, &stamp, &call, &reply))) return 1;
  if (wrong("line", mapsched_lines(scheduler, line, sizeof line, &length))) return 1;
  if (fwrite(line, 1, length, file) != length || fflush(file) != 0) return 1;
  printf("%zu\n", entries + 1);
  return wrong("forget", mapsched_forget(scheduler));
}

int main(int count, char **words) {
  struct mapsched_scheduler scheduler = {0};
  FILE *file = count == 2 ? fopen(words[1], "r+b") : NULL;
  if (!file || resume(&scheduler, file)) return 1;
  int failed = go_on(&scheduler, file);
  failed |= wrong("close", mapsched_close(&scheduler));
  return failed | (fclose(file) != 0);
}
