/* The base configuration of tests, as rows/base_configuration has it, of a scheduler that keeps so many calls;
 * checks/tables writes it. */
#include <mapsched.h>

#define BASE_CONFIGURATION(kept) \
  {.ticks = 4, .bytes_per_slot = 16, .overhead = 2, .frame = 40, .cycle = 20, .req_slots = 4, .poll_slots = 2, \
   .lead = 40, .short_max = 8, .quantum = 64, .grant_cap = 2000, .calls = (kept), .start = 800, .receivers = 1, \
   .channel = 3, .ucd_count = 1}
