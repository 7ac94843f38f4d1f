/* Writes a counting program's counters to the file that COVERAGE_COUNTS names, as it ends (tests/coverage/counting.py). */
#include <stdint.h>
#include <stdio.h>
#include <stdlib.h>

extern const int64_t coverage_size;
extern uint64_t coverage_counts[];

__attribute__((destructor)) static void write_counts(void) {
  const char *name = getenv("COVERAGE_COUNTS");
  FILE *out = name ? fopen(name, "wb") : NULL;
  if (!out) return;
  fwrite(coverage_counts, sizeof coverage_counts[0], (size_t)coverage_size, out);
  fclose(out);
}
