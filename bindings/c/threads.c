/* Two threads that use one handle: each call is answered, one at a time uses the node, and the node stays.
 * threads CALLS */
#include "highway.h"
#include <pthread.h>
#include <stdio.h>
#include <stdlib.h>
#include <string.h>

static hw_core core;
static unsigned long calls;

typedef struct { unsigned long done, busy, other; } told;

/* Reads the node so many times, and counts the answers. */
static void *read_on(void *words) {
  told *said = words;
  for (unsigned long k = 0; k < calls; k++) {
    hw_summary_of summary;
    hw_need need;
    size_t count;
    uint32_t status = k % 2 ? hw_summary(&core, &summary) : hw_unmet(&core, &need, 1, &count);
    if (status == HW_OK) said->done++;
    else if (status == HW_BUSY) said->busy++;
    else said->other++;
  }
  return NULL;
}

int main(int argc, char **argv) {
  hw_settings settings;
  uint64_t weight = 1;
  uint32_t leader = 0;
  uint8_t config[256];
  size_t len;
  hw_answer answer;
  hw_summary_of summary;
  pthread_t second;
  told here, there;
  memset(&settings, 0, sizeof settings);
  memset(&here, 0, sizeof here);
  memset(&there, 0, sizeof there);
  settings.max_records = 100;
  settings.max_parked = 10;
  settings.levels = 1;
  settings.min_exponent = settings.max_exponent = 4;
  calls = argc > 1 ? strtoul(argv[1], NULL, 10) : 100000;
  if (hw_config(&settings, &weight, 1, &leader, 1, config, sizeof config, &len, &answer) != HW_OK ||
      hw_core_new(config, len, &answer, &core) != HW_OK || pthread_create(&second, NULL, read_on, &there) != 0) {
    fprintf(stderr, "threads: no node, or no thread\n");
    return 1;
  }
  read_on(&here);
  pthread_join(second, NULL);
  printf("%lu done, %lu busy, %lu other\n", here.done + there.done, here.busy + there.busy, here.other + there.other);
  /* The node is still there, and goes once. */
  if (here.other + there.other || hw_summary(&core, &summary) != HW_OK || hw_core_free(&core) != HW_OK ||
      hw_core_free(&core) != HW_EMPTY)
    return 1;
  return 0;
}
