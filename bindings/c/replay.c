/* Replays a log of version 1 a number of times, and says how many vertices it delivered and how many blocks are final.
 * Each node is made and let go; a second free, an empty handle and what isn't in range are answered by their status. */
#include "highway.h"
#include <stdio.h>
#include <stdlib.h>
#include <string.h>

static uint32_t number_at(const uint8_t *p) { return (uint32_t)p[0] << 24 | p[1] << 16 | p[2] << 8 | p[3]; }

static uint8_t *file_of(const char *name, size_t *size) {
  FILE *file = fopen(name, "rb");
  if (!file || fseek(file, 0, SEEK_END)) return NULL;
  long end = ftell(file);
  rewind(file);
  uint8_t *bytes = malloc(end > 0 ? end : 1);
  *size = bytes ? fread(bytes, 1, end, file) : 0;
  fclose(file);
  return bytes;
}

/* How many vertices are handed over in one call. */
enum { AT_ONCE = 64 };

/* Delivers the whole entries of the log from that byte on, as they stand there; the last one may be torn. Returns the
 * status of the first call that failed, else HW_OK. */
static uint32_t deliver(hw_core *core, const uint8_t *log, size_t size, size_t at, uint64_t *delivered) {
  hw_sent sent[AT_ONCE];
  hw_delivered answers[AT_ONCE];
  size_t count;
  do {
    for (count = 0; count < AT_ONCE && size - at >= 6 && number_at(log + at + 2) <= size - at - 6; count++) {
      sent[count] = (hw_sent){at + 6, number_at(log + at + 2), log[at + 1]};
      at += 6 + sent[count].length;
    }
    uint32_t status = hw_deliver(core, log, size, sent, count, answers, count);
    if (status != HW_OK) return status;
    *delivered += count;
  } while (count == AT_ONCE);
  return HW_OK;
}

/* Whether a node answers what isn't in range, and a vertex without bytes, by the status of each. */
static bool refuses(hw_core *core, const uint8_t *log, size_t size) {
  hw_sent wrong[2] = {{size, 1, 1}, {0, size, 2}};
  hw_delivered answers[2];
  hw_answer answer;
  return hw_deliver(core, log, size, wrong, 2, answers, 1) == HW_OUT_OF_RANGE &&
         hw_deliver(core, log, size, wrong, 2, answers, 2) == HW_OK && answers[0].status == HW_OUT_OF_RANGE &&
         answers[1].status == HW_OUT_OF_RANGE && hw_deliver_one(core, log, 0, true, &answer) == HW_BAD_BYTES;
}

/* The status of the first call that failed, else HW_OK. */
static uint32_t replay(const uint8_t *log, size_t size, uint64_t *delivered, uint64_t *final) {
  hw_core core = {0};
  hw_answer answer;
  hw_summary_of summary;
  size_t at = 9 + number_at(log + 5);
  if (hw_summary(&core, &summary) != HW_EMPTY) return HW_FULL;
  uint32_t status = hw_core_new(log + 9, at - 9, &answer, &core);
  if (status != HW_OK) return status;
  if (hw_core_new(log + 9, at - 9, &answer, &core) != HW_FULL) return HW_EMPTY;
  status = deliver(&core, log, size, at, delivered);
  if (!refuses(&core, log, size)) return HW_NONE;
  if (status == HW_OK) status = hw_summary(&core, &summary);
  hw_decided decided;
  for (uint64_t index = 0; status == HW_OK && index < summary.decided; index++)
    if ((status = hw_decision(&core, index, &decided)) == HW_OK) ++*final;
  uint8_t small[1];
  size_t length = 0;
  if (status == HW_OK && summary.journal > 0) status = hw_journal(&core, 0, small, sizeof small, &length);
  if (status == HW_OK && summary.journal > 0 && length <= sizeof small) return HW_TOO_LONG;
  uint32_t freed = hw_core_free(&core);
  if (freed != HW_OK || hw_core_free(&core) != HW_EMPTY) return HW_FULL;
  return status;
}

int main(int count, char **words) {
  if (count < 2) return fprintf(stderr, "replay LOG [TIMES]\n"), 2;
  size_t size;
  uint8_t *log = file_of(words[1], &size);
  if (!log || size < 9 || memcmp(log, "HWLG\1", 5) || size - 9 < number_at(log + 5))
    return fprintf(stderr, "no log of version 1\n"), 2;
  uint64_t delivered = 0, final = 0;
  for (int times = count > 2 ? atoi(words[2]) : 1; times > 0; times--) {
    uint32_t status = replay(log, size, &delivered, &final);
    if (status != HW_OK) return fprintf(stderr, "status %#x\n", status), 1;
  }
  printf("%llu delivered %llu final\n", (unsigned long long)delivered, (unsigned long long)final);
  free(log);
  return 0;
}
