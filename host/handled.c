#include "handled.h"

#include <inttypes.h>

#include "../include/klarvesimo.h"
#include "log.h"
#include "message.h"
#include "readable.h"

enum { FAILED = 400 };

static const char *state_word(uint64_t state) {
  static const char *const words[] = {"", [KLARVESIMO_PENDING] = "PENDING", [KLARVESIMO_IN_PROGRESS] = "IN-PROGRESS",
                                      [KLARVESIMO_COMPLETE] = "COMPLETE"};
  return words[state <= KLARVESIMO_COMPLETE ? state : 0];
}

void say_handled(const uint8_t *request, size_t length, const uint8_t *answer, size_t written, const char *held) {
  uint64_t asked[KLARVESIMO_MOST], said[KLARVESIMO_MOST], consumed;
  if (klarvesimo_read(request, length, asked, KLARVESIMO_MOST, &consumed) != 0) return;
  if (klarvesimo_read(answer, written, said, KLARVESIMO_MOST, &consumed) != 0) return;
  const uint64_t *ids = message_field(answer, said, "Active-Request-Id-List");
  if (said[KLARVESIMO_STATUS] < FAILED && said[KLARVESIMO_STATE] == KLARVESIMO_COMPLETE && !ids) return;
  log_begin();
  log_bytes(request + asked[KLARVESIMO_NAME], (size_t)asked[KLARVESIMO_NAME_LENGTH]);
  log_add(" %" PRIu64 " answered ", asked[KLARVESIMO_ID]);
  log_add("%03" PRIu64 " %s", said[KLARVESIMO_STATUS], state_word(said[KLARVESIMO_STATE]));
  if (ids) {
    log_add(", %s ", held);
    log_bytes(answer + ids[0], (size_t)ids[1]);
  }
  log_end();
}

void say_refused(uint32_t number, const uint8_t *bytes, size_t count) {
  log_begin();
  log_add("refused %" PRIu32 ", %s: `", number, refusal_meaning(number));
  log_bytes(bytes, count < KLARVESIMO_LONGEST_OPENING ? count : KLARVESIMO_LONGEST_OPENING);
  log_add("`");
  log_end();
}
