/* What the C library answers where there is nothing to compare it with: the version, and where a system begins.
 * usage: alone VERSION    ends in 'N passed, M failed' */
#include <stdio.h>
#include <string.h>

#include "floodneedle.h"

static uint64_t table[FLOODNEEDLE_TABLE + 3];
static uint8_t after[FLOODNEEDLE_STATE];
static struct floodneedle_answer answer;
static unsigned passed, failed;

static void holds(const char *what, int so) {
  ++*(so ? &passed : &failed);
  if (!so) printf("not so: %s\n", what);
}

/* Reads a text that has spaces for tabs. */
static void read(const char *spaced) {
  static uint8_t text[FLOODNEEDLE_TEXT];
  const size_t length = strlen(spaced);
  for (size_t i = 0; i < length; ++i) text[i] = spaced[i] == ' ' ? '\t' : (uint8_t)spaced[i];
  floodneedle_read(text, length, table, FLOODNEEDLE_TABLE, &answer);
  holds(spaced, answer.kind == FLOODNEEDLE_DONE);
}

static int answers(uint64_t kind, uint64_t number, uint64_t places, uint64_t count, uint64_t resets) {
  struct floodneedle_answer stated = {0};
  stated.kind = kind;
  stated.number = number;
  stated.places = places;
  stated.count = count;
  stated.resets = resets;
  return memcmp(&answer, &stated, sizeof answer) == 0;
}

/* The start of the table's front: so many parts, these, then zeros. No word of the table changes. */
static void starts(const char *what, size_t words, size_t parts, const uint8_t *state, uint64_t clocks) {
  static uint64_t before[FLOODNEEDLE_TABLE + 3];
  uint8_t stated[FLOODNEEDLE_STATE] = {0};
  memcpy(before, table, sizeof table);
  memcpy(stated, state, parts);
  memset(after, 0xc3, sizeof after);
  memset(&answer, 0xc3, sizeof answer);
  floodneedle_start(table, words, after, &answer);
  holds(what, answers(FLOODNEEDLE_DONE, 0, 0, parts, clocks) && memcmp(after, stated, sizeof after) == 0 && memcmp(before, table, sizeof table) == 0);
}

static void no_start(const char *what, size_t words) {
  const uint8_t zeros[FLOODNEEDLE_STATE] = {0};
  memset(after, 0xc3, sizeof after);
  memset(&answer, 0xc3, sizeof answer);
  floodneedle_start(table, words, after, &answer);
  holds(what, answers(FLOODNEEDLE_REFUSED, FLOODNEEDLE_NO_IMAGE, 1, 0, 0) && memcmp(after, zeros, sizeof after) == 0);
}

static void version(const char *file) {
  char macros[64];
  const uint64_t number = FLOODNEEDLE_VERSION_MAJOR * 1000000 + FLOODNEEDLE_VERSION_MINOR * 1000 + FLOODNEEDLE_VERSION_PATCH;
  snprintf(macros, sizeof macros, "%d.%d.%d", FLOODNEEDLE_VERSION_MAJOR, FLOODNEEDLE_VERSION_MINOR, FLOODNEEDLE_VERSION_PATCH);
  holds("the macros have the version of the file VERSION", strcmp(macros, file) == 0);
  holds("the call answers the version of the macros", floodneedle_version() == number);
}

static void start(void) {
  static const char m[] =
      "comp 2 0\nact 0 out\nact 1 uout\nclk 0 1\nrow 0 0 0 - 1\nrow 1 - 1 0 0\n"
      "comp 3 0\nact 1 uin\nact 2 uout\nrow 0 - 1 - 1\nrow 1 - 1 - 1\nrow 1 - 2 - 2\nrow 2 - 1 - 2\n";
  char most[16 * FLOODNEEDLE_STATE] = "";
  uint8_t last[FLOODNEEDLE_STATE];
  no_start("zeros are no image", FLOODNEEDLE_TABLE);
  read(m);
  starts("M: state 0,0 and clock 0", FLOODNEEDLE_TABLE, 2, (const uint8_t[]){0, 0}, 1);
  no_start("a table a word short is none", FLOODNEEDLE_TABLE - 1);
  no_start("a table of no words is none", 0);
  memset(table + FLOODNEEDLE_TABLE, 0xff, 3 * sizeof *table);
  starts("what lies behind the image does not count", FLOODNEEDLE_TABLE + 3, 2, (const uint8_t[]){0, 0}, 1);
  table[FLOODNEEDLE_TABLE - 1] = 1;
  no_start("a word that should be zero", FLOODNEEDLE_TABLE);
  read("comp 1 0\nact 0 out\nclk 63 0\n");
  starts("a clock that is declared and not set at the start", FLOODNEEDLE_TABLE, 1, (const uint8_t[]){0}, 0);
  /* Both components have clock 1 and action 0 as an output: neither accepted nor compatible, and a start all the same. */
  read("comp 64 63\nact 0 out\nclk 1 1\nclk 63 1\ncomp 3 2\nact 0 out\nclk 0 0\nclk 1 1\nclk 2 1\n");
  starts("a model that is not accepted", FLOODNEEDLE_TABLE, 2, (const uint8_t[]){63, 2}, UINT64_C(1) << 63 | 6);
  for (unsigned i = 0; i < FLOODNEEDLE_STATE; ++i) {
    last[i] = (uint8_t)i;
    snprintf(most + strlen(most), sizeof most - strlen(most), "comp %u %u\n", i + 1, i);
  }
  read(most);
  starts("as many components as a state has places", FLOODNEEDLE_TABLE, FLOODNEEDLE_STATE, last, 0);
}

int main(int words, char **word) {
  version(words > 1 ? word[1] : "");
  start();
  printf("%u passed, %u failed\n", passed, failed);
  return failed == 0 ? 0 : 1;
}
