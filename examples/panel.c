/* A panel board with the engine built in: it reads a model, checks it part by part, asks whether it is confluent, settles it, and walks timed
 * steps. All buffers are its own; nothing is allocated.
 * A board has the model in its flash and takes its samples from distributions; here the model is standard input and the samples are made up.
 * usage: tail -n +2 examples/greenhouse.in | panel */
#include <stdio.h>
#include <string.h>
#include <unistd.h>

#include "floodneedle.h"

enum { budget = 100, turns = 8 };

static uint8_t text[FLOODNEEDLE_TEXT + 1];
static uint64_t table[FLOODNEEDLE_TABLE];
static int64_t clocks[FLOODNEEDLE_CLOCKS];
static uint8_t state[FLOODNEEDLE_STATE], after[FLOODNEEDLE_STATE], trace[budget];
static size_t parts;
static char printed[4096];

static size_t read_text(void) {
  size_t length = 0;
  ssize_t got;
  while (length < sizeof text && (got = read(0, text + length, sizeof text - length)) > 0) length += (size_t)got;
  return length;
}

static int64_t sample(void) {
  static uint32_t drawn = 1;
  drawn = drawn * 1103515245u + 12345u;
  return 1 + (drawn >> 16) % 1000;
}

static void store_samples(uint64_t resets) {
  for (unsigned x = 0; x < FLOODNEEDLE_CLOCKS; ++x)
    if (resets >> x & 1) clocks[x] = sample();
}

static int refused(const struct floodneedle_answer *answer) {
  if (answer->kind != FLOODNEEDLE_REFUSED) return 0;
  printf("refused\t%llu at ", (unsigned long long)answer->number);
  for (uint64_t i = 0; i < answer->places; ++i) printf("%s%llu", i == 0 ? "" : ",", (unsigned long long)answer->place[i]);
  printf("\n");
  return 1;
}

/* Every component in its start state, and a sample for each clock that is set there. */
static int begin(void) {
  struct floodneedle_answer answer;
  floodneedle_start(table, FLOODNEEDLE_TABLE, state, &answer);
  if (refused(&answer)) return 0;
  parts = (size_t)answer.count;
  store_samples(answer.resets);
  return 1;
}

/* Each component by itself, so that a refusal names the part to mend, and then whether they go together. */
static int check(void) {
  struct floodneedle_answer answer;
  for (size_t c = 0; c < parts; ++c) {
    floodneedle_component(table, FLOODNEEDLE_TABLE, c, &answer);
    if (refused(&answer)) return 0;
  }
  floodneedle_compatible(table, FLOODNEEDLE_TABLE, &answer);
  if (refused(&answer)) return 0;
  printf("checked\t%zu components\n", parts);
  return 1;
}

static void take(const struct floodneedle_answer *answer) {
  memcpy(state, after, parts);
  store_samples(answer->resets);
  for (size_t c = 0; c < parts; ++c) printf("%s%u", c == 0 ? "\t" : ",", state[c]);
  printf("\n");
}

/* In a confluent model every settling below ends as it does in whatever order the modules react. settle asks for that each time; timed_step
 * does not, nor would a loop over step or advance. So it is asked here, once, before the loop. */
static int confluent(void) {
  struct floodneedle_answer answer;
  floodneedle_confluent(table, FLOODNEEDLE_TABLE, &answer);
  if (refused(&answer)) return 0;
  printf("confluent\n");
  return 1;
}

static int settle(void) {
  struct floodneedle_answer answer;
  floodneedle_settle(table, FLOODNEEDLE_TABLE, state, parts, budget, trace, budget, after, &answer);
  if (refused(&answer)) return 0;
  printf("%s\t%llu steps", answer.kind == FLOODNEEDLE_STABLE ? "stable" : "unsettled", (unsigned long long)answer.count);
  take(&answer);
  return answer.kind == FLOODNEEDLE_STABLE;
}

static int timed_step(void) {
  struct floodneedle_answer answer;
  floodneedle_timed_step(table, FLOODNEEDLE_TABLE, state, parts, clocks, FLOODNEEDLE_CLOCKS, after, &answer);
  if (refused(&answer) || answer.kind == FLOODNEEDLE_QUIET) return 0;
  printf("after %llu ticks\taction %llu", (unsigned long long)answer.ticks, (unsigned long long)answer.action);
  take(&answer);
  return 1;
}

int main(void) {
  struct floodneedle_answer answer;
  setvbuf(stdout, printed, _IOFBF, sizeof printed);
  floodneedle_read(text, read_text(), table, FLOODNEEDLE_TABLE, &answer);
  if (refused(&answer)) return 1;
  if (!begin() || !check() || !confluent()) return 1;
  for (unsigned turn = 0; turn < turns; ++turn)
    if (!settle() || !timed_step()) return 1;
  return settle() ? 0 : 1;
}
