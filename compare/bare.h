/* The limit of a settling step, and of a simulation's round: the plainest loop over a table, and a text of samples, that someone else has checked,
 * with no contract and no bound tested. */
#ifndef BARE_H
#define BARE_H

#include <stdint.h>

#include "floodneedle.h"

static inline const uint64_t *bare_block(const uint64_t *table, unsigned c) { return table + 1 + FLOODNEEDLE_BLOCK * c; }
static inline const uint64_t *bare_row(const uint64_t *table, uint64_t r) { return bare_block(table, FLOODNEEDLE_COMPONENTS) + 4 * r; }

/* The lowest urgent output that leaves the state, or 64. */
static inline uint64_t bare_lowest(const uint64_t *table, const uint8_t *state) {
  uint64_t lowest = 64;
  for (unsigned c = 0; c < table[0]; ++c) {
    const uint64_t *block = bare_block(table, c);
    const uint64_t end = block[8 + state[c] + 1];
    for (uint64_t r = block[8 + state[c]]; r < end; ++r) {
      const uint64_t action = bare_row(table, r)[0];
      if (block[5] >> action & 1) {
        if (action < lowest) lowest = action;
        break;
      }
    }
  }
  return lowest;
}

/* Every component that has the action moves; the clocks reset. */
static inline uint64_t bare_move(const uint64_t *table, uint8_t *state, uint64_t action) {
  uint64_t resets = 0;
  for (unsigned c = 0; c < table[0]; ++c) {
    const uint64_t *block = bare_block(table, c);
    if (!((block[4] | block[5]) >> action & 1)) continue;
    const uint64_t *row = bare_row(table, block[8 + state[c]]);
    while (row[0] != action) row += 4;
    resets |= row[2];
    state[c] = (uint8_t)row[3];
  }
  return resets;
}

static inline uint64_t bare_settle(const uint64_t *table, uint8_t *state, uint64_t budget, uint8_t *trace, uint64_t *resets) {
  uint64_t steps = 0;
  for (; steps < budget; ++steps) {
    const uint64_t action = bare_lowest(table, state);
    if (action == 64) break;
    *resets |= bare_move(table, state, action);
    trace[steps] = (uint8_t)action;
  }
  return steps;
}

/* The clock that fires: the lowest of those with the least value, or 64 where none is waited for. */
static inline uint64_t bare_least(const uint64_t *table, const uint8_t *state, const int64_t *clocks, unsigned *whose, const uint64_t **row) {
  uint64_t least = 64;
  for (unsigned c = 0; c < table[0]; ++c) {
    const uint64_t *block = bare_block(table, c);
    const uint64_t end = block[8 + state[c] + 1];
    for (uint64_t r = block[8 + state[c]]; r < end; ++r) {
      const uint64_t guard = bare_row(table, r)[1];
      if (guard != 0 && (least == 64 || clocks[guard - 1] < clocks[least])) {
        least = guard - 1;
        *whose = c;
        *row = bare_row(table, r);
      }
    }
  }
  return least;
}

/* Every component that has the action moves, the one whose clock fired by that clock's row; the clocks reset. */
static inline uint64_t bare_fire(const uint64_t *table, uint8_t *state, unsigned whose, const uint64_t *fired) {
  uint64_t resets = fired[2];
  const uint64_t action = fired[0];
  for (unsigned c = 0; c < table[0]; ++c) {
    const uint64_t *block = bare_block(table, c);
    if (c == whose || !(block[2] >> action & 1)) continue;
    const uint64_t *row = bare_row(table, block[8 + state[c]]);
    while (row[0] != action) row += 4;
    resets |= row[2];
    state[c] = (uint8_t)row[3];
  }
  state[whose] = (uint8_t)fired[3];
  return resets;
}

/* Each clock of the set takes the sample at its cursor. */
static inline void bare_feed(uint64_t set, const uint8_t **at, int64_t *clocks) {
  for (; set != 0; set &= set - 1) {
    const int x = __builtin_ctzll(set);
    int64_t sample = 0;
    for (++at[x]; *at[x] >= '0'; ++at[x]) sample = 10 * sample + (*at[x] - '0');
    clocks[x] = sample;
  }
}

/* The rounds done, from a state and the clocks set there; `at` has for each declared clock where its samples begin. */
static inline uint64_t bare_simulate(const uint64_t *table, uint8_t *state, uint64_t set, const uint8_t **at, uint64_t rounds, int64_t *clocks) {
  uint64_t declared = 0, done = 0, resets = set;
  uint8_t trace[FLOODNEEDLE_BUDGET];
  for (unsigned c = 0; c < table[0]; ++c) declared |= bare_block(table, c)[6];
  for (uint64_t left = declared; left != 0; left &= left - 1) clocks[__builtin_ctzll(left)] = 0;
  bare_settle(table, state, FLOODNEEDLE_BUDGET, trace, &resets);
  bare_feed(resets, at, clocks);
  for (; done < rounds; ++done) {
    unsigned whose = 0;
    const uint64_t *row = 0;
    const uint64_t fires = bare_least(table, state, clocks, &whose, &row);
    if (fires == 64) break;
    const int64_t v = clocks[fires], lowest = -((int64_t)1 << 40);
    for (uint64_t left = declared; left != 0; left &= left - 1) {
      int64_t *clock = clocks + __builtin_ctzll(left);
      *clock = *clock - v < lowest ? lowest : *clock - v;
    }
    resets = bare_fire(table, state, whose, row);
    bare_settle(table, state, FLOODNEEDLE_BUDGET, trace, &resets);
    bare_feed(resets, at, clocks);
  }
  return done;
}

#endif
