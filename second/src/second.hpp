// The calls of the engine, over lent buffers. Each answers its result or a refusal; beside a
// refusal every other field of the answer is zero and no lent byte has changed.
#pragma once

#include <cstdint>

#include "explain.hpp"
#include "lent.hpp"
#include "model.hpp"
#include "refusal.hpp"
#include "report.hpp"
#include "table.hpp"

namespace second {

struct Answer {
  Refusal refusal;
};

struct WriteAnswer {
  Refusal refusal;
  std::uint64_t length = 0;  // of the text, at the buffer's front
};

struct StartAnswer {
  Refusal refusal;
  std::uint64_t count = 0;  // of components
  Set started = 0;          // the clocks set at the start
  State state;
};

enum class StepOutcome : std::uint8_t { refused, moved, stable };

struct StepAnswer {
  Refusal refusal;
  StepOutcome outcome = StepOutcome::refused;
  std::uint64_t action = 0;
  Set resets = 0;
  State state;  // as given where stable
};

enum class Verdict : std::uint8_t { refused, stable, unsettled };

struct SettleAnswer {
  Refusal refusal;
  Verdict verdict = Verdict::refused;
  std::uint64_t steps = 0;
  Set resets = 0;  // clocks reset at least once
  State state;
};

enum class TimedOutcome : std::uint8_t { refused, fired, quiet };

struct TimedAnswer {
  Refusal refusal;
  TimedOutcome outcome = TimedOutcome::refused;
  std::int64_t v = 0;
  std::uint64_t action = 0;
  Set resets = 0;
  State state;  // as given where quiet
};

struct SimulateAnswer {
  Refusal refusal;
  std::uint64_t rounds = 0;  // later rounds done
  State state;
};

struct RepairAnswer {
  Refusal refusal;
  std::uint64_t rows = 0;  // added, three bytes each at the list's front
};

// 1 to 8, 24.
Answer read(Bytes text, WordsToWrite into);
// The text of a tree, and its model's image: 2, 4, 6 by line, 5, 47, 48, 24.
Answer read_tree(Bytes text, WordsToWrite into);
// 20, 24.
WriteAnswer write(Words table, BytesToWrite into);
// Old to new: as read but for 24; then 24 (of the new text), 26.
WriteAnswer to_names(Bytes text, BytesToWrite into);
// New to old: 1; lines in order, within a line 2 to 6, 43, 44, 7; 8; 44 (an unused name); 24, 26.
WriteAnswer to_numbers(Bytes text, BytesToWrite into);
// 20.
Answer recognise(Words table);
// 20. Where the system begins; a model that fails 10 to 18 has a start too.
StartAnswer start(Words table);
// 20, 25, 10 to 14 of the component at this index; rows are counted over the system.
Answer component(Words table, std::uint64_t i);
// 20, 15 to 17.
Answer compatible(Words table);
// 20, 10 to 17: as `component` at 0, 1, .. in turn, then as `compatible`.
Answer accept(Words table);
// As accept, then 18, of reached states.
Answer confluent(Words table);
// As accept, then 21.
StepAnswer step(Words table, Bytes state);
// As accept, then 21, 23.
StepAnswer step_by(Words table, Bytes state, std::uint64_t action);
// As confluent, then 21, 19, 22, 24.
SettleAnswer settle(Words table, Bytes state, std::uint64_t budget, BytesToWrite trace);
// As confluent, then 21, 19, 22, 23.
SettleAnswer settle_list(Words table, Bytes state, Bytes list);
// As accept, then 45, 18: the test for systems of components that are not confluent alone.
Answer orderly(Words table);
// As accept; 45, 18 where neither test passes; 22 and 46 of the path, then 22, 24.
SettleAnswer settle_after(Words table, Bytes path, std::uint64_t budget, BytesToWrite trace);
// As accept; 45, 18 where neither test passes; 22 and 46 of the path, then 22, 23.
SettleAnswer settle_list_after(Words table, Bytes path, Bytes list);
// As accept, then 21, 27 to 30.
TimedAnswer timed_step(Words table, Bytes state, Ticks ticks);
// As accept; 45, 18 where neither test passes; then 22, 28, 40; then round by round 30, 42, 41. Writes the declared clocks.
SimulateAnswer simulate(Words table, Bytes samples, std::uint64_t rounds, Ticks clocks);
// The same over draws: 49 for 40 and 50 for 41. Number k of clock x is word 64 k + x.
SimulateAnswer simulate_drawn(Words table, Bytes laws, Words numbers, std::uint64_t rounds, Ticks clocks);
// Adds the missing self-loops of inputs in the lent table. 20, 24 (of the list), 26.
RepairAnswer repair(WordsToWrite table, BytesToWrite list);
// As accept, then 24, 25, 26.
Answer merge(Words table, std::uint64_t i, WordsToWrite into);

}  // namespace second
