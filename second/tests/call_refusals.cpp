// Refusals 20 to 30 of each call, and the order among them.
#include "check.hpp"
#include "lending.hpp"
#include "tests.hpp"

namespace {

using second::refuse;

constexpr std::uint64_t largest = ~std::uint64_t{0};
constexpr std::int64_t bound = std::int64_t{1} << 40;

// Every call on one table and otherwise good loans, each to be refused alike.
void all_refuse(const Table& table, const Part& state, const second::Refusal& expected, const std::string& what) {
  Part trace(8, 9);
  Clocks ticks(64, 1);
  Table into(second::image_words, 9);
  check(lend_accept(table).refusal == expected, what + ": accept");
  check(lend_confluent(table).refusal == expected, what + ": confluent");
  check(lend_step(table, state).refusal == expected, what + ": step");
  check(lend_step_by(table, state, 1).refusal == expected, what + ": step_by");
  check(lend_settle(table, state, 8, trace).refusal == expected, what + ": settle");
  check(lend_settle_list(table, state, {1}).refusal == expected, what + ": settle_list");
  check(lend_timed_step(table, state, ticks).refusal == expected, what + ": timed_step");
  check(lend_merge(table, 0, into).refusal == expected, what + ": merge");
}

void test_20() {
  const Table good = image(m);
  Part text(second::max_text, 0);
  Table table = good;
  table.pop_back();
  all_refuse(table, {1, 0}, refuse(20, {0}), "one word short");
  check(lend_write(table, text).refusal == refuse(20, {0}), "one word short: write");
  all_refuse({}, {1, 0}, refuse(20, {0}), "no word");
  all_refuse(Table(second::image_words, 0), {1, 0}, refuse(20, {0}), "all zero");
  all_refuse(Table(second::image_words, largest), {1, 0}, refuse(20, {0}), "all ones");
  table = good;
  table[second::image_words - 1] = 1;
  all_refuse(table, {1, 0}, refuse(20, {0}), "an unused place");
  check(lend_write(table, text).refusal == refuse(20, {0}), "an unused place: write");

  // A longer buffer is used at its front; its rest is neither read nor changed (DECISIONS, The table).
  table = good;
  table.resize(second::image_words + 3, largest);
  check(!lend_accept(table).refusal, "a longer table");
  Table into(second::image_words + 3, 9);
  check(!lend_merge(table, 0, into).refusal, "a longer table to write to");
  check(!lend_read(m, into).refusal, "a longer table to read into");
  check(into[second::image_words] == 9, "its rest stays");
}

void test_21() {
  const Table table = image(m);
  const Part wrong[] = {{}, {1}, {0, 0, 0}, {2, 0}, {0, 3}, {0, 255}, {255, 255}, Part(32, 0), Part(33, 0), Part(1000, 0)};
  for (const Part& state : wrong) {
    Part trace(8, 9);
    Clocks ticks(64, 1);
    check(lend_step(table, state).refusal == refuse(21, {0}), "21: step");
    check(lend_step_by(table, state, 99).refusal == refuse(21, {0}), "21 before 23: step_by");
    check(lend_settle(table, state, 4097, trace).refusal == refuse(21, {0}), "21 before 22: settle");
    check(lend_settle_list(table, state, Part(4097, 99)).refusal == refuse(21, {0}), "21 before 22: settle_list");
    Clocks few(63, 1);
    check(lend_timed_step(table, state, few).refusal == refuse(21, {0}), "21 before 28: timed_step");
  }
  // 18 comes first where settling asks for it (DECISIONS: "order for settling"), and not elsewhere.
  const Table clash = image(m_with("row 1 - 2 - 2", "row 1 - 2 - 0"));
  Part trace;
  check(lend_settle(clash, {9}, largest, trace).refusal == refuse(18, {1, 1, 1, 2}), "18 before 21");
  check(lend_step(clash, {9}).refusal == refuse(21, {0}), "no 18 for a step");
}

void test_19() {
  // States 0 and 1 are got to; the input may not leave the unstable 0.
  const Table table = image(tabbed("comp 3 0\nact 0 uout\nact 1 in\nrow 0 - 0 - 1\nrow 0 - 1 - 2\nrow 1 - 1 - 1\nrow 2 - 1 - 2\n"));
  Part trace(8, 9), none;
  check(lend_settle(table, {1}, 8, trace).verdict == second::Verdict::stable, "19: from 1");
  check(lend_settle(table, {2}, 8, trace).refusal == refuse(19, {0}), "19: from 2");
  check(lend_settle(table, {2}, 9999, none).refusal == refuse(19, {0}), "19 before 22");
  check(lend_settle(table, {2}, 8, none).refusal == refuse(19, {0}), "19 before 24");
  check(lend_settle(table, {3}, 8, trace).refusal == refuse(21, {0}), "21 before 19");
  check(lend_settle_list(table, {2}, {0}).refusal == refuse(19, {0}), "19 before 23");
  check(lend_settle_list(table, {2}, Part(4097, 0)).refusal == refuse(19, {0}), "19 before 22: by list");
  check(lend_step(table, {2}).outcome == second::StepOutcome::stable, "no 19 for a step");
  check(lend_step_by(table, {2}, 0).refusal == refuse(23, {0}), "no 19 for a step by name");
  Clocks ticks(64, 0);
  check(lend_timed_step(table, {2}, ticks).outcome == second::TimedOutcome::quiet, "no 19 for a timed step");
  check(lend_report(tabbed("from 2 9999\n") + tabbed("comp 3 0\nact 0 uout\nrow 0 - 0 - 1\n")) == "refused\t19\t0\n", "19: report");

  const Text loops = "act 0 uin\nact 1 uin\nrow 0 - 0 - 0\nrow 0 - 1 - 0\nrow 1 - 0 - 1\nrow 1 - 1 - 1\n"
                     "row 2 - 0 - 2\nrow 2 - 1 - 2\nrow 3 - 0 - 1\nrow 3 - 1 - 2\n";
  check(lend_settle(image(tabbed("comp 4 0\n" + loops)), {3}, 8, trace).refusal == refuse(19, {0}), "19: loops from 3");
  check(lend_settle(image(tabbed("comp 4 3\n" + loops)), {3}, 8, trace).refusal == refuse(18, {0, 3, 0, 1}), "18 before 19");
  // The lowest component, of two that aren't got to.
  const Table three = image(tabbed("comp 1 0\ncomp 2 0\ncomp 2 1\n"));
  check(lend_settle(three, {0, 1, 0}, 8, trace).refusal == refuse(19, {1}), "19: the lowest component");
  check(lend_settle(three, {0, 0, 0}, 8, trace).refusal == refuse(19, {2}), "19: the last component");
  check(!lend_settle(three, {0, 0, 1}, 8, trace).refusal, "19: none");

  // M settles from 1,1; merged at 0 the pair isn't got to, since action 0 would leave an unstable pair.
  Table both(second::image_words, 0);
  check(!lend_merge(image(m), 0, both).refusal && !lend_settle(image(m), {1, 1}, 8, trace).refusal, "M from 1,1");
  check(lend_settle(both, {4}, 8, trace).refusal == refuse(19, {0}), "M merged, from 4");
}

void test_22_23_24() {
  const Table table = image(m);
  Part none;
  Part trace(4096, 9);
  for (std::uint64_t budget : {std::uint64_t{4097}, std::uint64_t{99999}, std::uint64_t{1} << 32, largest}) {
    check(lend_settle(table, {0, 0}, budget, none).refusal == refuse(22, {0}), "22 before 24, though stable");
    check(lend_settle(table, {0, 0}, budget, trace).refusal == refuse(22, {0}), "22");
  }
  check(lend_settle_list(table, {0, 0}, Part(4097, 99)).refusal == refuse(22, {0}), "22 before 23");
  check(lend_settle_list(table, {0, 0}, Part(4096, 99)).refusal == refuse(23, {0}), "4,096 entries are allowed");
  check(!lend_settle(table, {0, 0}, 4096, trace).refusal, "a trace as long as the budget");
  check(lend_settle(table, {0, 0}, 1, none).refusal == refuse(24, {1}), "24, though stable already");
  Part shorter(99, 9);
  check(lend_settle(table, {1, 0}, 100, shorter).refusal == refuse(24, {100}), "24: bytes needed");
  check(!lend_settle(table, {1, 0}, 99, shorter).refusal, "a trace that is just long enough");
  check(!lend_settle(table, {0, 0}, 0, none).refusal, "budget 0 needs no trace");

  for (std::uint64_t action : {std::uint64_t{0}, std::uint64_t{2}, std::uint64_t{3}, std::uint64_t{63}, std::uint64_t{64},
                               std::uint64_t{65}, std::uint64_t{257}, largest})
    check(lend_step_by(table, {1, 0}, action).refusal == refuse(23, {0}), "23: " + std::to_string(action));
  check(lend_step_by(table, {0, 0}, 1).refusal == refuse(23, {0}), "23 in a stable state");
  check(lend_step_by(table, {0, 0}, 0).refusal == refuse(23, {0}), "23: an `out` action isn't urgent");
  check(lend_settle_list(table, {1, 0}, {1, 2, 2}).refusal == refuse(23, {2}), "23 at its index");
  check(lend_settle_list(table, {1, 0}, {1, 255, 2}).refusal == refuse(23, {1}), "23: any byte");
  check(lend_settle_list(table, {1, 0}, {65}).refusal == refuse(23, {0}), "23: 65 isn't 1");
  const auto empty = lend_settle_list(table, {1, 0}, {});
  check(empty.verdict == second::Verdict::unsettled && empty.steps == 0, "an empty list tells of the state");
  const Table orphan = image(tabbed("comp 1 0\nact 0 uin\nrow 0 - 0 - 0\n"));
  check(lend_step_by(orphan, {0}, 0).refusal == refuse(23, {0}), "an input that nobody outputs never fires");
  check(lend_step(orphan, {0}).outcome == second::StepOutcome::stable, "nor by our rule");

  Part text(m.size(), 9);
  check(lend_write(table, text).length == m.size() && Text(text.begin(), text.end()) == m, "just long enough");
  text.assign(m.size() - 1, 9);
  check(lend_write(table, text).refusal == refuse(24, {m.size()}), "24: write");
  check(lend_write(table, none).refusal == refuse(24, {m.size()}), "24: write to nothing");
  Table short_of(second::image_words - 1, 9);
  check(lend_read(m, short_of).refusal == refuse(24, {67848}), "24: read");
}

void test_25_26() {
  const Table table = image(m);
  Table into(second::image_words, 9);
  Table shorter(second::image_words - 1, 9);
  for (std::uint64_t i : {std::uint64_t{1}, std::uint64_t{2}, std::uint64_t{31}, std::uint64_t{32}, largest - 1, largest}) {
    check(lend_merge(table, i, into).refusal == refuse(25, {0}), "25: " + std::to_string(i));
    check(lend_merge(table, i, shorter).refusal == refuse(24, {67848}), "24 before 25");
  }
  check(lend_merge(image(tabbed("comp 1 0\n")), 0, into).refusal == refuse(25, {0}), "25: one component");

  const Table fits = image(tabbed("comp 16 15\ncomp 8 7\n"));
  check(!lend_merge(fits, 0, into).refusal && into[1] == 128 && into[2] == 127, "128 states");
  check(!lend_merge(image(tabbed("comp 64 0\ncomp 2 0\n")), 0, into).refusal && into[1] == 128, "64 times 2 states");
  check(lend_merge(image(tabbed("comp 64 0\ncomp 3 0\n")), 0, into).refusal == refuse(26, {0}), "26: 64 times 3 states");
  check(lend_merge(image(tabbed("comp 43 0\ncomp 3 0\n")), 0, into).refusal == refuse(26, {0}), "26: 129 states");
  check(lend_merge(image(tabbed("comp 128 0\ncomp 128 0\n")), 0, into).refusal == refuse(26, {0}), "26: 16,384 states");
  check(lend_merge(image(tabbed("comp 64 0\ncomp 3 0\n")), 0, shorter).refusal == refuse(24, {67848}), "24 before 26");

  // Rows are those of the whole model (DECISIONS: "limits in all"): 32 and 32 become 64 times 8, and the third component
  // has as many again, which is just the limit.
  Text pair;
  for (unsigned c = 0; c < 2; ++c) {
    pair += "comp 8 0\n";
    for (unsigned a = 0; a < 4; ++a) pair += "act " + std::to_string(4 * c + a) + " in\n";
    for (unsigned s = 0; s < 8; ++s)
      for (unsigned a = 0; a < 4; ++a) pair += "row " + std::to_string(s) + " - " + std::to_string(4 * c + a) + " - 0\n";
  }
  Text third = "comp 64 0\n";
  for (unsigned a = 10; a < 18; ++a) third += "act " + std::to_string(a) + " in\n";
  for (unsigned s = 0; s < 64; ++s)
    for (unsigned a = 10; a < 18; ++a) third += "row " + std::to_string(s) + " - " + std::to_string(a) + " - 0\n";
  check(!lend_merge(image(tabbed(pair + third)), 0, into).refusal, "1,024 rows in all");
  check(lend_merge(image(tabbed(pair + third + "comp 1 0\nact 20 in\nrow 0 - 20 - 0\n")), 0, into).refusal == refuse(26, {0}),
        "26: 1,025 rows in all");

  // Few rows, but long ones: bytes are those of the whole model too.
  Text wide = "comp 8 0\nact 0 in\nact 9 in\n", all;
  for (unsigned c = 0; c < 64; ++c) {
    wide += "clk " + std::to_string(c) + " 0\n";
    all += (c > 0 ? "," : "") + std::to_string(c);
  }
  for (unsigned s = 0; s < 8; ++s)
    for (unsigned a : {0, 9}) wide += "row " + std::to_string(s) + " - " + std::to_string(a) + " " + all + " 0\n";
  Text tall = "comp 8 0\n";
  for (unsigned a = 1; a < 4; ++a) tall += "act " + std::to_string(a) + " in\n";
  for (unsigned s = 0; s < 8; ++s)
    for (unsigned a = 1; a < 4; ++a) tall += "row " + std::to_string(s) + " - " + std::to_string(a) + " - 0\n";
  check(!lend_merge(image(tabbed(wide + tall)), 0, into).refusal, "long rows that fit");
  Text filler = "comp 64 0\n";
  for (unsigned a = 10; a < 20; ++a) filler += "act " + std::to_string(a) + " in\n";
  for (unsigned s = 0; s < 64; ++s)
    for (unsigned a = 10; a < 20; ++a) filler += "row " + std::to_string(s) + " - " + std::to_string(a) + " - 0\n";
  filler += "comp 1 0\n";
  check(!lend_merge(image(tabbed(wide + tall + filler)), 2, into).refusal, "merging the filler alone fits");
  check(lend_merge(image(tabbed(wide + tall + filler)), 0, into).refusal == refuse(26, {0}), "26: bytes in all");
}

// Two components that wait for clocks 3 and 7, and a clock 9 that nobody waits for in the start.
const Text waiting =
    "comp 2 0\nact 0 out\nact 1 uout\nclk 3 1\nrow 0 3 0 3 1\nrow 1 - 1 3 0\n"
    "comp 1 0\nact 0 in\nact 2 out\nclk 7 1\nclk 9 0\nrow 0 - 0 9 0\nrow 0 7 2 7 0\n";

second::Refusal timed_with(const Part& state, const Clocks& clocks) {
  Clocks ticks = clocks;
  return lend_timed_step(image(tabbed(waiting)), state, ticks).refusal;
}

Clocks set_to(std::int64_t c3, std::int64_t c7, std::int64_t c9) {
  Clocks ticks(64, INT64_MIN);  // undeclared places may hold anything (DECISIONS, The timed step)
  ticks[3] = c3;
  ticks[7] = c7;
  ticks[9] = c9;
  return ticks;
}

void test_27_to_30() {
  check(timed_with({1, 0}, Clocks(63, 1)) == refuse(27, {0}), "27 before 28");
  check(timed_with({1, 0}, set_to(1, 2, 3)) == refuse(27, {0}), "27");
  for (unsigned count : {0, 1, 63, 65, 128})
    check(timed_with({0, 0}, Clocks(count, 1)) == refuse(28, {0}), "28: not 64 values");
  check(timed_with({0, 0}, set_to(bound + 1, 2, 3)) == refuse(28, {0}), "28: above");
  check(timed_with({0, 0}, set_to(1, -bound - 1, 3)) == refuse(28, {0}), "28 before 29");
  check(timed_with({0, 0}, set_to(1, 2, bound + 1)) == refuse(28, {0}), "28: one that nobody waits for");
  check(timed_with({0, 0}, set_to(1, 2, INT64_MAX)) == refuse(28, {0}), "28: far above");
  check(timed_with({0, 0}, set_to(1, INT64_MIN, 3)) == refuse(28, {0}), "28: far below");
  check(!timed_with({0, 0}, set_to(bound, bound - 1, -bound)), "both ends are allowed");
  check(timed_with({0, 0}, set_to(-1, -5, 3)) == refuse(29, {3}), "29: the lowest, not the most negative");
  check(timed_with({0, 0}, set_to(5, -1, 3)) == refuse(29, {7}), "29: the second");
  check(timed_with({0, 0}, set_to(-bound, -bound, 3)) == refuse(29, {3}), "29 before 30");
  check(timed_with({0, 0}, set_to(4, 4, 4)) == refuse(30, {3}), "30");
  check(timed_with({0, 0}, set_to(0, 0, 9)) == refuse(30, {3}), "30 at 0");
  check(!timed_with({0, 0}, set_to(4, 5, 4)), "a tie with one that nobody waits for is none");
  check(!timed_with({0, 0}, set_to(0, 5, -4)), "0 may fire");

  // A tie above the least is no fault (DECISIONS, The timed step).
  const Table three = image(tabbed(waiting + "comp 1 0\nact 4 out\nclk 11 1\nrow 0 11 4 11 0\n"));
  Clocks ticks = set_to(6, 6, 0);
  ticks[11] = 2;
  check(lend_timed_step(three, {0, 0, 0}, ticks).v == 2, "a tie above the least");
  ticks = set_to(9, 2, 0);
  ticks[11] = 2;
  check(lend_timed_step(three, {0, 0, 0}, ticks).refusal == refuse(30, {7}), "30: the lowest of those that share the least");

  // The floor, for a clock that isn't enabling in this state; a listener's resets join (DECISIONS, The timed step).
  ticks = set_to(10, bound, -bound + 3);
  const auto fired = lend_timed_step(image(tabbed(waiting)), {0, 0}, ticks);
  check(fired.v == 10 && fired.action == 0 && fired.resets == ((1u << 3) | (1u << 9)) && parts_of(fired.state) == Part{1, 0},
        "the row of clock 3, and its listener");
  check(ticks == set_to(0, bound - 10, -bound), "all declared clocks fall, to the floor at most");

  // Quiet comes after 27 and 28 only (DECISIONS, The timed step).
  const Table still = image(tabbed("comp 1 0\nact 0 in\nclk 5 0\nrow 0 - 0 - 0\n"));
  Clocks negative(64, -7);
  check(lend_timed_step(still, {0}, negative).outcome == second::TimedOutcome::quiet, "quiet, though negative");
  negative[5] = -bound - 1;
  check(lend_timed_step(still, {0}, negative).refusal == refuse(28, {0}), "28 before quiet");
  Clocks none;
  check(lend_timed_step(still, {0}, none).refusal == refuse(28, {0}), "28 before quiet: no values");
}

}  // namespace

void test_call_refusals() {
  test_20();
  test_19();
  test_21();
  test_22_23_24();
  test_25_26();
  test_27_to_30();
}
