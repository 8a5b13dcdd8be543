// P1 to P13 and the bullets behind them, as paper 01 lists them.
#include "check.hpp"
#include "lending.hpp"
#include "tests.hpp"

namespace {

using second::Verdict;

bool settled(const second::SettleAnswer& answer, Verdict verdict, std::uint64_t steps, second::Set resets,
             const Part& state) {
  return !answer.refusal && answer.verdict == verdict && answer.steps == steps && answer.resets == resets &&
         parts_of(answer.state) == state;
}

const second::Set only_0 = 1;

}  // namespace

void test_paper_examples() {
  const Table table = image(m);
  Part trace(100, 77);
  check(settled(lend_settle(table, {0, 0}, 100, trace), Verdict::stable, 0, 0, {0, 0}), "P1");
  check(settled(lend_settle(table, {1, 0}, 100, trace), Verdict::stable, 2, only_0, {0, 2}), "P2");
  check(trace[0] == 1 && trace[1] == 2 && trace[2] == 77, "P2's trace");
  check(settled(lend_settle_list(table, {1, 1}, {1, 2}), Verdict::stable, 2, only_0, {0, 2}), "P3");
  check(settled(lend_settle_list(table, {1, 1}, {2, 1}), Verdict::stable, 2, only_0, {0, 2}), "P4");
  check(settled(lend_settle(table, {1, 0}, 1, trace), Verdict::unsettled, 1, only_0, {0, 1}), "P5");
  check(settled(lend_settle(table, {1, 0}, 2, trace), Verdict::stable, 2, only_0, {0, 2}), "P6");

  const Table clash = image(m_with("row 1 - 2 - 2", "row 1 - 2 - 0"));
  check(lend_confluent(clash).refusal == second::refuse(18, {1, 1, 1, 2}), "P7");
  check(!lend_accept(clash).refusal, "P7 is accepted");
  const Table deaf = image(m_with("row 2 - 1 - 2\n", ""));
  check(lend_accept(deaf).refusal == second::refuse(12, {1, 2, 1}), "P8");
  check(lend_accept(image(m_with("clk 0 1", "clk 0 0"))).refusal == second::refuse(14, {0}), "P9");
  check(lend_accept(image(m_with("row 1 - 1 0 0", "row 1 - 1 - 0"))).refusal == second::refuse(14, {0}), "P10");

  Table both(second::image_words, 0);
  check(!lend_merge(table, 0, both).refusal, "P11 merges");
  Part text(second::max_text, 0);
  const auto written = lend_write(both, text);
  const Text merged = tabbed(
      "comp 6 0\n"
      "act 0 out\n"
      "act 1 uout\n"
      "act 2 uout\n"
      "clk 0 1\n"
      "row 0 0 0 - 3\n"
      "row 1 0 0 - 4\n"
      "row 1 - 2 - 2\n"
      "row 2 0 0 - 5\n"
      "row 3 - 1 0 1\n"
      "row 4 - 1 0 1\n"
      "row 4 - 2 - 5\n"
      "row 5 - 1 0 2\n");
  check(Text(text.begin(), text.begin() + static_cast<long>(written.length)) == merged, "P11");

  Clocks ticks(64, 0);
  ticks[0] = 5;
  const auto fired = lend_timed_step(table, {0, 0}, ticks);
  check(fired.outcome == second::TimedOutcome::fired && fired.v == 5 && fired.action == 0 &&
            fired.resets == 0 && parts_of(fired.state) == Part{1, 0} && ticks[0] == 0,
        "P12");
  check(lend_settle_list(table, {1, 0}, {2}).refusal == second::refuse(23, {0}), "P13");

  const Table loop = image(tabbed("comp 1 0\nact 0 uout\nrow 0 - 0 - 0\n"));
  check(!lend_accept(loop).refusal, "one uout loop is accepted");
  Part long_trace(4096, 77);
  check(settled(lend_settle(loop, {0}, 4096, long_trace), Verdict::unsettled, 4096, 0, {0}), "the loop, budget 4,096");
  check(long_trace == Part(4096, 0), "the loop's trace");
  check(lend_settle(loop, {0}, 4097, long_trace).refusal == second::refuse(22, {0}), "the loop, budget 4,097");
  Table into(second::image_words, 0);
  check(lend_read("", into).refusal == second::refuse(8, {0}), "empty text");
  check(!lend_read(tabbed("comp 128 0\n"), into).refusal, "128 states");
  check(lend_read(tabbed("comp 129 0\n"), into).refusal == second::refuse(4, {1, 6}), "129 states");
}
