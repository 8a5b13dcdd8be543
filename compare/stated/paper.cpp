// P1 to P13 and the lines behind them, as paper 01 lists them.
#include "stated.hpp"

namespace {

Loan settling(const Table& table, const Bytes& state, std::uint64_t budget) {
  Loan loan = lent_state(table, state);
  loan.number = budget;
  loan.out = Bytes(100, 0x77);
  return loan;
}

Loan listing(const Table& table, const Bytes& state, const Bytes& list) {
  Loan loan = lent_state(table, state);
  loan.bytes = list;
  return loan;
}

Loan with_trace(Loan loan, const Bytes& trace) {
  std::copy(trace.begin(), trace.end(), loan.out.begin());
  return loan;
}

void settling_examples(const Table& table) {
  Loan loan = settling(table, {0, 0}, 100);
  expect("P1", calls::settle, loan, settled(FLOODNEEDLE_STABLE, 0, 0, {0, 0}));
  loan = settling(table, {1, 0}, 100);
  expect("P2", calls::settle, loan, settled(FLOODNEEDLE_STABLE, 2, 1, {0, 2}), with_trace(loan, {1, 2}));
  expect("P3", calls::settle_list, listing(table, {1, 1}, {1, 2}), settled(FLOODNEEDLE_STABLE, 2, 1, {0, 2}));
  expect("P4", calls::settle_list, listing(table, {1, 1}, {2, 1}), settled(FLOODNEEDLE_STABLE, 2, 1, {0, 2}));
  loan = settling(table, {1, 0}, 1);
  expect("P5", calls::settle, loan, settled(FLOODNEEDLE_UNSETTLED, 1, 1, {0, 1}), with_trace(loan, {1}));
  loan = settling(table, {1, 0}, 2);
  expect("P6", calls::settle, loan, settled(FLOODNEEDLE_STABLE, 2, 1, {0, 2}), with_trace(loan, {1, 2}));
  expect("P13", calls::settle_list, listing(table, {1, 0}, {2}), refused(23, {0}));
}

void check_examples() {
  expect_checks("M is confluent", image(m), done(), done());
  expect_checks("P7", image(with(m, "row 1 - 2 - 2", "row 1 - 2 - 0")), done(), refused(18, {1, 1, 1, 2}));
  expect_checks("P8", image(with(m, "row 2 - 1 - 2\n", "")), refused(12, {1, 2, 1}), refused(12, {1, 2, 1}));
  expect_checks("P9", image(with(m, "clk 0 1", "clk 0 0")), refused(14, {0}), refused(14, {0}));
  expect_checks("P10", image(with(m, "row 1 - 1 0 0", "row 1 - 1 - 0")), refused(14, {0}), refused(14, {0}));
}

void merging_example(const Table& table) {
  Loan loan = lent_table(table);
  loan.into = Table(second::image_words + 2, 0x77);
  Loan left = loan;
  const Table merged = image(tabbed(
      "comp 6 0\nact 0 out\nact 1 uout\nact 2 uout\nclk 0 1\n"
      "row 0 0 0 - 3\nrow 1 0 0 - 4\nrow 1 - 2 - 2\nrow 2 0 0 - 5\nrow 3 - 1 0 1\nrow 4 - 1 0 1\nrow 4 - 2 - 5\nrow 5 - 1 0 2\n"));
  std::copy(merged.begin(), merged.end(), left.into.begin());
  expect("P11", calls::merge, loan, done(), left);
}

void timed_example(const Table& table) {
  Loan loan = lent_state(table, {0, 0});
  loan.clocks = Clocks(64, 9);
  loan.clocks[0] = 5;
  Loan left = loan;
  left.clocks[0] = 0;
  expect("P12", calls::timed_step, loan, fired(5, 0, 0, {1, 0}), left);
}

void loop_examples() {
  const Table loop = image(tabbed("comp 1 0\nact 0 uout\nrow 0 - 0 - 0\n"));
  expect_checks("the loop is accepted", loop, done(), done());
  Loan loan = lent_state(loop, {0});
  loan.number = 4096;
  loan.out = Bytes(4096, 0x77);
  Loan left = loan;
  left.out = Bytes(4096, 0);
  expect("the loop with budget 4,096", calls::settle, loan, settled(FLOODNEEDLE_UNSETTLED, 4096, 0, {0}), left);
  loan.number = 4097;
  expect("the loop with budget 4,097", calls::settle, loan, refused(22, {0}));
}

}  // namespace

void stated_paper() {
  const Table table = image(m);
  settling_examples(table);
  check_examples();
  merging_example(table);
  timed_example(table);
  loop_examples();
}
