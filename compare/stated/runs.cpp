// Steps and settling: states of every wrong length and range, budgets, lists and traces at their limits, and the order of 18, 21, 22, 23, 24.
#include "stated.hpp"

namespace {

constexpr std::uint64_t high = std::uint64_t{1} << 63;

const Call* const calls_with_state[] = {&calls::step,        &calls::step_by,    &calls::settle,
                                        &calls::settle_list, &calls::timed_step, &calls::advance};

// Good loans beside the state, and loans that are wrong in each call's own way: 21 comes before all of those.
Loan good_beside(const Table& table, const Bytes& state) {
  Loan loan = lent_state(table, state);
  loan.number = 1;
  loan.bytes = {1};
  loan.out = Bytes(8, 0x77);
  loan.clocks = Clocks(64, 5);
  return loan;
}
Loan bad_beside(const Table& table, const Bytes& state) {
  Loan loan = lent_state(table, state);
  loan.number = largest;
  loan.bytes = Bytes(4097, 255);
  loan.clocks = Clocks(63, -1);
  return loan;
}

void expect_21(const std::string& why, const Table& table, const Bytes& state, std::uint64_t missing = 0) {
  for (Loan loan : {good_beside(table, state), bad_beside(table, state)}) {
    loan.missing = missing;
    for (const Call* call : calls_with_state) expect(why, *call, loan, refused(21, {0}));
  }
}

void states() {
  const Table table = image(m);
  const Table all = image(repeated(tabbed("comp 1 0\n"), 32)), wide = image(tabbed("comp 128 0\n"));
  for (std::size_t count : {0, 1, 3, 16, 31, 32, 33, 64, 255, 256, 258, 1000})
    expect_21("M with a state of " + std::to_string(count), table, Bytes(count, 0));
  for (std::size_t count : {0, 1, 16, 31, 33, 64, 288}) expect_21("32 components with a state of " + std::to_string(count), all, Bytes(count, 0));
  // No buffer is so long: the call is told so of 32 bytes, and may read no others.
  for (std::uint64_t parts : {high - 1, high, high + 2, largest}) {
    expect_21("M with a state of 2^63 or so", table, Bytes(32, 0), parts - 32);
    expect_21("32 components with a state of 2^63 or so", all, Bytes(32, 0), parts - 32);
  }
  for (const Bytes& state : {Bytes{2, 0}, {0, 3}, {128, 0}, {0, 128}, {255, 0}, {0, 255}, {255, 255}, {127, 0}})
    expect_21("M with a part out of range", table, state);
  for (std::uint8_t part : {128, 129, 255}) expect_21("128 states with a part out of range", wide, {part});
  expect("128 states, in the last", calls::step, lent_state(wide, {127}), stable({127}));
  Bytes state(32, 0);
  expect("32 components with a state of 32", calls::step, lent_state(all, state), stable(state));
  expect("32 components with a state of 32, lent", calls::advance, lent_state(all, state), stable({}));
  for (std::size_t at : {0, 15, 16, 31}) {
    Bytes wrong = state;
    wrong[at] = 1;
    expect_21("32 components with a part out of range", all, wrong);
  }
}

// 18 comes before 21, 22, 23 and 24, and only where settling asks for it.
void unconfluent() {
  const Table clash = image(with(m, "row 1 - 2 - 2", "row 1 - 2 - 0"));
  const Said clashes = refused(18, {1, 1, 1, 2});
  for (const Loan& loan : {good_beside(clash, {1, 0}), bad_beside(clash, {1, 0}), bad_beside(clash, {9})})
    for (const Call* call : {&calls::settle, &calls::settle_list}) expect("18 first", *call, loan, clashes);
  expect("no 18 for a step", calls::step, lent_state(clash, {1, 1}), moved(1, 1, {0, 1}));
  Loan loan = lent_state(clash, {1, 1});
  loan.number = 2;
  expect("no 18 for a named step", calls::step_by, loan, moved(2, 0, {1, 0}));
  expect("21 of a step, not 18", calls::step, lent_state(clash, {9}), refused(21, {0}));
}

// What the header says beside the calls that do not ask for 18: the order can matter. From 1,1 the lowest action first is stable after two
// steps, action 2 first after three.
void order_matters() {
  const Table clash = image(with(m, "row 1 - 2 - 2", "row 1 - 2 - 0"));
  const auto by_advance = [&](const Bytes& from, const Said& expected, const Bytes& to) {
    const Loan loan = lent_state(clash, from), left = lent_state(clash, to);
    expect("not confluent, lent", calls::advance, loan, expected, left);
  };
  by_advance({1, 1}, moved(1, 1, {}), {0, 1});
  by_advance({0, 1}, moved(2, 0, {}), {0, 0});
  by_advance({0, 0}, stable({}), {0, 0});
  const auto by_name = [&](const Bytes& from, std::uint64_t action, std::uint64_t resets, const Bytes& to) {
    Loan loan = lent_state(clash, from);
    loan.number = action;
    expect("not confluent, by name", calls::step_by, loan, moved(action, resets, to));
  };
  by_name({1, 1}, 2, 0, {1, 0});
  by_name({1, 0}, 1, 1, {0, 1});
  by_name({0, 1}, 2, 0, {0, 0});
}

void steps() {
  const Table table = image(m);
  expect("a step", calls::step, lent_state(table, {1, 0}), moved(1, 1, {0, 1}));
  expect("the lower of two", calls::step, lent_state(table, {1, 1}), moved(1, 1, {0, 1}));
  expect("no step", calls::step, lent_state(table, {0, 2}), stable({0, 2}));
  Loan loan = lent_state(table, {1, 1}), left = loan;
  left.state = {0, 1};
  expect("a step of a lent state", calls::advance, loan, moved(1, 1, {}), left);
  loan.state = {0, 2};
  expect("no step of a lent state", calls::advance, loan, stable({}));
  loan.state = {1, 1};
  loan.number = 1;
  expect("action 1 by name", calls::step_by, loan, moved(1, 1, {0, 1}));
  loan.number = 2;
  expect("action 2 by name", calls::step_by, loan, moved(2, 0, {1, 2}));
  // Not an enabled urgent output: an output that is not urgent, one not enabled, an input, none at all, and numbers that would be 1 if cut down.
  for (std::uint64_t action : {std::uint64_t{0}, std::uint64_t{3}, std::uint64_t{63}, std::uint64_t{64}, std::uint64_t{65}, std::uint64_t{257},
                               (std::uint64_t{1} << 32) + 1, high, high + 1, largest}) {
    loan.number = action;
    expect("23 by name: " + std::to_string(action), calls::step_by, loan, refused(23, {0}));
  }
  loan.state = {0, 0};
  for (std::uint64_t action : {0, 1, 2}) {
    loan.number = action;
    expect("23 in a stable state", calls::step_by, loan, refused(23, {0}));
  }
  const Table orphan = image(tabbed("comp 1 0\nact 0 uin\nrow 0 - 0 - 0\n"));
  loan = lent_state(orphan, {0});
  expect("an input that nobody outputs", calls::step_by, loan, refused(23, {0}));
  expect("an input that nobody outputs, by the rule", calls::step, loan, stable({0}));
}

const Text endless = tabbed("comp 2 0\nact 9 uout\nact 10 uout\nclk 4 0\nrow 0 - 9 4 1\nrow 1 - 10 - 0\n");

Loan settling(const Table& table, const Bytes& state, std::uint64_t budget, std::size_t trace) {
  Loan loan = lent_state(table, state);
  loan.number = budget;
  loan.out = Bytes(trace, 0x77);
  return loan;
}

void budgets() {
  const Table table = image(m), turns = image(endless);
  // 4,096 is a budget, 4,097 is none, though the state be stable or the trace be short.
  for (std::uint64_t budget : {std::uint64_t{4097}, std::uint64_t{65536}, (std::uint64_t{1} << 32) + 1, high, high + 4096, largest})
    for (std::size_t trace : {0, 4096, 4097})
      for (const Bytes& state : {Bytes{0, 0}, {1, 0}})
        expect("22: budget " + std::to_string(budget), calls::settle, settling(table, state, budget, trace), refused(22, {0}));
  for (std::size_t more : {0, 1, 50}) {
    const Loan loan = settling(turns, {0}, 4096, 4096 + more);
    Loan left = loan;
    for (std::size_t at = 0; at < 4096; ++at) left.out[at] = at % 2 == 0 ? 9 : 10;
    expect("budget 4,096", calls::settle, loan, settled(FLOODNEEDLE_UNSETTLED, 4096, 16, {0}), left);
  }
  {
    const Loan loan = settling(turns, {1}, 4095, 4095);
    Loan left = loan;
    for (std::size_t at = 0; at < 4095; ++at) left.out[at] = at % 2 == 0 ? 10 : 9;
    expect("budget 4,095", calls::settle, loan, settled(FLOODNEEDLE_UNSETTLED, 4095, 16, {0}), left);
  }
  const Loan calm = settling(table, {0, 2}, 4096, 4096);
  expect("budget 4,096 in a stable state", calls::settle, calm, settled(FLOODNEEDLE_STABLE, 0, 0, {0, 2}));
  expect("budget 0 in a stable state", calls::settle, settling(table, {0, 2}, 0, 0), settled(FLOODNEEDLE_STABLE, 0, 0, {0, 2}));
  expect("budget 0", calls::settle, settling(table, {1, 0}, 0, 0), settled(FLOODNEEDLE_UNSETTLED, 0, 0, {1, 0}));
}

// 24 goes by the budget, not by the steps that would be taken.
void traces() {
  const Table table = image(m);
  for (std::uint64_t budget : {1, 2, 3, 100, 256, 257, 4096})
    for (const Bytes& state : {Bytes{0, 0}, {1, 0}}) {
      expect("a trace of budget - 1", calls::settle, settling(table, state, budget, budget - 1), refused(24, {budget}));
      expect("no trace", calls::settle, settling(table, state, budget, 0), refused(24, {budget}));
    }
  for (std::uint64_t budget : {2, 3, 4096}) {
    const Loan loan = settling(table, {1, 0}, budget, budget);
    Loan left = loan;
    left.out[0] = 1;
    left.out[1] = 2;
    expect("a trace of the budget", calls::settle, loan, settled(FLOODNEEDLE_STABLE, 2, 1, {0, 2}), left);
  }
}

Loan listing(const Table& table, const Bytes& state, const Bytes& list) {
  Loan loan = lent_state(table, state);
  loan.bytes = list;
  return loan;
}

void lists() {
  const Table table = image(m), turns = image(endless);
  Bytes list(4096);
  for (std::size_t at = 0; at < list.size(); ++at) list[at] = at % 2 == 0 ? 9 : 10;
  expect("a list of 4,096", calls::settle_list, listing(turns, {0}, list), settled(FLOODNEEDLE_UNSETTLED, 4096, 16, {0}));
  for (std::uint8_t odd : {9, 11, 63, 64, 74, 128, 255}) {
    Bytes wrong = list;
    wrong.back() = odd;
    expect("a list of 4,096 with its last byte wrong", calls::settle_list, listing(turns, {0}, wrong), refused(23, {4095}));
    wrong = list;
    wrong[256] = 255;
    expect("the first of two", calls::settle_list, listing(turns, {0}, wrong), refused(23, {256}));
  }
  for (std::size_t length : {4097, 5000, 65536}) {
    list.resize(length, 9);
    expect("22: a list too long", calls::settle_list, listing(turns, {0}, list), refused(22, {0}));
    expect("22 before 23", calls::settle_list, listing(turns, {0}, Bytes(length, 255)), refused(22, {0}));
  }
  expect("4,096 wrong bytes", calls::settle_list, listing(turns, {0}, Bytes(4096, 255)), refused(23, {0}));
  for (unsigned byte = 0; byte < 256; ++byte)
    if (byte != 1) expect("23: byte " + std::to_string(byte), calls::settle_list, listing(table, {1, 0}, {static_cast<std::uint8_t>(byte)}), refused(23, {0}));
  expect("23 at the index", calls::settle_list, listing(table, {1, 0}, {1, 2, 2}), refused(23, {2}));
  expect("23: 65 is not 1", calls::settle_list, listing(table, {1, 0}, {1, 66}), refused(23, {1}));
  expect("an empty list", calls::settle_list, listing(table, {1, 0}, {}), settled(FLOODNEEDLE_UNSETTLED, 0, 0, {1, 0}));
  expect("an empty list in a stable state", calls::settle_list, listing(table, {0, 2}, {}), settled(FLOODNEEDLE_STABLE, 0, 0, {0, 2}));
  expect("a list that ends too soon", calls::settle_list, listing(table, {1, 0}, {1}), settled(FLOODNEEDLE_UNSETTLED, 1, 1, {0, 1}));
}

}  // namespace

void stated_runs() {
  states();
  unconfluent();
  order_matters();
  steps();
  budgets();
  traces();
  lists();
}
