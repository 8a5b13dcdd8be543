// Components that are not confluent alone (request 8): the systems of its page by every call that looks at either test, 45 and the place of 18, paths
// that are possible and not, and the order of 45, 18, of 22 and 46 of the path, and of the call's own.
#include "stated.hpp"

namespace {

// A step of a path: an urgent action, or an action with its clock.
Bytes by(std::uint8_t action) { return {action, 0}; }
Bytes by(std::uint8_t action, std::uint8_t clock) { return {action, static_cast<std::uint8_t>(clock + 1)}; }

Bytes joined(std::initializer_list<Bytes> steps) {
  Bytes path;
  for (const Bytes& step : steps) path.insert(path.end(), step.begin(), step.end());
  return path;
}

Loan walking(const Table& table, const Bytes& path, std::uint64_t budget, std::size_t trace) {
  Loan loan = lent_table(table);
  loan.path = path;
  loan.number = budget;
  loan.out = Bytes(trace, 0x77);
  return loan;
}

Loan listing(const Table& table, const Bytes& path, const Bytes& list) {
  Loan loan = lent_table(table);
  loan.path = path;
  loan.bytes = list;
  return loan;
}

// By rule with this budget, and by list: the same answer, the actions taken at the trace's front.
void expect_after(const std::string& why, const Table& table, const Bytes& path, std::uint64_t budget, floodneedle_kind verdict, std::uint64_t resets,
                  const Bytes& taken, const Bytes& after) {
  const Said said = settled(verdict, taken.size(), resets, after);
  for (std::size_t more : {0, 3}) {
    const Loan loan = walking(table, path, budget, budget + more);
    Loan left = loan;
    std::copy(taken.begin(), taken.end(), left.out.begin());
    expect(why, calls::settle_after, loan, said, left);
  }
  expect(why + ", by list", calls::settle_list_after, listing(table, path, taken), said);
}

// Loans that are wrong in each call's own way behind this path: 45, 18, and 22 and 46 of the path come before all of those.
void expect_refused(const std::string& why, const Table& table, const Bytes& path, const Said& refusal) {
  expect(why, calls::settle_after, walking(table, path, 3, 3), refusal);
  expect(why + ", before 22", calls::settle_after, walking(table, path, 4097, 4097), refusal);
  expect(why + ", before 24", calls::settle_after, walking(table, path, 3, 2), refusal);
  expect(why + ", before 22 and 24", calls::settle_after, walking(table, path, largest, 0), refusal);
  expect(why + ", by list", calls::settle_list_after, listing(table, path, {}), refusal);
  expect(why + ", before 23", calls::settle_list_after, listing(table, path, {255}), refusal);
  expect(why + ", before 22, by list", calls::settle_list_after, listing(table, path, Bytes(4097, 255)), refusal);
}

// What every call that looks at either test refuses before it looks at anything else that it is lent.
void expect_entry_refused(const std::string& why, const Table& table, const Said& refusal) {
  for (const Bytes& path : {Bytes(), Bytes(8193, 9), Bytes(3, 255)}) expect_refused(why, table, path, refusal);
  Loan loan = lent_table(table);
  loan.number = largest;
  loan.bytes = {255};
  expect(why + ", simulation", calls::simulate, loan, refusal);
}

// Settling from a state goes by check 18 alone.
void expect_18(const std::string& why, const Table& table, const Said& refusal) {
  expect(why, calls::confluent, lent_table(table), refusal);
  const second::StartAnswer start = second::start(lent(table));
  Loan loan = lent_state(table, Bytes(start.state.parts, start.state.parts + start.count));
  loan.number = 3;
  loan.out = Bytes(3, 0x77);
  for (const Call* call : {&calls::settle, &calls::settle_list}) expect(why, *call, loan, refusal);
}

const Text source = "comp 4 0\nact 0 out\nact 1 uout\nact 2 uout\nclk 0 1\nrow 0 0 0 - 1\nrow 1 - 1 0 2\nrow 2 0 0 - 3\nrow 3 - 2 0 0\n";
const Text listener =
    "comp 3 0\nact 1 uin\nact 2 uin\nrow 0 - 1 - 1\nrow 0 - 2 - 2\nrow 1 - 1 - 1\nrow 1 - 2 - 1\nrow 2 - 1 - 2\nrow 2 - 2 - 2\n";
const Text g = tabbed(source + listener);
const Text open_g = tabbed(source +
                           "comp 3 0\nact 1 uin\nact 2 uin\nact 3 in\nrow 0 - 1 - 1\nrow 0 - 2 - 2\nrow 0 - 3 - 0\nrow 1 - 1 - 1\nrow 1 - 2 - 1\n"
                           "row 1 - 3 - 1\nrow 2 - 1 - 2\nrow 2 - 2 - 2\nrow 2 - 3 - 2\n");
const Said alone = refused(18, {1, 0, 1, 2});

// Q1 to Q5.
void paths() {
  const Table table = image(g);
  expect_18("Q1", table, alone);
  expect("Q1", calls::orderly, lent_table(table), done());
  expect_after("Q2", table, {}, 100, FLOODNEEDLE_STABLE, 0, {}, {0, 0});
  expect_after("Q2 with budget 0", table, {}, 0, FLOODNEEDLE_STABLE, 0, {}, {0, 0});
  expect_after("Q3", table, by(0, 0), 100, FLOODNEEDLE_STABLE, 1, {1}, {2, 1});
  expect_after("Q3 with budget 0", table, by(0, 0), 0, FLOODNEEDLE_UNSETTLED, 0, {}, {1, 0});
  expect_after("Q3 with budget 1", table, by(0, 0), 1, FLOODNEEDLE_STABLE, 1, {1}, {2, 1});
  expect_after("Q3 with budget 4,096", table, by(0, 0), 4096, FLOODNEEDLE_STABLE, 1, {1}, {2, 1});
  expect_after("Q4", table, joined({by(0, 0), by(1), by(0, 0)}), 100, FLOODNEEDLE_STABLE, 1, {2}, {0, 1});
  expect_after("Q4, one step on", table, joined({by(0, 0), by(1), by(0, 0), by(2)}), 100, FLOODNEEDLE_STABLE, 0, {}, {0, 1});

  const struct {
    Bytes path;
    std::uint64_t index;
  } impossible[] = {{joined({by(0, 0), by(0, 0)}), 1}, {by(1), 0}, {by(0), 0}, {by(0, 1), 0}, {joined({by(0, 0), by(1, 0)}), 1}, {joined({by(0, 0), by(2)}), 1}};
  for (const auto& entry : impossible) expect_refused("Q5", table, entry.path, refused(46, {entry.index}));
}

// Every byte is taken, and what names nothing is 46. On M, where check 18 passes and the new test is not looked at.
void bytes_of_a_path() {
  const Table table = image(m);
  for (unsigned byte = 0; byte < 256; ++byte) {
    const auto odd = static_cast<std::uint8_t>(byte);
    const std::string at = ", byte " + std::to_string(byte);
    for (std::uint8_t guard : {0, 1, 2, 64, 65, 255})
      if (odd != 0 || guard != 1) expect("an action" + at, calls::settle_after, walking(table, {odd, guard}, 3, 3), refused(46, {0}));
    for (std::uint8_t action : {0, 1, 63, 64, 255})
      if (action != 0 || odd != 1) expect("a guard" + at, calls::settle_list_after, listing(table, {action, odd}, {}), refused(46, {0}));
    expect("a byte alone" + at, calls::settle_after, walking(table, {odd}, 3, 3), refused(46, {0}));
    expect("a byte alone behind a step" + at, calls::settle_list_after, listing(table, {0, 1, odd}, {}), refused(46, {1}));
    if (odd != 1) expect("an urgent action" + at, calls::settle_after, walking(table, {0, 1, odd, 0}, 3, 3), refused(46, {1}));
    if (odd != 0) expect("an urgent action with a clock" + at, calls::settle_after, walking(table, {0, 1, 1, odd}, 3, 3), refused(46, {1}));
  }
  // The first of two is told.
  expect_refused("two impossible steps", table, joined({by(0, 0), by(9), by(9, 9)}), refused(46, {1}));
  expect_refused("an impossible step, and a byte alone", table, {0, 1, 9, 9, 7}, refused(46, {1}));
}

// 4,096 steps are a path, a byte more is 22 though the first step be impossible.
void long_paths() {
  const Table table = image(g);
  Bytes longest;
  for (unsigned turn = 0; turn < 1024; ++turn)
    for (const Bytes& step : {by(0, 0), by(1), by(0, 0), by(2)}) longest.insert(longest.end(), step.begin(), step.end());
  expect_after("a path of 4,096 steps", table, longest, 3, FLOODNEEDLE_STABLE, 0, {}, {0, 1});
  Bytes wrong = longest;
  wrong.back() = 1;
  expect_refused("a path of 4,096 steps, the last impossible", table, wrong, refused(46, {4095}));
  wrong = longest;
  wrong.pop_back();
  expect_refused("a path of 4,096 steps, the last without its guard", table, wrong, refused(46, {4095}));
  expect_refused("8,192 bytes of no step", table, Bytes(8192, 255), refused(46, {0}));
  for (std::size_t bytes : {8193, 8194, 8195, 16384, 70000}) {
    Bytes over = longest;
    over.resize(bytes, 0);
    expect_refused("22: a longer path", table, over, refused(22, {0}));
    expect_refused("22 before 46", table, Bytes(bytes, 255), refused(22, {0}));
  }
}

// Behind a path that is possible the call's own come in their order.
void behind_the_path() {
  const Table table = image(g);
  const Bytes path = by(0, 0);
  for (std::uint64_t budget : {std::uint64_t{4097}, std::uint64_t{65536}, std::uint64_t{1} << 63, largest})
    for (std::size_t trace : {0, 4096, 4097}) expect("22", calls::settle_after, walking(table, path, budget, trace), refused(22, {0}));
  for (std::uint64_t budget : {1, 2, 100, 4096}) {
    expect("24", calls::settle_after, walking(table, path, budget, budget - 1), refused(24, {budget}));
    expect("24 in a stable state", calls::settle_after, walking(table, {}, budget, 0), refused(24, {budget}));
  }
  for (std::size_t bytes : {4097, 5000}) expect("22 of a list", calls::settle_list_after, listing(table, path, Bytes(bytes, 255)), refused(22, {0}));
  for (unsigned byte = 0; byte < 256; ++byte)
    if (byte != 1) expect("23", calls::settle_list_after, listing(table, path, {static_cast<std::uint8_t>(byte)}), refused(23, {0}));
  expect("23 at the index", calls::settle_list_after, listing(table, path, {1, 1}), refused(23, {1}));
  expect("23 in a stable state", calls::settle_list_after, listing(table, {}, {1}), refused(23, {0}));
}

// Q6: an input that nobody outputs.
void open_systems() {
  const Table table = image(open_g);
  expect("Q6", calls::orderly, lent_table(table), refused(45, {3}));
  expect_entry_refused("Q6", table, refused(45, {3}));
  expect_18("Q6", table, alone);
  // The lowest of several, urgent or not, with rows or not; an output is nobody's input that lacks.
  expect("the lowest of two", calls::orderly, lent_table(image(tabbed("comp 1 0\nact 9 in\nact 40 uin\nrow 0 - 9 - 0\nrow 0 - 40 - 0\n"))), refused(45, {9}));
  expect("the lowest of two components", calls::orderly,
         lent_table(image(tabbed("comp 1 0\nact 63 in\nrow 0 - 63 - 0\ncomp 1 0\nact 62 uin\nrow 0 - 62 - 0\n"))), refused(45, {62}));
  expect("action 0", calls::orderly, lent_table(image(tabbed("comp 1 0\nact 0 uin\nrow 0 - 0 - 0\n"))), refused(45, {0}));
  expect("an output that nobody hears", calls::orderly, lent_table(image(tabbed("comp 1 0\nact 0 uout\n"))), done());
  expect("an output without a row that is heard", calls::orderly, lent_table(image(tabbed("comp 1 0\nact 0 uout\ncomp 1 0\nact 0 uin\nrow 0 - 0 - 0\n"))), done());
  // 45 before 18 of the test, and 20 and 10 to 17 before it.
  const Table third = image(open_g + tabbed("comp 2 0\nact 4 uout\nact 5 uout\nrow 0 - 4 - 1\nrow 0 - 5 - 0\n"));
  expect("45 before 18", calls::orderly, lent_table(third), refused(45, {3}));
  expect_entry_refused("45 before 18", third, refused(45, {3}));
  const Table lacks = image(with(open_g, "row 2 - 3 - 2\n", ""));
  expect("12 before 45", calls::orderly, lent_table(lacks), refused(12, {1, 2, 3}));
  expect_entry_refused("12 before 45", lacks, refused(12, {1, 2, 3}));
  expect("20 first", calls::orderly, lent_table(Table(3, 0)), refused(20, {0}));
  expect_entry_refused("20 first", Table(3, 0), refused(20, {0}));
}

// Q7 to Q9, and M: both tests.
void both_tests() {
  const Table more = image(with(g, "row 2 0 0 - 3", "row 1 - 2 0 2\nrow 2 0 0 - 3"));
  const Said at_source = refused(18, {0, 1, 1, 2});
  expect("Q7", calls::orderly, lent_table(more), at_source);
  expect_entry_refused("Q7", more, at_source);
  expect_18("Q7", more, at_source);

  const Table p7 = image(with(m, "row 1 - 2 - 2", "row 1 - 2 - 0"));
  expect("Q8, P7", calls::orderly, lent_table(p7), refused(18, {1, 1, 1, 2}));
  expect_entry_refused("Q8, P7", p7, refused(18, {1, 1, 1, 2}));
  const Table table = image(m);
  expect("Q8, M", calls::orderly, lent_table(table), done());
  expect_after("Q8, M after 0", table, by(0, 0), 100, FLOODNEEDLE_STABLE, 1, {1, 2}, {0, 2});
  expect_after("Q8, M after 0 and 1", table, joined({by(0, 0), by(1)}), 100, FLOODNEEDLE_STABLE, 0, {2}, {0, 2});
  const Table heard = image(tabbed(
      "comp 2 0\nact 0 out\nact 1 uout\nclk 0 1\nrow 0 0 0 - 1\nrow 1 - 1 0 0\n"
      "comp 3 0\nact 1 uin\nact 2 uout\nact 5 in\nrow 0 - 1 - 1\nrow 0 - 5 - 0\nrow 1 - 1 - 1\nrow 1 - 2 - 2\nrow 1 - 5 - 1\nrow 2 - 1 - 2\nrow 2 - 5 - 2\n"));
  expect("Q8, M open", calls::confluent, lent_table(heard), done());
  expect("Q8, M open", calls::orderly, lent_table(heard), refused(45, {5}));
  expect_after("Q8, M open", heard, by(0, 0), 100, FLOODNEEDLE_STABLE, 1, {1, 2}, {0, 2});
  Loan loan = lent_state(heard, {1, 0});
  loan.number = 2;
  loan.out = Bytes(2, 0x77);
  Loan left = loan;
  left.out = {1, 2};
  expect("Q8, M open, from a state", calls::settle, loan, settled(FLOODNEEDLE_STABLE, 2, 1, {0, 2}), left);
  expect_refused("Q8, an input that nobody outputs", heard, by(5), refused(46, {0}));
  expect_refused("Q8, the same with a clock", heard, by(5, 0), refused(46, {0}));

  // The place is that of check 18, though the pair that does the harm is another.
  const Table third = image(g + tabbed("comp 2 0\nact 4 uout\nact 5 uout\nrow 0 - 4 - 1\nrow 0 - 5 - 0\n"));
  expect("Q9", calls::orderly, lent_table(third), alone);
  expect_entry_refused("Q9", third, alone);
  expect_18("Q9", third, alone);
}

// W1 to W8: in each of them the order matters somewhere.
void harmful() {
  Text m_text = m;
  std::replace(m_text.begin(), m_text.end(), '\t', ' ');
  const struct {
    const char* name;
    Text text;
    Said refusal;
  } systems[] = {
      {"W1", "comp 2 0\nact 0 uout\nact 1 uout\nrow 0 - 0 - 1\nrow 0 - 1 - 0\n", refused(18, {0, 0, 0, 1})},
      {"W2", "comp 3 0\nact 0 uout\nact 1 uout\nrow 0 - 1 - 2\nrow 2 - 0 - 1\nrow 2 - 1 - 2\n", refused(18, {0, 2, 0, 1})},
      {"W3", "comp 2 0\nact 1 uout\nrow 0 - 1 - 1\ncomp 2 0\nact 0 uout\nact 1 uin\nclk 0 1\nrow 0 - 0 - 1\nrow 0 - 1 0 0\nrow 1 - 1 - 1\n",
       refused(18, {1, 0, 0, 1})},
      {"W4", "comp 1 0\nact 0 out\nclk 0 1\nrow 0 0 0 0 0\ncomp 2 0\nact 0 in\nact 1 uout\nact 2 uout\nrow 0 - 0 - 1\nrow 1 - 0 - 1\nrow 1 - 1 - 1\nrow 1 - 2 - 0\n",
       refused(18, {1, 1, 1, 2})},
      {"W5", "comp 2 0\nact 0 out\nact 1 uout\nact 2 uout\nclk 0 1\nrow 0 0 0 - 1\nrow 1 - 1 0 0\nrow 1 - 2 - 1\n", refused(18, {0, 1, 1, 2})},
      {"W6", "comp 4 0\nact 0 out\nact 1 uout\nact 2 uout\nact 3 uout\nact 4 uout\nclk 0 1\nrow 0 0 0 0 1\nrow 1 - 1 - 2\nrow 2 - 2 - 3\nrow 3 - 3 - 0\nrow 3 - 4 - 2\n",
       refused(18, {0, 3, 3, 4})},
      {"W7", m_text + "comp 2 0\nact 2 uin\nact 3 uout\nact 4 uout\nrow 0 - 2 - 1\nrow 1 - 2 - 1\nrow 1 - 3 - 1\nrow 1 - 4 - 0\n", refused(18, {2, 1, 2, 4})},
      {"W8", "comp 2 0\nact 0 out\nact 1 uout\nact 2 uin\nclk 0 1\nrow 0 0 0 0 1\nrow 0 - 2 - 0\nrow 1 - 1 - 1\nrow 1 - 2 - 0\n"
             "comp 2 0\nact 1 uin\nact 2 uout\nrow 0 - 1 - 1\nrow 1 - 1 - 1\nrow 1 - 2 - 0\n",
       refused(18, {0, 1, 1, 2})},
  };
  for (const auto& system : systems) {
    const Table table = image(tabbed(system.text));
    expect(system.name, calls::orderly, lent_table(table), system.refusal);
    expect_entry_refused(system.name, table, system.refusal);
    expect_18(system.name, table, system.refusal);
  }
}

// S1 to S3, N1 and N2: check 18 fails, the new test passes.
void harmless() {
  const Table s1 = image(tabbed(
      "comp 2 0\nact 0 out\nact 1 uout\nact 2 uin\nclk 0 1\nrow 0 0 0 0 1\nrow 0 - 2 - 0\nrow 1 - 1 - 0\nrow 1 - 2 - 0\ncomp 1 0\nact 0 in\nact 2 uout\nrow 0 - 0 - 0\nrow 0 - 2 - 0\n"));
  const Table s2 = image(tabbed(
      "comp 2 0\nact 0 out\nact 1 uout\nclk 0 1\nrow 0 0 0 - 1\nrow 1 - 1 - 1\ncomp 2 0\nact 2 out\nact 3 uout\nclk 1 1\nrow 0 1 2 - 1\nrow 1 - 3 - 1\n"
      "comp 2 0\nact 1 uin\nact 3 uin\nrow 0 - 1 - 0\nrow 0 - 3 - 1\nrow 1 - 1 - 0\nrow 1 - 3 - 1\n"));
  const Table s3 = image(tabbed(
      "comp 2 0\nact 0 out\nact 1 uout\nact 2 uout\nclk 0 1\nrow 0 0 0 - 1\nrow 1 - 1 - 1\ncomp 3 0\nact 1 uin\nact 2 uin\nact 3 uout\n"
      "row 0 - 1 - 0\nrow 0 - 2 - 1\nrow 1 - 1 - 1\nrow 1 - 2 - 1\nrow 1 - 3 - 2\nrow 2 - 1 - 0\nrow 2 - 2 - 2\n"));
  const Table n1 = image(tabbed("comp 1 0\nact 5 uout\ncomp 2 0\nact 0 uout\nact 3 uout\nact 5 uin\nrow 0 - 5 - 1\nrow 1 - 0 - 0\nrow 1 - 3 - 0\nrow 1 - 5 - 1\n"));
  const Table n2 = image(tabbed("comp 2 0\nact 0 uin\nact 4 uout\nrow 0 - 0 - 1\nrow 0 - 4 - 0\nrow 1 - 0 - 1\n"
                                "comp 2 0\nact 0 uout\nact 3 out\nclk 0 1\nrow 0 0 3 - 1\nrow 1 - 0 0 0\n"));
  const struct {
    const char* name;
    const Table& table;
    Said alone;
  } systems[] = {{"S1", s1, refused(18, {0, 1, 1, 2})},
                 {"S2", s2, refused(18, {2, 0, 1, 3})},
                 {"S3", s3, refused(18, {1, 1, 1, 3})},
                 {"N1", n1, refused(18, {1, 1, 0, 3})},
                 {"N2", n2, refused(18, {0, 0, 0, 4})}};
  for (const auto& system : systems) {
    expect(system.name, calls::orderly, lent_table(system.table), done());
    expect_18(system.name, system.table, system.alone);
    Loan loan = lent_table(system.table);
    loan.number = 4097;
    expect(system.name, calls::simulate, loan, refused(22, {0}));
  }
  expect_after("S1", s1, {}, 4, FLOODNEEDLE_UNSETTLED, 0, {2, 2, 2, 2}, {0, 0});
  expect_refused("S1, from an unstable state", s1, by(0, 0), refused(46, {0}));
  expect_after("S2", s2, {}, 2, FLOODNEEDLE_STABLE, 0, {}, {0, 0, 0});
  expect_after("S2 after 0", s2, by(0, 0), 2, FLOODNEEDLE_UNSETTLED, 0, {1, 1}, {1, 0, 0});
  expect_after("S2 after 2", s2, by(2, 1), 2, FLOODNEEDLE_UNSETTLED, 0, {3, 3}, {0, 1, 1});
  expect_refused("S2, one clock for the other", s2, by(2, 0), refused(46, {0}));
  expect_refused("S2, from an unstable state", s2, joined({by(0, 0), by(2, 1)}), refused(46, {1}));
  expect_after("S3 after 0", s3, by(0, 0), 3, FLOODNEEDLE_UNSETTLED, 0, {1, 1, 1}, {1, 0});
  expect_refused("S3, an output that is not enabled", s3, joined({by(0, 0), by(2)}), refused(46, {1}));

  // Where the theorem stops: a state whose parts are reached and which is not, and a non-urgent step that leaves an unstable state.
  expect_after("N1", n1, {}, 3, FLOODNEEDLE_STABLE, 0, {}, {0, 0});
  expect_refused("N1, an output without a row", n1, by(5), refused(46, {0}));
  for (std::uint64_t action : {0, 3}) {
    Loan loan = lent_state(n1, {0, 1});
    loan.number = action;
    expect("N1 from 0,1", calls::step_by, loan, moved(action, 0, {0, 0}));
  }
  expect_after("N2", n2, {}, 3, FLOODNEEDLE_UNSETTLED, 0, {4, 4, 4}, {0, 0});
  expect_refused("N2", n2, by(3, 0), refused(46, {0}));
}

// The simulation takes G: the source says 1 and 2 in turn, a sample for clock 0 each time.
void simulations() {
  const auto simulating = [](const Text& samples, std::uint64_t rounds) {
    Loan loan = lent_table(image(g));
    loan.bytes = bytes_of(tabbed(samples));
    loan.number = rounds;
    loan.clocks = Clocks(64, 5);
    return loan;
  };
  const Text samples = "0 11 12 13\n";
  const struct {
    std::int64_t value;
    Bytes state;
  } rounds[] = {{11, {0, 0}}, {12, {2, 1}}, {13, {0, 1}}};
  for (std::uint64_t n = 0; n < 3; ++n) {
    const Loan loan = simulating(samples, n);
    Loan left = loan;
    left.clocks[0] = rounds[n].value;
    Said said = done(n);
    std::copy(rounds[n].state.begin(), rounds[n].state.end(), said.after.begin());
    expect("G, round " + std::to_string(n), calls::simulate, loan, said, left);
  }
  expect("G, 41", calls::simulate, simulating(samples, 3), refused(41, {0}));
  expect("G, 40", calls::simulate, simulating("1 5\n", 1), refused(40, {1}));
}

// Paths through 32 components, and states behind the components.
void wide() {
  Text text;
  Bytes path, after(32, 0);
  for (unsigned c = 0; c < 32; ++c) {
    const std::string x = std::to_string(c), says = std::to_string(32 + c);
    text += "comp 128 0\nact " + x + " out\nact " + says + " uout\nclk " + x + " 1\nrow 0 " + x + " " + x + " - 127\nrow 127 - " + says + " - 126\n";
  }
  const Table table = image(tabbed(text));
  for (unsigned c = 0; c < 32; ++c) {
    const Bytes step = by(static_cast<std::uint8_t>(c), static_cast<std::uint8_t>(c));
    path.insert(path.end(), step.begin(), step.end());
    after[c] = 126;
    expect_after("component " + std::to_string(c) + " tells", table, path, 5, FLOODNEEDLE_STABLE, 0, {static_cast<std::uint8_t>(32 + c)}, after);
    path.insert(path.end(), {static_cast<std::uint8_t>(32 + c), 0});
  }
  expect_after("all have told", table, path, 5, FLOODNEEDLE_STABLE, 0, {}, after);
  expect_refused("a clock that is waited for no more", table, joined({path, by(31, 31)}), refused(46, {64}));
}

}  // namespace

void stated_orderly() {
  paths();
  bytes_of_a_path();
  long_paths();
  behind_the_path();
  open_systems();
  both_tests();
  harmful();
  harmless();
  simulations();
  wide();
}
