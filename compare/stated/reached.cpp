// Where a component can get (paper 02, 3/13): 18 of reached states alone; 19 of settling, by rule, by list and in the program, directly after 21;
// and no 19 of any other call.
#include "stated.hpp"

namespace {

std::string joined(const Bytes& state) {
  std::string parts;
  for (std::uint8_t part : state) parts += (parts.empty() ? "" : ",") + std::to_string(part);
  return parts;
}

Loan settling(const Table& table, const Bytes& state, std::uint64_t budget, std::size_t trace) {
  Loan loan = lent_state(table, state);
  loan.number = budget;
  loan.out = Bytes(trace, 0x77);
  return loan;
}

Loan listing(const Table& table, const Bytes& state, const Bytes& list) {
  Loan loan = lent_state(table, state);
  loan.bytes = list;
  return loan;
}

// 19 at this component, whatever comes behind it: 22, 24 and 23.
void expect_19(const std::string& why, const Text& text, const Bytes& state, std::uint64_t component) {
  const Table table = image(tabbed(text));
  const Said unreached = refused(19, {component});
  for (std::uint64_t budget : {std::uint64_t{0}, std::uint64_t{8}, std::uint64_t{4096}, std::uint64_t{4097}, largest})
    for (std::size_t trace : {0, 8, 4096}) expect("19: " + why, calls::settle, settling(table, state, budget, trace), unreached);
  for (const Bytes& list : {Bytes(), Bytes{0}, Bytes(4096, 255), Bytes(4097, 0)}) expect("19: " + why, calls::settle_list, listing(table, state, list), unreached);
  for (const char* budget : {"0", "100", "4097", "99999"})
    expect_report(tabbed("from " + joined(state) + " " + budget + "\n" + text), tabbed("refused 19 " + std::to_string(component) + "\n"));
}

// Stable there, with no step.
void expect_rest(const std::string& why, const Text& text, const Bytes& state) {
  const Table table = image(tabbed(text));
  const Said rests = settled(FLOODNEEDLE_STABLE, 0, 0, state);
  expect(why, calls::settle, settling(table, state, 8, 8), rests);
  expect(why, calls::settle_list, listing(table, state, {}), rests);
  expect_report(tabbed("from " + joined(state) + " 8\n" + text), tabbed("stable 0 - " + joined(state) + "\n"));
}

// Reached are 0 and 1: the input may not leave the unstable 0.
const Text fork = "comp 3 0\nact 0 uout\nact 1 in\nrow 0 - 0 - 1\nrow 0 - 1 - 2\nrow 1 - 1 - 1\nrow 2 - 1 - 2\n";

void stated_answers() {
  const Table table = image(tabbed(fork));
  expect_checks("a state that is not reached", table, done(), done());
  expect_rest("from 1", fork, {1});
  Loan loan = settling(table, {0}, 8, 8), left = loan;
  left.out[0] = 0;
  expect("from 0", calls::settle, loan, settled(FLOODNEEDLE_STABLE, 1, 0, {1}), left);
  expect_19("from 2", fork, {2}, 0);
  // 21 is before it, and 19 of no other call.
  for (const Loan& wrong : {settling(table, {3}, largest, 0), settling(table, {2, 2}, largest, 0), settling(table, {}, 8, 8)})
    for (const Call* call : {&calls::settle, &calls::settle_list}) expect("21 before 19", *call, wrong, refused(21, {0}));
  expect_report(tabbed("from 3 8\n" + fork), "refused\t21\t0\n");
  loan = lent_state(table, {2});
  expect("a step from 2", calls::step, loan, stable({2}));
  expect("a lent step from 2", calls::advance, loan, stable({}));
  expect("a named step from 2", calls::step_by, loan, refused(23, {0}));
  loan.clocks = Clocks(64, 7);
  expect("a timed step from 2", calls::timed_step, loan, quiet({2}));

  const Text loops =
      "act 0 uin\nact 1 uin\nrow 0 - 0 - 0\nrow 0 - 1 - 0\nrow 1 - 0 - 1\nrow 1 - 1 - 1\nrow 2 - 0 - 2\nrow 2 - 1 - 2\nrow 3 - 0 - 1\nrow 3 - 1 - 2\n";
  expect_checks("a clash in a state that is not reached", image(tabbed("comp 4 0\n" + loops)), done(), done());
  for (std::uint8_t state : {1, 2, 3}) expect_19("of four states that are not left", "comp 4 0\n" + loops, {state}, 0);
  const Said clash = refused(18, {0, 3, 0, 1});
  const Table from_3 = image(tabbed("comp 4 3\n" + loops));
  expect_checks("the same with start 3", from_3, done(), clash);
  for (std::uint8_t state : {0, 3, 4}) {
    expect("18 before 19 and 21", calls::settle, settling(from_3, {state}, 8, 8), clash);
    expect("18 before 19 and 21", calls::settle_list, listing(from_3, {state}, {}), clash);
    expect_report(tabbed("from " + std::to_string(state) + " 8\ncomp 4 3\n" + loops), "refused\t18\t0,3,0,1\n");
  }
}

// M settles from 1,1, which is made of reached parts. Merged at 0 that pair is not reached: action 0 would leave the unstable pair (0,1).
void merged() {
  const Text both =
      "comp 6 0\nact 0 out\nact 1 uout\nact 2 uout\nclk 0 1\n"
      "row 0 0 0 - 3\nrow 1 0 0 - 4\nrow 1 - 2 - 2\nrow 2 0 0 - 5\nrow 3 - 1 0 1\nrow 4 - 1 0 1\nrow 4 - 2 - 5\nrow 5 - 1 0 2\n";
  Loan loan = lent_table(image(m));
  loan.into = Table(table_words, 0x77);
  Loan left = loan;
  left.into = image(tabbed(both));
  expect("M merged", calls::merge, loan, done(), left);
  expect("M by list from 1,1", calls::settle_list, listing(image(m), {1, 1}, {2, 1}), settled(FLOODNEEDLE_STABLE, 2, 1, {0, 2}));
  expect_19("M merged, from the pair 1,1", both, {4}, 0);
  expect("M merged, by list from the pair 1,0", calls::settle_list, listing(image(tabbed(both)), {3}, {1, 2}), settled(FLOODNEEDLE_STABLE, 2, 1, {2}));
  expect("M merged, by list from the pair 1,2", calls::settle_list, listing(image(tabbed(both)), {5}, {1}), settled(FLOODNEEDLE_STABLE, 1, 1, {2}));
  expect("no 19 for a step", calls::step, lent_state(image(tabbed(both)), {4}), moved(1, 1, {1}));
}

// The lowest component of those whose part is not reached.
void lowest() {
  const Text three = "comp 1 0\ncomp 2 0\ncomp 2 1\n";
  expect_rest("three in their starts", three, {0, 0, 1});
  expect_19("the second of three", three, {0, 1, 1}, 1);
  expect_19("the last of three", three, {0, 0, 0}, 2);
  expect_19("the lower of two", three, {0, 1, 0}, 1);
  const Text all = repeated("comp 2 1\n", 32);
  expect_rest("32 in their starts", all, Bytes(32, 1));
  for (std::size_t c = 0; c < 32; ++c) {
    Bytes state(32, 1);
    state[c] = 0;
    expect("19: of 32 components", calls::settle, settling(image(tabbed(all)), state, 8, 8), refused(19, {c}));
    if (c % 3 == 0) state.back() = 0;
    expect("19: the lowest of 32 components", calls::settle_list, listing(image(tabbed(all)), state, {}), refused(19, {c}));
  }
  expect_19("all 32", all, Bytes(32, 0), 0);
}

// 128 states in a row from the start on, up or down, each with a row of action 0 to the next, and urgent loops by action 1 in some.
struct Chain {
  const char* kind;  // of action 0
  bool up;
  unsigned loops_from, loops_to;  // how far from the start
  unsigned reached;               // how many, from the start on
};

const Chain chains[] = {
    // Rows of every kind are followed, from stable states on, whichever way they stand in the table.
    {"in", true, 0, 0, 128},     {"in", false, 0, 0, 128},     {"uin", true, 0, 0, 128},    {"uin", false, 0, 0, 128},
    {"out", true, 0, 0, 128},    {"out", false, 0, 0, 128},    {"uout", true, 0, 0, 128},   {"uout", false, 0, 0, 128},
    // Urgent ones from unstable states too.
    {"uin", true, 0, 128, 128},  {"uin", false, 0, 128, 128},  {"uin", true, 60, 128, 128}, {"uin", false, 60, 128, 128},
    {"uout", true, 0, 128, 128}, {"uout", true, 60, 128, 128}, {"uout", false, 60, 128, 128},
    // Others not.
    {"in", true, 0, 128, 1},     {"in", false, 0, 128, 1},     {"out", true, 0, 128, 1},    {"out", false, 0, 128, 1},
    {"in", true, 62, 63, 63},    {"in", true, 63, 64, 64},     {"in", true, 64, 65, 65},    {"in", true, 126, 127, 127},
    {"out", true, 62, 63, 63},   {"out", true, 63, 64, 64},    {"out", true, 64, 65, 65},   {"out", true, 126, 127, 127},
    {"in", false, 63, 64, 64},   {"in", false, 64, 65, 65},    {"out", false, 63, 64, 64},  {"out", false, 64, 65, 65},
};

bool loops(const Chain& chain, unsigned way) { return chain.loops_from <= way && way < chain.loops_to; }

Text text_of(const Chain& chain) {
  const Text kind = chain.kind;
  const bool timed = kind == "out", heard = kind == "in" || kind == "uin";
  Text text = Text("comp 128 ") + (chain.up ? "0" : "127") + "\nact 0 " + kind + "\nact 1 uout\n" + (timed ? "clk 0 1\n" : "");
  for (unsigned s = 0; s < 128; ++s) {
    const unsigned way = chain.up ? s : 127 - s, next = way == 127 ? s : chain.up ? s + 1 : s - 1;
    const Text from = "row " + std::to_string(s);
    if (way < 127 || heard) text += from + (timed ? " 0 0 0 " : " - 0 - ") + std::to_string(next) + "\n";
    if (loops(chain, way)) text += from + " - 1 - " + std::to_string(s) + "\n";
  }
  return text;
}

void long_ways() {
  for (const Chain& chain : chains) {
    const std::string why = Text(chain.kind) + (chain.up ? " up, " : " down, ") + std::to_string(chain.reached) + " reached";
    const Table table = image(tabbed(text_of(chain)));
    expect_checks(why, table, done(), done());
    for (unsigned way = 0; way < 128; ++way) {
      const auto part = static_cast<std::uint8_t>(chain.up ? way : 127 - way);
      const bool moves = loops(chain, way) || (Text(chain.kind) == "uout" && way < 127);
      const Said rests = settled(moves ? FLOODNEEDLE_UNSETTLED : FLOODNEEDLE_STABLE, 0, 0, {part});
      const Said expected = way < chain.reached ? rests : refused(19, {0});
      expect(why, calls::settle, settling(table, {part}, 0, 0), expected);
      expect(why, calls::settle_list, listing(table, {part}, {}), expected);
    }
  }
}

// Whether anybody outputs an input does not matter, nor does what the other components do.
void by_itself() {
  const Text orphan = "comp 2 0\nact 5 uin\nrow 0 - 5 - 1\nrow 1 - 5 - 1\n";
  expect_rest("by an input that nobody outputs", orphan, {1});
  const Text silent = "comp 1 0\nact 5 uout\n" + orphan;
  expect_rest("by an input whose speaker never speaks", silent, {0, 1});
  // The other component is unstable at its start, which is nothing to this one.
  const Text beside = "comp 1 0\nact 6 uout\nrow 0 - 6 - 0\ncomp 2 0\nact 5 in\nrow 0 - 5 - 1\nrow 1 - 5 - 1\n";
  const Table table = image(tabbed(beside));
  expect("beside an unstable component", calls::settle, settling(table, {0, 1}, 0, 0), settled(FLOODNEEDLE_UNSETTLED, 0, 0, {0, 1}));
}

}  // namespace

void stated_reached() {
  stated_answers();
  merged();
  lowest();
  long_ways();
  by_itself();
}
