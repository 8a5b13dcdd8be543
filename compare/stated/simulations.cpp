// Simulations over recorded samples (paper 02, 4/13): the stated answers, texts of every wrong shape, rounds and values at their limits, lists that
// run out by one, ties, rounds without end, and the order of 22, 28, 40 and then 30, 42, 41 round by round.
#include "stated.hpp"

namespace {

constexpr std::int64_t bound = std::int64_t{1} << 40;
constexpr std::uint64_t most = 4096;

// Two components of one state, each with an `out` row to itself by its own clock.
const Text two_clocks = tabbed("comp 1 0\nact 0 out\nclk 4 1\nrow 0 4 0 4 0\ncomp 1 0\nact 1 out\nclk 9 1\nrow 0 9 1 9 0\n");
const Text endless = tabbed("comp 1 0\nact 0 uout\nclk 3 1\nrow 0 - 0 3 0\n");
// Its one urgent step of round 0 resets the clock that is set at the start.
const Text once = tabbed("comp 2 0\nact 0 uout\nclk 0 1\nrow 0 - 0 0 1\n");
// Settles in rounds 0 and 1, and never after the timed step of round 2; clock 1 is not set, and reset without end.
const Text later = tabbed("comp 3 0\nact 0 out\nact 1 uout\nclk 0 1\nclk 1 0\nrow 0 0 0 0 1\nrow 1 0 0 0 2\nrow 2 - 1 1 2\n");

// In texts of samples `;` stands for LF, a space for a tab, `_` for a space.
Text lines(Text text) {
  for (char& byte : text)
    if (byte == ';') byte = '\n';
  return tabbed(text);
}

// What the 64 values may hold before: it is never read, and undeclared places keep it.
std::vector<Clocks> contents() {
  Clocks each(64);
  for (unsigned x = 0; x < 64; ++x) each[x] = (x % 2 == 0 ? INT64_MIN : INT64_MAX - 63) + x;
  return {each, Clocks(64, 0), Clocks(64, -1), Clocks(64, 5), Clocks(64, bound + 1)};
}

Loan simulating(const Table& table, const Text& samples, std::uint64_t rounds, const Clocks& clocks = contents()[0]) {
  Loan loan = lent_table(table);
  loan.bytes = bytes_of(samples);
  loan.number = rounds;
  loan.clocks = clocks;
  return loan;
}

void expect_refused(const std::string& why, const Table& table, const Text& samples, std::uint64_t rounds, std::uint64_t number, std::uint64_t place) {
  for (const Clocks& clocks : contents()) expect(why, calls::simulate, simulating(table, lines(samples), rounds, clocks), refused(number, {place}));
}

Said simulated(std::uint64_t rounds, const Bytes& state) {
  Said s = done(rounds);
  std::copy(state.begin(), state.end(), s.after.begin());
  return s;
}

using Values = std::vector<std::pair<unsigned, std::int64_t>>;

void expect_done(const std::string& why, const Table& table, const Text& samples, std::uint64_t rounds, std::uint64_t count, const Bytes& state,
                 const Values& values) {
  for (const Clocks& clocks : contents()) {
    const Loan loan = simulating(table, lines(samples), rounds, clocks);
    Loan left = loan;
    for (const auto& [clock, value] : values) left.clocks[clock] = value;
    expect(why, calls::simulate, loan, simulated(count, state), left);
  }
}

// The table of M, and the lines behind it.
void examples() {
  const Table table = image(m), two = image(two_clocks);
  expect_done("M, 0 rounds", table, "0 5;", 0, 0, {0, 0}, {{0, 5}});
  expect_done("M, 1 round", table, "0 5 7;", 1, 1, {0, 2}, {{0, 7}});
  expect_done("M, 2 rounds", table, "0 5 7 9;", 2, 2, {0, 2}, {{0, 9}});
  expect_refused("M, 41 in round 1", table, "0 5;", 1, 41, 0);
  expect_refused("M, 41 in round 0", table, "0;", 0, 41, 0);
  expect_refused("M, 22", table, "0 5;", 4097, 22, 0);
  expect("M, 28", calls::simulate, simulating(table, lines("0 5;"), 1, Clocks(63, 5)), refused(28, {0}));
  expect_refused("M, 40", table, "0 5;1 5;", 0, 40, 2);
  expect_refused("two clocks, a tie", two, "4 5;9 5;", 1, 30, 4);
  expect_refused("two clocks, 41 in round 0", two, "4 5;9;", 1, 41, 9);
  expect_done("two clocks", two, "4 5 3;9 6;", 1, 1, {0, 0}, {{4, 3}, {9, 1}});
  expect_refused("two clocks, 41 in round 1", two, "4 5 5;9 3;", 1, 41, 9);
  expect_refused("42, not 41", image(endless), "3;", 0, 42, 0);
  expect_done("one sample is taken", image(once), "0 8 9;", 0, 0, {1}, {{0, 8}});
}

// 22, 28, 40 in this order, behind the table's.
void in_order() {
  const Table table = image(m);
  for (std::uint64_t rounds : {most + 1, most + 2, std::uint64_t{65536}, std::uint64_t{1} << 32, (std::uint64_t{1} << 32) + 1, std::uint64_t{1} << 63, largest}) {
    const std::string at = ": " + std::to_string(rounds) + " rounds";
    expect_refused("22" + at, table, "0 5;", rounds, 22, 0);
    for (std::size_t values : {0, 63, 64, 65}) expect("22 before 28 and 40" + at, calls::simulate, simulating(table, "x", rounds, Clocks(values, 5)), refused(22, {0}));
  }
  for (std::size_t values : {0, 1, 63, 65, 128}) {
    const std::string at = ": " + std::to_string(values) + " values";
    expect("28" + at, calls::simulate, simulating(table, lines("0 5 7;"), 1, Clocks(values, 5)), refused(28, {0}));
    expect("28 before 40" + at, calls::simulate, simulating(table, "x", most, Clocks(values, 5)), refused(28, {0}));
    expect("28 before 42" + at, calls::simulate, simulating(image(endless), "3\n", 0, Clocks(values, 5)), refused(28, {0}));
  }
  expect_refused("40 before 42", image(endless), "4;", 0, 40, 1);
  expect_refused("40 before 41", table, "0;0;", 0, 40, 2);
  expect_refused("40 before 30", image(two_clocks), "4 5;9 5;;", 1, 40, 3);
  // Samples that are never taken are looked at too.
  expect_refused("40 of a sample that no round takes", table, "0 5 7 x;", 0, 40, 1);
  expect_refused("40 of the last sample", table, "0 5 7 9 9 9 9 9 0;", 1, 40, 1);
  // The table's refusals come before: those of stated/models.cpp and stated/tables.cpp with 2^64 - 1 rounds and no value at all.
  expect("18 before 22", calls::simulate, simulating(image(with(m, "row 1 - 2 - 2", "row 1 - 2 - 0")), "x", largest, {}), refused(18, {1, 1, 1, 2}));
  expect("14 before 22", calls::simulate, simulating(image(with(m, "clk 0 1", "clk 0 0")), "x", largest, {}), refused(14, {0}));
  expect("20 first", calls::simulate, simulating(Table(3, 0), "x", largest, {}), refused(20, {0}));
}

// A model that declares these clocks and does nothing.
Table declaring(const Text& clocks) {
  Text text = "comp 1 0\n", clock;
  for (char byte : clocks + " ") {
    if (byte != ' ') clock += byte;
    else if (!clock.empty()) text += "clk " + clock + " 0\n", clock.clear();
  }
  return image(tabbed(text));
}

struct Samples {
  const char* declared;
  const char* text;
  std::uint64_t place;  // of 40, or 0 where the text is good
};

const Samples texts[] = {
    {"0 3", "", 1},
    {"0 3", "0 5;", 2},
    {"0 3", "0 5", 1},
    {"0 3", "0 5;3", 2},
    {"0 3", "3;0 5;", 1},
    {"0 3", "0 5;0 5;3;", 2},
    {"0 3", "0 5;3;;", 3},
    {"0 3", "0 5;3;4 1;", 3},
    {"", ";", 1},
    {"", "", 0},
    {"", "0;", 1},
    {"", "_", 1},
    {"", "0", 1},
    {"0 3", "0 5;3;", 0},
    {"0 3", "0;3 1 2 3;", 0},
    {"0 3", "0;3;x", 3},
    {"0 3", "0;3;3;", 3},
    {"0 3", "0;", 2},
    {"0 3", "0;3 ", 2},
    {"0 3", "x;", 1},
    {"0 3", "x;x;", 1},
    {"0 3", "0;x;x;", 2},
    // The clock.
    {"7", "7;", 0},
    {"7", "07;", 1},
    {"7", "007;", 1},
    {"7", "71;", 1},
    {"7", "6;", 1},
    {"7", "8;", 1},
    {"7", "7x;", 1},
    {"7", "x7;", 1},
    {"7", "-7;", 1},
    {"7", "+7;", 1},
    {"7", " 7;", 1},
    {"7", "_7;", 1},
    {"7", "7_;", 1},
    {"7", "263;", 1},
    {"0", "0;", 0},
    {"0", "00;", 1},
    {"0", "256;", 1},
    {"0", "64;", 1},
    {"0", ";", 1},
    {"10", "10;", 0},
    {"10", "1;", 1},
    {"10", "100;", 1},
    {"10", "010;", 1},
    {"63", "63;", 0},
    {"63", "63 1;", 0},
    {"63", "063;", 1},
    {"63", "64;", 1},
    {"63", "6;", 1},
    {"63", "630;", 1},
    {"63", "4294967359;", 1},
    {"63", "18446744073709551679;", 1},
    // The samples.
    {"7", "7 1;", 0},
    {"7", "7 1 1 1;", 0},
    {"7", "7 9;", 0},
    {"7", "7 10;", 0},
    {"7", "7 999999999999;", 0},
    {"7", "7 1000000000000;", 0},
    {"7", "7 1099511627775;", 0},
    {"7", "7 1099511627776;", 0},
    {"7", "7 1099511627777;", 1},
    {"7", "7 1099511627780;", 1},
    {"7", "7 1100000000000;", 1},
    {"7", "7 2000000000000;", 1},
    {"7", "7 9999999999999;", 1},
    {"7", "7 10000000000000;", 1},
    {"7", "7 10995116277760;", 1},
    {"7", "7 01099511627776;", 1},
    {"7", "7 00000000000001;", 1},
    {"7", "7 0000000000001;", 1},
    {"7", "7 18446744073709551617;", 1},
    {"7", "7 18446745173221179393;", 1},
    {"7", "7 0;", 1},
    {"7", "7 00;", 1},
    {"7", "7 01;", 1},
    {"7", "7 -1;", 1},
    {"7", "7 +1;", 1},
    {"7", "7 1.0;", 1},
    {"7", "7 1.;", 1},
    {"7", "7 1e3;", 1},
    {"7", "7 0x1;", 1},
    {"7", "7 1,2;", 1},
    {"7", "7 x;", 1},
    {"7", "7 1x;", 1},
    {"7", "7 /;", 1},
    {"7", "7 :;", 1},
    {"7", "7 5 0;", 1},
    {"7", "7 5 0 5;", 1},
    // What parts and ends.
    {"7", "7 ;", 1},
    {"7", "7 1 ;", 1},
    {"7", "7  1;", 1},
    {"7", "7 1  2;", 1},
    {"7", "7_1;", 1},
    {"7", "7 _1;", 1},
    {"7", "7 1_;", 1},
    {"7", "7 1_2;", 1},
    {"7", "7 1\v;", 1},
    {"7", "7 1\r;", 1},
    {"7", "7\r;", 1},
    {"7", "7 1\r", 1},
    {"7", ";7 1;", 1},
    {"7", "7 1;;", 2},
    {"7", "7 1; ", 2},
    {"7", "7 1;\r", 2},
    {"7", "7 1;7", 2},
    {"7", "7", 1},
    {"7", "7 1", 1},
    {"7", "7 ", 1},
    // The first bad line, whatever follows.
    {"1 2 3", "1;2;3;", 0},
    {"1 2 3", "1;2;3 0;", 3},
    {"1 2 3", "1;2 x;3 0;", 2},
    {"1 2 3", "1 0;2 x;3 0;", 1},
    {"1 2 3", "1;3;2;", 2},
    {"1 2 3", "1;3;", 2},
    {"1 2 3", "2;3;", 1},
    {"1 2 3", "1;2;", 3},
    {"1 2 3", "1;2;4;", 3},
    {"1 2 3", "1;1;2;3;", 2},
    {"1 2 3", "1;2;2;3;", 3},
    {"1 2 3", "1;2;3;3;", 4},
    {"1 2 3", "1;2;3;x;x;", 4},
    {"1 2 3", "1;2;3", 3},
    {"1 2 3", "1;;2;3;", 2},
    {"1 2 3", "1 2 3;2;", 3},
    {"1 2 3", "1 2 3;", 2},
};

void shapes() {
  for (const Samples& entry : texts) {
    const std::string why = "clocks " + std::string(entry.declared) + ", samples " + entry.text;
    const Loan loan = simulating(declaring(entry.declared), lines(entry.text), 0);
    Loan left = loan;
    for (unsigned clock = 0; clock < 64; ++clock) {
      const std::string declared = " " + std::string(entry.declared) + " ";
      if (entry.place == 0 && declared.find(" " + std::to_string(clock) + " ") != Text::npos) left.clocks[clock] = 0;
    }
    expect(why, calls::simulate, loan, entry.place == 0 ? simulated(0, {0}) : refused(40, {entry.place}), left);
  }
  // NUL and every other byte, in each place: the programs must agree.
  const Table table = declaring("0 7 63");
  const Text text = lines("0;7 10 1099511627776;63 5;");
  for (std::size_t at = 0; at <= text.size(); ++at) {
    const std::string byte = "byte " + std::to_string(at) + " of the samples";
    compare(Input::stated, calls::simulate, simulating(table, text.substr(0, at), 0), "cut off before " + byte);
    if (at < text.size()) compare(Input::stated, calls::simulate, simulating(table, Text(text).erase(at, 1), 0), byte + " left out");
    for (unsigned value = 0; value < 256; ++value) {
      const Text put(1, static_cast<char>(value));
      compare(Input::stated, calls::simulate, simulating(table, Text(text).insert(at, put), 0), byte + " behind " + std::to_string(value));
      if (at < text.size()) compare(Input::stated, calls::simulate, simulating(table, Text(text).replace(at, 1, put), 0), byte + " as " + std::to_string(value));
    }
  }
  Text nul = lines("0;7;63;");
  nul[2] = '\0';
  expect("NUL for a clock", calls::simulate, simulating(table, nul, 0), refused(40, {2}));
  // 64 lines, one for each clock; the last of them bad, and one more.
  Text all, samples;
  for (unsigned clock = 0; clock < 64; ++clock) {
    all += std::to_string(clock) + " ";
    samples += std::to_string(clock) + " " + std::to_string(clock + 1) + ";";
  }
  Values zeros;
  for (unsigned clock = 0; clock < 64; ++clock) zeros.push_back({clock, 0});
  expect_done("64 lines", declaring(all), samples, 3, 0, {0}, zeros);
  expect_refused("64 lines and one more", declaring(all), samples + "64 65;", 3, 40, 65);
  expect_refused("64 lines, the last without its LF", declaring(all), samples.substr(0, samples.size() - 1), 3, 40, 64);
  expect_refused("63 lines", declaring(all), samples.substr(0, samples.rfind("63")), 3, 40, 64);
  // Clocks of several components ascend over the system, not by component.
  const Table crossed = image(tabbed("comp 1 0\nclk 5 0\nclk 20 0\ncomp 1 0\nclk 3 0\nclk 10 0\n"));
  expect_done("clocks of two components", crossed, "3;5;10;20;", 0, 0, {0, 0}, {{3, 0}, {5, 0}, {10, 0}, {20, 0}});
  expect_refused("clocks by component", crossed, "5;20;3;10;", 0, 40, 1);
}

// 4,096 rounds of M: just enough samples, one too few, and many more than any limit of a model's text.
void limits() {
  const Table table = image(m);
  const Text exact = "0" + repeated(" 3", most) + " 8;";
  expect_done("4,096 rounds", table, exact, most, most, {0, 2}, {{0, 8}});
  expect_done("4,095 rounds", table, exact, most - 1, most - 1, {0, 2}, {{0, 3}});
  expect_refused("4,097 rounds", table, exact + "", most + 1, 22, 0);
  expect_refused("a sample too few for 4,096 rounds", table, "0" + repeated(" 3", most) + ";", most, 41, 0);
  expect_done("over 32,768 bytes of samples", table, "0" + repeated(" 1099511627776", 20000) + ";", most, most, {0, 2}, {{0, bound}});
  expect_refused("over 32,768 bytes, the last of them bad", table, "0" + repeated(" 1099511627776", 20000) + " ;", most, 40, 1);
  const Table still = image(tabbed("comp 1 0\nclk 0 0\n"));
  expect_done("4,096 rounds where nothing waits", still, "0;", most, 0, {0}, {{0, 0}});
  expect_refused("4,097 rounds where nothing waits", still, "0;", most + 1, 22, 0);
}

// Just enough for each number of rounds, and one too few for the next.
void lists_that_run_out() {
  const Table table = image(m), two = image(two_clocks);
  for (std::uint64_t rounds = 0; rounds < 9; ++rounds) {
    const Text samples = "0" + repeated(" 6", static_cast<unsigned>(rounds) + 1) + ";";
    expect_done("just enough", table, samples, rounds, rounds, {0, static_cast<std::uint8_t>(rounds == 0 ? 0 : 2)}, {{0, 6}});
    expect_refused("one too few", table, samples, rounds + 1, 41, 0);
    expect_refused("one too few for a round, and rounds behind it", table, samples, most, 41, 0);
  }
  expect_refused("the lowest of two", two, "4;9;", 0, 41, 4);
  expect_refused("the higher of two", two, "4 5;9;", 0, 41, 9);
  // 4 fires at 5 and 10, 9 at 7: rounds 1, 3 and 2.
  expect_done("4 and 9 in turn, 3 rounds", two, "4 5 5 5;9 7 7;", 3, 3, {0, 0}, {{4, 5}, {9, 4}});
  expect_refused("4 and 9 in turn, 9 lacks in round 2", two, "4 5 5 5;9 7;", 3, 41, 9);
  expect_refused("4 and 9 in turn, 4 lacks in round 3", two, "4 5 5;9 7 7;", 3, 41, 4);
  expect_refused("4 and 9 in turn, 4 lacks in round 1", two, "4 5;9 7;", 3, 41, 4);
  expect_done("4 and 9 in turn, before 9 lacks", two, "4 5 5;9 7;", 1, 1, {0, 0}, {{4, 5}, {9, 2}});
  // A clock of which nobody is due a sample needs none.
  const Table idle = image(tabbed("comp 1 0\nact 0 out\nclk 2 0\nclk 4 1\nclk 6 0\nrow 0 4 0 4 0\n"));
  expect_done("clocks that nobody sets need no sample", idle, "2;4 3 2;6;", 1, 1, {0}, {{2, -3}, {4, 2}, {6, -3}});
  expect_done("and keep those that they have", idle, "2 9;4 3 2;6 9;", 1, 1, {0}, {{2, -3}, {4, 2}, {6, -3}});
}

// One sample in a round, however often the clock was set or reset in it, and none for those that were not.
void samples_of_a_round() {
  // Clock 0 fires, its row resets it, two urgent steps reset it again; the listener resets clock 9 each time.
  const Table thrice = image(tabbed(
      "comp 3 0\nact 0 out\nact 1 uout\nact 2 uout\nclk 0 1\nrow 0 0 0 0 1\nrow 1 - 1 0 2\nrow 2 - 2 0 0\n"
      "comp 1 0\nact 0 in\nact 1 uin\nact 2 uin\nclk 9 0\nrow 0 - 0 9 0\nrow 0 - 1 9 0\nrow 0 - 2 9 0\n"));
  expect_done("round 0", thrice, "0 5 6 7;9 1 2 3;", 0, 0, {0, 0}, {{0, 5}, {9, 0}});
  expect_done("reset three times in round 1", thrice, "0 5 6 7;9 1 2 3;", 1, 1, {0, 0}, {{0, 6}, {9, 1}});
  expect_done("and in round 2", thrice, "0 5 6 7;9 1 2 3;", 2, 2, {0, 0}, {{0, 7}, {9, 2}});
  expect_refused("clock 0 lacks in round 3", thrice, "0 5 6 7;9 1 2 3;", 3, 41, 0);
  expect_refused("a listener's clock lacks", thrice, "0 5 6 7;9 1;", 2, 41, 9);
  expect_refused("both lack, the lower is told", thrice, "0 5 6;9 1;", 2, 41, 0);
  // Set at the start, waited for by nobody, reset by nobody: it takes its sample in round 0 all the same.
  const Table set = image(tabbed("comp 1 0\nact 0 out\nclk 1 1\nclk 2 1\nrow 0 1 0 1 0\n"));
  expect_done("set at the start", set, "1 4 4;2 9 9;", 0, 0, {0}, {{1, 4}, {2, 9}});
  expect_done("and runs on", set, "1 4 4 4 4;2 9 9;", 3, 3, {0}, {{1, 4}, {2, -3}});
  expect_refused("and lacks in round 0", set, "1 4;2;", 0, 41, 2);
  // Not set at the start, reset by an urgent step of round 0.
  const Table reset = image(tabbed("comp 2 0\nact 0 uout\nact 1 out\nclk 1 0\nclk 2 0\nrow 0 - 0 1 1\nrow 1 1 1 1,2 1\n"));
  expect_done("reset in round 0", reset, "1 4 5;2 9;", 0, 0, {1}, {{1, 4}, {2, 0}});
  expect_done("reset by the row that is taken", reset, "1 4 5;2 9;", 1, 1, {1}, {{1, 5}, {2, 9}});
  expect_refused("reset in round 0, and lacks", reset, "1;2 9;", 0, 41, 1);
  // Only what is reset: clock 1 fires and is not, so it stands at 0 and then falls.
  const Table spent = image(tabbed("comp 2 0\nact 0 out\nclk 1 1\nclk 2 0\nrow 0 1 0 2 1\nrow 1 2 0 2 1\n"));
  expect_done("a clock that fired and is not reset", spent, "1 4 5;2 6 7;", 1, 1, {1}, {{1, 0}, {2, 6}});
  expect_done("and runs on below zero", spent, "1 4 5;2 6 7;", 2, 2, {1}, {{1, -6}, {2, 7}});
}

void ties() {
  const Table two = image(two_clocks);
  for (std::int64_t at : {std::int64_t{1}, std::int64_t{6}, bound}) {
    const Text value = std::to_string(at);
    expect_refused("a tie at " + value, two, "4 " + value + " 1;9 " + value + " 1;", 1, 30, 4);
    expect_done("a tie that no round meets", two, "4 " + value + ";9 " + value + ";", 0, 0, {0, 0}, {{4, at}, {9, at}});
  }
  expect_done("round 1 before a tie", two, "4 5 1;9 6;", 1, 1, {0, 0}, {{4, 1}, {9, 1}});
  expect_refused("a tie in round 2", two, "4 5 1;9 6;", 2, 30, 4);
  expect_refused("a tie in round 3", two, "4 2 2 2;9 6;", 3, 30, 4);
  expect_refused("41 of round 1 before a tie in round 2", two, "4 5;9 6;", 2, 41, 4);
  expect_refused("a tie before 41 of that round", two, "4 5;9 5;", 1, 30, 4);
  const Table three = image(two_clocks + tabbed("comp 1 0\nact 2 out\nclk 2 1\nrow 0 2 2 2 0\n"));
  expect_refused("a tie of all three", three, "2 5;4 5;9 5;", 1, 30, 2);
  expect_refused("a tie of 4 and 9", three, "2 6;4 5;9 5;", 1, 30, 4);
  expect_refused("a tie of 2 and 9", three, "2 5;4 6;9 5;", 1, 30, 2);
  expect_done("a tie above the least", three, "2 3 9;4 5;9 5;", 1, 1, {0, 0, 0}, {{2, 9}, {4, 2}, {9, 2}});
  expect_refused("and then it is the least", three, "2 3 9;4 5;9 5;", 2, 30, 4);
  // A clock that nobody waits for ties with none.
  const Table idle = image(tabbed("comp 1 0\nact 0 out\nclk 4 1\nclk 6 1\nrow 0 4 0 4 0\n"));
  expect_done("equal to a clock that nobody waits for", idle, "4 3 3;6 3;", 1, 1, {0}, {{4, 3}, {6, 0}});
  // A tie comes before a round that would not settle.
  const Table both = image(tabbed("comp 2 0\nact 0 out\nact 1 uout\nclk 4 1\nrow 0 4 0 - 1\nrow 1 - 1 - 1\ncomp 1 0\nact 2 out\nclk 9 1\nrow 0 9 2 9 0\n"));
  expect_refused("30 before 42", both, "4 5;9 5;", 1, 30, 4);
  expect_refused("42 where there is no tie", both, "4 5;9 6;", 1, 42, 1);
  expect_refused("41 of round 1 before 42 of round 2", both, "4 5;9 4;", 2, 41, 9);
  expect_refused("42 of round 2", both, "4 5;9 4 4;", 2, 42, 2);
}

void without_end() {
  const Table loop = image(endless), table = image(later);
  for (std::uint64_t rounds : {std::uint64_t{0}, std::uint64_t{1}, most}) {
    expect_refused("round 0 without end", loop, "3;", rounds, 42, 0);
    expect_refused("round 0 without end, with samples", loop, "3 5 5;", rounds, 42, 0);
  }
  expect_done("round 1 settles", table, "0 5 6;1;", 1, 1, {1}, {{0, 6}, {1, -5}});
  expect_refused("round 2 does not, before 41 of clocks 0 and 1", table, "0 5 6;1;", 2, 42, 2);
  expect_refused("nor with samples", table, "0 5 6 7;1 9 9;", most, 42, 2);
  expect_refused("41 of round 1 before 42 of round 2", table, "0 5;1;", 2, 41, 0);
  // After each number of rounds up to 127 the last state is met, which tells without end.
  Text chain = "comp 128 0\nact 0 out\nact 1 uout\nclk 0 1\n";
  for (unsigned s = 0; s < 127; ++s) chain += "row " + std::to_string(s) + " 0 0 0 " + std::to_string(s + 1) + "\n";
  const Table steps = image(tabbed(chain + "row 127 - 1 - 127\n"));
  const Text samples = "0" + repeated(" 2", 127) + ";";
  expect_done("126 rounds", steps, samples, 126, 126, {126}, {{0, 2}});
  expect_refused("round 127", steps, samples, 127, 42, 127);
  expect_refused("round 127 of 4,096", steps, samples, most, 42, 127);
  // A clock fires in each round, 64 times 64 of them are counted, and then there is no end: 42 at 4,096.
  Text count = "comp 65 0\nact 0 in\nact 1 uout\n", count_again = "comp 65 0\nact 1 uin\nact 2 uout\n";
  for (unsigned s = 0; s < 65; ++s) {
    const Text from = "row " + std::to_string(s) + " - ", to = " - " + std::to_string(std::min(s + 1, 64u)) + "\n";
    count += from + "0" + to;
    count_again += from + "1" + to;
  }
  const Table counting = image(tabbed("comp 1 0\nact 0 out\nclk 5 1\nrow 0 5 0 5 0\n" + count + "row 64 - 1 - 0\n" + count_again + "row 64 - 2 - 64\n"));
  const Text enough = "5" + repeated(" 7", most) + ";";
  expect_done("4,095 rounds", counting, enough, most - 1, most - 1, {0, 63, 63}, {{5, 7}});
  expect_refused("the last of 4,096 rounds", counting, enough, most, 42, most);
  expect_refused("and with a sample too few before it", counting, "5" + repeated(" 7", most - 1) + ";", most, 41, 5);
}

// A round of 1,016 urgent steps settles: eight components that go through 128 states each, and reset their clock with every step.
void a_long_round() {
  Text text, samples;
  Values values;
  for (unsigned c = 0; c < 8; ++c) {
    const Text number = std::to_string(c);
    text += "comp 128 0\nact " + number + " uout\nclk " + number + " 0\n";
    for (unsigned s = 0; s < 127; ++s) text += "row " + std::to_string(s) + " - " + number + " " + number + " " + std::to_string(s + 1) + "\n";
    samples += number + " " + std::to_string(c + 1) + ";";
    values.push_back({c, c + 1});
  }
  expect_done("1,016 steps in round 0", image(tabbed(text)), samples, most, 0, Bytes(8, 127), values);
  expect_refused("and a sample lacks", image(tabbed(text)), samples.substr(0, samples.size() - 3) + ";", 0, 41, 7);
}

// Quiet ends a simulation, and its round does not count.
void quiet_rounds() {
  const Table rests = image(tabbed("comp 3 0\nact 0 out\nclk 8 1\nrow 0 8 0 8 1\nrow 1 8 0 - 2\n"));
  for (std::uint64_t rounds : {2, 3, 4, 100, 4096}) expect_done("at rest after 2 rounds", rests, "8 5 6;", rounds, 2, {2}, {{8, 0}});
  expect_done("before that", rests, "8 5 6;", 1, 1, {1}, {{8, 6}});
  for (std::uint64_t rounds : {0, 1, 4096}) {
    expect_done("no clock at all", image(tabbed("comp 2 1\n")), "", rounds, 0, {1}, {});
    expect_done("at rest after round 0", image(once), "0 8 9;", rounds, 0, {1}, {{0, 8}});
    expect_done("at rest from the start", declaring("63"), "63 5;", rounds, 0, {0}, {{63, 0}});
  }
}

// Samples at both ends, and a clock that nobody waits for, which stops at the floor.
void ends_of_the_range() {
  const Table table = image(tabbed("comp 1 0\nact 0 out\nclk 0 1\nclk 5 0\nclk 6 1\nrow 0 0 0 0 0\n"));
  expect_done("1", table, "0 1 1 1;5;6 1;", 2, 2, {0}, {{0, 1}, {5, -2}, {6, -1}});
  expect_done("to the floor", table, "0 1099511627776 1;5;6 1099511627776;", 1, 1, {0}, {{0, 1}, {5, -bound}, {6, 0}});
  expect_done("no lower", table, "0 1099511627776 1099511627776 1;5;6 1;", 2, 2, {0}, {{0, 1}, {5, -bound}, {6, -bound}});
  expect_done("a tick above the floor", table, "0 1099511627775 1;5;6 1;", 1, 1, {0}, {{0, 1}, {5, -bound + 1}, {6, -bound + 2}});
  expect_done("to the floor tick by tick", table, "0 1099511627775 1 1 9;5;6 1;", 3, 3, {0}, {{0, 9}, {5, -bound}, {6, -bound}});
}

// 32 components that wait for two clocks each, in states up to 127, and a text of 3.7 million bytes. Clock x ends at x + 1 past a multiple of 64, so
// that none ties; its component then moves on.
void full_size() {
  Text text, samples;
  Bytes state;
  std::vector<std::int64_t> next;
  const auto period = [](unsigned x) { return 64 * (15000000000 + 1000003 * static_cast<std::int64_t>(x)); };
  for (unsigned c = 0; c < 32; ++c) {
    const Text one = std::to_string(2 * c), other = std::to_string(2 * c + 1);
    text += "comp 128 120\nact " + one + " out\nact " + other + " out\nclk " + one + " 1\nclk " + other + " 1\n";
    for (unsigned s = 120; s < 128; ++s) {
      const Text to = std::to_string(s == 127 ? 120 : s + 1) + "\n", from = "row " + std::to_string(s) + " ";
      text += from + one + " " + one + " " + one + " " + to + from + other + " " + other + " " + other + " " + to;
    }
    state.push_back(120);
  }
  for (unsigned x = 0; x < 64; ++x) {
    next.push_back(period(x) + x + 1);
    samples += std::to_string(x) + " " + std::to_string(next[x]) + repeated(" " + std::to_string(period(x)), most) + ";";
  }
  std::int64_t now = 0;
  for (std::uint64_t round = 0; round < most; ++round) {
    const std::size_t fires = static_cast<std::size_t>(std::min_element(next.begin(), next.end()) - next.begin());
    now = next[fires];
    next[fires] += period(static_cast<unsigned>(fires));
    std::uint8_t& part = state[fires / 2];
    part = part == 127 ? 120 : part + 1;
  }
  Values values;
  for (unsigned x = 0; x < 64; ++x) values.push_back({x, next[x] - now});
  Table table = image(tabbed(text));
  expect_done("as large as it can be used", table, samples, most, most, state, values);
  // Words of noise behind the table.
  table.resize(table_words + 3, largest);
  expect_done("a longer table", table, samples, most, most, state, values);
  expect_refused("the last byte of a long text", table, samples + "_", most, 40, 65);
}

}  // namespace

void stated_simulations() {
  examples();
  in_order();
  shapes();
  limits();
  lists_that_run_out();
  samples_of_a_round();
  ties();
  without_end();
  a_long_round();
  quiet_rounds();
  ends_of_the_range();
  full_size();
}
