// Simulations over draws from distributions (paper 02, 13/13): the stated draws, files of every wrong shape and number (49), numbers that run out (50),
// the order of 22, 28, 49 and then 30, 42, 50 round by round, and draws that a fused multiply-add would change.
#include <cmath>
#include <cstdio>
#include <cstring>

#include "random.hpp"
#include "stated.hpp"

namespace {

constexpr std::uint64_t half = std::uint64_t{1} << 63;
constexpr double top = 1099511627776.0;  // 2^40
const std::string one = "3ff0000000000000", two = "4000000000000000", last = "4270000000000000";

// Two components of one state, each with an `out` row to itself by its own clock.
const Text two_clocks = tabbed("comp 1 0\nact 0 out\nclk 4 1\nrow 0 4 0 4 0\ncomp 1 0\nact 1 out\nclk 9 1\nrow 0 9 1 9 0\n");
const Text endless = tabbed("comp 1 0\nact 0 uout\nclk 3 1\nrow 0 - 0 3 0\n");
// One clock that runs on.
const Text running = tabbed("comp 1 0\nact 0 out\nclk 0 1\nrow 0 0 0 0 0\n");

// In files `;` stands for LF, a space for a tab.
Text lines(Text text) {
  for (char& byte : text)
    if (byte == ';') byte = '\n';
  return tabbed(text);
}

std::string hex(std::uint64_t bits) {
  char digits[17];
  std::snprintf(digits, sizeof digits, "%016llx", static_cast<unsigned long long>(bits));
  return digits;
}
std::string hex_of(double real) {
  std::uint64_t bits = 0;
  std::memcpy(&bits, &real, sizeof bits);
  return hex(bits);
}

// What the 64 values may hold before: it is never read, and undeclared places keep it.
std::vector<Clocks> contents() {
  Clocks each(64);
  for (unsigned x = 0; x < 64; ++x) each[x] = (x % 2 == 0 ? INT64_MIN : INT64_MAX - 63) + x;
  return {each, Clocks(64, 0), Clocks(64, -1)};
}

Loan drawing(const Table& table, const Text& laws, const Table& numbers, std::uint64_t rounds, const Clocks& clocks = contents()[0]) {
  Loan loan = lent_table(table);
  loan.bytes = bytes_of(lines(laws));
  loan.numbers = numbers;
  loan.number = rounds;
  loan.clocks = clocks;
  return loan;
}

void expect_refused(const std::string& why, const Table& table, const Text& laws, const Table& numbers, std::uint64_t rounds, std::uint64_t number,
                    std::uint64_t place) {
  for (const Clocks& clocks : contents()) expect(why, calls::simulate_drawn, drawing(table, laws, numbers, rounds, clocks), refused(number, {place}));
}

using Values = std::vector<std::pair<unsigned, std::int64_t>>;

void expect_done(const std::string& why, const Table& table, const Text& laws, const Table& numbers, std::uint64_t rounds, const Bytes& state, const Values& values,
                 const std::vector<Clocks>& before = contents()) {
  for (const Clocks& clocks : before) {
    const Loan loan = drawing(table, laws, numbers, rounds, clocks);
    Loan left = loan;
    for (const auto& [clock, value] : values) left.clocks[clock] = value;
    Said said = done(rounds);
    std::copy(state.begin(), state.end(), said.after.begin());
    expect(why, calls::simulate_drawn, loan, said, left);
  }
}

// ---- one draw: clock 0 of M, which is set at the start, and no later round

void expect_uni(double lower, double upper, std::uint64_t n, std::int64_t ticks) {
  static const Table table = image(m);
  static const std::vector<Clocks> before = {Clocks(64, 7)};
  const std::string law = hex_of(lower) + " " + hex_of(upper);
  expect_done("uni " + law + " by " + hex(n), table, "0 uni " + law + ";", {n}, 0, {0, 0}, {{0, ticks}}, before);
}

// Two numbers of clock 0 are words 0 and 64.
Table pair_of(std::uint64_t first, std::uint64_t second) {
  Table numbers(65, 0x5555555555555555u);
  numbers[0] = first;
  numbers[64] = second;
  return numbers;
}

void expect_mix(const std::string& weight, double a, double b, double c, double d, std::uint64_t first, std::uint64_t second, std::int64_t ticks) {
  const std::string law = weight + " " + hex_of(a) + " " + hex_of(b) + " " + hex_of(c) + " " + hex_of(d);
  expect_done("mix " + law + " by " + hex(first) + ", " + hex(second), image(m), "0 mix " + law + ";", pair_of(first, second), 0, {0, 0}, {{0, ticks}});
}

void one_draw() {
  expect_uni(1, 2, 0, 1);
  expect_uni(1, 2, largest - 2048, 1);
  expect_uni(1, 2, largest, 2);
  expect_uni(1, 1000, 2047, 1);
  expect_uni(1, top, largest, 1099511627775);
  expect_uni(top - 1, top, largest, 1099511627776);
  expect_uni(top - 1, top, 0, 1099511627775);
  expect_uni(1, 3, half, 2);
  expect_uni(1, 3, half - 1, 1);
  // The low 11 bits do not count, the one above them does.
  for (std::uint64_t low : {0, 1, 1024, 2047}) expect_uni(1, 9007199254.5, std::uint64_t{12345678901} * 2048 + low, 1 + static_cast<std::int64_t>(12345678901.0 / 9007199254740992.0 * 9007199253.5));
  // Ends that are not whole, and equal ends.
  for (std::uint64_t n : {std::uint64_t{0}, std::uint64_t{2048}, half, largest}) {
    expect_uni(1.5, 1.5, n, 1);
    expect_uni(1, 1, n, 1);
    expect_uni(top, top, n, 1099511627776);
    expect_uni(7, 7, n, 7);
    expect_uni(top - 0.0001220703125, top - 0.0001220703125, n, 1099511627775);
  }
  expect_uni(2.75, 3.25, half, 3);
  // 3 - 2^-54 is rounded to 3; 3 - 2^-51 is a number.
  expect_uni(2.75, 3.25, half - 1, 3);
  expect_uni(2.75, 3.25, half - 8 * 2048, 2);
  // At u = weight it is the second range.
  const std::string middle = hex_of(0.5);
  expect_mix(middle, 5, 5, 9, 9, half - 1, 0, 5);
  expect_mix(middle, 5, 5, 9, 9, half, 0, 9);
  expect_mix(middle, 5, 5, 9, 9, half - 2048, largest, 5);
  expect_mix(middle, 5, 5, 9, 9, half + 2047, largest, 9);
  for (std::uint64_t n : {std::uint64_t{0}, std::uint64_t{2047}, half, largest}) {
    expect_mix(hex(0), 5, 5, 9, 9, n, 0, 9);
    expect_mix(hex(half), 5, 5, 9, 9, n, 0, 9);
    expect_mix(one, 5, 5, 9, 9, n, 0, 5);
  }
  // A subnormal weight is above 0 and below the least u that is.
  for (const std::uint64_t weight : {std::uint64_t{1}, (std::uint64_t{1} << 52) - 1}) {
    expect_mix(hex(weight), 5, 5, 9, 9, 2047, 0, 5);
    expect_mix(hex(weight), 5, 5, 9, 9, 2048, 0, 9);
  }
  // The number that picks is not the one of the range.
  expect_mix(one, 1, 1001, 9, 9, largest, half, 501);
  expect_mix(hex(0), 9, 9, 1, 1001, largest, half, 501);
  expect_mix(middle, 1, 1001, 2001, 3001, half - 1, half, 501);
  expect_mix(middle, 1, 1001, 2001, 3001, half, 0, 2001);
}

// ---- 50, and whose numbers are whose

void numbers_that_run_out() {
  const Table table = image(m);
  const std::string uni = "0 uni " + one + " " + two + ";";
  const std::string mix = "0 mix " + hex_of(0.5) + " " + one + " " + two + " " + one + " " + two + ";";
  expect_done("M", table, uni, {0}, 0, {0, 0}, {{0, 1}});
  expect_refused("no number", table, uni, {}, 0, 50, 0);
  for (std::size_t count : {0, 1, 2, 63, 64}) expect_refused("a mix by " + std::to_string(count) + " numbers", table, mix, Table(count, 0), 0, 50, 0);
  for (std::size_t count : {65, 66, 128}) expect_done("a mix by " + std::to_string(count) + " numbers", table, mix, Table(count, 0), 0, {0, 0}, {{0, 1}});
  // A mix takes two though its weight decides alone.
  for (const std::string& weight : {hex(0), hex(half), one}) {
    const std::string law = "0 mix " + weight + " " + one + " " + two + " " + one + " " + two + ";";
    expect_refused("weight " + weight + ", one number", table, law, Table(64, 0), 0, 50, 0);
  }
  // Clock x has the words 64 k + x: the lowest clock that lacks is told.
  const Table both = image(two_clocks);
  const std::string of4 = "4 uni " + hex_of(5) + " " + hex_of(5) + ";", of9 = "9 uni " + hex_of(7) + " " + hex_of(9) + ";";
  for (std::size_t count : {0, 1, 4}) expect_refused("two clocks by " + std::to_string(count), both, of4 + of9, Table(count, 0), 0, 50, 4);
  for (std::size_t count : {5, 8, 9}) expect_refused("two clocks by " + std::to_string(count), both, of4 + of9, Table(count, 0), 0, 50, 9);
  expect_done("two clocks", both, of4 + of9, Table(10, 0), 0, {0, 0}, {{4, 5}, {9, 7}});
  Table rows(64 * 3, 0);
  rows[9] = largest;
  rows[73] = half;
  expect_done("two clocks, each by its own", both, of4 + of9, rows, 0, {0, 0}, {{4, 5}, {9, 9}});
  expect_done("clock 4 draws again", both, of4 + of9, rows, 1, {0, 0}, {{4, 5}, {9, 4}});
  // In round 2 clock 9 ends, 9 ticks from the start: its second draw is its number 1.
  expect_done("clock 9 draws again", both, of4 + of9, rows, 2, {0, 0}, {{4, 1}, {9, 8}});
  rows.resize(64 + 9);
  expect_refused("clock 9 has none left in round 2", both, of4 + of9, rows, 2, 50, 9);
  // Draw j takes the numbers 2 j and 2 j + 1.
  const std::string turns = "0 mix " + hex_of(0.5) + " " + hex_of(100) + " " + hex_of(200) + " " + hex_of(300) + " " + hex_of(400) + ";";
  Table four(64 * 3 + 1, 0x1234);
  four[0] = 0, four[64] = half, four[128] = largest, four[192] = half / 2;
  expect_done("draw 0", image(running), turns, four, 0, {0}, {{0, 150}});
  expect_done("draw 1", image(running), turns, four, 1, {0}, {{0, 325}});
  expect_refused("draw 2", image(running), turns, four, 2, 50, 0);
  four.resize(64 * 3);
  expect_refused("draw 1, one number left", image(running), turns, four, 1, 50, 0);
}

// ---- 49

void numbers_of_a_file() {
  const Table table = image(m);
  const Table some(65, 0);
  const std::uint64_t inf = std::uint64_t{2047} << 52;
  const std::vector<std::uint64_t> nans = {inf + 1, inf + (std::uint64_t{1} << 51), inf + (std::uint64_t{1} << 52) - 1};
  std::vector<std::string> no_end = {hex(0), hex(half), hex(1), hex((std::uint64_t{1} << 52) - 1), hex(std::uint64_t{1} << 52), hex_of(std::nextafter(1.0, 0.0)),
                                     hex_of(0.5), hex_of(std::nextafter(top, 2 * top)), hex_of(2 * top), hex(inf), hex(inf + half), hex_of(-1), hex_of(-1.5), hex_of(-top)};
  std::vector<std::string> no_weight = {hex(half + 1), hex_of(-0.5), hex_of(-1), hex_of(std::nextafter(1.0, 2.0)), hex_of(2), hex(inf), hex(inf + half)};
  for (std::uint64_t nan : nans)
    for (std::uint64_t sign : {std::uint64_t{0}, half}) {
      no_end.push_back(hex(nan + sign));
      no_weight.push_back(hex(nan + sign));
    }
  for (const std::string& end : no_end) {
    for (const std::string& law : {"uni " + end + " " + last, "uni " + one + " " + end, "uni " + end + " " + end}) expect_refused(law, table, "0 " + law + ";", some, 0, 49, 1);
    for (unsigned place = 0; place < 4; ++place) {
      std::string law = "mix " + hex_of(0.5);
      for (unsigned p = 0; p < 4; ++p) law += " " + (p == place ? end : p % 2 == 0 ? one : last);
      expect_refused(law, table, "0 " + law + ";", some, 0, 49, 1);
    }
  }
  for (const std::string& weight : no_weight)
    expect_refused("weight " + weight, table, "0 mix " + weight + " " + one + " " + two + " " + one + " " + two + ";", some, 0, 49, 1);
  const std::string next = hex_of(std::nextafter(1.0, 2.0));
  for (const std::string& weight : {hex(0), hex(half), hex(1), hex((std::uint64_t{1} << 52) - 1), one, hex_of(std::nextafter(1.0, 0.0))})
    expect_done("weight " + weight, table, "0 mix " + weight + " " + one + " " + next + " " + one + " " + one + ";", some, 0, {0, 0}, {{0, 1}});
  // Ends in order, also equal ones; out of order by one step.
  expect_done("one step", table, "0 uni " + one + " " + next + ";", some, 0, {0, 0}, {{0, 1}});
  expect_refused("one step back", table, "0 uni " + next + " " + one + ";", some, 0, 49, 1);
  expect_refused("the first range back", table, "0 mix " + one + " " + two + " " + one + " " + one + " " + two + ";", some, 0, 49, 1);
  expect_refused("the second range back", table, "0 mix " + one + " " + one + " " + two + " " + two + " " + one + ";", some, 0, 49, 1);
}

// A model that declares these clocks and does nothing.
Table declaring(const std::vector<unsigned>& clocks) {
  Text text = "comp 1 0\n";
  for (unsigned clock : clocks) text += "clk " + std::to_string(clock) + " 0\n";
  return image(tabbed(text));
}

void shapes() {
  const Table table = declaring({0, 7, 63});
  const Table none;
  const std::string u = " uni " + one + " " + two, x = " mix " + hex_of(0.25) + " " + one + " " + two + " " + one + " " + last;
  const Values zeros = {{0, 0}, {7, 0}, {63, 0}};
  // A quiet round ends it, uncounted; no clock is set, so no number is taken.
  expect_done("three lines", table, "0" + u + ";7" + x + ";63" + u + ";", none, 0, {0}, zeros);
  const std::vector<std::pair<std::string, std::uint64_t>> bad = {
      {"", 1}, {";", 1}, {"0" + u, 1}, {"0" + u + ";", 2}, {"0" + u + ";7" + x + ";", 3}, {"0" + u + ";7" + x + ";63" + u, 3},
      {"0" + u + ";7" + x + ";63" + u + ";;", 4}, {"0" + u + ";7" + x + ";63" + u + ";63" + u + ";", 4}, {"0" + u + ";63" + u + ";7" + x + ";", 2},
      {"0" + u + ";0" + u + ";7" + x + ";63" + u + ";", 2}, {"1" + u + ";7" + x + ";63" + u + ";", 1}, {"00" + u + ";7" + x + ";63" + u + ";", 1},
      {"0" + u + ";07" + x + ";63" + u + ";", 2}, {"0" + u + ";7 mix " + one + " " + one + " " + two + ";63" + u + ";", 2},
      {"0 uni " + one + ";7" + x + ";63" + u + ";", 1}, {"0" + u + " " + two + ";7" + x + ";63" + u + ";", 1}, {"0" + u + " ;7" + x + ";63" + u + ";", 1},
      {"0;7" + x + ";63" + u + ";", 1}, {"0 uni;7" + x + ";63" + u + ";", 1}, {"0 UNI " + one + " " + two + ";7" + x + ";63" + u + ";", 1},
      {"0 unif " + one + " " + two + ";7" + x + ";63" + u + ";", 1}, {"0 un " + one + " " + two + ";7" + x + ";63" + u + ";", 1},
      {"0 uni 3FF0000000000000 " + two + ";7" + x + ";63" + u + ";", 1}, {"0 uni 3ff000000000000 " + two + ";7" + x + ";63" + u + ";", 1},
      {"0 uni 3ff00000000000000 " + two + ";7" + x + ";63" + u + ";", 1}, {"0 uni 0x3ff00000000000 " + two + ";7" + x + ";63" + u + ";", 1},
      {"0 uni +3ff000000000000 " + two + ";7" + x + ";63" + u + ";", 1}, {"0 uni 1 2;7" + x + ";63" + u + ";", 1},
      {"0 uni 3ff000000000000g " + two + ";7" + x + ";63" + u + ";", 1}, {"0 5;7" + x + ";63" + u + ";", 1},
      {"0" + u + ";7" + x + ";63 uni " + two + " " + one + ";", 3}, {"0" + u + ";7 mix " + hex_of(1.5) + " " + one + " " + two + " " + one + " " + two + ";x;", 2}};
  for (const auto& [text, line] : bad) expect_refused("the file " + text, table, text, none, 0, 49, line);
  // NUL and every other byte, in each place: the programs must agree.
  const Text text = lines("0" + u + ";7" + x + ";63" + u + ";");
  for (std::size_t at = 0; at <= text.size(); ++at) {
    const std::string byte = "byte " + std::to_string(at) + " of the distributions";
    Loan loan = drawing(table, "", none, 0);
    loan.bytes = bytes_of(text.substr(0, at));
    compare(Input::stated, calls::simulate_drawn, loan, "cut off before " + byte);
    for (unsigned value = 0; value < 256; ++value) {
      const Text put(1, static_cast<char>(value));
      loan.bytes = bytes_of(Text(text).insert(at, put));
      compare(Input::stated, calls::simulate_drawn, loan, byte + " behind " + std::to_string(value));
      if (at == text.size()) continue;
      loan.bytes = bytes_of(Text(text).replace(at, 1, put));
      compare(Input::stated, calls::simulate_drawn, loan, byte + " as " + std::to_string(value));
    }
  }
  // 64 lines, one for each clock; the last of them bad, and one more.
  std::vector<unsigned> all;
  std::string file;
  Values each;
  for (unsigned clock = 0; clock < 64; ++clock) {
    all.push_back(clock);
    file += std::to_string(clock) + (clock % 2 == 0 ? u : x) + ";";
    each.push_back({clock, 0});
  }
  expect_done("64 lines", declaring(all), file, none, 0, {0}, each);
  expect_refused("64 lines and one more", declaring(all), file + "64" + u + ";", none, 3, 49, 65);
  expect_refused("64 lines, the last without its LF", declaring(all), file.substr(0, file.size() - 1), none, 3, 49, 64);
  expect_refused("a line where no clock is declared", declaring({}), "0" + u + ";", none, 0, 49, 1);
  expect_done("no clock is declared", declaring({}), "", none, 0, {0}, {});
}

// ---- 22, 28, 49 in this order, behind the table's; then 30, 42, 50 round by round
void in_order() {
  const Table table = image(m), some(65, 0);
  const std::string u = "0 uni " + one + " " + two + ";";
  for (std::uint64_t rounds : {std::uint64_t{4097}, std::uint64_t{1} << 32, largest}) {
    expect_refused("22", table, u, some, rounds, 22, 0);
    for (std::size_t values : {0, 63, 65}) expect("22 before 28 and 49", calls::simulate_drawn, drawing(table, "x", some, rounds, Clocks(values, 5)), refused(22, {0}));
  }
  for (std::size_t values : {0, 1, 63, 65, 128}) {
    expect("28", calls::simulate_drawn, drawing(table, u, some, 0, Clocks(values, 5)), refused(28, {0}));
    expect("28 before 49", calls::simulate_drawn, drawing(table, "x", some, 4096, Clocks(values, 5)), refused(28, {0}));
  }
  expect_refused("49 before 50", table, u + ";", {}, 0, 49, 2);
  expect_refused("49 before 42", image(endless), u, some, 0, 49, 1);
  expect_refused("42, not 50", image(endless), "3 uni " + one + " " + two + ";", {}, 0, 42, 0);
  const std::string tie = "4 uni " + hex_of(5) + " " + hex_of(5) + ";9 uni " + hex_of(5) + " " + hex_of(5) + ";";
  expect_refused("a tie", image(two_clocks), tie, Table(10, 0), 1, 30, 4);
  expect_refused("50 of round 0 before 30 of round 1", image(two_clocks), tie, Table(9, 0), 1, 50, 9);
  expect("18 before 22", calls::simulate_drawn, drawing(image(with(m, "row 1 - 2 - 2", "row 1 - 2 - 0")), "x", {}, largest, {}), refused(18, {1, 1, 1, 2}));
  expect("14 before 22", calls::simulate_drawn, drawing(image(with(m, "clk 0 1", "clk 0 0")), "x", {}, largest, {}), refused(14, {0}));
  expect("20 first", calls::simulate_drawn, drawing(Table(3, 0), "x", {}, largest, {}), refused(20, {0}));
  // As many rounds as there may be, by as many numbers as they take, and one fewer.
  const std::string law = "0 uni " + one + " " + last + ";";
  Table row(64 * 4096 + 1, 0);
  expect_done("4,096 rounds", image(running), law, row, 4096, {0}, {{0, 1}}, {Clocks(64, 7)});
  row.pop_back();
  expect_refused("4,096 rounds by 4,096 numbers", image(running), law, row, 4096, 50, 0);
}

// ---- three operations, each rounded once

// The ticks by the rule; volatile, so that no compiler makes one operation of two.
std::int64_t ticks_by_rule(double lower, double upper, std::uint64_t n) {
  volatile double u = static_cast<double>(n / 2048) / 9007199254740992.0;
  volatile double difference = upper - lower;
  volatile double product = u * difference;
  volatile double sum = lower + product;
  return static_cast<std::int64_t>(std::floor(sum < lower ? lower : upper < sum ? upper : sum));
}
std::int64_t ticks_fused(double lower, double upper, std::uint64_t n) {
  const double sum = std::fma(static_cast<double>(n / 2048) / 9007199254740992.0, upper - lower, lower);
  return static_cast<std::int64_t>(std::floor(sum < lower ? lower : upper < sum ? upper : sum));
}

// Ends of any size, and a number that draws near a whole one: there a fused operation gives other ticks, time and again.
void fused() {
  constexpr unsigned wanted = 10000, most = 4000000;
  second::Random random(13);
  unsigned found = 0;
  for (unsigned tried = 0; tried < most && found < wanted; ++tried) {
    const unsigned low = random.below(40), high = low + random.below(40 - low);
    double lower = std::ldexp(1.0 + static_cast<double>(random.next() >> 12) / 4503599627370496.0, static_cast<int>(low));
    double upper = std::ldexp(1.0 + static_cast<double>(random.next() >> 12) / 4503599627370496.0, static_cast<int>(high));
    if (upper < lower) std::swap(lower, upper);
    const double whole = std::floor(lower + static_cast<double>(random.next() >> 11) / 9007199254740992.0 * (upper - lower)) + 1;
    if (upper <= whole) continue;
    const std::uint64_t near = static_cast<std::uint64_t>((whole - lower) / (upper - lower) * 9007199254740992.0);
    const std::uint64_t n = (near + random.below(9)) * 2048 - 4 * 2048 + random.below(2048);
    const std::int64_t ticks = ticks_by_rule(lower, upper, n);
    if (ticks == ticks_fused(lower, upper, n)) continue;
    ++found;
    expect_uni(lower, upper, n, ticks);
  }
  hold("10,000 draws that a fused operation would change", found == wanted, std::to_string(found) + " found");
}

}  // namespace

void stated_draws() {
  one_draw();
  numbers_that_run_out();
  numbers_of_a_file();
  shapes();
  in_order();
  fused();
}
