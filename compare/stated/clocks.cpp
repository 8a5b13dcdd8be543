// The timed step: slices of 63, 64 and 65 values, values at and past each end of the range, ties, the floor, and the order of 27 to 30.
#include "stated.hpp"

namespace {

constexpr std::int64_t bound = std::int64_t{1} << 40;

// Waits for clocks 3, 7 and 11 from the start, one in each component; nobody waits for clock 9. Action 0 is heard in component 1.
const Text waiting = tabbed(
    "comp 2 0\nact 0 out\nact 1 uout\nclk 3 1\nrow 0 3 0 3 1\nrow 1 - 1 3 0\n"
    "comp 1 0\nact 0 in\nact 2 out\nclk 7 1\nclk 9 0\nrow 0 - 0 9 0\nrow 0 7 2 7 0\n"
    "comp 1 0\nact 4 out\nclk 11 1\nrow 0 11 4 11 0\n");

// Undeclared places may hold anything; here each holds another value, both ends among them.
Clocks values(std::int64_t c3, std::int64_t c7, std::int64_t c9, std::int64_t c11) {
  Clocks clocks(64);
  for (unsigned x = 0; x < 64; ++x) clocks[x] = (x % 2 == 0 ? INT64_MIN : INT64_MAX - 63) + x;
  clocks[3] = c3;
  clocks[7] = c7;
  clocks[9] = c9;
  clocks[11] = c11;
  return clocks;
}

Loan timing(const Bytes& state, const Clocks& clocks) {
  Loan loan = lent_state(image(waiting), state);
  loan.clocks = clocks;
  return loan;
}

void expect_refused(const std::string& why, const Bytes& state, const Clocks& clocks, std::uint64_t number, std::uint64_t place) {
  expect(why, calls::timed_step, timing(state, clocks), refused(number, {place}));
}

void expect_fired(const std::string& why, const Clocks& clocks, const Said& expected, const Clocks& fallen) {
  const Loan loan = timing({0, 0, 0}, clocks);
  Loan left = loan;
  left.clocks = fallen;
  expect(why, calls::timed_step, loan, expected, left);
}

const Bytes start = {0, 0, 0};
const std::uint64_t r3_9 = (1u << 3) | (1u << 9), r7 = 1u << 7, r11 = 1u << 11;

void lengths() {
  for (std::size_t count : {0, 1, 63, 65, 128}) {
    expect_refused("28: " + std::to_string(count) + " values", start, Clocks(count, 5), 28, 0);
    expect_refused("27 before 28", {1, 0, 0}, Clocks(count, 5), 27, 0);
  }
  Clocks many = values(1, 2, 3, 4);
  many.push_back(5);
  expect_refused("28: one more than 64", start, many, 28, 0);
  many.resize(63);
  expect_refused("28: one less than 64", start, many, 28, 0);
  expect_refused("27", {1, 0, 0}, values(1, 2, 3, 4), 27, 0);
  expect_refused("27 before 28, 29 and 30", {1, 0, 0}, values(-1, INT64_MAX, 3, -1), 27, 0);
}

// Both ends are within the range, in each declared clock, waited for or not.
void ranges() {
  const std::int64_t outside[] = {bound + 1, -bound - 1, INT64_MAX, INT64_MIN, std::int64_t{1} << 62};
  for (std::int64_t value : outside) {
    expect_refused("28: clock 3", start, values(value, 2, 3, 4), 28, 0);
    expect_refused("28: clock 7", start, values(1, value, 3, 4), 28, 0);
    expect_refused("28: a clock that nobody waits for", start, values(1, 2, value, 4), 28, 0);
    expect_refused("28: clock 11", start, values(1, 2, 3, value), 28, 0);
    expect_refused("28 before 29", start, values(-1, -2, value, -1), 28, 0);
    expect_refused("28 before 30", start, values(1, 1, value, 1), 28, 0);
  }
  expect_fired("all but one at the upper end", values(bound, bound, bound, bound - 1), fired(bound - 1, 4, r11, {0, 0, 0}), values(1, 1, 1, 0));
  expect_fired("at the lower end already", values(1, 2, -bound, 3), fired(1, 0, r3_9, {1, 0, 0}), values(0, 1, -bound, 2));
  expect_fired("to the lower end", values(3, 9, -bound + 3, 9), fired(3, 0, r3_9, {1, 0, 0}), values(0, 6, -bound, 6));
  expect_fired("no lower than the lower end", values(9, 3, -bound + 2, 9), fired(3, 2, r7, {0, 0, 0}), values(6, 0, -bound, 6));
  expect_fired("a tick above the lower end", values(9, 3, -bound + 4, 9), fired(3, 2, r7, {0, 0, 0}), values(6, 0, -bound + 1, 6));
  expect_fired("far below", values(bound, bound - 1, -bound, bound), fired(bound - 1, 2, r7, {0, 0, 0}), values(1, 0, -bound, 1));
  expect_fired("from the upper end to below zero", values(bound, bound - 1, -1, bound), fired(bound - 1, 2, r7, {0, 0, 0}), values(1, 0, -bound, 1));
}

// 29: the lowest clock of those below zero, not the one furthest below.
void below_zero() {
  expect_refused("29: clock 3", start, values(-1, 2, 3, 4), 29, 3);
  expect_refused("29: clock 7", start, values(1, -1, 3, 4), 29, 7);
  expect_refused("29: clock 11", start, values(1, 2, 3, -1), 29, 11);
  expect_refused("29: the lowest", start, values(1, -1, 3, -9), 29, 7);
  expect_refused("29: the lowest, not the least value", start, values(-1, -5, 3, -9), 29, 3);
  expect_refused("29: at the lower end", start, values(1, 2, 3, -bound), 29, 11);
  expect_refused("29 before 30", start, values(-4, -4, 3, -4), 29, 3);
  expect_refused("29 before 30, of another clock", start, values(0, 0, 3, -4), 29, 11);
  expect_fired("a clock that nobody waits for may be below zero", values(1, 2, -7, 4), fired(1, 0, r3_9, {1, 0, 0}), values(0, 1, -8, 3));
}

void ties() {
  for (std::int64_t value : {std::int64_t{0}, std::int64_t{6}, bound}) {
    const std::string at = " at " + std::to_string(value);
    const std::int64_t above = value < bound ? value + 1 : value;
    expect_refused("a tie of three" + at, start, values(value, value, 0, value), 30, 3);
    if (above == value) continue;
    expect_refused("a tie of 3 and 7" + at, start, values(value, value, 0, above), 30, 3);
    expect_refused("a tie of 3 and 11" + at, start, values(value, above, 0, value), 30, 3);
    expect_refused("a tie of 7 and 11" + at, start, values(above, value, 0, value), 30, 7);
  }
  expect_fired("a tie above the least", values(6, 6, 0, 2), fired(2, 4, r11, {0, 0, 0}), values(4, 4, -2, 0));
  expect_fired("a tie with a clock that nobody waits for", values(2, 6, 2, 7), fired(2, 0, r3_9, {1, 0, 0}), values(0, 4, 0, 5));
  expect_fired("0 fires", values(5, 0, -3, 6), fired(0, 2, r7, {0, 0, 0}), values(5, 0, -3, 6));
}

// Quiet comes after 27 and 28 and changes nothing.
void no_clock_waits() {
  const Table still = image(tabbed("comp 2 1\nact 0 in\nact 1 uout\nclk 5 0\nrow 0 - 0 - 0\nrow 0 - 1 - 1\nrow 1 - 0 - 1\n"));
  Loan loan = lent_state(still, {1});
  loan.clocks = Clocks(64, -7);
  expect("quiet, though below zero", calls::timed_step, loan, quiet({1}));
  loan.clocks[5] = -bound - 1;
  expect("28 before quiet", calls::timed_step, loan, refused(28, {0}));
  loan.clocks.resize(63);
  expect("28 before quiet, by length", calls::timed_step, loan, refused(28, {0}));
  loan.state = {0};
  expect("27 before 28", calls::timed_step, loan, refused(27, {0}));
  // The step asks for no confluence.
  const Table clash = image(tabbed("comp 3 2\nact 0 uout\nact 1 uout\nact 2 out\nclk 63 1\nrow 0 - 0 - 1\nrow 0 - 1 - 1\nrow 2 63 2 - 0\n"));
  expect_checks("a model that is not confluent", clash, done(), refused(18, {0, 0, 0, 1}));
  loan = lent_state(clash, {2});
  loan.clocks = Clocks(64, 7);
  Loan left = loan;
  left.clocks[63] = 0;
  expect("clock 63, and no 18", calls::timed_step, loan, fired(7, 2, 0, {0}), left);
}

}  // namespace

void stated_clocks() {
  lengths();
  ranges();
  below_zero();
  ties();
  no_clock_waits();
}
