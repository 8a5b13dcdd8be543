// Clocks drawn from distributions: stated draws, the rule in whole numbers, files, and simulations over
// draws against simulations over the lists that the draws give.
#include <cstdio>
#include <cstring>
#include <utility>

#include "check.hpp"
#include "draws.hpp"
#include "generate.hpp"
#include "lending.hpp"
#include "tests.hpp"

namespace {

using second::Law;
using second::Model;
using second::Random;
using second::Range;
using second::Refusal;
using second::refuse;

constexpr std::uint64_t largest = ~std::uint64_t{0};
constexpr double top = 1099511627776.0;

Text hex(std::uint64_t bits) {
  char digits[17];
  std::snprintf(digits, sizeof digits, "%016llx", static_cast<unsigned long long>(bits));
  return digits;
}
std::uint64_t bits_of(double real) {
  std::uint64_t bits = 0;
  std::memcpy(&bits, &real, sizeof bits);
  return bits;
}
Text hex_of(double real) { return hex(bits_of(real)); }

Law uni(double lower, double upper) { return {false, 0, {lower, upper}, {}}; }

void test_stated() {
  const auto one = [](double lower, double upper, std::uint64_t n) { return second::drawn(uni(lower, upper), n, 12345); };
  check(one(1, 2, 0) == 1 && one(1, 2, largest - 2048) == 1 && one(1, 2, largest) == 2, "1 to 2");
  check(one(1, 1000, 2047) == 1, "1 to 1000");
  for (std::uint64_t n : {std::uint64_t{0}, std::uint64_t{1} << 63, largest}) check(one(1.5, 1.5, n) == 1, "1.5 to 1.5");
  check(one(1, top, largest) == 1099511627775, "1 to 2^40");
  check(one(top - 1, top, largest) == 1099511627776, "2^40 - 1 to 2^40");
  const Law mix{true, 0.5, {5, 5}, {9, 9}};
  check(second::drawn(mix, (std::uint64_t{1} << 63) - 1, 0) == 5 && second::drawn(mix, std::uint64_t{1} << 63, 0) == 9, "mix");
  for (double weight : {0.0, -0.0}) check(second::drawn({true, weight, {5, 5}, {9, 9}}, 0, 0) == 9, "weight 0 never picks the first");
  check(second::drawn({true, 1, {5, 5}, {9, 9}}, largest, 0) == 5, "weight 1 always does");

  const Table of_m = image(m);
  const Text law = "0\tuni\t3ff0000000000000\t4000000000000000\n";
  const Text mixed = "0\tmix\t3fe0000000000000\t4014000000000000\t4014000000000000\t4022000000000000\t4022000000000000\n";
  Clocks clocks(64, 7);
  auto answer = lend_simulate_drawn(of_m, law, {0}, 0, clocks);
  check(!answer.refusal && answer.rounds == 0 && clocks[0] == 1 && clocks[1] == 7, "M, one number");
  check(lend_simulate_drawn(of_m, law, {}, 0, clocks).refusal == refuse(50, {0}), "50: no number");
  check(lend_simulate_drawn(of_m, mixed, Table(64, 0), 0, clocks).refusal == refuse(50, {0}), "50: mix with one number left");
  answer = lend_simulate_drawn(of_m, mixed, Table(65, 0), 0, clocks);
  check(!answer.refusal && clocks[0] == 5, "mix with two");
  check(lend_simulate_drawn(of_m, mixed, Table(129, 0), 1, clocks).refusal == refuse(50, {0}), "50 in round 1");
  check(lend_simulate_drawn(of_m, mixed, Table(193, 0), 1, clocks).rounds == 1, "two draws");
  check(lend_simulate_drawn(of_m, "x", {}, 4097, clocks).refusal == refuse(22, {0}), "22 before 49");
  Clocks few(63, 7);
  check(lend_simulate_drawn(of_m, "x", {}, 1, few).refusal == refuse(28, {0}), "28 before 49");
  check(lend_simulate_drawn(of_m, "x", {}, 1, clocks).refusal == refuse(49, {1}), "49");
  const Table loop = image(tabbed("comp 1 0\nact 0 uout\nclk 3 1\nrow 0 - 0 3 0\n"));
  check(lend_simulate_drawn(loop, "3\tuni\t3ff0000000000000\t4000000000000000\n", {}, 0, clocks).refusal == refuse(42, {0}), "42 before 50");

  // Number 0 of clock x is word x; the lowest clock that has none is named.
  const Table two = image(tabbed("comp 1 0\nclk 0 1\nclk 3 1\n"));
  const Text to_1000 = "\tuni\t" + hex_of(1) + '\t' + hex_of(1000) + '\n', laws = "0" + to_1000 + "3" + to_1000;
  answer = lend_simulate_drawn(two, laws, {0, largest, largest, std::uint64_t{1} << 63}, 0, clocks);
  check(!answer.refusal && clocks[0] == 1 && clocks[3] == 500, "each clock with numbers of its own");
  check(lend_simulate_drawn(two, laws, {0, largest, largest}, 0, clocks).refusal == refuse(50, {3}), "50 at 3");
  check(lend_simulate_drawn(two, laws, {}, 0, clocks).refusal == refuse(50, {0}), "50 at the lowest");
}

// ---- the file

void test_files() {
  const Table table = image(tabbed("comp 1 0\nclk 0 0\nclk 3 0\n"));
  const Text good = "0\tuni\t" + hex_of(1) + '\t' + hex_of(2) + '\n';
  const auto of_3 = [&](const Text& rest) { return good + "3\t" + rest + '\n'; };
  const auto range = [&](std::uint64_t lower, std::uint64_t upper) { return of_3("uni\t" + hex(lower) + '\t' + hex(upper)); };
  const auto weighed = [&](std::uint64_t weight) {
    return of_3("mix\t" + hex(weight) + '\t' + hex_of(1) + '\t' + hex_of(2) + '\t' + hex_of(3) + '\t' + hex_of(4));
  };
  const std::uint64_t one = bits_of(1.0), two = bits_of(2.0), last = bits_of(top), inf = 0x7ff0000000000000u, minus = std::uint64_t{1} << 63;
  const Text d = hex_of(1);
  const struct {
    Text text;
    std::uint64_t place;  // 0: good
  } cases[] = {
      {"", 1}, {good, 2}, {range(one, two), 0}, {range(one, two) + "\n", 3}, {range(one, two) + "4\n", 3},
      {range(one, two).substr(0, range(one, two).size() - 1), 2},
      {range(one, last), 0}, {range(last, last), 0}, {range(one, one), 0}, {range(two, one), 2}, {range(bits_of(1.5), bits_of(1.5)), 0},
      {range(one - 1, two), 2}, {range(0, two), 2}, {range(minus, two), 2}, {range(1, two), 2}, {range(one | minus, two), 2},
      {range(one, last + 1), 2}, {range(one, inf), 2}, {range(one, inf | minus), 2}, {range(inf, inf), 2}, {range(inf + 1, two), 2},
      {range(one, inf + 1), 2}, {range(one, largest), 2}, {range(one, 0x7ff8000000000000u), 2}, {range(0x7ff8000000000000u, one), 2},
      {weighed(0), 0}, {weighed(minus), 0}, {weighed(1), 0}, {weighed(one), 0}, {weighed(one + 1), 2}, {weighed(minus | 1), 2},
      {weighed(inf), 2}, {weighed(inf | minus), 2}, {weighed(inf + 1), 2}, {weighed(largest), 2}, {weighed(bits_of(0.5)), 0},
      {of_3("uni\t" + d + '\t' + d.substr(1)), 2}, {of_3("uni\t" + d + "0\t" + d), 2}, {of_3("uni\t3FF0000000000000\t" + d), 2},
      {of_3("uni\t" + d + "\t0x" + d), 2}, {of_3("uni\t" + d), 2}, {of_3("uni\t" + d + '\t' + d + '\t' + d), 2}, {of_3("uni\t" + d + '\t' + d + '\t'), 2},
      {of_3("uni  " + d + '\t' + d), 2}, {of_3("Uni\t" + d + '\t' + d), 2}, {of_3("exp\t" + d + '\t' + d), 2}, {of_3("mix\t" + d + '\t' + d), 2},
      {of_3("mix\t" + d + '\t' + d + '\t' + d + '\t' + d), 2}, {of_3("mix\t" + d + '\t' + d + '\t' + d + '\t' + d + '\t' + d + '\t' + d), 2},
      {of_3("mix\t" + d + '\t' + hex_of(2) + '\t' + d + '\t' + d + '\t' + d), 2}, {of_3("mix\t" + d + '\t' + d + '\t' + d + '\t' + hex_of(2) + '\t' + d), 2},
      {of_3("uni\t" + d + '\t' + d + '\r'), 2}, {of_3(""), 2}, {of_3("uni"), 2}, {"03" + good.substr(1), 1}, {"3" + good.substr(1) + good, 1},
      {good + good, 2}, {"\n" + good, 1}, {of_3("uni\t" + Text(16, 'g') + '\t' + d), 2}, {of_3("uni\t " + d.substr(1) + '\t' + d), 2},
  };
  for (const auto& entry : cases) {
    Clocks clocks(64, 7);
    const Refusal expected = entry.place == 0 ? Refusal{} : refuse(49, {entry.place});
    const Refusal answer = lend_simulate_drawn(table, entry.text, {}, 0, clocks).refusal;
    check(answer == expected, shown(answer) + " for the laws\n" + entry.text);
  }
  Clocks clocks(64, 7);
  check(!lend_simulate_drawn(image(tabbed("comp 1 0\n")), "", {}, 5, clocks).refusal, "no clock, no line");
  check(lend_simulate_drawn(image(tabbed("comp 1 0\n")), "\n", {}, 5, clocks).refusal == refuse(49, {1}), "no clock, a line");
}

// ---- the rule in whole numbers

using Wide = unsigned __int128;

// m * 2^e, rounded once to 53 bits, ties to even; `rest` tells that something is left below m.
struct Exact {
  Wide m = 0;
  int e = 0;
};

int width_of(Wide m) {
  int width = 0;
  for (; m != 0; m >>= 1) ++width;
  return width;
}

Exact rounded(Wide m, int e, bool rest) {
  const int excess = width_of(m) - 53;
  if (excess <= 0) return {m, e};
  const Wide low = m & ((Wide{1} << excess) - 1), half = Wide{1} << (excess - 1);
  Wide kept = m >> excess;
  if (low > half || (low == half && (rest || (kept & 1) == 1))) ++kept;
  return {kept, e + excess};
}

// An end, 1 to 2^40, as a whole number of 2^-52.
Wide whole(double end) {
  const std::uint64_t bits = bits_of(end);
  const int exponent = static_cast<int>(bits >> 52) - 1023;
  return Wide{(std::uint64_t{1} << 52) | (bits & ((std::uint64_t{1} << 52) - 1))} << exponent;
}

std::int64_t by_hand(const Range& range, std::uint64_t number) {
  constexpr int scale = 84;
  const Exact difference = rounded(whole(range.upper) - whole(range.lower), -52, false);
  const Exact product = rounded(difference.m * (number >> 11), difference.e - 53, false);
  // The sum in units of 2^-84; what is left of the product below that only tells ties apart.
  const int shift = product.e + scale;
  bool rest = false;
  Wide part = 0;
  if (shift >= 0) part = product.m << shift;
  else if (-shift < 128) {
    part = product.m >> -shift;
    rest = (part << -shift) != product.m;
  } else {
    rest = product.m != 0;
  }
  const Exact sum = rounded((whole(range.lower) << (scale - 52)) + part, -scale, rest);
  // Held within the ends, then the whole part.
  Wide value = sum.e >= -52 ? sum.m << (sum.e + 52) : sum.m >> (-52 - sum.e);  // at least 1, so at most 53 bits lie below
  if (value < whole(range.lower)) value = whole(range.lower);
  if (value > whole(range.upper)) value = whole(range.upper);
  return static_cast<std::int64_t>(value >> 52);
}

double some_end(Random& random) {
  const unsigned style = random.below(5);
  if (style == 0) return 1.0 + random.below(1000);
  if (style == 1) return random.chance(50) ? 1.0 : top;
  // Any pattern with an exponent of 0 to 39, often with few digits set.
  std::uint64_t fraction = random.next() & ((std::uint64_t{1} << 52) - 1);
  if (style == 2) fraction = random.chance(50) ? 0 : (std::uint64_t{1} << 52) - 1 - random.below(3);
  const std::uint64_t bits = (std::uint64_t{1023 + random.below(40)} << 52) | fraction;
  double end = 0;
  std::memcpy(&end, &bits, sizeof end);
  return end;
}

std::uint64_t some_number(Random& random) {
  const unsigned style = random.below(5);
  if (style == 0) return largest - random.below(5000);
  if (style == 1) return random.below(5000);
  if (style == 2) {
    const std::uint64_t power = std::uint64_t{1} << random.below(64);
    return power - random.below(2);
  }
  return random.next();
}

// A number whose value lies close to a whole one, where a rounding more or less shows.
std::uint64_t near_whole(Random& random, double lower, double upper) {
  const double goal = static_cast<double>(static_cast<std::int64_t>(lower)) + 1 + static_cast<double>(random.next() % static_cast<std::uint64_t>(upper - lower));
  const double u = (goal - lower) / (upper - lower) * 9007199254740992.0;
  const std::uint64_t most = (std::uint64_t{1} << 53) - 1;
  std::uint64_t bits = u < 0 ? 0 : u > 9007199254740991.0 ? most : static_cast<std::uint64_t>(u);
  bits = bits + 1 - random.below(3);
  return (bits > most ? most : bits) << 11;
}

// How often a fused operation would give other ticks, so that the test can see one.
unsigned long fused = 0, drawn_mixtures = 0;

void test_rule(Random& random) {
  for (unsigned round = 0; round < rounds(60000); ++round) {
    double lower = some_end(random);
    double upper = random.chance(30) ? lower + random.below(4) : some_end(random);
    if (upper > top) upper = top;
    if (upper < lower) std::swap(lower, upper);
    const bool close = upper > lower + 2 && random.chance(50);
    const std::uint64_t n = close ? near_whole(random, lower, upper) : some_number(random);
    const std::int64_t ticks = second::drawn(uni(lower, upper), n, random.next());
    check(ticks == by_hand({lower, upper}, n), "the ticks by the rule in whole numbers");
    check(ticks >= 1 && static_cast<double>(ticks) <= upper, "between 1 and the upper end");
    // A mixture draws by the second number from the range that the first picks.
    const double other = random.chance(50) ? lower : upper;
    const double weight = random.pick(std::vector<double>{0.0, -0.0, 1.0, 0.5, 0.25, 5e-324, 1 - 1.0 / 9007199254740992.0});
    const Law mix{true, weight, {lower, upper}, {other, other}};
    const std::uint64_t pick = some_number(random);
    const bool first = static_cast<double>(pick >> 11) < weight * 9007199254740992.0;
    const std::int64_t expected = by_hand(first ? mix.first : mix.second, n);
    if (first) ++drawn_mixtures;
    if (weight != 5e-324) check(second::drawn(mix, pick, n) == expected, "a mixture");
    else check(second::drawn(mix, pick, n) == by_hand(pick >> 11 == 0 ? mix.first : mix.second, n), "a mixture by a subnormal weight");
  }
  check(drawn_mixtures > 1000, "both ranges are picked");
}

// Draws on which fused operations give other ticks than three that are rounded once each.
void test_fused(Random& random) {
  unsigned seen = 0;
  for (unsigned round = 0; round < rounds(200000) && seen < 100; ++round) {
    const double lower = some_end(random), upper = some_end(random);
    if (!(lower + 2 < upper)) continue;
    const std::uint64_t n = near_whole(random, lower, upper);
    const double u = static_cast<double>(n >> 11) / 9007199254740992.0;
    const auto whole_part = static_cast<std::int64_t>(__builtin_floor(__builtin_fma(u, upper - lower, lower)));
    if (whole_part == by_hand({lower, upper}, n)) continue;
    ++seen;
    check(second::drawn(uni(lower, upper), n, 0) == by_hand({lower, upper}, n), "no fused operation");
  }
  fused = seen;
}

// ---- simulations: the draws written out as lists of samples

unsigned long done = 0, used_up = 0;

void check_simulation(Random& random, const Model& model) {
  const Table table = second::image_of_model(model);
  const Text laws = second::generate_laws(random, model);
  const second::LawReading reading = second::laws_of_text(laws, second::clocks_of(model));
  check(!reading.refusal, "good laws\n" + laws);
  const Table numbers = second::generate_numbers(random);
  Text samples;
  for (unsigned clock = 0; clock < 64; ++clock) {
    if (!second::has(second::clocks_of(model), clock)) continue;
    samples += std::to_string(clock);
    const Law& law = reading.laws[clock];
    const std::uint64_t takes = law.mixture ? 2 : 1;
    // Number k of clock x is word 64 k + x.
    for (std::uint64_t k = 0; 64 * (k + takes - 1) + clock < numbers.size(); k += takes)
      samples += '\t' + std::to_string(second::drawn(law, numbers[64 * k + clock], takes == 2 ? numbers[64 * (k + 1) + clock] : 0));
    samples += '\n';
  }
  const std::uint64_t rounds = random.below(12);
  Clocks clocks(64, 3), listed(64, 3);
  const auto answer = lend_simulate_drawn(table, laws, numbers, rounds, clocks);
  auto expected = lend_simulate(table, samples, rounds, listed);
  if (expected.refusal.number == 41) expected.refusal.number = 50, ++used_up;
  if (!expected.refusal) ++done;
  check(answer.refusal == expected.refusal && answer.rounds == expected.rounds && answer.state == expected.state && clocks == listed,
        "draws as the lists that they give: " + shown(answer.refusal) + ", " + shown(expected.refusal));
  Clocks odd_clocks = second::generate_odd_ticks(random);
  const Text odd = second::generate_odd_laws(random, model);
  const auto odd_answer = lend_simulate_drawn(table, odd, numbers, rounds, odd_clocks).refusal.number;
  check(odd_answer == 0 || odd_answer == 28 || odd_answer == 30 || odd_answer == 42 || odd_answer == 49 || odd_answer == 50, "odd laws");
}

}  // namespace

void test_draws() {
  test_stated();
  test_files();
  Random random(21);
  test_rule(random);
  test_fused(random);
  check(fused >= 100, "draws that a fused operation would change: " + std::to_string(fused));
  for (unsigned round = 0; round < rounds(400); ++round) {
    const second::Family family = round % 3 == 0 ? second::Family::sharing : round % 3 == 1 ? second::Family::confluent : second::Family::orderly;
    check_simulation(random, second::generate(random, family, round % 10 == 0 ? second::Size::medium : second::Size::small));
  }
  check_common(done > 100 && used_up > 20, "both ends are common: " + std::to_string(done) + ", " + std::to_string(used_up));
}
