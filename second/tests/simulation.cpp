// Simulations over recorded samples: stated answers, the text of samples, and the rounds against an
// unfolding of their own in which the urgent steps are freely chosen.
#include <optional>

#include "check.hpp"
#include "composition.hpp"
#include "generate.hpp"
#include "lending.hpp"
#include "number.hpp"
#include "samples.hpp"
#include "tests.hpp"

namespace {

using second::Model;
using second::Random;
using second::refuse;
using second::Set;
using second::State;

constexpr std::uint64_t largest = ~std::uint64_t{0};

// Two components of one state, each with an `out` row to itself by its own clock, 4 and 9.
const Text two_clocks = "comp 1 0\nact 0 out\nclk 4 1\nrow 0 4 0 4 0\ncomp 1 0\nact 1 out\nclk 9 1\nrow 0 9 1 9 0\n";

// `;` stands for LF in the texts of samples.
Text samples_of(Text text) {
  for (char& byte : text)
    if (byte == ';') byte = '\n';
  return tabbed(text);
}

second::Refusal refused_with(const Table& table, const Text& samples, std::uint64_t rounds, std::size_t values = 64) {
  Clocks clocks(values, 77);
  return lend_simulate(table, samples_of(samples), rounds, clocks).refusal;
}

bool ends(const Table& table, const Text& samples, std::uint64_t rounds, std::uint64_t done, const Part& state,
          const std::vector<std::pair<unsigned, std::int64_t>>& values) {
  Clocks clocks(64, -77), expected(64, -77);
  const auto answer = lend_simulate(table, samples_of(samples), rounds, clocks);
  for (const auto& [clock, value] : values) expected[clock] = value;
  return !answer.refusal && answer.rounds == done && parts_of(answer.state) == state && clocks == expected;
}

void test_stated() {
  const Table of_m = image(m);
  check(ends(of_m, "0 5;", 0, 0, {0, 0}, {{0, 5}}), "M, 0 rounds");
  check(ends(of_m, "0 5 7;", 1, 1, {0, 2}, {{0, 7}}), "M, 1 round");
  check(ends(of_m, "0 5 7 9;", 2, 2, {0, 2}, {{0, 9}}), "M, 2 rounds");
  check(refused_with(of_m, "0 5;", 1) == refuse(41, {0}), "41 in round 1");
  check(refused_with(of_m, "0;", 0) == refuse(41, {0}), "41 in round 0");
  for (std::uint64_t rounds : {std::uint64_t{4097}, std::uint64_t{1} << 32, largest}) {
    check(refused_with(of_m, "0 5;", rounds) == refuse(22, {0}), "22");
    check(refused_with(of_m, "x", rounds, 63) == refuse(22, {0}), "22 before 28 and 40");
  }
  for (std::size_t values : {0, 1, 63, 65, 128}) {
    check(refused_with(of_m, "0 5;", 1, values) == refuse(28, {0}), "28");
    check(refused_with(of_m, "x", 4096, values) == refuse(28, {0}), "28 before 40");
  }
  check(refused_with(of_m, "0 5;1 5;", 0) == refuse(40, {2}), "40: a line too many");

  const Table two = image(tabbed(two_clocks));
  check(refused_with(two, "4 5;9 5;", 1) == refuse(30, {4}), "30");
  check(refused_with(two, "4 5;9;", 1) == refuse(41, {9}), "41: round 0");
  check(ends(two, "4 5 3;9 6;", 1, 1, {0, 0}, {{4, 3}, {9, 1}}), "two clocks");
  check(refused_with(two, "4 5 5;9 3;", 1) == refuse(41, {9}), "41: round 1");
  check(refused_with(two, "4;9;", 1) == refuse(41, {4}), "41: the lowest");
  check(refused_with(two, "4 5 1;9 6 3;", 2) == refuse(30, {4}), "30 in round 2");

  const Table loop = image(tabbed("comp 1 0\nact 0 uout\nclk 3 1\nrow 0 - 0 3 0\n"));
  check(refused_with(loop, "3;", 0) == refuse(42, {0}), "42, not 41");
  const Table once = image(tabbed("comp 2 0\nact 0 uout\nclk 0 1\nrow 0 - 0 0 1\n"));
  check(ends(once, "0 8 9;", 0, 0, {1}, {{0, 8}}), "one sample a round");
  check(ends(once, "0 8 9;", 4096, 0, {1}, {{0, 8}}), "quiet ends it, uncounted");

  // Settles at the start, and never again after the timed step of round 2.
  const Table later = image(tabbed("comp 3 0\nact 0 out\nact 1 uout\nclk 0 1\nclk 1 0\n"
                                   "row 0 0 0 0 1\nrow 1 0 0 0 2\nrow 2 - 1 1 2\n"));
  check(ends(later, "0 5 6;1;", 1, 1, {1}, {{0, 6}, {1, -5}}), "42: round 1 settles, and clock 1 has begun at 0 and fallen");
  check(refused_with(later, "0 5 6;1;", 2) == refuse(42, {2}), "42 before 41, at round 2");
  // 41 of a round stands before 30 of the next.
  check(refused_with(two, "4 5;9 6;", 2) == refuse(41, {4}), "41 of round 1");

  // A clock that nobody waits for stops at the floor; nothing is waited for, or declared.
  const std::int64_t top = std::int64_t{1} << 40;
  const Table runs_on = image(tabbed("comp 1 0\nact 0 out\nclk 0 1\nclk 5 0\nrow 0 0 0 0 0\n"));
  check(ends(runs_on, "0 1099511627776 1;5;", 1, 1, {0}, {{0, 1}, {5, -top}}), "down to the floor");
  check(ends(runs_on, "0 1099511627776 1099511627776 1;5 3;", 2, 2, {0}, {{0, 1}, {5, -top}}), "and no further");
  const Table none = image(tabbed("comp 2 1\n"));
  check(ends(none, "", 9, 0, {1}, {}), "no clock");

  const Table clash = image(m_with("row 1 - 2 - 2", "row 1 - 2 - 0"));
  check(refused_with(clash, "x", largest, 1) == refuse(18, {1, 1, 1, 2}), "18 before 22");
  check(refused_with(image(m_with("clk 0 1", "clk 0 0")), "x", largest, 1) == refuse(14, {0}), "14 before 22");
  check(refused_with(Table(3, 0), "x", largest, 1) == refuse(20, {0}), "20 first");
}

void test_texts() {
  const struct {
    const char* declared;
    const char* text;
    std::uint64_t place;  // 0: good
  } stated[] = {
      {"0 3", "", 1},          {"0 3", "0 5;", 2},       {"0 3", "0 5", 1},         {"0 3", "0 5;3", 2},
      {"0 3", "3;0 5;", 1},    {"0 3", "0 5;0 5;3;", 2}, {"0 3", "0 5;3;;", 3},     {"0 3", "0 5;3;4 1;", 3},
      {"", ";", 1},            {"", "", 0},              {"", "0;", 1},             {"0 3", "0 5;3;", 0},
      {"0 3", "0;3 1 2 3;", 0}, {"7", "7 ;", 1},         {"7", "7;", 0},            {"7", "07;", 1},
      {"0", "00;", 1},         {"63", "63 1;", 0},       {"63", "64 1;", 1},        {"63", "063;", 1},
      {"7", "7 0;", 1},        {"7", "7 01;", 1},        {"7", "7 1099511627776;", 0}, {"7", "7 1099511627777;", 1},
      {"7", "7 9999999999999;", 1}, {"7", "7 01099511627776;", 1}, {"7", "7 10995116277760;", 1}, {"7", "7 -1;", 1},
      {"7", "7 +1;", 1},       {"7", "7 1.0;", 1},       {"7", "7 _1;", 1},         {"7", "7 1_;", 1},
      {"7", "7  1;", 1},       {"7", " 7 1;", 1},        {"7", "7 1 ;", 1},         {"7", "7 1\r;", 1},
      {"7", ";7 1;", 1},       {"7", "7_1;", 1},         {"7", "77 1;", 1},         {"7", "7 1,2;", 1},
      {"1 2 3", "1;2;3 0;", 3}, {"1 2 3", "1;2 x;3 0;", 2}, {"1 2 3", "1;3;2;", 2}, {"1 2 3", "1;2;", 3},
  };
  for (const auto& entry : stated) {
    Text model = "comp 1 0\n";
    for (std::string_view clock : second::parted(entry.declared, ' '))
      if (!clock.empty()) model += "clk " + Text(clock) + " 0\n";
    const second::Refusal expected = entry.place == 0 ? second::Refusal{} : refuse(40, {entry.place});
    const second::Refusal answered = refused_with(image(tabbed(model)), entry.text, 0);
    check(answered == expected, shown(answered) + " for the samples " + entry.text);
  }
  // Samples that are never taken are looked at too, before round 0; a long text is good.
  check(refused_with(image(m), "0 5 7 x;", 0) == refuse(40, {1}), "40 before any round");
  Text many = "0 5";
  for (unsigned count = 0; count < 20000; ++count) many += " 3";
  check(!refused_with(image(m), many + ";", 4096), "a text of over 32,768 bytes, 4,096 rounds");
}

// Where a text of samples is bad, line by line and field by field; 0 where it is good.
std::uint64_t bad_line(const Text& text, Set declared) {
  std::vector<Text> clocks;
  for (unsigned x = 0; x < 64; ++x)
    if (second::has(declared, x)) clocks.push_back(std::to_string(x));
  const auto is_sample = [](std::string_view field) {
    if (field.empty() || field.size() > 13 || field[0] == '0' || field.find_first_not_of("0123456789") != field.npos) return false;
    return std::stoull(Text(field)) <= 1099511627776u;
  };
  // The last piece is what stands behind the last LF: nothing, or a line without one.
  const auto pieces = second::parted(text, '\n');
  for (std::size_t line = 0; line + 1 < pieces.size(); ++line) {
    const auto fields = second::parted(pieces[line], '\t');
    if (line == clocks.size() || fields[0] != clocks[line]) return line + 1;
    for (std::size_t f = 1; f < fields.size(); ++f)
      if (!is_sample(fields[f])) return line + 1;
  }
  return pieces.back().empty() && pieces.size() == clocks.size() + 1 ? 0 : pieces.size();
}

unsigned long good_texts = 0, bad_texts = 0;

void check_text(const Table& table, Set declared, const Text& samples) {
  Clocks clocks(64, 3);
  const second::Refusal answered = lend_simulate(table, samples, 0, clocks).refusal;
  const std::uint64_t place = bad_line(samples, declared);
  check(place == 0 ? answered.number != 40 : answered == refuse(40, {place}),
        shown(answered) + " by the words 40 at " + std::to_string(place) + " for the samples\n" + samples);
  ++(place == 0 ? good_texts : bad_texts);
}

// Each byte of a short text exchanged for each other byte, taken out, and put in before it.
void test_every_byte() {
  const Set declared = second::only(0) | second::only(7) | second::only(63);
  const Table table = image(tabbed("comp 1 0\nclk 0 0\nclk 7 1\nclk 63 0\n"));
  const Text text = samples_of("0;7 10 1099511627776;63 5;");
  for (std::size_t at = 0; at <= text.size(); ++at)
    for (unsigned byte = 0; byte < 256; ++byte) {
      const Text put(1, static_cast<char>(byte));
      check_text(table, declared, Text(text).insert(at, put));
      if (at == text.size()) continue;
      check_text(table, declared, Text(text).replace(at, 1, put));
      if (byte == 0) check_text(table, declared, Text(text).erase(at, 1));
      if (byte == 0) check_text(table, declared, text.substr(0, at));
    }
}

// ---- the rounds unfolded, by the words of the request. Urgent steps are freely chosen.

struct Unfolded {
  State state;
  Clocks values = Clocks(64, 0);
  std::vector<std::size_t> taken = std::vector<std::size_t>(64, 0);
  std::uint64_t round = 0;
  second::Refusal refusal;  // of the round that was begun last: then nothing else holds
};

class Free {
 public:
  Free(Random& from, const Model& of, const second::SampleLists& samples) : random(from), model(of), lists(samples) {}

  Unfolded begin() {
    Unfolded at;
    Set due = 0;
    for (const second::Component& component : model.components) {
      at.state.parts[at.state.count++] = static_cast<std::uint8_t>(component.start);
      due |= component.started;
    }
    return ended(at, due);
  }

  // One later round, or nothing where no clock is waited for.
  std::optional<Unfolded> next(Unfolded at) {
    const Set waiting = second::enabling(model, at.state);
    if (waiting == 0) return std::nullopt;
    ++at.round;
    std::int64_t least = INT64_MAX;
    unsigned fires = 64, sharing = 0;
    for (unsigned x = 0; x < 64; ++x) {
      if (!second::has(waiting, x)) continue;
      check(at.values[x] >= 1, "no clock that is waited for is below 1");
      if (at.values[x] == least) ++sharing;
      if (at.values[x] < least) least = at.values[x], fires = x, sharing = 1;
    }
    if (sharing > 1) return refused(at, refuse(30, {fires}));
    for (unsigned x = 0; x < 64; ++x)
      if (second::has(second::clocks_of(model), x)) {
        at.values[x] -= least;
        if (at.values[x] < -(std::int64_t{1} << 40)) at.values[x] = -(std::int64_t{1} << 40);
      }
    const second::Move move = second::clock_step(model, at.state, fires);
    at.state = move.after;
    return ended(at, move.resets);
  }

 private:
  Random& random;
  const Model& model;
  const second::SampleLists& lists;

  static Unfolded refused(Unfolded at, const second::Refusal& with) {
    at.refusal = with;
    return at;
  }

  Unfolded ended(Unfolded at, Set due) {
    for (unsigned steps = 0;; ++steps) {
      const Set enabled = second::urgent_outputs(model, at.state);
      if (enabled == 0) break;
      if (steps == 4096) return refused(at, refuse(42, {at.round}));
      unsigned action = random.below(64);
      while (!second::has(enabled, action)) action = (action + 1) % 64;
      const auto move = second::urgent_step(model, at.state, action);
      due |= move->resets;
      at.state = move->after;
    }
    for (unsigned x = 0; x < 64; ++x) {
      if (!second::has(due, x)) continue;
      if (at.taken[x] == lists[x].size()) return refused(at, refuse(41, {x}));
      at.values[x] = lists[x][at.taken[x]++];
    }
    return at;
  }
};

unsigned long compared = 0, tied = 0, ran_out = 0, endless = 0, quieted = 0;

void count_refused(const second::Refusal& refusal) { ++(refusal.number == 30 ? tied : refusal.number == 41 ? ran_out : endless); }

// Both choices end each round alike, are refused with the same number at the same place, and are ours.
void check_rounds(Random& random, const Model& model, const Text& samples, unsigned most) {
  const Table table = second::image_of_model(model);
  const auto reading = second::samples_of_text(samples, second::clocks_of(model));
  check(!reading.refusal, "the samples are good");
  for (unsigned choice = 0; choice < 2; ++choice) {
    Free free(random, model, reading.lists);
    std::optional<Unfolded> at = free.begin();
    for (std::uint64_t round = 0; round <= most; ++round) {
      Clocks clocks(64, 5);
      const auto answer = lend_simulate(table, samples, round, clocks);
      if (at->refusal) {
        check(answer.refusal == at->refusal, shown(answer.refusal) + ", by another choice " + shown(at->refusal));
        count_refused(at->refusal);
        break;
      }
      check(!answer.refusal && answer.rounds == round && answer.state == at->state, "equal states as a round ends");
      for (unsigned x = 0; x < 64; ++x)
        check(clocks[x] == (second::has(second::clocks_of(model), x) ? at->values[x] : 5), "equal values as a round ends");
      ++compared;
      const std::optional<Unfolded> next = free.next(*at);
      if (!next) {
        ++quieted;
        Clocks again(64, 5);
        const auto ended = lend_simulate(table, samples, round + 3, again);
        check(ended.rounds == round && ended.state == at->state && again == clocks, "quiet ends it, uncounted");
        break;
      }
      at = next;
    }
  }
}

// Lists that are just as long as needed, and one a sample shorter.
void check_exact(Random& random, const Model& model, unsigned most) {
  Random same = random;
  const Text exact = second::generate_exact_samples(same, model, most);
  const Text scant = second::generate_scant_samples(random, model, most);
  const Table table = second::image_of_model(model);
  Clocks clocks(64, 5);
  const second::Refusal refusal = lend_simulate(table, exact, most, clocks).refusal;
  check(refusal.number != 40 && refusal.number != 41, "no sample lacks: " + shown(refusal));
  if (scant != exact) check(lend_simulate(table, scant, most, clocks).refusal.number == 41, "a sample lacks");
  check_rounds(random, model, scant, most);
}

Model drawn_model(Random& random, unsigned round) {
  const auto size = round % 10 == 0 ? second::Size::medium : second::Size::small;
  if (round % 9 == 0) return second::generate(random, second::Family::endless, size);
  if (round % 2 == 0) return second::generate_plant(random, size);
  if (round % 3 == 0) return second::generate(random, second::Family::orderly, size);
  return second::generate(random, round % 4 == 1 ? second::Family::sharing : second::Family::confluent, size);
}

}  // namespace

void test_simulation() {
  test_stated();
  test_texts();
  test_every_byte();
  Random random(16);
  for (unsigned round = 0; round < rounds(500); ++round) {
    const Model model = drawn_model(random, round);
    const unsigned most = random.between(1, 8);
    const Text samples = second::generate_samples(random, model, most + 1);
    check_rounds(random, model, samples, most);
    check_exact(random, model, most);
    Clocks clocks = second::generate_odd_ticks(random);
    const Text odd = second::generate_odd_samples(random, model, most);
    const Table table = second::image_of_model(model);
    lend_simulate(table, odd, second::generate_budget(random), clocks);
    check_text(table, second::clocks_of(model), odd);
  }
  const std::string counts = std::to_string(compared) + ", " + std::to_string(tied) + ", " + std::to_string(ran_out) + ", " +
                             std::to_string(endless) + ", " + std::to_string(quieted);
  check_common(compared > 1000 && tied > 20 && ran_out > 50 && endless > 50 && quieted > 50, "all ends are common: " + counts);
  check(good_texts > 50 && bad_texts > 50, "good texts and bad ones: " + std::to_string(good_texts) + ", " + std::to_string(bad_texts));
}
