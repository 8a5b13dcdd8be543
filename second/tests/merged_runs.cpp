// Merging must not matter: a merged model runs as the unmerged one, its state read through the
// numbering of pairs, and three components merged from either end are one image.
#include "acceptance.hpp"
#include "check.hpp"
#include "generate.hpp"
#include "lending.hpp"
#include "tests.hpp"

namespace {

using second::Model;
using second::Random;

Part paired(const Model& model, const Part& state, std::uint64_t i) {
  Part pairs;
  for (std::uint64_t c = 0; c < state.size(); ++c) {
    if (c == i) pairs.push_back(static_cast<std::uint8_t>(state[c] * model.components[c + 1].states + state[c + 1]));
    else if (c != i + 1) pairs.push_back(state[c]);
  }
  return pairs;
}

unsigned long merges = 0, settled = 0, unreached_pairs = 0, listed = 0, unlisted = 0, triples = 0;

// One model and the same model merged at i.
struct Pair {
  const Model& model;
  Table table;
  std::uint64_t i;
  Table into;
  bool confluent;
};

void check_steps(Random& random, const Pair& pair, const Part& state) {
  const Part pairs = paired(pair.model, state, pair.i);
  const auto one = lend_step(pair.table, state);
  const auto other = lend_step(pair.into, pairs);
  check(one.outcome == other.outcome && one.action == other.action && one.resets == other.resets &&
            paired(pair.model, parts_of(one.state), pair.i) == parts_of(other.state),
        "one step");
  Clocks before = random.chance(50) ? second::generate_ticks_for(random, pair.model, state) : second::generate_odd_ticks(random);
  Clocks ticks = before;
  const auto fired = lend_timed_step(pair.table, state, before);
  const auto also = lend_timed_step(pair.into, pairs, ticks);
  check(fired.refusal == also.refusal && fired.outcome == also.outcome && fired.v == also.v &&
            fired.action == also.action && fired.resets == also.resets && before == ticks,
        "one timed step");
  if (!fired.refusal)
    check(paired(pair.model, parts_of(fired.state), pair.i) == parts_of(also.state), "one timed step: state");
}

// From a composed state that both accept: same verdict, count, resets and trace.
void check_settling(Random& random, const Pair& pair, const Part& state) {
  const Part pairs = paired(pair.model, state, pair.i);
  const std::uint64_t budget = second::generate_budget(random);
  Part trace(budget, 0), other_trace(budget, 0);
  const auto run = lend_settle(pair.table, state, budget, trace);
  const auto other = lend_settle(pair.into, pairs, budget, other_trace);
  // A pair may not be got to though both of its parts are, and then it is 19.
  if (run.refusal || other.refusal) {
    check(other.refusal.number == 19, "settling: what the parts refuse the pair refuses");
    if (!run.refusal) ++unreached_pairs;
    return;
  }
  ++settled;
  check(run.verdict == other.verdict && run.steps == other.steps && run.resets == other.resets &&
            trace == other_trace && paired(pair.model, parts_of(run.state), pair.i) == parts_of(other.state),
        "settling");
  const Part list = random.chance(60) ? second::generate_list(random, pair.model, state, 30)
                                      : second::generate_odd_list(random, pair.model, state);
  const auto by = lend_settle_list(pair.table, state, list);
  const auto by_other = lend_settle_list(pair.into, pairs, list);
  check(by.refusal == by_other.refusal && by.verdict == by_other.verdict && by.steps == by_other.steps &&
            by.resets == by_other.resets,
        "settling by list, 23 at the same index");
  if (by.refusal) {
    ++unlisted;
    return;
  }
  ++listed;
  check(paired(pair.model, parts_of(by.state), pair.i) == parts_of(by_other.state), "settling by list: state");
}

void check_merge(Random& random, const Model& model, const Table& table, bool confluent, std::uint64_t i) {
  Table into(second::image_words, 0);
  if (lend_merge(table, i, into).refusal) return;
  ++merges;
  const Pair pair{model, table, i, into, confluent};
  check(into[0] == table[0] - 1, "one component fewer");
  check(!lend_accept(into).refusal, "a merged model is accepted again");
  const auto start = lend_start(table);
  const auto other_start = lend_start(into);
  check(start.started == other_start.started && paired(model, parts_of(start.state), i) == parts_of(other_start.state), "one start");
  if (confluent) check(!lend_confluent(into).refusal, "and confluent if it was");
  for (unsigned from = 0; from < 4; ++from) {
    const Part state = from == 1 ? second::generate_calm_state(random, model)
                       : from == 2 ? second::generate_state(random, model) : second::generate_reached_state(random, model);
    check_steps(random, pair, state);
    if (confluent) check_settling(random, pair, state);
  }
}

// (first, second), third and first, (second, third), where no merge on the way is refused.
void check_triple(const Table& table, std::uint64_t i) {
  Table left(second::image_words, 1), right(second::image_words, 2), one(second::image_words, 3), other(second::image_words, 4);
  if (lend_merge(table, i, left).refusal || lend_merge(table, i + 1, right).refusal) return;
  const auto from_left = lend_merge(left, i, one).refusal;
  const auto from_right = lend_merge(right, i, other).refusal;
  if (from_left || from_right) {
    check(from_left == from_right, "the third merge is refused either way, or neither");
    return;
  }
  ++triples;
  check(one == other, "three components, merged either way, are one image");
}

void test_stated() {
  const Table table = image(m);
  Table both(second::image_words, 0);
  check(!lend_merge(table, 0, both).refusal, "M merges");
  Part trace(100, 77), other(100, 77);
  const auto run = lend_settle(table, {1, 0}, 100, trace);
  const auto merged = lend_settle(both, {3}, 100, other);
  check(run.verdict == second::Verdict::stable && run.steps == 2 && run.resets == 1 && parts_of(run.state) == Part{0, 2}, "M");
  check(merged.verdict == second::Verdict::stable && merged.steps == 2 && merged.resets == 1 &&
            parts_of(merged.state) == Part{2},
        "M merged");
  check(trace == other && trace[0] == 1 && trace[1] == 2, "M's trace, merged or not");

  // 26 may refuse one way alone: the second and third hear 32 actions each and have 1,024 rows or more
  // together; the first declares these as outputs that it never takes, and then there are none.
  Text silent = "comp 2 0\n", hearing;
  for (unsigned a = 0; a < 32; ++a) silent += "act " + std::to_string(a) + " uout\n";
  for (unsigned half = 0; half < 2; ++half) {
    hearing += "comp 8 0\n";
    for (unsigned a = 16 * half; a < 16 * half + 16; ++a) hearing += "act " + std::to_string(a) + " uin\n";
    for (unsigned s = 0; s < 8; ++s)
      for (unsigned a = 16 * half; a < 16 * half + 16; ++a)
        hearing += "row " + std::to_string(s) + " - " + std::to_string(a) + " - " + std::to_string(s) + "\n";
  }
  const Table uneven = image(tabbed(silent + hearing));
  Table left(second::image_words, 0), whole(second::image_words, 0);
  check(!lend_merge(uneven, 0, left).refusal && !lend_merge(left, 0, whole).refusal, "from the left it goes");
  check(lend_merge(uneven, 1, left).refusal == second::refuse(26, {0}), "from the right it is 26");
}

}  // namespace

void test_merged_runs() {
  test_stated();
  Random random(7);
  for (unsigned round = 0; round < rounds(80); ++round) {
    const second::Family family = second::families[round % 6];
    const auto size = round % 4 == 0 ? second::Size::medium : second::Size::small;
    const Model model = second::generate(random, family, size);
    const Table table = second::image_of_model(model);
    const bool confluent = !lend_confluent(table).refusal;
    for (std::uint64_t i = 0; i + 1 < model.components.size(); ++i) {
      check_merge(random, model, table, confluent, i);
      if (i + 2 < model.components.size()) check_triple(table, i);
    }
  }
  check_common(merges > 80 && settled > 80 && unreached_pairs > 0 && listed > 40 && unlisted > 10 && triples > 25,
        "all of it is common: " + std::to_string(merges) + ", " + std::to_string(settled) + ", " +
            std::to_string(unreached_pairs) + ", " + std::to_string(listed) + ", " + std::to_string(unlisted) + ", " +
            std::to_string(triples));
}
