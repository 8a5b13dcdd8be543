// Repairable fault trees: stated answers, worked texts, the conditions by force, and what the modules
// do held to the tree evaluated directly.
#include <algorithm>
#include <map>
#include <set>

#include "check.hpp"
#include "composition.hpp"
#include "generate.hpp"
#include "lending.hpp"
#include "path.hpp"
#include "settling.hpp"
#include "sha256.hpp"
#include "tests.hpp"
#include "text_writing.hpp"
#include "tree_model.hpp"

namespace {

using second::Element;
using second::Model;
using second::Random;
using second::Refusal;
using second::refuse;
using second::Sort;
using second::State;
using second::Tree;

// `;` stands for LF, spaces for tabs; spaces behind `;` are left out.
Text tree_text(const Text& short_text) {
  Text text;
  for (std::size_t b = 0; b < short_text.size(); ++b) {
    if (short_text[b] == ' ' && b > 0 && short_text[b - 1] == ';') continue;
    text += short_text[b] == ';' ? '\n' : short_text[b] == ' ' ? '\t' : short_text[b];
  }
  return text;
}

Refusal refused(const Text& text) {
  Table into(second::image_words, 7), shorter(second::image_words - 1, 7);
  const Refusal answer = lend_read_tree(text, into).refusal;
  const Refusal short_of = lend_read_tree(text, shorter).refusal;
  check(short_of == (answer ? answer : refuse(24, {67848})), "24 comes last");
  return answer;
}

void test_stated() {
  const struct {
    const char* text;
    Refusal refusal;
  } stated[] = {
      {"", refuse(47, {2})},
      {";", refuse(2, {1, 1})},
      {"be 0", refuse(2, {1, 5})},
      {"be 0;", {}},
      {"be 0 1;", refuse(2, {1, 5})},
      {"and 2 0;", refuse(2, {1, 8})},
      {"and 2 0 1 3;", refuse(2, {1, 10})},
      {"rbox 1;", refuse(2, {1, 7})},
      {"be 0; rbox 1 0 0 0 0 0 0;", refuse(2, {2, 17})},
      {"BE 0;", refuse(2, {1, 1})},
      {"sbe 0;", refuse(2, {1, 1})},
      {"rbx 0 1;", refuse(2, {1, 3})},
      {"be 0\r;", refuse(2, {1, 5})},
      {"pand 0 1,2;", refuse(2, {1, 9})},
      {"be 064;", refuse(2, {1, 5})},
      {"be 100000;", refuse(2, {1, 9})},
      {"be 64;", refuse(4, {1, 4})},
      {"be 0; and 64 70 0;", refuse(4, {2, 5})},
      {"be 0; and 3 0 64;", refuse(4, {2, 9})},
      {"be 1; be 1;", refuse(6, {2})},
      {"be 1; and 0 1 1;", refuse(6, {2})},
      {"be 0; and 3 0 7;", refuse(5, {2, 9})},
      {"and 0 7 9; be 64;", refuse(4, {2, 4})},
      {"rbox 0 1; be 2;", refuse(5, {1, 8})},
      {"and 0 0 0;", refuse(47, {1})},
      {"and 5 5 6; be 6;", refuse(47, {1})},
      {"and 0 1 2; and 1 0 2; be 2;", refuse(47, {1})},
      {"be 0; be 1;", refuse(47, {2})},
      {"be 0; rbox 1 0;", refuse(47, {2})},
      {"be 0; be 1; and 2 0 0;", refuse(47, {2})},
      {"be 0; be 1; and 2 0 1; be 3;", refuse(47, {2})},
      {"be 0; be 1; and 2 0 1; be 3; rbox 4 3;", {}},
      {"be 0; be 1; and 2 0 1; rbox 3 0 0;", refuse(47, {3})},
      {"be 0; be 1; rbox 2 0; and 3 1 2;", refuse(47, {4})},
      {"be 0; be 1; rbox 2 0; rbox 4 2;", refuse(47, {4})},
      {"be 0; be 1; and 2 0 1; rbox 3 2;", refuse(47, {2})},
      {"be 0; be 1; and 2 0 1; be 3; or 4 3 2; rbox 5 2;", refuse(47, {5})},
      {"be 0; be 1; and 2 0 1; rbox 3 0; rbox 4 1 0;", refuse(47, {6})},
      {"be 0; and 2 0 0;", refuse(47, {3})},
      {"comp 1 0;", refuse(2, {1, 1})},
      {"be 0; and 3 9 64;", refuse(4, {2, 9})},
      {"be 5; and 4 9 9;", refuse(6, {2})},
      {"be 5; and 6 9 8; be 7", refuse(2, {3, 5})},
      {"p", refuse(2, {1, 2})},
      {"pan 0;", refuse(2, {1, 4})},
      {"ann 0;", refuse(2, {1, 3})},
      {"rbox 63 0 1 2 3 4;", refuse(5, {1, 9})},
  };
  for (const auto& entry : stated) {
    const Refusal answer = refused(tree_text(entry.text));
    check(answer == entry.refusal, shown(answer) + " for the tree " + entry.text);
  }
}

Text model_text(const Text& tree) {
  Table into(second::image_words, 7);
  check(!lend_read_tree(tree, into).refusal, "a model for the tree " + tree);
  Part text(second::max_text, 0);
  const auto written = lend_write(into, text);
  check(!lend_accept(into).refusal, "a tree's model is accepted");
  check(!lend_orderly(into).refusal, "and orderly");
  return Text(text.begin(), text.begin() + static_cast<long>(written.length));
}

void test_worked() {
  check(sha256("abc") == "ba7816bf8f01cfea414140de5dae2223b00361a396177a9cb410ff61f20015ad", "SHA-256 of abc");
  const struct {
    const char* tree;
    unsigned components, rows, bytes;
    const char* hash;
  } worked[] = {
      {"be 0; be 1; rbox 2 1;", 3, 42, 770, "63e91bea3068aaef8ba00b1388a558162e46a9f811a8a7dad56bc2c5a2a88aa1"},
      {"pand 0 7 3; be 3; be 7;", 3, 192, 3098, "5cccc4f91e847c673026ffd7c81e297898fbda6fe5231aa512e5340480d9b502"},
      {"or 0 2 5; be 2; and 4 5 2; be 5; or 8 0 4; rbox 9 5 2;", 6, 239, 3939,
       "861825e9231abc436e303939c6be696354fd59e5afb516f2697846c849b2fb85"},
      {"be 1; be 2; be 3; be 4; be 5; and 6 1 2; rbox 7 3 1 5 4 2;", 7, 830, 13889,
       "e3402f0e8530d04a5b1b3d5c404c6f66e7580b4242beb8555c65d7d925c29a35"},
      {"be 0; be 1; be 2; or 3 0 1; rbox 4 2 0 1;", 5, 220, 3651, "103f3c00d540d8a1a7fd8e1e80710c7113b3e6756c45ea487a5045207b29352b"},
      {"be 0; be 1; be 2; be 3; and 4 0 1; rbox 5 3 0 2 1;", 6, 409, 6832,
       "bb30b7cae7646607af6c68d5ac55985db04041be5d49093f50d4df064f01ffd2"},
      {"be 63;", 1, 12, 235, "e0de9aac6874cba25f4d2bac4145ae84f4ee1ae21b97fd4c52c45ba6168b229f"},
      {"be 0; be 1; be 2; be 3; pand 4 2 0; pand 5 3 1; or 6 4 0; or 7 5 1; and 8 6 7; rbox 9 0 1 2 3;", 10, 1013, 16641,
       "f6aca52fed9dfd2ecc52265aa41cf606d92e69d70163090eea3b8237b9637d5b"},
      {"be 0; be 1; pand 2 0 1; be 3; rbox 4 3;", 5, 262, 4331, "f48a4f86c7740397c630c4e369cc36a11c3142b61b398664617e4b40313eaa27"},
  };
  for (const auto& entry : worked) {
    const Text text = model_text(tree_text(entry.tree));
    check(text.size() == entry.bytes && sha256(text) == entry.hash,
          std::string("the text of ") + entry.tree + ": " + std::to_string(text.size()) + ", " + sha256(text));
    const Table table = image(text);
    const auto model = second::model_of_image({table.data(), table.size()});
    check(model->components.size() == entry.components && second::count_rows(*model) == entry.rows, entry.tree);
  }
}

// Trees at the edge of the limits.
void test_edges() {
  const auto loose = [](unsigned basic, unsigned boxed, unsigned ors, unsigned pands, const char* gate) {
    Text text;
    unsigned number = 0;
    for (; number < basic; ++number) text += "be " + std::to_string(number) + ";";
    // A chain first, so that there is one top; then gates over the one before and a basic element.
    unsigned top = 0;
    for (unsigned g = 0; g < ors + pands; ++g, ++number) {
      const unsigned other = g + 1 < basic ? g + 1 : g % basic;
      text += (g < ors ? gate : "pand") + (" " + std::to_string(number) + " " + std::to_string(top) + " ") + std::to_string(other) + ";";
      top = number;
    }
    if (boxed > 0) {
      text += "rbox " + std::to_string(number);
      for (unsigned b = 0; b < boxed; ++b) text += " " + std::to_string(b);
      text += ";";
    }
    return tree_text(text);
  };
  const auto fits = [&](const Text& tree, unsigned rows) {
    const Text text = model_text(tree);
    check(static_cast<unsigned>(std::count(text.begin(), text.end(), '\n')) > 0, "a tree at the edge");
    const Table table = image(text);
    const auto model = second::model_of_image({table.data(), table.size()});
    check(second::count_rows(*model) == rows, "rows of a tree at the edge: " + std::to_string(second::count_rows(*model)));
  };
  fits(loose(7, 3, 15, 0, "or"), 1024);
  check(refused(loose(2, 2, 2, 5, "or")) == refuse(48, {0}), "1,025 rows");
  fits(loose(11, 0, 10, 0, "or"), 672);
  check(refused(loose(11, 0, 11, 0, "or")) == refuse(48, {0}), "66 actions");
  fits(loose(8, 0, 9, 0, "or"), 582);
  fits(loose(5, 5, 4, 0, "and"), 992);
  check(refused(loose(5, 5, 5, 0, "and")) == refuse(48, {0}), "1,046 rows");
}

// ---- runs of the worked trees

struct Bench {
  Model model;
  State at;

  explicit Bench(const Text& tree) {
    const second::TreeReading reading = second::tree_of_text(tree_text(tree));
    check(!reading.refusal && !second::tree_conditions(reading.tree), "a tree to run");
    model = second::model_of_tree(reading.tree).model;
    at = second::start_of(model);
  }

  // The step of a clock, then the urgent actions by the lowest number, with each state after.
  void run(unsigned action, unsigned clock, const std::vector<std::pair<int, Part>>& states) {
    const second::Move move = second::clock_step(model, at, clock);
    check(move.action == action && parts_of(move.after) == states[0].second, "the step of a clock");
    const second::Run run = second::settle_by_rule(model, move.after, 4096);
    check(run.stable && run.moves.size() + 1 == states.size(), "as many urgent steps");
    for (std::size_t s = 0; s < run.moves.size() && s + 1 < states.size(); ++s)
      check(static_cast<int>(run.moves[s].action) == states[s + 1].first && parts_of(run.moves[s].after) == states[s + 1].second,
            "an urgent step");
    at = run.last;
  }
};

void test_runs() {
  Bench first("pand 0 7 3; be 3; be 7;");
  first.run(6, 2, {{-1, {0, 0, 4}}, {8, {10, 0, 1}}});
  first.run(2, 0, {{-1, {10, 4, 1}}, {4, {16, 1, 1}}, {0, {17, 1, 1}}});
  Bench second_first("pand 0 7 3; be 3; be 7;");
  second_first.run(2, 0, {{-1, {0, 4, 0}}, {4, {5, 1, 0}}});
  second_first.run(6, 2, {{-1, {9, 1, 4}}, {8, {19, 1, 1}}});
  Bench box("be 1; be 2; or 3 1 2; rbox 4 2 1;");
  box.run(0, 0, {{-1, {4, 0, 0, 2}}, {2, {1, 0, 7, 2}}, {4, {2, 0, 7, 3}}, {10, {2, 0, 1, 3}}});
  box.run(5, 2, {{-1, {2, 4, 1, 7}}, {7, {2, 1, 2, 7}}});
  box.run(1, 1, {{-1, {6, 1, 2, 4}}, {3, {0, 1, 1, 4}}, {9, {0, 2, 1, 5}}});
  box.run(6, 3, {{-1, {0, 6, 1, 0}}, {8, {0, 0, 3, 0}}, {11, {0, 0, 0, 0}}});
  Bench instant("be 0; be 1; or 2 0 1; pand 3 2 0;");
  instant.run(0, 0, {{-1, {4, 0, 0, 0}}, {2, {1, 0, 7, 5}}, {8, {1, 0, 1, 16}}, {10, {1, 0, 1, 17}}});
}

// ---- the tree evaluated directly

// What stands at rest, by what a tree means: which elements are down, which basic element each box
// repairs, and for each PAND whether its second input went down in this very instant.
class Direct {
 public:
  explicit Direct(const Tree& of) : tree(of) {
    for (std::size_t e = 0; e < tree.elements.size(); ++e) place[tree.elements[e].number] = e;
    down.assign(tree.elements.size(), false);
    fresh.assign(tree.elements.size(), false);
    repaired.assign(tree.elements.size(), none);
    order();
  }

  std::vector<bool> down;
  std::vector<bool> fresh;              // of a PAND: its second input went down in this instant
  std::vector<std::size_t> repaired;    // of a box: what it repairs

  static constexpr std::size_t none = ~std::size_t{0};

  bool in_repair(std::size_t e) const { return std::count(repaired.begin(), repaired.end(), e) != 0; }

  void fails(std::size_t e) { instant(e, true); }
  void is_repaired(std::size_t e) { instant(e, false); }

  unsigned state(std::size_t e) const {
    const Element& element = tree.elements[e];
    const auto in = [&](std::size_t i) { return down[place.at(element.inputs[i])] ? 1u : 0u; };
    switch (element.sort) {
      case Sort::be: return !down[e] ? 0 : in_repair(e) ? 2 : 1;
      case Sort::both:
      case Sort::either: return in(0) + in(1);
      case Sort::pand: return 10 * in(0) + 5 * in(1) + (down[e] ? 2 : in(1) == 1 && !fresh[e] ? 4 : 0);
      case Sort::rbox: {
        unsigned digits = 0;
        for (std::size_t i = 0; i < element.inputs.size(); ++i) digits = 2 * digits + in(i);
        return 2 * digits + (repaired[e] != none ? 1 : 0);
      }
    }
    return 0;
  }

 private:
  const Tree& tree;
  std::map<unsigned, std::size_t> place;
  std::vector<std::size_t> sorted;  // inputs before what they are inputs of

  void order() {
    std::set<std::size_t> ready;
    while (ready.size() < tree.elements.size())
      for (std::size_t e = 0; e < tree.elements.size(); ++e) {
        const auto& inputs = tree.elements[e].inputs;
        if (ready.count(e) == 0 &&
            std::all_of(inputs.begin(), inputs.end(), [&](unsigned input) { return ready.count(place.at(input)) != 0; })) {
          ready.insert(e);
          sorted.push_back(e);
        }
      }
  }

  void instant(std::size_t basic, bool fails) {
    const std::vector<bool> before = down;
    down[basic] = fails;
    for (std::size_t e : sorted) {
      const Element& element = tree.elements[e];
      const auto at = [&](std::size_t i) { return place.at(element.inputs[i]); };
      if (element.sort == Sort::both) down[e] = down[at(0)] && down[at(1)];
      if (element.sort == Sort::either) down[e] = down[at(0)] || down[at(1)];
      if (element.sort == Sort::pand) {
        // Down while the second is, if the first was down when the second went down, or went down
        // in the same instant.
        fresh[e] = down[at(1)] && !before[at(1)];
        if (!down[at(1)]) down[e] = false;
        else if (fresh[e]) down[e] = down[at(0)];
      }
      if (element.sort == Sort::rbox) {
        // One at a time, of those that are down the first in its list.
        if (repaired[e] == basic && !fails) repaired[e] = none;
        for (std::size_t i = 0; i < element.inputs.size() && repaired[e] == none; ++i)
          if (down[at(i)]) repaired[e] = at(i);
      }
    }
  }
};

// Every order of urgent steps from a state, up to a number of them: the set of ends.
void ends_of(const Model& model, const State& state, unsigned& left, std::set<Part>& ends) {
  if (left == 0) return;
  --left;
  const second::Set enabled = second::urgent_outputs(model, state);
  if (enabled == 0) ends.insert(parts_of(state));
  for (unsigned action = 0; action < 64; ++action)
    if (second::has(enabled, action)) ends_of(model, second::urgent_step(model, state, action)->after, left, ends);
}

unsigned long instants = 0, failures = 0, priority_down = 0, all_ways = 0;

void check_tree(Random& random, const Text& text) {
  const second::TreeReading reading = second::tree_of_text(text);
  Table into(second::image_words, 7);
  const Refusal answer = lend_read_tree(text, into).refusal;
  if (answer) {
    check(answer == refuse(48, {0}), "a good tree is 48 at the most: " + shown(answer));
    return;
  }
  const Tree& tree = reading.tree;
  const Model model = *second::model_of_image({into.data(), into.size()});
  check(!lend_accept(into).refusal && !lend_orderly(into).refusal, "a tree's model is accepted and orderly");
  const bool gateless = std::all_of(tree.elements.begin(), tree.elements.end(),
                                    [](const Element& e) { return e.sort == Sort::be || e.sort == Sort::rbox; });
  check((lend_confluent(into).refusal.number == 18) == !gateless, "a gate isn't confluent alone");
  const std::vector<second::Signals> signals = second::signals_of(tree);
  Direct direct(tree);
  State at = second::start_of(model);
  Part path;
  for (unsigned instant = 0; instant < 12; ++instant) {
    // Which clocks may fire: of basic elements that are up, and of those in repair.
    second::Set expected = 0;
    for (std::size_t e = 0; e < signals.size(); ++e) {
      if (tree.elements[e].sort != Sort::be) continue;
      if (!direct.down[e]) expected |= second::only(signals[e].fc);
      if (direct.in_repair(e)) expected |= second::only(signals[e].rc);
    }
    check(second::enabling(model, at) == expected, "the clocks that are waited for");
    if (expected == 0) break;
    unsigned clock = random.below(64);
    while (!second::has(expected, clock)) clock = (clock + 1) % 64;
    const Direct before = direct;
    for (std::size_t e = 0; e < signals.size(); ++e) {
      if (tree.elements[e].sort != Sort::be) continue;
      if (clock == signals[e].fc) direct.fails(e), ++failures;
      if (clock == signals[e].rc) direct.is_repaired(e);
    }
    const second::Move move = second::clock_step(model, at, clock);
    path.push_back(static_cast<std::uint8_t>(move.action));
    path.push_back(static_cast<std::uint8_t>(clock + 1));
    const second::Run run = second::settle_by_rule(model, move.after, 4096);
    check(run.stable, "a tree settles");
    Part rest;
    for (std::size_t e = 0; e < signals.size(); ++e) rest.push_back(static_cast<std::uint8_t>(direct.state(e)));
    check(parts_of(run.last) == rest, "at rest the modules stand as the tree is evaluated");
    // The f and u taken are exactly the changes.
    std::multiset<unsigned> taken, changes;
    for (const second::Move& step : run.moves) {
      taken.insert(step.action);
      path.push_back(static_cast<std::uint8_t>(step.action));
      path.push_back(0);
    }
    for (std::size_t e = 0; e < signals.size(); ++e) {
      if (tree.elements[e].sort == Sort::rbox) {
        if (direct.repaired[e] != Direct::none && direct.repaired[e] != before.repaired[e]) changes.insert(signals[direct.repaired[e]].r);
      } else if (direct.down[e] != before.down[e]) {
        changes.insert(direct.down[e] ? signals[e].f : signals[e].u);
      }
      if (tree.elements[e].sort == Sort::pand && direct.down[e]) ++priority_down;
    }
    check(taken == changes, "what is told are exactly the changes");
    unsigned left = 400;
    std::set<Part> ends;
    ends_of(model, move.after, left, ends);
    if (left > 0) {
      ++all_ways;
      check(ends.size() == 1 && *ends.begin() == rest, "every order of urgent steps ends there");
    }
    at = run.last;
    ++instants;
  }
  Part trace(64, 0);
  const auto after = lend_settle_after(into, path, 64, trace);
  check(!after.refusal && after.state == at && after.steps == 0, "the path that was taken is possible");
}

// ---- the conditions by force, on texts that are read

bool reaches_itself(const Tree& tree, std::size_t from) {
  std::set<unsigned> seen;
  std::vector<unsigned> todo = tree.elements[from].inputs;
  while (!todo.empty()) {
    const unsigned number = todo.back();
    todo.pop_back();
    if (!seen.insert(number).second) continue;
    for (const Element& element : tree.elements)
      if (element.number == number) todo.insert(todo.end(), element.inputs.begin(), element.inputs.end());
  }
  return seen.count(tree.elements[from].number) != 0;
}

unsigned lowest_broken(const Tree& tree) {
  std::set<unsigned> broken;
  unsigned tops = 0;
  const auto sort_of = [&](unsigned number) {
    for (const Element& element : tree.elements)
      if (element.number == number) return element.sort;
    return Sort::be;
  };
  for (std::size_t v = 0; v < tree.elements.size(); ++v) {
    if (reaches_itself(tree, v)) broken.insert(1);
    bool used = false;
    unsigned boxes = 0;
    for (const Element& w : tree.elements) {
      const auto count = std::count(w.inputs.begin(), w.inputs.end(), tree.elements[v].number);
      if (count > 0) used = true;
      if (count > 1) broken.insert(3);
      if (count > 0 && w.sort == Sort::rbox) ++boxes;
      if (count > 0 && tree.elements[v].sort == Sort::rbox) broken.insert(4);
      if (count > 0 && w.sort == Sort::rbox && sort_of(tree.elements[v].number) != Sort::be) broken.insert(5);
    }
    if (boxes > 1) broken.insert(6);
    if (!used && tree.elements[v].sort != Sort::rbox) ++tops;
  }
  if (tops != 1) broken.insert(2);
  return broken.empty() ? 0 : *broken.begin();
}

std::map<unsigned, unsigned> conditions;

void check_odd(const Text& text) {
  const Refusal answer = refused(text);
  const second::TreeReading reading = second::tree_of_text(text);
  if (reading.refusal) {
    check(answer == reading.refusal, "2, 4, 6 and 5 first");
    return;
  }
  const unsigned broken = lowest_broken(reading.tree);
  ++conditions[broken];
  if (broken != 0) check(answer == refuse(47, {broken}), "47 at " + std::to_string(broken) + ", not " + shown(answer));
  else check(!answer || answer == refuse(48, {0}), "48 is left: " + shown(answer));
}

}  // namespace

void test_trees() {
  test_stated();
  test_worked();
  test_edges();
  test_runs();
  Random random(18);
  for (unsigned round = 0; round < rounds(400); ++round) {
    const auto size = round % 10 == 9 ? second::Size::large : round % 3 == 0 ? second::Size::medium : second::Size::small;
    const Text text = second::generate_tree(random, size);
    check(!second::tree_of_text(text).refusal && !second::tree_conditions(second::tree_of_text(text).tree), "a good tree\n" + text);
    check_tree(random, text);
  }
  for (unsigned round = 0; round < rounds(3000); ++round)
    check_odd(second::generate_odd_tree(random, round % 5 == 0 ? second::Size::medium : second::Size::small));
  for (unsigned condition = 0; condition <= 6; ++condition)
    check_common(conditions[condition] > 5, "condition " + std::to_string(condition) + " is met: " + std::to_string(conditions[condition]));
  check_common(instants > 1500 && failures > 500 && priority_down > 50 && all_ways > 500,
        "all of it is common: " + std::to_string(instants) + ", " + std::to_string(failures) + ", " +
            std::to_string(priority_down) + ", " + std::to_string(all_ways));
}
