// A component by itself, and the compatibility of several: together they answer what accept does.
#include "check.hpp"
#include "damage.hpp"
#include "generate.hpp"
#include "lending.hpp"
#include "tests.hpp"

namespace {

using second::Refusal;
using second::refuse;

constexpr std::uint64_t largest = ~std::uint64_t{0};
const Refusal fine{};

struct Stated {
  const char* name;
  Table table;
  Refusal of_0, of_1, of_2, together, accepted;
};

void test_stated() {
  const Table no_image = Table(second::image_words, 0);
  const Refusal none = refuse(25, {0}), bad = refuse(20, {0}), deaf = refuse(12, {1, 2, 1});
  const Stated stated[] = {
      {"M", image(m), fine, fine, none, fine, fine},
      {"M without its last row", image(m_with("row 2 - 1 - 2\n", "")), fine, deaf, none, fine, deaf},
      {"(f) broken and an output shared",
       image(tabbed("comp 1 0\nact 3 out\nclk 0 0\nrow 0 0 3 - 0\ncomp 1 0\nact 3 out\n")), refuse(14, {0}), fine, none,
       refuse(15, {3, 0, 1}), refuse(14, {0})},
      {"no image", no_image, bad, bad, bad, bad, bad},
  };
  for (const Stated& entry : stated) {
    const std::string what = entry.name;
    check(lend_component(entry.table, 0).refusal == entry.of_0, what + ": component 0");
    check(lend_component(entry.table, 1).refusal == entry.of_1, what + ": component 1");
    for (std::uint64_t i : {std::uint64_t{2}, std::uint64_t{16}, std::uint64_t{1} << 32, largest - 1, largest})
      check(lend_component(entry.table, i).refusal == entry.of_2, what + ": component " + std::to_string(i));
    check(lend_compatible(entry.table).refusal == entry.together, what + ": compatible");
    check(lend_accept(entry.table).refusal == entry.accepted, what + ": accept");
  }
}

// 10 and 11 count rows over the system, also where the component is asked for alone; and
// `compatible` looks at 15 to 17 alone.
void test_places() {
  const Text before = "comp 1 0\nact 60 in\nact 61 in\nrow 0 - 60 - 0\nrow 0 - 61 - 0\n";
  const Table guardless = image(tabbed(before + "comp 1 0\nact 0 in\nact 1 out\nrow 0 - 0 - 0\nrow 0 - 1 - 0\n"));
  check(lend_component(guardless, 1).refusal == refuse(10, {3}), "10: the row over the system");
  const Table repeated =
      image(tabbed(before + "comp 1 0\nact 0 out\nact 1 out\nclk 0 1\nrow 0 0 0 0 0\nrow 0 0 1 0 0\n"));
  check(lend_component(repeated, 1).refusal == refuse(11, {3}), "11: the row over the system");
  check(!lend_component(repeated, 0).refusal, "the component before it is fine");
  const Table one = image(tabbed("comp 1 0\nact 0 in\n"));
  check(!lend_compatible(one).refusal && lend_component(one, 0).refusal == refuse(12, {0, 0, 0}), "one is compatible");
  const Table urgency = image(tabbed("comp 1 0\nact 0 in\ncomp 1 0\nact 0 uin\n"));
  check(lend_compatible(urgency).refusal == refuse(17, {0, 0, 1}), "17 without 12");
  const Table clock = image(tabbed("comp 1 0\nact 0 in\nclk 4 0\ncomp 1 0\nact 0 uin\nclk 4 0\n"));
  check(lend_compatible(clock).refusal == refuse(16, {4, 0, 1}), "16 before 17");
}

// "Together they answer what the old call did."
void check_together(const Table& table) {
  const Refusal accepted = lend_accept(table).refusal;
  const Refusal together = lend_compatible(table).refusal;
  if (accepted.number == 20) {
    check(together == accepted && lend_component(table, 0).refusal == accepted, "20 in each");
    return;
  }
  Refusal first{};
  for (std::uint64_t i = 0; i < table[0] && !first; ++i) {
    first = lend_component(table, i).refusal;
    check(!first || (first.number >= 10 && first.number <= 14), "component: 10 to 14");
  }
  check(lend_component(table, table[0]).refusal == refuse(25, {0}), "25 past the last");
  check(!together || (together.number >= 15 && together.number <= 17), "compatible: 15 to 17");
  check(accepted == (first ? first : together), "the components in turn, then compatible");
}

}  // namespace

void test_component_alone() {
  test_stated();
  test_places();
  second::Random random(14);
  for (unsigned round = 0; round < rounds(600); ++round) {
    const auto size = round % 5 == 0 ? second::Size::medium : second::Size::small;
    const second::Model model = round % 3 == 0 ? second::generate(random, second::families[random.below(9)], size)
                                : round % 3 == 1 ? second::generate_faulty(random, size)
                                                 : second::generate_failing(random, 10 + random.below(9), size);
    const Table table = second::image_of_model(model);
    check_together(table);
    check_together(second::lengthened_table(random, table));
    if (round % 4 == 0) check_together(second::damaged_table(random, table));
  }
}
