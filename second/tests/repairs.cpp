// Missing self-loops put in: stated answers, and every call against the words.
#include <algorithm>

#include "check.hpp"
#include "damage.hpp"
#include "generate.hpp"
#include "generate_limits.hpp"
#include "lending.hpp"
#include "tests.hpp"
#include "text_writing.hpp"

namespace {

using second::Component;
using second::Kind;
using second::Model;
using second::refuse;
using second::Row;

Text inputs(unsigned states, unsigned actions) {
  Text text = "comp " + std::to_string(states) + " 0\n";
  for (unsigned a = 0; a < actions; ++a) text += "act " + std::to_string(a) + (a % 2 == 0 ? " in\n" : " uin\n");
  return tabbed(text);
}

void test_stated() {
  const Table deaf = image(m_with("row 2 - 1 - 2\n", ""));
  Table table = deaf;
  Part list(3, 77);
  check(lend_repair(table, list).rows == 1 && list == Part{1, 2, 1} && table == image(m), "M without its last row");
  table = deaf;
  Part longer(5, 77);
  check(lend_repair(table, longer).rows == 1 && longer == Part{1, 2, 1, 77, 77}, "later bytes stay");
  table = deaf;
  Part shorter(2, 77), none;
  check(lend_repair(table, shorter).refusal == refuse(24, {3}), "24 at 3");
  check(lend_repair(table, none).refusal == refuse(24, {3}), "24 at 3, no list");
  table = image(m);
  const auto whole = lend_repair(table, none);
  check(!whole.refusal && whole.rows == 0 && table == image(m), "M lacks nothing");

  table = image(inputs(1, 64));
  Part all(192, 77);
  check(lend_repair(table, all).rows == 64, "64 inputs");
  for (unsigned a = 0; a < 64; ++a) check(all[3 * a] == 0 && all[3 * a + 1] == 0 && all[3 * a + 2] == a, "each of them");
  check(!lend_accept(table).refusal, "and then it is accepted");

  table = image(inputs(17, 64));
  Part many(3264, 77), few(3263, 77);
  check(lend_repair(table, many).refusal == refuse(26, {0}), "26: 1,088 rows");
  check(lend_repair(table, few).refusal == refuse(24, {3264}), "24 before 26");
  table = image(inputs(16, 64));
  check(lend_repair(table, many).rows == 1024, "1,024 rows");

  Text most;
  for (unsigned c = 0; c < 32; ++c) most += inputs(128, 64);
  table = image(most);
  check(lend_repair(table, many).refusal == refuse(24, {786432}), "24: as many as can be missing");
  Part enough(786432, 77);
  check(lend_repair(table, enough).refusal == refuse(26, {0}), "26 where the list is long enough");

  table = Table(second::image_words, 0);
  check(lend_repair(table, none).refusal == refuse(20, {0}), "20");
  table = deaf;
  table.pop_back();
  check(lend_repair(table, list).refusal == refuse(20, {0}), "20: a word short");

  // A row with a guard, or two rows, are rows: nothing is added there. Outputs lack nothing.
  table = image(tabbed("comp 2 0\nact 0 in\nact 1 out\nact 2 uout\nact 3 uin\nclk 0 0\nrow 0 0 0 - 1\nrow 0 - 3 - 0\nrow 0 - 3 - 1\n"));
  Part two(6, 77);
  check(lend_repair(table, two).rows == 2 && two == Part{0, 1, 0, 0, 1, 3}, "guards and doubles are rows");
  check(lend_accept(table).refusal == refuse(10, {0}), "10 is left");

  // 32,768 bytes are good, one more is 26: the line of the loop has 14 bytes.
  for (std::uint64_t bytes : {32753, 32754, 32755}) {
    Model model;
    model.components.resize(1);
    model.components[0].kind[0] = Kind::in;
    model = second::padded_to_text(model, bytes);
    check(second::text_of_model(model).size() == bytes, "just so many bytes");
    Table full = second::image_of_model(model);
    Part room(3, 0);
    const auto answer = lend_repair(full, room);
    check(bytes + 14 <= 32768 ? answer.rows == 1 : answer.refusal == refuse(26, {0}), "32,768 bytes at most");
  }
}

void check_repair(Table table, const Model& model, Part list) {
  const Table before = table;
  const auto answer = lend_repair(table, list);
  if (lend_recognise(before).refusal) {
    check(answer.refusal == refuse(20, {0}), "20 first");
    return;
  }
  // Every cell, row by row.
  Part cells;
  Model whole = model;
  for (std::size_t c = 0; c < model.components.size(); ++c)
    for (unsigned s = 0; s < model.components[c].states; ++s)
      for (unsigned a = 0; a < 64; ++a) {
        const Kind kind = model.components[c].kind[a];
        if (kind != Kind::in && kind != Kind::uin) continue;
        const auto& rows = model.components[c].rows;
        if (std::any_of(rows.begin(), rows.end(), [&](const Row& row) { return row.from == s && row.action == a; })) continue;
        for (std::size_t part : {c, std::size_t{s}, std::size_t{a}}) cells.push_back(static_cast<std::uint8_t>(part));
        Row loop;
        loop.from = loop.target = s;
        loop.action = a;
        whole.components[c].rows.push_back(loop);
      }
  for (Component& component : whole.components) std::sort(component.rows.begin(), component.rows.end());
  if (list.size() < cells.size()) {
    check(answer.refusal == refuse(24, {cells.size()}), "24: " + shown(answer.refusal));
    return;
  }
  if (second::count_rows(whole) > 1024 || second::text_of_model(whole).size() > 32768) {
    check(answer.refusal == refuse(26, {0}), "26: " + shown(answer.refusal));
    return;
  }
  check(!answer.refusal && 3 * answer.rows == cells.size(), "as many as lack: " + shown(answer.refusal));
  check(std::equal(cells.begin(), cells.end(), list.begin()), "the list");
  check(Table(table.begin(), table.begin() + second::image_words) == second::image_of_model(whole), "the repaired model's image");
  check(lend_accept(table).refusal.number != 12, "never 12");
  for (std::uint64_t c = 0; c < whole.components.size(); ++c) check(lend_component(table, c).refusal.number != 12, "nor of a component");
  Part none;
  Table again = table;
  check(lend_repair(again, none).rows == 0 && again == table, "a second repair adds nothing");
}

}  // namespace

void test_repairs() {
  test_stated();
  second::Random random(19);
  for (unsigned round = 0; round < rounds(500); ++round) {
    const auto size = static_cast<second::Size>(round % 12 == 0 ? 2 : round % 2);
    Model model = round % 3 == 0 ? second::generate_faulty(random, size)
                  : round % 3 == 1 ? second::generate_failing(random, 12, size)
                                   : second::generate(random, second::families[random.below(9)], size);
    // More rows taken out, of any kind.
    const unsigned percent = random.pick(std::vector<unsigned>{0, 10, 50, 100});
    for (Component& component : model.components) {
      std::vector<Row> kept;
      for (const Row& row : component.rows)
        if (!random.chance(percent)) kept.push_back(row);
      component.rows = kept;
    }
    Table table = second::image_of_model(model);
    if (random.chance(20)) table = second::lengthened_table(random, table);
    const unsigned room = random.chance(70) ? 30000 : random.below(60);
    check_repair(table, model, Part(room, 9));
    if (round % 5 == 0) {
      const Table damaged = second::damaged_table(random, table);
      const auto other = second::model_of_image({damaged.data(), damaged.size()});
      check_repair(damaged, other ? *other : model, Part(3000, 9));
    }
  }
}
