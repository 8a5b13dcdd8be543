// 10 to 17 and their places: every violation there is, and the least of them in paper 01's order.
#include <algorithm>
#include <array>

#include "active.hpp"
#include "check.hpp"
#include "generate.hpp"
#include "lending.hpp"
#include "tests.hpp"

namespace {

using second::Component;
using second::Kind;
using second::Model;
using second::Row;

// A turn (the component for 10 to 14, past all components for 15 to 17), a number, then places.
using Violation = std::array<std::uint64_t, 5>;

unsigned long rows_by(const Component& component, unsigned state, unsigned action) {
  return static_cast<unsigned long>(
      std::count_if(component.rows.begin(), component.rows.end(),
                    [&](const Row& row) { return row.from == state && row.action == action; }));
}

void component_violations(const Component& component, std::uint64_t c, std::uint64_t base,
                          std::vector<Violation>& found) {
  for (std::uint64_t r = 0; r < component.rows.size(); ++r) {
    const Row& row = component.rows[r];
    if ((component.kind[row.action] == Kind::out) == (row.guard < 0)) found.push_back({c, 10, base + r, 0, 0});
    for (std::uint64_t q = 0; q < r; ++q)
      if (row.guard >= 0 && component.rows[q].guard == row.guard && component.rows[q].from == row.from)
        found.push_back({c, 11, base + r, 0, 0});
  }
  for (unsigned action = 0; action < 64; ++action) {
    const Kind kind = component.kind[action];
    if (kind == Kind::absent || kind == Kind::out) continue;
    for (unsigned state = 0; state < component.states; ++state) {
      const unsigned long rows = rows_by(component, state, action);
      if (rows == 0 && kind != Kind::uout) found.push_back({c, 12, c, state, action});
      if (rows > 1) found.push_back({c, 13, c, state, action});
    }
  }
  // Whether sets exist is tried against every choice elsewhere.
  if (!second::active_sets_exist(component)) found.push_back({c, 14, c, 0, 0});
}

void system_violations(const Model& model, std::vector<Violation>& found) {
  for (std::uint64_t j = 0; j < model.components.size(); ++j)
    for (std::uint64_t i = 0; i < j; ++i)
      for (std::uint64_t x = 0; x < 64; ++x) {
        const Component &one = model.components[i], &other = model.components[j];
        const Kind a = one.kind[x], b = other.kind[x];
        const bool a_out = a == Kind::out || a == Kind::uout, b_out = b == Kind::out || b == Kind::uout;
        const bool a_urgent = a == Kind::uin || a == Kind::uout, b_urgent = b == Kind::uin || b == Kind::uout;
        if (a_out && b_out) found.push_back({32, 15, x, i, j});
        if ((((one.clocks & other.clocks) >> x) & 1) != 0) found.push_back({32, 16, x, i, j});
        if (a != Kind::absent && b != Kind::absent && a_urgent != b_urgent) found.push_back({32, 17, x, i, j});
      }
}

second::Refusal least_of(const std::vector<Violation>& found) {
  if (found.empty()) return {};
  const Violation least = *std::min_element(found.begin(), found.end());
  const std::uint64_t number = least[1];
  if (number == 10 || number == 11 || number == 14) return second::refuse(number, {least[2]});
  return second::refuse(number, {least[2], least[3], least[4]});
}

// Those of one component, and of the system, are asked for apart too.
void check_parts(const Model& model) {
  const Table table = second::image_of_model(model);
  std::uint64_t base = 0;
  for (std::uint64_t c = 0; c < model.components.size(); ++c) {
    std::vector<Violation> found;
    component_violations(model.components[c], c, base, found);
    base += model.components[c].rows.size();
    check(lend_component(table, c).refusal == least_of(found), "the least violation of a component");
  }
  std::vector<Violation> found;
  system_violations(model, found);
  check(lend_compatible(table).refusal == least_of(found), "the least violation of the system");
}

second::Refusal least_violation(const Model& model) {
  std::vector<Violation> found;
  std::uint64_t base = 0;
  for (std::uint64_t c = 0; c < model.components.size(); ++c) {
    component_violations(model.components[c], c, base, found);
    base += model.components[c].rows.size();
  }
  system_violations(model, found);
  return least_of(found);
}

}  // namespace

void test_places_by_force() {
  second::Random random(13);
  std::array<unsigned, 31> met{};
  for (unsigned round = 0; round < rounds(1500); ++round) {
    const second::Size size = round % 3 == 0 ? second::Size::medium : second::Size::small;
    const Model model = round % 2 == 0 ? second::generate_faulty(random, size)
                                       : second::generate_failing(random, 10 + round / 2 % 8, size);
    const second::Refusal expected = least_violation(model);
    const second::Refusal accepted = lend_accept(second::image_of_model(model)).refusal;
    check(accepted == expected, "the least violation is " + shown(expected) + ", not " + shown(accepted));
    check_parts(model);
    ++met[expected.number];
  }
  for (unsigned number = 10; number <= 17; ++number)
    check_common(met[number] > 20, "number " + std::to_string(number) + " is common");
}
