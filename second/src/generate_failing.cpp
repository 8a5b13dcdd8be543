// Models that fail one of 10 to 18 first, or several at once.
#include <algorithm>
#include <vector>

#include "acceptance.hpp"
#include "generate.hpp"
#include "text_writing.hpp"

namespace second {
namespace {

Component& some_component(Random& random, Model& model) {
  return model.components[random.below(model.components.size())];
}

Row* some_row(Random& random, Component& component) {
  if (component.rows.empty()) return nullptr;
  return &component.rows[random.below(component.rows.size())];
}

unsigned some_member(Random& random, Set of) {
  std::vector<unsigned> list;
  for (unsigned member = 0; member < members; ++member)
    if (has(of, member)) list.push_back(member);
  return list.empty() ? members : random.pick(list);
}

// Each fault tries to break one condition; it may miss, so the callers look at what came of it.
void swap_guard(Random& random, Model& model) {
  Component& component = some_component(random, model);
  Row* row = some_row(random, component);
  if (row == nullptr) return;
  const unsigned clock = some_member(random, component.clocks);
  if (row->guard != no_clock) row->guard = no_clock;
  else if (clock < members) row->guard = static_cast<int>(clock);
}

void repeat_guard(Random& random, Model& model) {
  Component& component = some_component(random, model);
  Row* row = some_row(random, component);
  if (row == nullptr || row->guard == no_clock) return;
  Row again = *row;
  again.target = random.below(component.states);
  again.resets ^= random.subset(component.clocks, 50);
  component.rows.push_back(again);
}

void drop_row(Random& random, Model& model) {
  Component& component = some_component(random, model);
  if (component.rows.empty()) return;
  const unsigned r = random.below(component.rows.size());
  component.rows.erase(component.rows.begin() + r);
}

void repeat_row(Random& random, Model& model) {
  Component& component = some_component(random, model);
  Row* row = some_row(random, component);
  if (row == nullptr || row->guard != no_clock) return;
  Row again = *row;
  again.target = random.below(component.states);
  again.resets ^= random.subset(component.clocks, 30);
  component.rows.push_back(again);
}

void drop_reset(Random& random, Model& model) {
  Component& component = some_component(random, model);
  if (random.chance(30)) component.started &= random.next();
  Row* row = some_row(random, component);
  if (row != nullptr) row->resets &= random.next();
}

void share_output(Random& random, Model& model) {
  Component& component = some_component(random, model);
  for (unsigned action = 0; action < members; ++action)
    if (component.kind[action] == Kind::uin && random.chance(50)) component.kind[action] = Kind::uout;
  const unsigned silent = random.below(members);
  if (component.kind[silent] == Kind::absent && random.chance(50))
    component.kind[silent] = random.chance(50) ? Kind::out : Kind::uout;
}

void share_clock(Random& random, Model& model) {
  Component& component = some_component(random, model);
  const unsigned clock = some_member(random, clocks_of(model));
  if (clock < members) component.clocks |= only(clock);
}

void swap_urgency(Random& random, Model& model) {
  Component& component = some_component(random, model);
  for (unsigned action = 0; action < members; ++action) {
    Kind& kind = component.kind[action];
    if (is_input(kind) && random.chance(40)) kind = kind == Kind::in ? Kind::uin : Kind::in;
  }
}

void turn_row(Random& random, Model& model) {
  Component& component = some_component(random, model);
  Row* row = some_row(random, component);
  if (row == nullptr) return;
  if (random.chance(50)) row->target = random.below(component.states);
  else row->resets ^= random.subset(component.clocks, 20);
}

using Fault = void (*)(Random&, Model&);
constexpr Fault faults[] = {swap_guard,  repeat_guard, drop_row,     repeat_row, drop_reset,
                            share_output, share_clock, swap_urgency, turn_row};

// Rows in order and each once, and the limits kept.
bool in_form(Model& model) {
  for (Component& component : model.components) {
    std::sort(component.rows.begin(), component.rows.end());
    component.rows.erase(std::unique(component.rows.begin(), component.rows.end()), component.rows.end());
  }
  return count_rows(model) <= max_rows && text_of_model(model).size() <= max_text;
}

}  // namespace

Model generate_failing(Random& random, unsigned number, Size size) {
  for (;;) {
    Model model = generate(random, random.chance(50) ? Family::accepted : Family::confluent, size);
    for (unsigned tries = 4; tries > 0; --tries) {
      Model broken = model;
      faults[number - 10](random, broken);
      if (in_form(broken) && acceptance_and_confluence(broken).number == number) return broken;
    }
  }
}

Model generate_faulty(Random& random, Size size) {
  for (;;) {
    Model model = generate(random, random.chance(50) ? Family::accepted : Family::confluent, size);
    for (unsigned count = random.between(1, 6); count > 0; --count) faults[random.below(9)](random, model);
    if (in_form(model)) return model;
  }
}

}  // namespace second
