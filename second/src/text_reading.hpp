// From a model text to a model, or to one of the refusals 1 to 8.
#pragma once

#include <string_view>

#include "line_shape.hpp"
#include "model.hpp"
#include "refusal.hpp"

namespace second {

// In place of an action whose name no line gives; a number of five digits is never this.
constexpr std::uint32_t unnamed = ~std::uint32_t{0};

// Kinds of line in the turn they take: "first its `act` lines, then `clk`, then `row`".
enum class Turn { nothing, comp, act, clk, row };

// A refusal of the line, 3 to 7, with the column of the value at fault for 4 and 5.
struct Fault {
  unsigned number = 0;
  std::uint64_t column = 0;
};

// Takes lines one after the other. Each `take` tries 3 to 7 in that order; 44 is for a line that
// declares an action by a name.
class TextReader {
 public:
  Model model;

  Fault take(const CompLine& line) {
    if (line.states.value < 1 || line.states.value > max_states) return {4, line.states.column};
    if (line.start.value >= line.states.value) return {4, line.start.column};
    if (model.components.size() == max_components) return {7};
    turn = Turn::comp;
    Component component;
    component.states = line.states.value;
    component.start = line.start.value;
    model.components.push_back(component);
    return {};
  }

  Fault take(const ActLine& line) {
    if (out_of_turn(Turn::act)) return {3};
    if (line.action.value == unnamed) return {44};
    if (line.action.value >= members) return {4, line.action.column};
    if (turn == Turn::act && line.action.value <= last_number) return {6};
    turn = Turn::act;
    last_number = line.action.value;
    last().kind[line.action.value] = line.kind;
    return {};
  }

  Fault take(const ClkLine& line) {
    if (out_of_turn(Turn::clk)) return {3};
    if (line.clock.value >= members) return {4, line.clock.column};
    if (line.set.value > 1) return {4, line.set.column};
    if (turn == Turn::clk && line.clock.value <= last_number) return {6};
    turn = Turn::clk;
    last_number = line.clock.value;
    last().clocks |= only(line.clock.value);
    if (line.set.value == 1) last().started |= only(line.clock.value);
    return {};
  }

  Fault take(const RowLine& line) {
    if (out_of_turn(Turn::row)) return {3};
    const unsigned states = last().states;
    const Component& own = last();
    if (const auto column = first_at_fault(line, [&](unsigned state) { return state < states; },
                                           [](unsigned clock) { return clock < members; },
                                           [](unsigned action) { return action < members || action == unnamed; }))
      return {4, column};
    if (const auto column = first_at_fault(line, [](unsigned) { return true; },
                                           [&](unsigned clock) { return has(own.clocks, clock); },
                                           [&](unsigned action) { return action != unnamed && own.kind[action] != Kind::absent; }))
      return {5, column};
    for (std::size_t r = 1; r < line.resets.size(); ++r)
      if (line.resets[r].value <= line.resets[r - 1].value) return {6};
    Row row;
    row.from = line.from.value;
    row.guard = line.guard ? static_cast<int>(line.guard->value) : no_clock;
    row.action = line.action.value;
    for (const Number& clock : line.resets) row.resets |= only(clock.value);
    row.target = line.target.value;
    if (!last().rows.empty() && !(last().rows.back() < row)) return {6};
    if (rows == max_rows) return {7};
    turn = Turn::row;
    ++rows;
    last().rows.push_back(row);
    return {};
  }

 private:
  Turn turn = Turn::nothing;
  std::uint32_t last_number = 0;
  unsigned rows = 0;

  Component& last() { return model.components.back(); }

  bool out_of_turn(Turn line) const { return turn == Turn::nothing || turn > line; }

  // The column of the first value, from left to right, that isn't good; 0 where all are.
  template <class State, class Clock, class Action>
  static std::uint64_t first_at_fault(const RowLine& line, State state, Clock clock, Action action) {
    if (!state(line.from.value)) return line.from.column;
    if (line.guard && !clock(line.guard->value)) return line.guard->column;
    if (!action(line.action.value)) return line.action.column;
    for (const Number& reset : line.resets)
      if (!clock(reset.value)) return reset.column;
    return state(line.target.value) ? 0 : line.target.column;
  }
};

// 2, 4 and 5 carry line and column; the others the line alone.
Refusal refuse_line(unsigned number, std::uint64_t line, std::uint64_t column);

struct Reading {
  Refusal refusal;
  Model model;  // empty beside a refusal
};

Reading model_of_text(std::string_view text);

}  // namespace second
