// A model as paper 01 speaks of it, free of text and table.
#pragma once

#include <array>
#include <cstdint>
#include <vector>

#include "limits.hpp"
#include "sets.hpp"

namespace second {

enum class Kind : std::uint8_t { absent, in, out, uin, uout };

constexpr bool is_input(Kind kind) { return kind == Kind::in || kind == Kind::uin; }
constexpr bool is_output(Kind kind) { return kind == Kind::out || kind == Kind::uout; }
constexpr bool is_urgent(Kind kind) { return kind == Kind::uin || kind == Kind::uout; }

// The guard `-`. Paper 01: "`-` below every clock".
constexpr int no_clock = -1;

struct Row {
  unsigned from = 0;
  int guard = no_clock;
  unsigned action = 0;
  Set resets = 0;
  unsigned target = 0;
};

bool operator==(const Row& a, const Row& b);
// The order of `row` lines: from, action, guard, resets, target.
bool operator<(const Row& a, const Row& b);

// The guard as a set of clocks, empty for `-`.
Set guard_set(const Row& row);

struct RowRange {
  const Row* first;
  const Row* last;
  const Row* begin() const { return first; }
  const Row* end() const { return last; }
};

struct Component {
  unsigned states = 1;
  unsigned start = 0;
  std::array<Kind, members> kind{};  // of each action
  Set clocks = 0;
  Set started = 0;         // the clocks set at the start
  std::vector<Row> rows;   // ascending

  RowRange leaving(unsigned state) const;
};

bool operator==(const Component& a, const Component& b);

struct Model {
  std::vector<Component> components;
};

bool operator==(const Model& a, const Model& b);

std::uint64_t count_rows(const Model& model);
Set clocks_of(const Model& model);

// A composed state: one number per component. Parts at and past the count are no part of it.
struct State {
  std::uint64_t count = 0;
  std::uint8_t parts[max_components] = {};
};

bool operator==(const State& a, const State& b);

// Where the system begins: each component's start, and the clocks that some component sets there.
State start_of(const Model& model);
Set started_of(const Model& model);

}  // namespace second
