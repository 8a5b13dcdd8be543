#include "generate_rows.hpp"

#include <algorithm>

#include "acceptance.hpp"
#include "active.hpp"
#include "generate_signatures.hpp"

namespace second {
namespace {

unsigned some_target(Random& random, unsigned from, unsigned states) {
  return random.chance(30) ? from : random.below(states);
}

unsigned some_percent(Random& random) {
  return random.pick(std::vector<unsigned>{0, 0, 10, 30, 60});
}

Row plain_row(unsigned from, unsigned action, unsigned target, Set resets) {
  Row row;
  row.from = from;
  row.action = action;
  row.target = target;
  row.resets = resets;
  return row;
}

}  // namespace

bool sound_and_confluent(const Component& component) {
  Model alone;
  alone.components.push_back(component);
  return !acceptance_and_confluence(alone);
}

void fill_accepted(Random& random, Component& component, unsigned states) {
  const auto outs = actions_of_kind(component, Kind::out);
  const unsigned rowed = random.pick(std::vector<unsigned>{10, 40, 70});
  const unsigned waited = random.pick(std::vector<unsigned>{10, 50, 90});
  const unsigned extra = some_percent(random);
  component.states = states;
  component.start = random.below(states);
  component.rows.clear();

  std::vector<Set> active(states, 0);
  for (unsigned state = 0; state < states; ++state) {
    bool urgent = false;
    for (unsigned action = 0; action < members; ++action) {
      const Kind kind = component.kind[action];
      if (!is_input(kind) && kind != Kind::uout) continue;
      if (kind == Kind::uout && !random.chance(rowed)) continue;
      if (kind == Kind::uout) urgent = true;
      const unsigned target = some_target(random, state, states);
      component.rows.push_back(plain_row(state, action, target, 0));
    }
    const Set enabling = outs.empty() ? Set{0} : random.subset(component.clocks, waited);
    for (unsigned clock = 0; clock < members; ++clock) {
      if (!has(enabling, clock)) continue;
      const unsigned action = random.pick(outs);
      Row row = plain_row(state, action, some_target(random, state, states), 0);
      row.guard = static_cast<int>(clock);
      component.rows.push_back(row);
    }
    active[state] = enabling;
    if (urgent) active[state] |= random.subset(component.clocks, 40);
  }
  for (Row& row : component.rows) {
    const Set asked = without(active[row.target], without(active[row.from], guard_set(row)));
    row.resets = joined(asked, random.subset(component.clocks, extra));
  }
  component.started = joined(active[component.start], random.subset(component.clocks, 30));
  std::sort(component.rows.begin(), component.rows.end());
}

namespace {

constexpr unsigned nowhere = ~0u;

// How one urgent action moves its coordinate, with resets that depend on nothing else.
struct Mover {
  unsigned action;
  unsigned coordinate;
  std::vector<unsigned> to;  // for each value, `nowhere` for no row
  std::vector<Set> resets;   // for each value
};

class Tuples {
 public:
  Tuples(Random& from, const Component& component, unsigned most, unsigned enabled_always)
      : random(from), clocks(component.clocks), room(most), always(enabled_always),
        reset_percent(some_percent(from)) {
    hearers = actions_of_kind(component, Kind::uin);
    speakers = actions_of_kind(component, Kind::uout);
    speakers.erase(std::remove(speakers.begin(), speakers.end(), always), speakers.end());
    random.shuffle(hearers);
    random.shuffle(speakers);
    if (always < members) add_cycle();
    while (!hearers.empty() || !speakers.empty()) add_next();
    add_free();
  }

  std::vector<Mover> movers;
  unsigned states = 1;

  unsigned value(unsigned state, unsigned coordinate) const {
    return state / weights[coordinate] % sizes[coordinate];
  }
  unsigned replaced(unsigned state, unsigned coordinate, unsigned by) const {
    return state + (by - value(state, coordinate)) * weights[coordinate];
  }

 private:
  Random& random;
  Set clocks;
  unsigned room;
  unsigned always;
  unsigned reset_percent;
  std::vector<unsigned> hearers, speakers, sizes, weights;

  unsigned add_coordinate(unsigned size) {
    sizes.push_back(size);
    weights.push_back(states);
    states *= size;
    room /= size;
    return static_cast<unsigned>(sizes.size() - 1);
  }

  unsigned drawn_size() {
    const unsigned least = room > 1 && random.chance(80) ? 2 : 1;
    return random.between(least, std::min(room, 4u));
  }

  static unsigned taken(std::vector<unsigned>& actions) {
    const unsigned action = actions.back();
    actions.pop_back();
    return action;
  }

  void add_mover(unsigned action, unsigned coordinate, std::vector<unsigned> to, bool same_resets) {
    Mover mover{action, coordinate, std::move(to), {}};
    const Set common = random.subset(clocks, reset_percent);
    for (std::size_t v = 0; v < mover.to.size(); ++v) {
      const Set own = random.subset(clocks, reset_percent);
      mover.resets.push_back(same_resets ? common : own);
    }
    movers.push_back(mover);
  }

  void add_cycle() {
    const unsigned size = drawn_size();
    std::vector<unsigned> to;
    for (unsigned v = 0; v < size; ++v) to.push_back((v + 1) % size);
    add_mover(always, add_coordinate(size), to, false);
  }

  // 0 waits, hearing goes to 1, speaking to 2: model M's second component.
  void add_latch() {
    const unsigned coordinate = add_coordinate(3);
    add_mover(taken(hearers), coordinate, {1, 1, 2}, true);
    add_mover(taken(speakers), coordinate, {nowhere, 2, nowhere}, true);
  }

  // Sums commute, so several actions may share a coordinate that they add to.
  void add_adders() {
    const unsigned size = drawn_size();
    const unsigned coordinate = add_coordinate(size);
    for (unsigned adder = random.between(2, 3); adder > 0 && !hearers.empty(); --adder) {
      const unsigned sum = random.below(size);
      std::vector<unsigned> to;
      for (unsigned v = 0; v < size; ++v) to.push_back((v + sum) % size);
      add_mover(taken(hearers), coordinate, to, true);
    }
  }

  void add_hearer() {
    const unsigned size = drawn_size();
    std::vector<unsigned> to;
    for (unsigned v = 0; v < size; ++v) to.push_back(random.below(size));
    add_mover(taken(hearers), add_coordinate(size), to, false);
  }

  void add_speaker() {
    const unsigned size = drawn_size();
    std::vector<unsigned> to;
    for (unsigned v = 0; v < size; ++v)
      to.push_back(v + 1 < size ? random.between(v + 1, size - 1) : nowhere);
    add_mover(taken(speakers), add_coordinate(size), to, false);
  }

  void add_next() {
    if (room >= 3 && !hearers.empty() && !speakers.empty() && random.chance(40)) add_latch();
    else if (hearers.size() >= 2 && random.chance(30)) add_adders();
    else if (speakers.empty() || (!hearers.empty() && random.chance(50))) add_hearer();
    else add_speaker();
  }

  // A coordinate that only timed and plain input rows move.
  void add_free() { add_coordinate(random.between(1, room)); }
};

// Drops rows of `out` and starting clocks as long as everything still holds, so that active sets
// aren't the same everywhere.
void thin(Random& random, Component& component) {
  if (component.rows.size() > 100) return;  // each try checks the whole component again
  for (unsigned tries = 6; tries > 0 && !component.rows.empty(); --tries) {
    Component thinner = component;
    const unsigned r = random.below(thinner.rows.size());
    if (component.kind[thinner.rows[r].action] == Kind::out) thinner.rows.erase(thinner.rows.begin() + r);
    else thinner.rows[r].resets &= random.next();
    if (sound_and_confluent(thinner)) component = thinner;
  }
}

void fill_tuples(Random& random, Component& component, unsigned states, unsigned always) {
  const Tuples tuples(random, component, states, always);
  const auto outs = actions_of_kind(component, Kind::out);
  const unsigned extra = some_percent(random);
  component.states = tuples.states;
  component.start = random.below(tuples.states);
  component.rows.clear();
  // The same active set everywhere asks only that a timed row resets its own clock.
  const Set active = outs.empty() ? Set{0} : random.subset(component.clocks, 50);
  component.started = joined(active, random.subset(component.clocks, 30));
  for (unsigned state = 0; state < tuples.states; ++state) {
    bool urgent = false;
    for (const Mover& mover : tuples.movers) {
      const unsigned v = tuples.value(state, mover.coordinate);
      if (mover.to[v] == nowhere) continue;
      if (component.kind[mover.action] == Kind::uout) urgent = true;
      const unsigned target = tuples.replaced(state, mover.coordinate, mover.to[v]);
      component.rows.push_back(plain_row(state, mover.action, target, mover.resets[v]));
    }
    for (unsigned action : actions_of_kind(component, Kind::in)) {
      const unsigned target = some_target(random, state, tuples.states);
      component.rows.push_back(plain_row(state, action, target, random.subset(component.clocks, extra)));
    }
    const Set enabling = urgent ? random.subset(active, 30) : active;
    for (unsigned clock = 0; clock < members; ++clock) {
      if (!has(enabling, clock)) continue;
      const unsigned action = random.pick(outs);
      const unsigned target = some_target(random, state, tuples.states);
      Row row = plain_row(state, action, target, only(clock) | random.subset(component.clocks, extra));
      row.guard = static_cast<int>(clock);
      component.rows.push_back(row);
    }
  }
  std::sort(component.rows.begin(), component.rows.end());
  thin(random, component);
}

}  // namespace

void add_unreached(Random& random, Component& component) {
  if (component.states == max_states) return;
  const unsigned place = random.below(component.states + 1);
  const auto moved_up = [&](unsigned state) { return state < place ? state : state + 1; };
  for (Row& row : component.rows) {
    row.from = moved_up(row.from);
    row.target = moved_up(row.target);
  }
  component.start = moved_up(component.start);
  ++component.states;
  for (unsigned action = 0; action < members; ++action) {
    const Kind kind = component.kind[action];
    if (!is_input(kind) && !(kind == Kind::uout && random.chance(50))) continue;
    // Every clock is reset on the way out, so that (f) asks nothing of this state.
    component.rows.push_back(plain_row(place, action, random.below(component.states), component.clocks));
  }
  std::sort(component.rows.begin(), component.rows.end());
  // At times rows do lead there, but such as are never taken.
  if (random.chance(50)) return;
  std::vector<bool> calm;
  for (unsigned state = 0; state < component.states; ++state) calm.push_back(stable(component, state));
  for (Row& row : component.rows)
    if (!calm[row.from] && !is_urgent(component.kind[row.action]) && random.chance(40)) row.target = place;
}

void fill_confluent(Random& random, Component& component, unsigned states, unsigned always) {
  // Now and then one that is confluent by luck, for shapes that tuples don't have.
  if (always >= members && states <= 4 && random.chance(30)) {
    for (unsigned tries = 4; tries > 0; --tries) {
      fill_accepted(random, component, states);
      if (sound_and_confluent(component)) return;
    }
  }
  fill_tuples(random, component, states, always);
}

}  // namespace second
