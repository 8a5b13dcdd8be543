// Plants: models in which time passes. Parts run on their clocks and tell of it, others hear, and pass it on.
#include <algorithm>

#include "generate.hpp"

namespace second {
namespace {

Row row_of(unsigned from, int guard, unsigned action, Set resets, unsigned target) {
  Row row;
  row.from = from;
  row.guard = guard;
  row.action = action;
  row.resets = resets;
  row.target = target;
  return row;
}

// Numbers of actions or clocks that are not used yet.
class Numbers {
 public:
  explicit Numbers(Random& random) {
    for (unsigned n = 0; n < members; ++n) left.push_back(n);
    random.shuffle(left);
  }
  bool any(unsigned count) const { return left.size() >= count; }
  unsigned take() {
    const unsigned number = left.back();
    left.pop_back();
    return number;
  }

 private:
  std::vector<unsigned> left;
};

class Plant {
 public:
  explicit Plant(Random& from) : random(from), actions(from), clocks(from) {
    const unsigned style = random.below(10);
    way = style < 2 ? Way::to_rest : style < 4 ? Way::without_end : Way::round;
  }

  // A part that goes from state to state: each waits for some of its clocks, or tells something urgent, or rests. The
  // last state waits and leads back; or it rests; or, in some parts, it tells without end.
  void add_runner() {
    if (!actions.any(3) || !clocks.any(3) || model.components.size() == max_components) return;
    Component part;
    part.states = random.between(1, 6);
    part.start = random.below(part.states);
    const unsigned own = random.between(1, 3);
    for (unsigned n = 0; n < own; ++n) part.clocks |= only(clocks.take());
    std::vector<unsigned> fired = {actions.take()}, told = {actions.take()};
    if (random.chance(40)) fired.push_back(actions.take());
    for (unsigned action : fired) part.kind[action] = Kind::out;
    for (unsigned action : told) part.kind[action] = Kind::uout;

    std::vector<Set> waits(part.states, 0);
    std::vector<bool> tells(part.states, false);
    const unsigned resting = random.chance(30) ? 15 : 0;
    for (unsigned s = 0; s < part.states; ++s) {
      const unsigned what = random.below(100);
      if (what < resting) continue;
      if (what < 55) waits[s] = some_of(part.clocks);
      else tells[s] = true;
    }
    const bool endless = way == Way::without_end && random.chance(50);
    const unsigned last = part.states - 1;
    tells[last] = endless;
    waits[last] = endless || way == Way::to_rest ? 0 : some_of(part.clocks);
    if (endless) part.start = 0;

    for (unsigned s = 0; s < part.states; ++s) {
      for (unsigned clock = 0; clock < members; ++clock) {
        if (!has(waits[s], clock)) continue;
        const unsigned next = target(part, s, endless);
        // What still runs need not be set anew.
        const Set runs = random.subset(without(waits[s], only(clock)), 50);
        const Set more = random.chance(10) ? some_of(part.clocks) : 0;
        const unsigned action = random.pick(fired);
        part.rows.push_back(row_of(s, static_cast<int>(clock), action, joined(without(waits[next], runs), more), next));
      }
      if (!tells[s]) continue;
      const unsigned next = s == last ? s : s + 1;
      const Set more = random.chance(20) ? some_of(part.clocks) : 0;
      part.rows.push_back(row_of(s, no_clock, random.pick(told), joined(waits[next], more), next));
    }
    part.started = joined(waits[part.start], random.subset(part.clocks, 20));
    add(part, fired, told);
  }

  // A part that counts what it hears, and may run on a clock of its own in each state. Counting on is the same in any
  // order, and so is what it resets.
  void add_counter() {
    if (!actions.any(1) || !clocks.any(2) || model.components.size() == max_components) return;
    Component part;
    part.states = random.between(1, 5);
    part.start = random.below(part.states);
    part.clocks = only(clocks.take());
    const bool runs = random.chance(60) && way != Way::to_rest;
    if (runs || random.chance(50)) part.started = part.clocks;
    std::vector<unsigned> fired;
    if (runs) {
      fired.push_back(actions.take());
      part.kind[fired[0]] = Kind::out;
      const unsigned by = random.below(part.states);
      for (unsigned s = 0; s < part.states; ++s)
        for (unsigned clock = 0; clock < members; ++clock)
          if (has(part.clocks, clock)) part.rows.push_back(row_of(s, static_cast<int>(clock), fired[0], part.clocks, (s + by) % part.states));
    }
    if (random.chance(50)) part.clocks |= only(clocks.take());
    for (unsigned action = 0; action < members; ++action) {
      if (!hears(part, action)) continue;
      const unsigned by = random.below(part.states);
      const Set resets = random.subset(part.clocks, 30);
      for (unsigned s = 0; s < part.states; ++s) part.rows.push_back(row_of(s, no_clock, action, resets, (s + by) % part.states));
    }
    add(part, fired, {});
  }

  // A part that passes on what it hears, once, and is armed again by what is not urgent: idle, to be told, told.
  void add_relay() {
    if (!actions.any(1) || !clocks.any(1) || model.components.size() == max_components) return;
    Component part;
    part.states = 3;
    part.clocks = only(clocks.take());
    const unsigned told = actions.take();
    part.kind[told] = Kind::uout;
    part.rows.push_back(row_of(1, no_clock, told, random.subset(part.clocks, 70), 2));
    for (unsigned action = 0; action < members; ++action) {
      if (action == told || !hears(part, action)) continue;
      const bool urgent = is_urgent(part.kind[action]);
      const Set resets = random.subset(part.clocks, 30);
      for (unsigned s = 0; s < part.states; ++s)
        part.rows.push_back(row_of(s, no_clock, action, resets, s == 1 ? 1 : urgent ? std::max(s, 1u) : 0));
    }
    add(part, {}, {told});
  }

  Model made() {
    random.shuffle(model.components);
    for (Component& part : model.components) std::sort(part.rows.begin(), part.rows.end());
    return model;
  }

 private:
  enum class Way { round, to_rest, without_end };

  Random& random;
  Numbers actions, clocks;
  Way way;
  std::vector<unsigned> all_fired, all_told;
  Model model;

  Set some_of(Set of) {
    const Set some = random.subset(of, 50);
    return some == 0 ? of : some;
  }

  // The next state as a rule; where the last tells without end, mostly away from it.
  unsigned target(const Component& part, unsigned from, bool endless) {
    if (way != Way::to_rest && random.chance(20)) return random.below(part.states);
    return endless && from + 2 == part.states && random.chance(50) ? 0 : (from + 1) % part.states;
  }

  // Whether the part hears this output of a part before it, and then its kind.
  bool hears(Component& part, unsigned action) {
    const bool fired = std::count(all_fired.begin(), all_fired.end(), action) > 0;
    const bool told = std::count(all_told.begin(), all_told.end(), action) > 0;
    if ((!fired && !told) || !random.chance(40)) return false;
    part.kind[action] = fired ? Kind::in : Kind::uin;
    return true;
  }

  void add(const Component& part, const std::vector<unsigned>& fired, const std::vector<unsigned>& told) {
    model.components.push_back(part);
    all_fired.insert(all_fired.end(), fired.begin(), fired.end());
    all_told.insert(all_told.end(), told.begin(), told.end());
  }
};

}  // namespace

Model generate_plant(Random& random, Size size) {
  Plant plant(random);
  const unsigned most = size == Size::small ? 3 : size == Size::medium ? 6 : 14;
  const unsigned runners = random.between(1, most), others = random.below(most + 1);
  for (unsigned n = 0; n < runners; ++n) plant.add_runner();
  for (unsigned n = 0; n < others; ++n) {
    if (random.chance(50)) plant.add_counter();
    else plant.add_relay();
  }
  return plant.made();
}

}  // namespace second
