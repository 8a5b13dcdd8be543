// What is lent beside a model: states, budgets, lists, clock values, samples, names, merge indices.
#include <set>

#include "active.hpp"
#include "composition.hpp"
#include "damage.hpp"
#include "generate.hpp"
#include "names.hpp"
#include "path.hpp"
#include "reach.hpp"
#include "samples.hpp"
#include "simulation.hpp"

namespace second {
namespace {

constexpr std::uint64_t largest = ~std::uint64_t{0};
constexpr std::int64_t least_tick = INT64_MIN;
constexpr std::int64_t most_tick = INT64_MAX;

// Samples are 1 to this; where it is small they tie.
std::uint64_t sample_span(Random& random) {
  return random.chance(15) ? 8 : std::uint64_t{1} << random.between(8, 40);
}

std::int64_t draw_sample(Random& random, std::uint64_t span) { return 1 + static_cast<std::int64_t>(random.next() % span); }

// What a simulation takes where no list ends.
SampleLists taken_samples(Random& random, const Model& model, std::uint64_t rounds) {
  const std::uint64_t span = sample_span(random);
  SampleLists lists;
  Supply supply{[](unsigned) { return true; },
                [&](unsigned clock) {
                  lists[clock].push_back(draw_sample(random, span));
                  return lists[clock].back();
                },
                41};
  simulated(model, rounds, supply);
  return lists;
}

}  // namespace

std::vector<std::uint8_t> generate_reached_state(Random& random, const Model& model) {
  std::vector<std::uint8_t> state;
  for (const Component& component : model.components) {
    const std::vector<bool> marks = reached(component);
    unsigned part = random.below(component.states);
    while (!marks[part]) part = (part + 1) % component.states;
    state.push_back(static_cast<std::uint8_t>(part));
  }
  return state;
}

std::vector<std::uint8_t> generate_state(Random& random, const Model& model) {
  if (random.chance(70)) return generate_reached_state(random, model);
  std::vector<std::uint8_t> state;
  for (const Component& component : model.components)
    state.push_back(static_cast<std::uint8_t>(random.below(component.states)));
  return state;
}

std::vector<std::uint8_t> generate_calm_state(Random& random, const Model& model) {
  std::vector<std::uint8_t> state;
  for (const Component& component : model.components) {
    // Components are stable or not each on its own, so each has its own tries.
    unsigned part = random.below(component.states);
    for (unsigned tries = 8; tries > 0 && !stable(component, part); --tries) part = random.below(component.states);
    state.push_back(static_cast<std::uint8_t>(part));
  }
  return state;
}

std::vector<std::uint8_t> generate_odd_state(Random& random, const Model& model) {
  std::vector<std::uint8_t> state = generate_state(random, model);
  switch (random.below(5)) {
    case 0: state.pop_back(); break;
    case 1: state.push_back(0); break;
    case 2: state.resize(random.below(70)); break;
    case 3: {
      const unsigned c = random.below(state.size());
      const unsigned states = model.components[c].states;
      state[c] = static_cast<std::uint8_t>(random.chance(50) ? states : random.below(256));
      break;
    }
    default: break;
  }
  return state;
}

std::uint64_t generate_budget(Random& random) {
  if (random.chance(5)) return 4096;
  if (random.chance(20)) return random.below(4097);
  return random.below(20);
}

std::uint64_t generate_odd_budget(Random& random) {
  return random.pick(std::vector<std::uint64_t>{0, 1, 4095, 4096, 4097, 65536, std::uint64_t{1} << 32,
                                                std::uint64_t{1} << 63, largest - 1, largest});
}

std::vector<std::uint8_t> generate_list(Random& random, const Model& model,
                                        const std::vector<std::uint8_t>& state, unsigned most) {
  State at;
  for (std::uint8_t part : state) at.parts[at.count++] = part;
  std::vector<std::uint8_t> list;
  while (list.size() < most) {
    const Set enabled = urgent_outputs(model, at);
    if (enabled == 0) break;
    unsigned action = random.below(members);
    while (!has(enabled, action)) action = (action + 1) % members;
    list.push_back(static_cast<std::uint8_t>(action));
    at = urgent_step(model, at, action)->after;
  }
  return list;
}

std::vector<std::uint8_t> generate_odd_list(Random& random, const Model& model,
                                            const std::vector<std::uint8_t>& state) {
  std::vector<std::uint8_t> list = generate_list(random, model, state, random.below(30));
  const unsigned action = random.chance(70) ? random.below(64) : random.below(256);
  switch (random.below(5)) {
    case 0: list.push_back(static_cast<std::uint8_t>(action)); break;
    case 1:
      if (!list.empty()) list[random.below(list.size())] = static_cast<std::uint8_t>(action);
      break;
    case 2:
      if (!list.empty()) list.erase(list.begin() + random.below(list.size()));
      break;
    case 3: list.resize(random.between(4095, 4098), static_cast<std::uint8_t>(action)); break;
    default: break;
  }
  return list;
}

namespace {

std::int64_t above_floor(Random& random) { return -tick_bound + static_cast<std::int64_t>(random.below(40)); }

// Values of one size, from small ones that tie to ones close to the end of the range.
class Sized {
 public:
  explicit Sized(Random& from) : random(from) {
    const unsigned style = random.below(10);
    if (style < 3) span = 8;
    else if (style < 8) span = std::uint64_t{1} << random.between(8, 40);
    else top = true;
  }

  std::int64_t next() {
    const auto drawn = static_cast<std::int64_t>(random.next() % span);
    return top ? tick_bound - drawn : drawn;
  }

 private:
  Random& random;
  std::uint64_t span = 64;
  bool top = false;
};

}  // namespace

std::vector<std::int64_t> generate_ticks(Random& random) {
  std::vector<std::int64_t> ticks;
  Sized sized(random);
  const unsigned deep = random.pick(std::vector<unsigned>{0, 0, 20, 40});
  for (unsigned clock = 0; clock < clock_values; ++clock) {
    const bool low = random.chance(deep);
    ticks.push_back(low ? above_floor(random) : sized.next());
  }
  return ticks;
}

std::vector<std::int64_t> generate_ticks_for(Random& random, const Model& model,
                                             const std::vector<std::uint8_t>& state) {
  Set waiting = 0;
  if (fits(model, state.data(), state.size()))
    for (std::size_t c = 0; c < state.size(); ++c)
      waiting = joined(waiting, enabling(model.components[c], state[c]));
  std::vector<std::int64_t> ticks;
  Sized sized(random);
  for (unsigned clock = 0; clock < clock_values; ++clock) {
    const bool low = !has(waiting, clock) && random.chance(50);
    ticks.push_back(low ? above_floor(random) : sized.next());
  }
  return ticks;
}

std::vector<std::int64_t> generate_odd_ticks(Random& random) {
  const std::vector<std::int64_t> odd = {
      0, 1, -1, 5, tick_bound, tick_bound - 1, -tick_bound, -tick_bound + 1, tick_bound + 1,
      -tick_bound - 1, least_tick, most_tick};
  std::vector<std::int64_t> ticks = generate_ticks(random);
  const unsigned style = random.below(5);
  // Early ones of the list are within bounds, so that 29 and 30 aren't always hidden by 28.
  const unsigned reach = random.chance(60) ? 8 : static_cast<unsigned>(odd.size());
  for (std::int64_t& tick : ticks) {
    if (style == 0 && random.chance(10)) tick = odd[random.below(reach)];
    if (style == 1) tick = odd[random.below(reach)];
    if (style == 2 && random.chance(50)) tick = -static_cast<std::int64_t>(random.next() % (std::uint64_t{1} << 40));
    if (style == 3) {
      const auto near = static_cast<std::int64_t>(random.below(4));
      const unsigned end = random.below(4);
      tick = end == 0 ? -tick_bound + near : end == 1 ? tick_bound - near : near;
    }
  }
  if (random.chance(10))
    ticks.resize(random.pick(std::vector<unsigned>{0, 1, 2, 31, 62, 63, 65, 66, 127, 128, 129, 1000}), 1);
  return ticks;
}

std::vector<std::uint8_t> generate_path(Random& random, const Model& model, unsigned most) {
  std::vector<std::uint8_t> path;
  State at = start_of(model);
  while (path.size() < 2 * most) {
    const Set urgent = urgent_outputs(model, at);
    const Set from = urgent != 0 ? urgent : enabling(model, at);
    if (from == 0) break;
    unsigned member = random.below(members);
    while (!has(from, member)) member = (member + 1) % members;
    const Move move = urgent != 0 ? *urgent_step(model, at, member) : clock_step(model, at, member);
    path.push_back(static_cast<std::uint8_t>(move.action));
    path.push_back(static_cast<std::uint8_t>(urgent != 0 ? 0 : member + 1));
    at = move.after;
  }
  return path;
}

std::vector<std::uint8_t> generate_odd_path(Random& random, const Model& model) {
  std::vector<std::uint8_t> path = generate_path(random, model, random.below(12));
  const auto byte = static_cast<std::uint8_t>(random.chance(60) ? random.below(66) : random.below(256));
  switch (random.below(6)) {
    case 0: path.push_back(byte); break;
    case 1:
      if (!path.empty()) path[random.below(path.size())] = byte;
      break;
    case 2:
      if (!path.empty()) path.erase(path.begin() + random.below(path.size()));
      break;
    case 3: path.resize(random.between(8191, 8194), byte); break;
    case 4: path = generate_path(random, model, random.chance(20) ? 4096 : 40); break;
    default: break;
  }
  return path;
}

namespace {

// Whether it might be another action's default.
bool like_default(const std::string& name) {
  return name[0] == 'a' && name.size() > 1 && name.size() < 4 && name[1] >= '0' && name[1] <= '9';
}

}  // namespace

std::string generate_named(Random& random, const Model& model) {
  Sheet sheet = default_sheet(model);
  if (random.chance(30)) return named_text_of_model(model, sheet);
  const unsigned most = random.pick(std::vector<unsigned>{2, 4, 16});
  std::set<std::string> given;
  for (auto& name : sheet) {
    if (!name || random.chance(20)) {
      if (name) given.insert(*name);
      continue;
    }
    do {
      name = std::string(1, static_cast<char>('a' + random.below(26)));
      for (unsigned length = random.below(most); length > 0; --length)
        *name += "abcdefghijklmnopqrstuvwxyz0123456789"[random.below(36)];
    } while (like_default(*name) || !given.insert(*name).second);
  }
  return named_text_of_model(model, sheet);
}

std::string generate_odd_named(Random& random, const Model& model) {
  return damaged_named(random, generate_named(random, model));
}

std::string generate_samples(Random& random, const Model& model, unsigned most) {
  const std::uint64_t span = sample_span(random);
  const bool fewer = random.chance(20);
  SampleLists lists;
  for (unsigned clock = 0; clock < members; ++clock) {
    if (!has(clocks_of(model), clock)) continue;
    for (unsigned count = fewer ? most - random.below(most + 1) : most; count > 0; --count)
      lists[clock].push_back(draw_sample(random, span));
  }
  return text_of_samples(lists, clocks_of(model));
}

std::string generate_exact_samples(Random& random, const Model& model, std::uint64_t rounds) {
  return text_of_samples(taken_samples(random, model, rounds), clocks_of(model));
}

std::string generate_scant_samples(Random& random, const Model& model, std::uint64_t rounds) {
  SampleLists lists = taken_samples(random, model, rounds);
  const unsigned from = random.below(members);
  for (unsigned n = 0; n < members; ++n) {
    auto& list = lists[(from + n) % members];
    if (list.empty()) continue;
    list.pop_back();
    break;
  }
  return text_of_samples(lists, clocks_of(model));
}

std::string generate_odd_samples(Random& random, const Model& model, unsigned most) {
  const std::string text = generate_samples(random, model, random.chance(50) ? random.below(3) : most);
  return random.chance(20) ? text : damaged_samples(random, text);
}

std::uint64_t generate_index(Random& random, const Model& model) {
  if (random.chance(20))
    return random.pick(std::vector<std::uint64_t>{largest, largest - 1, std::uint64_t{1} << 63,
                                                  std::uint64_t{1} << 32, 31, 32, 33});
  return random.below(model.components.size());
}

}  // namespace second
