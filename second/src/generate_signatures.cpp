#include "generate_signatures.hpp"

namespace second {
namespace {

// Not always the lowest numbers, and now and then the highest.
std::vector<unsigned> some_numbers(Random& random, unsigned count) {
  std::vector<unsigned> numbers;
  for (unsigned number = 0; number < members; ++number) numbers.push_back(number);
  random.shuffle(numbers);
  numbers.resize(count);
  return numbers;
}

}  // namespace

std::vector<Component> generate_signatures(Random& random, const Shape& shape) {
  std::vector<Component> components(shape.components);
  for (unsigned action : some_numbers(random, shape.actions)) {
    const bool urgent = random.chance(shape.urgent_percent);
    const bool orphan = random.chance(shape.orphan_percent);
    const unsigned owner = random.below(shape.components);
    for (unsigned c = 0; c < shape.components; ++c) {
      if (c == owner && !orphan) components[c].kind[action] = urgent ? Kind::uout : Kind::out;
      else if (random.chance(shape.hearing_percent)) components[c].kind[action] = urgent ? Kind::uin : Kind::in;
    }
  }
  // Most clocks go where an `out` row can wait for them.
  std::vector<unsigned> timely;
  for (unsigned c = 0; c < shape.components; ++c)
    if (!actions_of_kind(components[c], Kind::out).empty()) timely.push_back(c);
  for (unsigned clock : some_numbers(random, shape.clocks)) {
    unsigned owner = random.below(shape.components);
    if (!timely.empty() && random.chance(80)) owner = random.pick(timely);
    components[owner].clocks |= only(clock);
  }
  return components;
}

std::vector<unsigned> actions_of_kind(const Component& component, Kind kind) {
  std::vector<unsigned> actions;
  for (unsigned action = 0; action < members; ++action)
    if (component.kind[action] == kind) actions.push_back(action);
  return actions;
}

}  // namespace second
