// Models of each family that passes 10 to 17.
#include <algorithm>

#include "acceptance.hpp"
#include "confluence.hpp"
#include "generate.hpp"
#include "generate_limits.hpp"
#include "generate_rows.hpp"
#include "generate_signatures.hpp"
#include "text_writing.hpp"
#include "triggering.hpp"

namespace second {
namespace {

Shape drawn_shape(Random& random, Size size) {
  Shape shape;
  switch (size) {
    case Size::small:
      shape.components = random.between(1, 4);
      shape.states = random.between(1, 6);
      shape.actions = random.between(1, 8);
      shape.clocks = random.between(0, 6);
      break;
    case Size::medium:
      shape.components = random.between(1, 8);
      shape.states = random.between(1, 12);
      shape.actions = random.between(1, 16);
      shape.clocks = random.between(0, 16);
      break;
    case Size::large:
      shape.components = random.between(1, max_components);
      shape.states = random.between(1, max_states);
      shape.actions = random.between(1, 64);
      shape.clocks = random.between(0, 64);
      break;
  }
  shape.urgent_percent = random.pick(std::vector<unsigned>{20, 40, 60, 80, 100});
  shape.hearing_percent = random.pick(std::vector<unsigned>{0, 20, 40, 70});
  return shape;
}

bool too_large(const Model& model) {
  return count_rows(model) > max_rows || text_of_model(model).size() > max_text;
}

Shape halved(Shape shape) {
  shape.states = std::max(1u, shape.states / 2);
  if (shape.states == 1) shape.actions = std::max(1u, shape.actions / 2);
  if (shape.actions == 1) shape.clocks /= 2;
  return shape;
}

Model accepted_model(Random& random, Shape shape) {
  for (;; shape = halved(shape)) {
    Model model;
    model.components = generate_signatures(random, shape);
    for (Component& component : model.components)
      fill_accepted(random, component, random.between(1, shape.states));
    if (!too_large(model)) return model;
  }
}

Model confluent_model(Random& random, Shape shape) {
  for (;; shape = halved(shape)) {
    Model model;
    model.components = generate_signatures(random, shape);
    for (Component& component : model.components) {
      fill_confluent(random, component, random.between(1, shape.states), members);
      if (random.chance(20)) add_unreached(random, component);
    }
    if (!too_large(model)) return model;
  }
}

Model endless_model(Random& random, Shape shape) {
  for (;; shape = halved(shape)) {
    Model model;
    model.components = generate_signatures(random, shape);
    bool endless = false;
    for (Component& component : model.components) {
      const auto speakers = actions_of_kind(component, Kind::uout);
      const unsigned always = speakers.empty() ? members : random.pick(speakers);
      if (always < members) endless = true;
      fill_confluent(random, component, random.between(1, shape.states), always);
    }
    if (endless && !too_large(model)) return model;
    shape.urgent_percent = 100;
    shape.orphan_percent = 0;
  }
}

Model clashing_model(Random& random, Size size) {
  for (;;) {
    Shape shape = drawn_shape(random, size);
    shape.urgent_percent = 90;
    shape.states = std::max(2u, shape.states);
    const Model model = accepted_model(random, shape);
    if (confluence(model)) return model;
  }
}

// A model that leaves room for padding components and their rows.
Model modest_model(Random& random, unsigned most_components) {
  Shape shape = drawn_shape(random, Size::medium);
  shape.components = std::min(shape.components, most_components);
  for (;; shape = halved(shape)) {
    Model model = confluent_model(random, shape);
    if (count_rows(model) < max_rows / 2 && text_of_model(model).size() < max_text / 3) return model;
  }
}

// A source waits for its clock and then says one urgent thing, a few of them in turn.
Component source(Random& random, unsigned timed_action, unsigned clock, const std::vector<unsigned>& says) {
  Component component;
  component.kind[timed_action] = Kind::out;
  component.clocks = component.started = only(clock);
  component.states = static_cast<unsigned>(2 * says.size());
  component.start = 2 * random.below(says.size());
  for (unsigned turn = 0; turn < says.size(); ++turn) {
    component.kind[says[turn]] = Kind::uout;
    Row waits, speaks;
    waits.from = 2 * turn;
    waits.guard = static_cast<int>(clock);
    waits.action = timed_action;
    waits.target = 2 * turn + 1;
    speaks.from = 2 * turn + 1;
    speaks.action = says[turn];
    speaks.resets = only(clock);
    speaks.target = (2 * turn + 2) % component.states;
    component.rows.push_back(waits);
    component.rows.push_back(speaks);
  }
  std::sort(component.rows.begin(), component.rows.end());
  return component;
}

// An echo says one thing when it has heard one of these, and no more until some clock has ended: several of them
// that hear one thing speak at once.
Component echo(Random& random, unsigned own, const std::vector<unsigned>& hears, const std::vector<unsigned>& timed) {
  Component component;
  component.states = 3;
  component.kind[own] = Kind::uout;
  const auto hear = [&component](Kind kind, unsigned action, unsigned moves, unsigned to) {
    component.kind[action] = kind;
    for (unsigned state = 0; state < component.states; ++state) {
      Row row;
      row.from = state;
      row.action = action;
      row.target = state == moves ? to : state;
      component.rows.push_back(row);
    }
  };
  const unsigned always = hears[random.below(hears.size())];
  for (unsigned action : hears)
    if (random.chance(40) || action == always) hear(Kind::uin, action, 0, 1);
  for (unsigned action : timed) hear(Kind::in, action, 2, 0);
  Row speaks;
  speaks.from = 1;
  speaks.action = own;
  speaks.target = 2;
  component.rows.push_back(speaks);
  std::sort(component.rows.begin(), component.rows.end());
  return component;
}

// Sources, echoes, and listeners that needn't be confluent and speak in turn themselves.
Model sources_and_listeners(Random& random, Size size) {
  std::vector<unsigned> numbers;
  for (unsigned number = 0; number < members; ++number) numbers.push_back(number);
  random.shuffle(numbers);
  const auto taken = [&] {
    const unsigned number = numbers.back();
    numbers.pop_back();
    return number;
  };
  Model model;
  std::vector<unsigned> said, timed, echoed;
  for (unsigned count = random.between(1, size == Size::small ? 2 : 4); count > 0; --count) {
    std::vector<unsigned> says;
    for (unsigned turns = random.between(1, 3); turns > 0; --turns) says.push_back(taken());
    said.insert(said.end(), says.begin(), says.end());
    timed.push_back(taken());
    model.components.push_back(source(random, timed.back(), taken(), says));
  }
  for (unsigned count = random.chance(50) ? random.between(1, 3) : 0; count > 0; --count) {
    echoed.push_back(taken());
    model.components.push_back(echo(random, echoed.back(), said, timed));
  }
  for (unsigned count = random.between(1, size == Size::small ? 2 : 5); count > 0; --count) {
    Component listener;
    for (unsigned action : echoed)
      if (random.chance(20)) listener.kind[action] = Kind::uin;
    for (unsigned action : said)
      if (random.chance(60)) listener.kind[action] = Kind::uin;
    for (unsigned action : timed)
      if (random.chance(15)) listener.kind[action] = Kind::in;
    for (unsigned own = random.below(3); own > 0; --own) {
      listener.kind[numbers.back()] = Kind::uout;
      said.push_back(taken());
    }
    fill_accepted(random, listener, random.between(2, size == Size::small ? 3 : 6));
    model.components.push_back(listener);
  }
  return model;
}

Model orderly_model(Random& random, Size size) {
  for (;;) {
    const Model model = sources_and_listeners(random, size);
    if (too_large(model) || acceptance(model) || !confluence(model) || orderliness(model)) continue;
    return model;
  }
}

}  // namespace

Model generate(Random& random, Family family, Size size) {
  Shape shape = drawn_shape(random, size);
  switch (family) {
    case Family::accepted:
      return accepted_model(random, shape);
    case Family::confluent:
      return confluent_model(random, shape);
    case Family::clashing:
      return clashing_model(random, size);
    case Family::endless:
      return endless_model(random, shape);
    case Family::sharing:
      shape.components = size == Size::small ? random.between(2, 4) : random.between(4, max_components);
      shape.hearing_percent = random.between(70, 100);
      shape.urgent_percent = 80;
      return confluent_model(random, shape);
    case Family::components_32:
      shape.components = max_components;
      return confluent_model(random, shape);
    case Family::rows_1024:
      return padded_to_rows(modest_model(random, max_components - 3), max_rows);
    case Family::states_128:
      return with_128_states(random, modest_model(random, max_components - 1));
    case Family::text_32768: {
      const std::uint64_t shortfall = random.chance(50) ? 0 : random.below(4);
      return padded_to_text(modest_model(random, max_components - 1), max_text - shortfall);
    }
    case Family::orderly:
      return orderly_model(random, size);
  }
  return accepted_model(random, shape);
}

Model generate_overlong(Random& random) {
  const std::uint64_t excess = random.between(1, 4);
  return padded_to_text(modest_model(random, max_components - 1), max_text + excess);
}

}  // namespace second
