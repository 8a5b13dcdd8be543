#include "table.hpp"

#include <algorithm>

#include "text_writing.hpp"

namespace second {
namespace {

// Words of a block.
enum { states_at, start_at, ins_at, outs_at, uins_at, uouts_at, clocks_at, started_at, first_at };
// Words of a row.
enum { action_at, guard_at, resets_at, target_at };

constexpr Kind kinds[] = {Kind::in, Kind::out, Kind::uin, Kind::uout};

Set actions_of(const Component& component, Kind kind) {
  Set actions = 0;
  for (unsigned action = 0; action < members; ++action)
    if (component.kind[action] == kind) actions |= only(action);
  return actions;
}

// False where two of the four sets share an action.
bool read_kinds(const std::uint64_t* block, Component& component) {
  for (unsigned k = 0; k < 4; ++k) {
    for (unsigned action = 0; action < members; ++action) {
      if (!has(block[ins_at + k], action)) continue;
      if (component.kind[action] != Kind::absent) return false;
      component.kind[action] = kinds[k];
    }
  }
  return true;
}

bool read_row(const std::uint64_t* words, unsigned from, Component& component) {
  if (words[action_at] >= members) return false;
  if (words[guard_at] > members) return false;
  if (words[target_at] >= component.states) return false;
  Row row;
  row.from = from;
  row.guard = static_cast<int>(words[guard_at]) - 1;
  row.action = static_cast<unsigned>(words[action_at]);
  row.resets = words[resets_at];
  row.target = static_cast<unsigned>(words[target_at]);
  if (component.kind[row.action] == Kind::absent) return false;
  if (!within(guard_set(row), component.clocks)) return false;
  if (!within(row.resets, component.clocks)) return false;
  if (!component.rows.empty() && !(component.rows.back() < row)) return false;
  component.rows.push_back(row);
  return true;
}

// `next_row` is the end of the rows of the components before, and of this one afterwards.
bool read_component(Words table, std::uint64_t c, std::uint64_t& next_row, Component& component) {
  const std::uint64_t* block = table.front + 1 + c * block_words;
  if (block[states_at] < 1 || block[states_at] > max_states) return false;
  if (block[start_at] >= block[states_at]) return false;
  component.states = static_cast<unsigned>(block[states_at]);
  component.start = static_cast<unsigned>(block[start_at]);
  if (!read_kinds(block, component)) return false;
  component.clocks = block[clocks_at];
  component.started = block[started_at];
  if (!within(component.started, component.clocks)) return false;
  const std::uint64_t* first = block + first_at;
  if (first[0] != next_row) return false;
  for (unsigned state = 0; state < component.states; ++state) {
    if (first[state + 1] < first[state] || first[state + 1] > max_rows) return false;
    for (std::uint64_t row = first[state]; row < first[state + 1]; ++row)
      if (!read_row(table.front + rows_at + row * row_words, state, component)) return false;
  }
  next_row = first[component.states];
  return true;
}

}  // namespace

std::vector<std::uint64_t> image_of_model(const Model& model) {
  std::vector<std::uint64_t> image(image_words, 0);
  image[0] = model.components.size();
  std::uint64_t* block = image.data() + 1;
  std::uint64_t* words = image.data() + rows_at;
  std::uint64_t next_row = 0;
  for (const Component& component : model.components) {
    block[states_at] = component.states;
    block[start_at] = component.start;
    for (unsigned k = 0; k < 4; ++k) block[ins_at + k] = actions_of(component, kinds[k]);
    block[clocks_at] = component.clocks;
    block[started_at] = component.started;
    for (unsigned state = 0; state < component.states; ++state) {
      block[first_at + state] = next_row;
      for (const Row& row : component.leaving(state)) {
        words[action_at] = row.action;
        words[guard_at] = static_cast<std::uint64_t>(row.guard + 1);
        words[resets_at] = row.resets;
        words[target_at] = row.target;
        words += row_words;
        ++next_row;
      }
    }
    block[first_at + component.states] = next_row;
    block += block_words;
  }
  return image;
}

std::optional<Model> model_of_image(Words table) {
  if (table.length < image_words) return std::nullopt;
  const std::uint64_t components = table.front[0];
  if (components < 1 || components > max_components) return std::nullopt;
  Model model;
  model.components.resize(components);
  std::uint64_t next_row = 0;
  for (std::uint64_t c = 0; c < components; ++c)
    if (!read_component(table, c, next_row, model.components[c])) return std::nullopt;
  // "One model has one image", so a place that should be zero and isn't shows as a difference.
  const std::vector<std::uint64_t> image = image_of_model(model);
  if (!std::equal(image.begin(), image.end(), table.front)) return std::nullopt;
  // The text's limit is part of what a model is.
  if (text_of_model(model).size() > max_text) return std::nullopt;
  return model;
}

}  // namespace second
