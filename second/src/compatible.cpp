#include "compatible.hpp"

namespace second {
namespace {

// The lowest member, then the lowest two components, of which `clash` holds.
template <class Clash>
Refusal lowest_clash(const Model& model, std::uint64_t number, Clash clash) {
  for (unsigned member = 0; member < members; ++member)
    for (std::uint64_t i = 0; i < model.components.size(); ++i)
      for (std::uint64_t j = i + 1; j < model.components.size(); ++j)
        if (clash(model.components[i], model.components[j], member))
          return refuse(number, {member, i, j});
  return {};
}

bool both_output(const Component& a, const Component& b, unsigned action) {
  return is_output(a.kind[action]) && is_output(b.kind[action]);
}

bool both_own(const Component& a, const Component& b, unsigned clock) {
  return has(a.clocks, clock) && has(b.clocks, clock);
}

bool urgency_differs(const Component& a, const Component& b, unsigned action) {
  if (a.kind[action] == Kind::absent || b.kind[action] == Kind::absent) return false;
  return is_urgent(a.kind[action]) != is_urgent(b.kind[action]);
}

}  // namespace

Refusal compatible(const Model& model) {
  if (Refusal shared = lowest_clash(model, 15, both_output)) return shared;
  if (Refusal shared = lowest_clash(model, 16, both_own)) return shared;
  return lowest_clash(model, 17, urgency_differs);
}

}  // namespace second
