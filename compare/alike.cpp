#include "alike.hpp"

#include "tally.hpp"

namespace {

using drawing::Drawn;
using second::Random;

bool refused(const Said& said) { return said.answer.kind == FLOODNEEDLE_REFUSED; }
bool refused_with(const Said& said, std::uint64_t number) { return refused(said) && said.answer.number == number; }

Bytes paired(const second::Model& model, const Bytes& state, std::uint64_t i) {
  Bytes pairs;
  for (std::uint64_t c = 0; c < state.size(); ++c) {
    if (c == i) pairs.push_back(static_cast<std::uint8_t>(state[c] * model.components[c + 1].states + state[c + 1]));
    else if (c != i + 1) pairs.push_back(state[c]);
  }
  return pairs;
}

// One model, and the same merged at i.
struct Merged {
  const Drawn& drawn;
  std::uint64_t i;
  const Table& table;
  const std::string& where;
};

// One verdict, count and resets, or one refusal; unless refused, the end state read through the pairs.
bool same(const Merged& merged, const Said& one, const Said& other) {
  if (std::memcmp(&one.answer, &other.answer, sizeof one.answer) != 0) return false;
  const std::size_t parts = merged.drawn.model.components.size();
  const Bytes before(one.after.begin(), one.after.begin() + parts), after(other.after.begin(), other.after.begin() + parts - 1);
  return refused(one) || paired(merged.drawn.model, before, merged.i) == after;
}

// The same call on the model from this loan's state and on the merged one from its pairs. A pair need not be one that the merged component gets to
// though both parts are, and then it is 19: of that nothing is said.
void try_both(const Merged& merged, const Call& call, Loan loan) {
  loan.table = merged.drawn.table;
  const Comparison one = compare(Input::generated, call, loan, merged.where);
  loan.table = merged.table;
  loan.state = paired(merged.drawn.model, loan.state, merged.i);
  const Comparison other = compare(Input::generated, call, loan, merged.where);
  if (refused_with(one.engine, 19) || refused_with(other.engine, 19)) return;
  const bool good = same(merged, one.engine, other.engine) && one.left.out.content() == other.left.out.content();
  hold(std::string(call.name) + " alike, merged or not", good, merged.where);
  if (refused_with(one.engine, 23)) hold("23 at the same index", good, merged.where);
}

void try_settling(Random& random, const Merged& merged) {
  Loan loan;
  loan.state = second::generate_reached_state(random, merged.drawn.model);
  loan.number = drawing::budget(random);
  loan.out = drawing::trace(random, loan.number);
  try_both(merged, calls::settle, loan);
  loan.bytes = random.chance(60) ? drawing::list(random, merged.drawn, loan.state) : drawing::odd_list(random, merged.drawn, loan.state);
  try_both(merged, calls::settle_list, loan);
}

// The table merged at i, or none where it is refused.
Table merged_at(const Table& table, std::uint64_t i, const Table& room, const std::string& where) {
  Loan loan;
  loan.table = table;
  loan.number = i;
  loan.into = room;
  const Comparison made = compare(Input::generated, calls::merge, loan, where);
  return refused(made.engine) ? Table{} : made.left.into.content();
}

}  // namespace

void try_alike(Random& random, const Drawn& drawn, const std::string& where) {
  const std::uint64_t components = drawn.model.components.size();
  if (!drawn.accepted || components < 2) return;
  Loan loan;
  loan.table = drawn.table;
  const bool confluent = !refused(compare(Input::generated, calls::confluent, loan, where).engine);
  const Table room = drawing::room(random);
  std::vector<Table> at;
  for (std::uint64_t i = 0; i + 1 < components; ++i) {
    at.push_back(merged_at(drawn.table, i, room, where));
    if (at[i].empty()) continue;
    loan.table = at[i];
    const Said again = compare(Input::generated, calls::confluent, loan, where).engine;
    hold("10 to 17 passed again", !refused(again) || again.answer.number == 18, where);
    if (!confluent) continue;
    hold("18 passed again", !refused(again), where);
    try_settling(random, {drawn, i, at[i], where});
  }
  // (first, second), third and first, (second, third).
  for (std::uint64_t i = 0; i + 2 < components; ++i) {
    if (at[i].empty() || at[i + 1].empty()) continue;
    const Table one = merged_at(at[i], i, room, where), other = merged_at(at[i + 1], i, room, where);
    if (!one.empty() && !other.empty()) hold("three merged either way", one == other, where);
  }
}
