#include "random_inputs.hpp"

#include "aims.hpp"
#include "alike.hpp"
#include "damage.hpp"
#include "drawing.hpp"
#include "names.hpp"
#include "table.hpp"
#include "tally.hpp"
#include "text_writing.hpp"

namespace {

using drawing::Drawn;
using second::Random;

constexpr unsigned aims_for_a_model = 3;

std::string where;  // the input that is tried, for a difference to be found again

Comparison try_call(const Call& call, const Loan& loan) { return compare(Input::generated, call, loan, where); }

// ---- single calls

void try_text(const Bytes& text, const Table& into) {
  Loan loan;
  loan.bytes = text;
  try_call(calls::check_text, loan);
  loan.into = into;
  try_call(calls::read, loan);
}

void try_texts(Random& random, const std::string& text) {
  try_text(drawing::bytes_of(text), drawing::odd_room(random));
  std::string damaged = text;
  for (unsigned turn = 0; turn < 2; ++turn) {
    damaged = second::damaged_text(random, damaged);
    try_text(drawing::bytes_of(damaged), drawing::odd_room(random));
  }
  try_text(drawing::bytes_of(drawing::misfit_text(random, text)), drawing::odd_room(random));
}

// One tree, good or not.
Comparison try_tree(Random& random, const std::string& tree) {
  Loan loan;
  loan.bytes = drawing::bytes_of(tree);
  loan.into = drawing::odd_room(random);
  return try_call(calls::read_tree, loan);
}

// The lists last or do not, or the text is damaged; at times there are too many rounds or not 64 values, of which the first decides.
void try_simulation(Random& random, const Table& table, const Drawn& drawn) {
  Loan loan;
  loan.table = table;
  loan.number = random.chance(95) ? drawing::rounds(random) : drawing::odd_rounds(random);
  loan.bytes = random.chance(80) ? drawing::samples(random, drawn, loan.number) : drawing::odd_samples(random, drawn, loan.number);
  loan.clocks = random.chance(95) ? drawing::values(random) : drawing::odd_values(random);
  try_call(calls::simulate, loan);
}

// The same over draws: the numbers last or do not, or the file is damaged.
void try_draws(Random& random, const Table& table, const Drawn& drawn) {
  Loan loan;
  loan.table = table;
  loan.number = random.chance(95) ? drawing::rounds(random) : drawing::odd_rounds(random);
  loan.bytes = random.chance(80) ? drawing::laws(random, drawn) : drawing::odd_laws(random, drawn);
  loan.numbers = drawing::numbers(random, loan.number);
  loan.clocks = random.chance(95) ? drawing::values(random) : drawing::odd_values(random);
  try_call(calls::simulate_drawn, loan);
}

// Settling after a path, by rule and by list. A list that comes to an end has taken the steps in some order: the rule must have come to the same.
void try_walk(Random& random, const Table& table, const Drawn& drawn) {
  Loan loan;
  loan.table = table;
  loan.path = random.chance(70) ? drawing::path(random, drawn) : random.chance(90) ? drawing::odd_path(random, drawn) : drawing::long_path(random, drawn);
  loan.number = drawing::budget(random);
  loan.out = drawing::trace(random, loan.number);
  try_call(calls::settle_after, loan);
  loan.bytes = drawing::odd_list(random, drawn, drawing::after_path(drawn, loan.path));
  const Said listed = try_call(calls::settle_list_after, loan).engine;
  if (listed.answer.kind != FLOODNEEDLE_STABLE) return;
  loan.number = second::max_budget;
  loan.out = drawing::noise_bytes(random, second::max_budget);
  hold("any order after a path ends alike", try_call(calls::settle_after, loan).engine == listed, where);
}

// A table's model explained, and a text that may be damaged: where both are good, the same is printed of them. At times the buffer is too short.
void try_explanations(Random& random, const Table& table, const Drawn& drawn) {
  Loan loan;
  loan.table = table;
  const bool whole = random.chance(80);
  loan.bytes = drawing::bytes_of(whole ? drawn.text : second::damaged_text(random, drawn.text));
  const std::size_t room = random.chance(95) ? FLOODNEEDLE_EXPLANATION : FLOODNEEDLE_EXPLANATION - 1;
  loan.out = drawing::noise_bytes(random, room);
  const Comparison read = try_call(calls::explain, loan), held = try_call(calls::explain_table, loan);
  if (!whole || held.engine.answer.kind == FLOODNEEDLE_REFUSED) return;
  hold("explained alike, as text and as table", read.engine == held.engine && read.left.out.content() == held.left.out.content(), where);
}

// A text of the second form, whole, damaged and once more: at times the buffer is a byte too short, or much too short.
void try_names(Random& random, const Drawn& drawn) {
  const std::string whole = second::generate_named(random, drawn.model);
  std::string text = random.chance(60) ? whole : second::generate_odd_named(random, drawn.model);
  for (unsigned turn = 0; turn < 3; ++turn) {
    Loan loan;
    loan.bytes = drawing::bytes_of(text);
    const unsigned length = random.below(4);
    const std::size_t exact = drawn.text.size();
    loan.out = drawing::noise_bytes(random, length == 0 ? second::max_text + 2000 : length == 1 ? exact : length == 2 ? exact + random.below(40) : exact - 1 - random.below(exact));
    try_call(calls::to_numbers, loan);
    text = second::damaged_named(random, text);
  }
}

// The other way: a text of the old form likewise, and what was written made an old text again.
void try_default_names(Random& random, const Drawn& drawn) {
  const std::string renamed = second::named_text_of_model(drawn.model, second::default_sheet(drawn.model));
  std::string text = drawn.text;
  for (unsigned turn = 0; turn < 3; ++turn) {
    Loan loan;
    loan.bytes = drawing::bytes_of(text);
    const unsigned length = random.below(4);
    const std::size_t exact = renamed.size();
    loan.out = drawing::noise_bytes(random, length == 0 ? second::max_text + 8000 : length == 1 ? exact : length == 2 ? exact + random.below(40) : exact - 1 - random.below(exact));
    const Comparison written = try_call(calls::to_names, loan);
    if (turn == 0 && written.engine.answer.kind == FLOODNEEDLE_DONE) {
      Loan back;
      const Bytes out = written.left.out.content();
      back.bytes = Bytes(out.begin(), out.begin() + static_cast<std::ptrdiff_t>(written.engine.answer.count));
      back.out = Bytes(text.size(), 0x77);
      const Comparison again = try_call(calls::to_numbers, back);
      hold("old to new and back", again.left.out.content() == loan.bytes, text);
    }
    text = second::damaged_text(random, text);
  }
}

// Every call that takes a table, on one that need not be the model's.
void try_calls(Random& random, const Table& table, const Drawn& drawn) {
  Loan loan;
  loan.table = table;
  for (const Call* call : {&calls::recognise, &calls::start, &calls::compatible, &calls::accept, &calls::confluent, &calls::orderly}) try_call(*call, loan);

  const unsigned length = random.below(4);
  const std::size_t exact = drawn.text.size();
  const std::size_t bytes = length == 0 ? second::max_text : length == 1 ? exact : length == 2 ? exact + random.below(40) : exact - 1;
  loan.out = drawing::noise_bytes(random, bytes);
  try_call(calls::write, loan);

  loan.state = drawing::odd_state(random, drawn);
  loan.bytes = drawing::odd_list(random, drawn, loan.state);
  loan.number = drawing::action(random, loan.bytes);
  for (const Call* call : {&calls::step, &calls::step_by, &calls::settle_list, &calls::advance}) try_call(*call, loan);

  loan.number = drawing::budget(random);
  loan.out = drawing::trace(random, loan.number);
  try_call(calls::settle, loan);

  // Half of the states above are not stable, which a timed step refuses first of all.
  if (random.chance(50)) loan.state = second::generate_calm_state(random, drawn.model);
  loan.clocks = random.chance(70) ? drawing::clocks(random, drawn, loan.state) : drawing::odd_clocks(random, drawn, loan.state);
  try_call(calls::timed_step, loan);

  try_simulation(random, table, drawn);
  try_draws(random, table, drawn);
  try_walk(random, table, drawn);

  loan.number = second::generate_index(random, drawn.model);
  try_call(calls::component, loan);
  loan.out = drawing::list_room(random, drawn);
  try_call(calls::repair, loan);
  loan.into = drawing::odd_room(random);
  try_call(calls::merge, loan);
}

// A simulation of a plant, and of the same for fewer and for more rounds.
void try_plant(Random& random) {
  const auto size = drawing::size(random);
  const Drawn drawn(second::generate_plant(random, size));
  const Table table = drawing::lengthened(random, drawn.table);
  for (unsigned turn = 0; turn < 3; ++turn) try_simulation(random, table, drawn);
  for (unsigned turn = 0; turn < 3; ++turn) try_draws(random, table, drawn);
  Loan loan;
  loan.table = table;
  const unsigned most = random.below(20);
  loan.bytes = drawing::samples(random, drawn, most);
  loan.clocks = drawing::values(random);
  for (loan.number = 0; loan.number < most + 2; ++loan.number) {
    const Comparison made = try_call(calls::simulate, loan);
    if (made.second.answer.kind == FLOODNEEDLE_REFUSED) break;
    loan.clocks = made.left.clocks.content();
  }
}

// Components that are not confluent alone: both tests, settling from the start and after paths, and simulations.
void try_not_alone(Random& random) {
  const Drawn drawn(drawing::not_alone(random));
  const Table table = drawing::lengthened(random, drawn.table);
  Loan loan;
  loan.table = table;
  loan.state = drawing::state(random, drawn);
  loan.number = drawing::budget(random);
  loan.out = drawing::trace(random, loan.number);
  for (const Call* call : {&calls::confluent, &calls::orderly, &calls::settle}) try_call(*call, loan);
  for (unsigned turn = 0; turn < 3; ++turn) try_walk(random, table, drawn);
  try_simulation(random, table, drawn);
  try_draws(random, table, drawn);
  try_explanations(random, table, drawn);
}

// A tree, the same damaged, and one that breaks a condition; then the model of the first: its tests, its text, settling after paths and a simulation.
void try_trees(Random& random) {
  const auto size = drawing::size(random);
  const std::string tree = second::generate_tree(random, size);
  std::string damaged = tree;
  for (unsigned turn = 0; turn < 3; ++turn) {
    damaged = second::damaged_tree(random, damaged);
    try_tree(random, damaged);
  }
  const unsigned condition = random.between(1, 6);
  try_tree(random, drawing::misdrawn_tree(random, condition));
  const Comparison made = try_tree(random, tree);
  if (made.second.answer.kind == FLOODNEEDLE_REFUSED) return;
  Loan loan;
  loan.table = made.left.into.content();
  hold("a tree's model is accepted", try_call(calls::accept, loan).engine.answer.kind == FLOODNEEDLE_DONE, where);
  hold("a tree's model passes the test", try_call(calls::orderly, loan).engine.answer.kind == FLOODNEEDLE_DONE, where);
  try_call(calls::confluent, loan);
  loan.out = drawing::noise_bytes(random, second::max_text);
  try_call(calls::write, loan);
  const Drawn drawn(*second::model_of_image(lent(loan.table)));
  try_walk(random, loan.table, drawn);
  try_simulation(random, loan.table, drawn);
  try_draws(random, loan.table, drawn);
}

// A model that lacks rows of inputs is repaired, then checked, repaired again and written.
void try_repairs(Random& random, const Drawn& drawn) {
  const Drawn deaf(random.chance(80) ? drawing::deaf(random, drawn.model) : drawing::deaf_at_a_limit(random));
  Loan loan;
  loan.table = drawing::lengthened(random, random.chance(95) ? deaf.table : second::damaged_table(random, deaf.table));
  loan.out = drawing::list_room(random, deaf);
  const Comparison made = try_call(calls::repair, loan);
  if (made.second.answer.kind == FLOODNEEDLE_REFUSED) return;
  loan.table = made.left.table.content();
  loan.number = random.below(deaf.model.components.size());
  for (const Call* call : {&calls::recognise, &calls::accept, &calls::component, &calls::repair}) try_call(*call, loan);
  loan.out = drawing::noise_bytes(random, second::max_text);
  try_call(calls::write, loan);
}

// ---- sequences: each call on what the call before has left

bool refused(const Comparison& made) { return made.second.answer.kind == FLOODNEEDLE_REFUSED; }

// Some components are merged, one pair after the other.
Table merged(Random& random, Table table) {
  for (unsigned turn = 0; turn < 3 && random.chance(60); ++turn) {
    Loan loan;
    loan.table = table;
    loan.number = table[0] > 1 && random.chance(90) ? random.below(table[0] - 1) : random.below(table[0] + 1);
    loan.into = drawing::room(random);
    const Comparison made = try_call(calls::merge, loan);
    if (refused(made)) break;
    table = made.left.into.content();
  }
  return table;
}

// Settling and timed steps in turn, with new samples for the clocks reset; a lent step after the first settling.
void try_run(Random& random, const Table& table) {
  Loan loan;
  loan.table = table;
  const auto model = second::model_of_image(lent(table));
  const Drawn drawn(model ? *model : second::Model{{second::Component{}}});
  if (model)
    for (const second::Component& component : model->components) loan.state.push_back(static_cast<std::uint8_t>(component.start));
  loan.clocks = drawing::clocks(random, drawn, loan.state);
  loan.number = random.between(1, 64);
  loan.out = drawing::noise_bytes(random, 64);
  const std::uint64_t span = random.chance(70) ? 1000 : second::tick_bound;
  for (unsigned turn = 0; turn < 6; ++turn) {
    if (random.chance(3)) loan.state = drawing::odd_state(random, drawn);
    Comparison made = try_call(calls::settle, loan);
    const std::size_t parts = loan.state.size();
    std::uint64_t resets = made.second.answer.resets;
    if (!refused(made)) loan.state.assign(made.second.after.begin(), made.second.after.begin() + parts);
    loan.out = made.left.out.content();
    if (turn == 0) {
      const Comparison stepped = try_call(calls::advance, loan);
      if (!refused(stepped)) loan.state = stepped.left.state.content();
      resets |= stepped.second.answer.resets;
    }
    made = try_call(calls::timed_step, loan);
    if (made.second.answer.kind != FLOODNEEDLE_FIRED) break;
    loan.state.assign(made.second.after.begin(), made.second.after.begin() + parts);
    loan.clocks = made.left.clocks.content();
    for (unsigned x = 0; x < loan.clocks.size(); ++x)
      if (second::has(made.second.answer.resets | resets, x)) loan.clocks[x] = 1 + static_cast<std::int64_t>(random.next() % span);
  }
}

// Read a text, merge some components, settle and take timed steps, write, read again. A word of the table, the text or the state is
// damaged on the way at times.
void try_sequence(Random& random, const std::string& text) {
  Loan loan;
  loan.bytes = drawing::bytes_of(random.chance(90) ? text : second::damaged_text(random, text));
  loan.into = drawing::room(random);
  Comparison made = try_call(calls::read, loan);
  if (refused(made)) return;
  Table table = merged(random, made.left.into.content());
  if (random.chance(5)) table = second::damaged_table(random, table);
  try_run(random, table);

  loan = Loan{};
  loan.table = table;
  loan.out = drawing::noise_bytes(random, second::max_text);
  made = try_call(calls::write, loan);
  if (refused(made)) return;
  Bytes written = made.left.out.content();
  written.resize(made.second.answer.count);
  try_text(written, Table(second::image_words));
}

// Reports are lent a buffer of a megabyte, which takes its time: one for every fourth model.
void try_report(Random& random, const Drawn& drawn) {
  const Bytes state = drawing::odd_state(random, drawn);
  const std::uint64_t budget = drawing::budget(random);
  std::string request = second::request_line(state, budget > 99999 ? 99999 : budget);
  std::string behind = drawn.text;
  if (random.chance(30)) behind = second::damaged_text(random, behind);
  if (random.chance(30)) request = second::damaged_request(random, request);
  Loan loan;
  loan.bytes = drawing::bytes_of(request + behind);
  loan.out = Bytes(FLOODNEEDLE_REPORT - 1 + random.below(9), 0x77);
  try_call(calls::report, loan);
}

void try_nonsense(Random& random) {
  const std::size_t bytes = random.below(300);
  const Bytes nonsense = drawing::noise_bytes(random, bytes);
  try_text(nonsense, drawing::odd_room(random));
  try_tree(random, std::string(nonsense.begin(), nonsense.end()));
  Loan loan;
  loan.table = drawing::noise(random, second::image_words);
  try_call(calls::recognise, loan);
}

}  // namespace

void try_input(std::uint64_t seed, std::uint64_t index) {
  where = "seed " + std::to_string(seed) + ", model " + std::to_string(index);
  Random random(seed * 0x9e3779b97f4a7c15u + index);
  const Drawn drawn(drawing::model(random));
  try_texts(random, drawn.text);
  try_calls(random, drawing::lengthened(random, drawn.table), drawn);
  const Table damaged = second::damaged_table(random, drawn.table);
  try_calls(random, drawing::lengthened(random, damaged), drawn);
  try_sequence(random, drawn.text);
  try_explanations(random, drawing::lengthened(random, drawn.table), drawn);
  try_names(random, drawn);
  try_default_names(random, drawn);
  try_repairs(random, drawn);
  try_plant(random);
  try_not_alone(random);
  try_trees(random);
  if (index % 4 == 0) try_report(random, drawn);
  if (index % 16 == 0) try_nonsense(random);
  for (unsigned n = 0; n < aims_for_a_model; ++n) {
    const Aim& aim = all_aims()[(aims_for_a_model * index + n) % all_aims().size()];
    try_call(*aim.call, aimed(random, aim));
  }
  try_alike(random, drawn, where);
}
