#include "aims.hpp"

#include <cstdlib>

#include "damage.hpp"
#include "drawing.hpp"
#include "text_writing.hpp"

namespace {

using drawing::Drawn;
using second::Family;
using second::Model;
using second::Random;

constexpr unsigned tries = 60;

// What is drawn goes by the refusal's number, where the outcome is one, and else by the kind of answer.
unsigned number_of(const Aim& aim) { return static_cast<unsigned>(std::atoi(aim.outcome.c_str())); }

bool within(unsigned number, unsigned low, unsigned high) { return low <= number && number <= high; }

bool simulates(const Call* call) { return call == &calls::simulate || call == &calls::simulate_drawn; }
// The calls that take models which pass either test, and the new test itself.
bool settles_either(const Call* call) { return call == &calls::settle_after || call == &calls::settle_list_after || simulates(call); }
bool walks(const Call* call) { return call == &calls::settle_after || call == &calls::settle_list_after; }

bool explains(const Call* call) { return call == &calls::explain || call == &calls::explain_table; }

Model model_for(Random& random, const Aim& aim) {
  const unsigned number = number_of(aim);
  const auto size = drawing::size(random);
  if (number == 45 || (number == 18 && (settles_either(aim.call) || aim.call == &calls::orderly))) {
    const Model closed = second::generate(random, Family::orderly, size);
    return number == 45 ? drawing::opened(random, closed) : drawing::turned(random, closed);
  }
  if (within(number, 10, 18)) return second::generate_failing(random, number, size);
  if (explains(aim.call) && aim.outcome.compare(0, 5, "clash") == 0)
    return random.chance(50) ? second::generate(random, Family::clashing, size) : second::generate_failing(random, 18, size);
  if (aim.call == &calls::repair && aim.outcome != "nothing")
    return number == 26 || random.chance(20) ? drawing::deaf_at_a_limit(random) : drawing::deaf(random, drawing::model(random));
  if (number == 26) return second::generate(random, second::families[random.below(9)], second::Size::large);
  const bool rarely_42 = number == 42 && aim.outcome == "42" && random.chance(50);
  if (simulates(aim.call) && !rarely_42) return second::generate_plant(random, size);
  // What comes behind 18 in one call comes before it in another, so all of these are confluent.
  static const std::vector<Family> settling = {Family::confluent, Family::endless, Family::sharing};
  static const std::vector<Family> timing = {Family::confluent, Family::sharing};
  if ((walks(aim.call) || aim.call == &calls::orderly) && random.chance(60)) return second::generate(random, Family::orderly, size);
  const bool no_endless = number == 19 || within(number, 28, 30) || aim.call == &calls::timed_step;
  return second::generate(random, random.pick(no_endless ? timing : settling), size);
}

std::string too_long(Random& random, std::string text) {
  if (random.chance(30)) return second::text_of_model(second::generate_overlong(random));
  const std::size_t length = second::max_text + (random.chance(50) ? 1 : 1 + random.below(3000));
  const std::string whole = text;
  while (text.size() < length) text += whole;
  if (random.chance(50)) text.resize(length);
  return text;
}

// A component or a row more than there may be: 7, at that line. It has no image.
std::string too_many(Random& random, std::string text) {
  if (random.chance(50)) {
    for (unsigned c = 0; c <= second::max_components; ++c) text += "comp\t1\t0\n";
    return text;
  }
  Model full = second::generate(random, Family::rows_1024, second::Size::small);
  second::Component& last = full.components.back();
  second::Row again = last.rows.back();
  last.clocks |= 1;
  again.resets |= 1;
  last.rows.push_back(again);
  return second::text_of_model(full);
}

std::string text_for(Random& random, unsigned number) {
  const std::string text = Drawn(drawing::model(random)).text;
  switch (number) {
    case 1: return too_long(random, text);
    case 7: return too_many(random, text);
    case 8: return "";
    default: break;
  }
  if (!within(number, 2, 6)) return text;
  return random.chance(30) ? drawing::misfit_text(random, text) : second::damaged_text(random, text);
}

// A text of the second form; for 26 one that is short enough by names of one letter, of which the old text is not.
std::string named_for(Random& random, unsigned number) {
  const Drawn drawn(drawing::model(random));
  const std::string text = second::generate_named(random, drawn.model);
  switch (number) {
    case 1: return too_long(random, text);
    case 8: return random.chance(50) ? "" : "form\t2\n";
    case 7: return drawing::crowded_names(random);
    case 26: return drawing::lengthy_names(random);
    default: break;
  }
  if (!within(number, 2, 6) && !within(number, 43, 44)) return text;
  return random.chance(50) ? second::generate_odd_named(random, drawn.model) : second::damaged_named(random, text);
}

std::string tree_for(Random& random, const Aim& aim) {
  const unsigned number = number_of(aim);
  const auto size = number == 48 ? second::Size::large : drawing::size(random);
  if (number == 47) return drawing::misdrawn_tree(random, static_cast<unsigned>(aim.outcome.back() - '0'));
  return within(number, 2, 6) ? second::generate_odd_tree(random, size) : second::generate_tree(random, size);
}

Bytes state_for(Random& random, unsigned number, const Drawn& drawn) {
  switch (number) {
    case 19: return drawing::unreached_state(random, drawn);
    case 21: return second::generate_odd_state(random, drawn.model);
    default: return drawing::state(random, drawn);
  }
}

// The program's input: 9 and 1 to 8 by what is wrong with it, the rest by its model, state and budget.
Bytes input_for(Random& random, const Aim& aim, const Drawn& drawn) {
  const unsigned number = number_of(aim);
  const Bytes state = state_for(random, number, drawn);
  const std::uint64_t budget = number == 22 ? second::max_budget + 1 + random.below(90000) : second::generate_budget(random);
  std::string request = second::request_line(state, budget);
  if (number == 9) request = second::damaged_request(random, request);
  return drawing::bytes_of(request + (within(number, 1, 8) ? text_for(random, number) : drawn.text));
}

std::uint64_t number_for(Random& random, const Aim& aim, const Drawn& drawn, const Bytes& list) {
  const unsigned number = number_of(aim);
  if (aim.call == &calls::merge || aim.call == &calls::component)
    return number == 25 ? second::generate_index(random, drawn.model) : random.below(drawn.model.components.size());
  if (aim.call == &calls::step_by) return number == 23 ? random.below(second::members) : drawing::action(random, list);
  if (number == 22) return second::generate_odd_budget(random);
  return number == 24 ? 1 + random.below(second::max_budget) : second::generate_budget(random);
}

// What each call writes, a little too short for 24.
Bytes out_for(Random& random, const Aim& aim, const Drawn& drawn, std::uint64_t number) {
  const bool is_short = number_of(aim) == 24;
  const std::size_t need = aim.call == &calls::write    ? drawn.text.size()
                           : aim.call == &calls::repair ? 3 * second::lacking_rows(drawn.model).size()
                           : number <= second::max_budget ? number : 0;
  const std::size_t bytes = !is_short ? need + random.below(9) : need > 0 ? need - 1 - random.below(need) : 0;
  return drawing::noise_bytes(random, bytes);
}

// A simulation of the table that is lent already.
void lend_simulation(Random& random, const Aim& aim, const Drawn& drawn, Loan& loan) {
  const unsigned number = number_of(aim);
  loan.number = number == 22 ? drawing::odd_rounds(random) : drawing::rounds(random);
  if (aim.call == &calls::simulate_drawn) {
    loan.bytes = number == 49 ? drawing::odd_laws(random, drawn) : drawing::laws(random, drawn);
    loan.numbers = drawing::numbers(random, loan.number);
  } else
    loan.bytes = number == 40 ? drawing::odd_samples(random, drawn, loan.number) : drawing::samples(random, drawn, loan.number);
  loan.clocks = number == 28 ? drawing::odd_values(random) : drawing::values(random);
}

// Settling after a path, of the table that is lent already.
void lend_walk(Random& random, const Aim& aim, const Drawn& drawn, Loan& loan) {
  const unsigned number = number_of(aim);
  loan.path = aim.outcome == "22 of the path" ? drawing::long_path(random, drawn)
              : number == 46                  ? drawing::odd_path(random, drawn)
                                              : drawing::path(random, drawn);
  const Bytes state = drawing::after_path(drawn, loan.path);
  const bool odd = within(number, 22, 23) && !state.empty();
  loan.bytes = odd ? second::generate_odd_list(random, drawn.model, state) : drawing::list(random, drawn, state);
  loan.number = number_for(random, aim, drawn, loan.bytes);
  loan.out = out_for(random, aim, drawn, loan.number);
}

Loan loan_for(Random& random, const Aim& aim, const Drawn& drawn) {
  const unsigned number = number_of(aim);
  Loan loan;
  if (aim.call == &calls::report) {
    loan.bytes = input_for(random, aim, drawn);
    loan.out = Bytes(number == 24 ? FLOODNEEDLE_REPORT - 1 - random.below(9) : FLOODNEEDLE_REPORT + random.below(9), 0x77);
    return loan;
  }
  if (aim.call == &calls::to_names || aim.call == &calls::to_numbers) {
    const bool old = aim.call == &calls::to_names;
    const std::string text = !old ? named_for(random, number) : number == 26 ? drawing::lengthy_old(random) : text_for(random, number);
    loan.bytes = drawing::bytes_of(text);
    loan.out = drawing::noise_bytes(random, number == 24 ? random.below(9) : 40000 + random.below(9));
    return loan;
  }
  if (explains(aim.call)) {
    loan.bytes = drawing::bytes_of(within(number, 1, 8) ? text_for(random, number) : drawn.text);
    loan.table = drawing::lengthened(random, number == 20 ? second::damaged_table(random, drawn.table) : drawn.table);
    loan.out = drawing::noise_bytes(random, number == 24 ? FLOODNEEDLE_EXPLANATION - 1 - random.below(9) : FLOODNEEDLE_EXPLANATION + random.below(9));
    return loan;
  }
  loan.into = number == 24 ? drawing::noise(random, second::image_words - 1 - random.below(9)) : drawing::room(random);
  if (aim.call == &calls::check_text || aim.call == &calls::read) {
    loan.bytes = drawing::bytes_of(text_for(random, number));
    return loan;
  }
  if (aim.call == &calls::read_tree) {
    loan.bytes = drawing::bytes_of(tree_for(random, aim));
    return loan;
  }
  const Table table = number == 20 ? second::damaged_table(random, drawn.table) : drawn.table;
  loan.table = drawing::lengthened(random, table);
  if (simulates(aim.call)) {
    lend_simulation(random, aim, drawn, loan);
    return loan;
  }
  if (walks(aim.call)) {
    lend_walk(random, aim, drawn, loan);
    return loan;
  }
  loan.state = state_for(random, number, drawn);
  loan.bytes = within(number, 22, 23) ? second::generate_odd_list(random, drawn.model, loan.state) : drawing::list(random, drawn, loan.state);
  loan.number = number_for(random, aim, drawn, loan.bytes);
  loan.out = out_for(random, aim, drawn, loan.number);
  loan.clocks = within(number, 28, 30) ? drawing::odd_clocks(random, drawn, loan.state) : drawing::clocks(random, drawn, loan.state);
  return loan;
}

bool hits(const Aim& aim, const Loan& loan) {
  Kept kept(loan);
  const Lent lent = kept.lent();
  const Said said = aim.call->second(lent);
  return aim.call->outcome(said, lent) == aim.outcome;
}

}  // namespace

const std::vector<Aim>& all_aims() {
  static const std::vector<Aim> aims = [] {
    std::vector<Aim> list;
    for (const Call* call : calls::all)
      for (const std::string& outcome : call->outcomes) list.push_back({call, outcome});
    return list;
  }();
  return aims;
}

Loan aimed(Random& random, const Aim& aim) {
  for (unsigned left = tries;; --left) {
    const Drawn drawn(model_for(random, aim));
    // A model costs more than what is lent beside it.
    for (unsigned again = 0; again < 4; ++again) {
      Loan loan = loan_for(random, aim, drawn);
      if (left == 0 || hits(aim, loan)) return loan;
    }
  }
}
