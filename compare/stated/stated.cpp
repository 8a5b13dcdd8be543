#include "stated.hpp"

namespace {

Said of_kind(floodneedle_kind kind) {
  Said said;
  said.answer.kind = kind;
  return said;
}

Said of_kind(floodneedle_kind kind, const Bytes& after) {
  Said said = of_kind(kind);
  std::copy(after.begin(), after.end(), said.after.begin());
  return said;
}

}  // namespace

void try_stated() {
  stated_paper();
  stated_texts();
  stated_tables();
  stated_models();
  stated_components();
  stated_runs();
  stated_reached();
  stated_orderly();
  stated_trees();
  stated_clocks();
  stated_simulations();
  stated_draws();
  stated_merges();
  stated_repairs();
  stated_requests();
  stated_explanations();
  stated_names();
  stated_sizes();
}

Said refused(std::uint64_t number, std::initializer_list<std::uint64_t> place) {
  Said said = of_kind(FLOODNEEDLE_REFUSED);
  said.answer.number = number;
  for (std::uint64_t value : place) said.answer.place[said.answer.places++] = value;
  return said;
}

Said done(std::uint64_t count) {
  Said said = of_kind(FLOODNEEDLE_DONE);
  said.answer.count = count;
  return said;
}

Said moved(std::uint64_t action, std::uint64_t resets, const Bytes& after) {
  Said said = of_kind(FLOODNEEDLE_MOVED, after);
  said.answer.action = action;
  said.answer.resets = resets;
  return said;
}

Said stable(const Bytes& after) { return of_kind(FLOODNEEDLE_STABLE, after); }

Said settled(floodneedle_kind verdict, std::uint64_t steps, std::uint64_t resets, const Bytes& after) {
  Said said = of_kind(verdict, after);
  said.answer.count = steps;
  said.answer.resets = resets;
  return said;
}

Said fired(std::uint64_t ticks, std::uint64_t action, std::uint64_t resets, const Bytes& after) {
  Said said = of_kind(FLOODNEEDLE_FIRED, after);
  said.answer.ticks = ticks;
  said.answer.action = action;
  said.answer.resets = resets;
  return said;
}

Said quiet(const Bytes& after) { return of_kind(FLOODNEEDLE_QUIET, after); }

Table image(const Text& text) {
  Table table(second::image_words);
  const Bytes bytes = bytes_of(text);
  if (second::read(lent(bytes), {table.data(), table.size()}).refusal) table.clear();
  return table;
}

Bytes bytes_of(const Text& text) { return Bytes(text.begin(), text.end()); }

Text with(Text text, const Text& piece, const Text& other) {
  const std::size_t at = text.find(tabbed(piece));
  return at == Text::npos ? Text() : text.replace(at, piece.size(), tabbed(other));
}

Text repeated(const Text& piece, unsigned times) {
  Text text;
  for (unsigned t = 0; t < times; ++t) text += piece;
  return text;
}

Loan lent_table(const Table& table) {
  Loan loan;
  loan.table = table;
  return loan;
}

Loan lent_state(const Table& table, const Bytes& state) {
  Loan loan = lent_table(table);
  loan.state = state;
  return loan;
}

std::string printed(const second::Refusal& refusal) {
  std::string line = "refused\t" + std::to_string(refusal.number);
  for (std::uint64_t p = 0; p < refusal.places; ++p) line += (p == 0 ? "\t" : ",") + std::to_string(refusal.place[p]);
  return line + "\n";
}

void expect_report(const std::string& input, const std::string& report) {
  const std::string why = "the input " + input.substr(0, 100);
  Loan loan;
  loan.bytes = bytes_of(input);
  loan.out = Bytes(report_bytes + 3, 0x77);
  Loan left = loan;
  std::copy(report.begin(), report.end(), left.out.begin());
  expect(why, calls::report, loan, done(report.size()), left);
}

void expect_checks(const std::string& why, const Table& table, const Said& accepted, const Said& confluent) {
  Loan loan = lent_table(table);
  loan.number = largest;
  expect(why, calls::accept, loan, accepted);
  expect(why, calls::confluent, loan, confluent);
  // 20 comes before all else, 25 too; of 10 to 17 each call has its own.
  if (accepted.answer.number == 20)
    for (const Call* call : {&calls::component, &calls::compatible}) expect(why, *call, loan, accepted);
  if (accepted.answer.kind == FLOODNEEDLE_REFUSED)
    for (const Call* call : {&calls::step, &calls::step_by, &calls::timed_step, &calls::merge, &calls::advance, &calls::explain_table})
      expect(why, *call, loan, accepted);
  if (confluent.answer.kind == FLOODNEEDLE_REFUSED)
    for (const Call* call : {&calls::settle, &calls::settle_list}) expect(why, *call, loan, confluent);
  for (const Call* call : {&calls::orderly, &calls::settle_after, &calls::settle_list_after, &calls::simulate, &calls::simulate_drawn}) {
    if (accepted.answer.kind == FLOODNEEDLE_REFUSED) expect(why, *call, loan, accepted);
    else compare(Input::stated, *call, loan, why);
  }
}
