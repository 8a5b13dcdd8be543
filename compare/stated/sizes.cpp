// Every size that the header defines, held to the engine by what it answers there and one further. The Makefile lists them from the header
// (sizes.inc): a size without a test here does not compile, nor does a test of a size that is gone.
#include "stated.hpp"
#include "text_cases.hpp"
#include "text_writing.hpp"

namespace {

Loan with_front(Loan loan, const Table& front) {
  std::copy(front.begin(), front.end(), loan.into.begin());
  return loan;
}

Bytes repeated_bytes(const Bytes& piece, std::uint64_t times) {
  Bytes bytes;
  for (std::uint64_t t = 0; t < times; ++t) bytes.insert(bytes.end(), piece.begin(), piece.end());
  return bytes;
}

// A text of so many lines, each alike, behind a head: done, and one line more is refused.
void most_lines(const Text& head, const Text& line, std::uint64_t most, unsigned number, std::uint64_t place) {
  Loan loan;
  loan.bytes = bytes_of(head + repeated(line, most));
  expect("as many as there may be", calls::check_text, loan, done());
  loan.bytes = bytes_of(head + repeated(line, most + 1));
  expect("one more", calls::check_text, loan, refused(number, {place}));
}

void COMPONENTS() { most_lines("", tabbed("comp 2 1\n"), FLOODNEEDLE_COMPONENTS, 7, FLOODNEEDLE_COMPONENTS + 1); }

void STATES() {
  const std::uint64_t states = FLOODNEEDLE_STATES;
  Loan loan;
  loan.bytes = bytes_of(tabbed("comp " + std::to_string(states) + " " + std::to_string(states - 1) + "\n"));
  expect("as many states as there may be", calls::check_text, loan, done());
  loan.bytes = bytes_of(tabbed("comp " + std::to_string(states + 1) + " 0\n"));
  expect("a state more", calls::check_text, loan, refused(4, {1, 6}));
}

// Rows that differ by their clock and their target alone: 63 clocks, 17 states.
Text rows(std::uint64_t count) {
  Text text = "comp 17 0\nact 0 out\n";
  for (unsigned x = 0; x < 63; ++x) text += "clk " + std::to_string(x) + " 0\n";
  for (std::uint64_t r = 0; r < count; ++r)
    text += "row " + std::to_string(r / 63) + " " + std::to_string(r % 63) + " 0 - 0\n";
  return tabbed(text);
}

void ROWS() {
  const std::uint64_t most = FLOODNEEDLE_ROWS;
  Loan loan;
  loan.bytes = bytes_of(rows(most));
  expect("as many rows as there may be", calls::check_text, loan, done());
  loan.bytes = bytes_of(rows(most + 1));
  expect("a row more", calls::check_text, loan, refused(7, {2 + 63 + most + 1}));
}

// The second component of M has three states: the first word of its block.
void BLOCK() {
  Table changed = image(m);
  expect("M", calls::recognise, lent_table(changed), done());
  changed[1 + FLOODNEEDLE_BLOCK] = 1;
  expect("the second component with a state, whose rows leave others", calls::recognise, lent_table(changed), refused(20, {0}));
  changed[1 + FLOODNEEDLE_BLOCK] = 3;
  expect("with its three states again", calls::recognise, lent_table(changed), done());
}

void TABLE() {
  const std::uint64_t words = FLOODNEEDLE_TABLE;
  const Table table = image(m);
  const Table merged = image(tabbed(
      "comp 6 0\nact 0 out\nact 1 uout\nact 2 uout\nclk 0 1\n"
      "row 0 0 0 - 3\nrow 1 0 0 - 4\nrow 1 - 2 - 2\nrow 2 0 0 - 5\nrow 3 - 1 0 1\nrow 4 - 1 0 1\nrow 4 - 2 - 5\nrow 5 - 1 0 2\n"));
  Loan read, merge = lent_table(table);
  read.bytes = bytes_of(m);
  read.into = merge.into = Table(words - 1, 0x77);
  expect("a table of a word less, read into", calls::read, read, refused(24, {8 * words}));
  expect("a table of a word less, merged into", calls::merge, merge, refused(24, {8 * words}));
  read.into = merge.into = Table(words, 0x77);
  expect("a table, read into", calls::read, read, done(), with_front(read, table));
  expect("a table, merged into", calls::merge, merge, done(), with_front(merge, merged));
  Table lent = table;
  lent.resize(words);
  expect("a table, read from", calls::recognise, lent_table(lent), done());
  lent.pop_back();
  expect("a table of a word less, read from", calls::recognise, lent_table(lent), refused(20, {0}));
}

void TEXT() {
  const std::uint64_t bytes = FLOODNEEDLE_TEXT;
  const second::Model longest = cases::padded_to(bytes);
  const Text text = second::text_of_model(longest);
  Loan loan;
  loan.bytes = bytes_of(text);
  expect("the longest text", calls::check_text, loan, done());
  loan.bytes.push_back('\n');
  expect("a byte more", calls::check_text, loan, refused(1, {0}));
  loan = lent_table(second::image_of_model(longest));
  loan.out = Bytes(bytes, 0x77);
  Loan left = loan;
  left.out = bytes_of(text);
  expect("room for the longest text", calls::write, loan, done(bytes), left);
}

void STATE() {
  const std::uint64_t parts = FLOODNEEDLE_STATE;
  const Text component = tabbed("comp 2 1\n");
  most_lines("", component, parts, 7, parts + 1);
  // Every byte of the state after is written, and none behind it.
  const Bytes ones(parts, 1);
  const Table table = image(repeated(component, parts));
  expect("as many parts as there can be", calls::step, lent_state(table, ones), stable(ones));
  expect("a part more", calls::step, lent_state(table, Bytes(parts + 1, 1)), refused(21, {0}));
}

void BUDGET() {
  const std::uint64_t most = FLOODNEEDLE_BUDGET;
  const Table loop = image(tabbed("comp 1 0\nact 3 uout\nrow 0 - 3 - 0\n"));
  const Said unsettled = settled(FLOODNEEDLE_UNSETTLED, most, 0, {0});
  Loan loan = lent_state(loop, {0});
  loan.number = most;
  loan.out = Bytes(most - 1, 0x77);
  expect("the largest budget, a trace of a byte less", calls::settle, loan, refused(24, {most}));
  loan.out = Bytes(most, 0x77);
  Loan left = loan;
  left.out = Bytes(most, 3);
  expect("the largest budget", calls::settle, loan, unsettled, left);
  loan.number = most + 1;
  loan.out = Bytes(most + 1, 0x77);
  expect("a budget of one more", calls::settle, loan, refused(22, {0}));
  loan.bytes = Bytes(most, 3);
  expect("the longest list", calls::settle_list, loan, unsettled);
  loan.bytes.push_back(3);
  expect("a list of one more", calls::settle_list, loan, refused(22, {0}));
  // Steps of a path, two bytes each.
  loan.path = repeated_bytes({3, 0}, most);
  loan.number = 0;
  loan.bytes.clear();
  expect("the longest path", calls::settle_after, loan, settled(FLOODNEEDLE_UNSETTLED, 0, 0, {0}));
  expect("the longest path, by list", calls::settle_list_after, loan, settled(FLOODNEEDLE_UNSETTLED, 0, 0, {0}));
  loan.path.push_back(3);
  for (const Call* call : {&calls::settle_after, &calls::settle_list_after}) expect("a path of a byte more", *call, loan, refused(22, {0}));
  // Rounds of a simulation; here no clock is waited for.
  loan = lent_table(image(tabbed("comp 1 0\n")));
  loan.clocks = Clocks(FLOODNEEDLE_CLOCKS, 5);
  loan.number = most;
  expect("the most rounds", calls::simulate, loan, done());
  loan.number = most + 1;
  expect("a round more", calls::simulate, loan, refused(22, {0}));
}

void CLOCKS() {
  const std::uint64_t values = FLOODNEEDLE_CLOCKS;
  Loan loan = lent_state(image(m), {0, 0});
  for (std::uint64_t wrong : {values - 1, values + 1}) {
    loan.clocks = Clocks(wrong, 5);
    expect("another number of clock values", calls::timed_step, loan, refused(28, {0}));
    expect("another number of clock values", calls::simulate, loan, refused(28, {0}));
  }
  loan.clocks = Clocks(values, 5);
  Loan left = loan;
  left.clocks[0] = 0;
  expect("the number of clock values", calls::timed_step, loan, fired(5, 0, 0, {1, 0}), left);
}

// The longest report fills this: stated/requests.cpp.
void REPORT() {
  const std::uint64_t bytes = FLOODNEEDLE_REPORT;
  const std::string report = "refused\t9\t0\n";
  Loan loan;
  loan.out = Bytes(bytes - 1, 0x77);
  expect("room for a report, less a byte", calls::report, loan, refused(24, {bytes}));
  loan.out = Bytes(bytes, 0x77);
  Loan left = loan;
  std::copy(report.begin(), report.end(), left.out.begin());
  expect("room for a report", calls::report, loan, done(report.size()), left);
}

// An upper bound: stated/explanations.cpp has one that comes near.
void EXPLANATION() {
  const std::uint64_t bytes = FLOODNEEDLE_EXPLANATION;
  const std::string confluent = "confluent\n";
  Loan loan = lent_table(image(m));
  loan.bytes = bytes_of(m);
  for (const Call* call : {&calls::explain, &calls::explain_table}) {
    loan.out = Bytes(bytes - 1, 0x77);
    expect("room for an explanation, less a byte", *call, loan, refused(24, {bytes}));
    loan.out = Bytes(bytes, 0x77);
    Loan left = loan;
    std::copy(confluent.begin(), confluent.end(), left.out.begin());
    expect("room for an explanation", *call, loan, done(confluent.size()), left);
  }
}

// No number with a #define: 18 fills every place that an answer has.
void places() {
  const Table clash = image(with(m, "row 1 - 2 - 2", "row 1 - 2 - 0"));
  Said full = refused(18, {1, 1, 1, 2});
  full.answer.places = sizeof full.answer.place / sizeof full.answer.place[0];
  expect("as many values as places", calls::confluent, lent_table(clash), full);
}

}  // namespace

void stated_sizes() {
#define SIZE(name) name();
#include "sizes.inc"
#undef SIZE
  places();
}
