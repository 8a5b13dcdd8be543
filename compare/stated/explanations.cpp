// Why a system isn't confluent (paper 02, 5/13): what is printed, to the byte; paths that are long, tie, or would be shorter by rows that do not
// count; steps that are missing; resets that differ alone; and the order of 20, 10 to 17, 24.
#include "model_cases.hpp"
#include "stated.hpp"
#include "text_cases.hpp"

namespace {

Loan explaining(const Text& text, std::uint64_t room) {
  Loan loan;
  loan.bytes = bytes_of(text);
  loan.out = Bytes(room, 0x77);
  return loan;
}

// Just this is printed, in a buffer that is long enough and a longer one.
void expect_printed(const std::string& why, const Call& call, Loan loan, const std::string& printed) {
  for (std::uint64_t more : {0, 3}) {
    loan.out = Bytes(explanation_bytes + more, 0x77);
    Loan left = loan;
    std::copy(printed.begin(), printed.end(), left.out.begin());
    expect(why, call, loan, done(printed.size()), left);
  }
}

void expect_unread(const std::string& why, const Text& text, const std::string& printed) {
  expect_printed(why, calls::explain, explaining(text, 0), printed);
}

// Of an accepted model both calls tell the same. Spaces stand for tabs.
void expect_explained(const std::string& why, const Text& text, const std::string& printed) {
  expect_printed(why, calls::explain, explaining(tabbed(text), 0), tabbed(printed));
  expect_printed(why, calls::explain_table, lent_table(image(tabbed(text))), tabbed(printed));
}

// What paper 02's request is worked out to on P7, and the smallest clash there is.
void stated_answers() {
  const Text p7 = with(m, "row 1 - 2 - 2", "row 1 - 2 - 0");
  expect_explained("P7", p7, "clash 1 1 1 2\npath 0 - 1 - 1\norder 1 - 1 2 - 0\norder 2 - 0 1 - 1\n");
  expect_explained("M", m, "confluent\n");
  expect_explained("both second steps are missing", "comp 3 0\nact 1 uout\nact 2 uout\nrow 0 - 1 - 1\nrow 0 - 2 - 2\n",
                   "clash 0 0 1 2\norder 1 - 1 2 missing\norder 2 - 2 1 missing\n");
  expect_explained("no action", "comp 128 127\n", "confluent\n");
}

// Orders whose second step lacks on one side, or that differ by resets, or by the end, alone.
void orders() {
  const Text two = "comp 4 0\nact 1 uout\nact 2 uout\nclk 0 0\nclk 5 0\n";
  expect_explained("the first order lacks a step", two + "row 0 - 1 - 1\nrow 0 - 2 - 2\nrow 2 - 1 - 3\n",
                   "clash 0 0 1 2\norder 1 - 1 2 missing\norder 2 - 2 1 - 3\n");
  expect_explained("the second order lacks a step", two + "row 0 - 1 - 1\nrow 0 - 2 - 2\nrow 1 - 2 0 3\n",
                   "clash 0 0 1 2\norder 1 - 1 2 0 3\norder 2 - 2 1 missing\n");
  const Text ends = "row 0 - 1 0 1\nrow 0 - 2 5 2\n";
  expect_explained("the ends meet", two + ends + "row 1 - 2 5 3\nrow 2 - 1 0 3\n", "confluent\n");
  expect_explained("the ends differ alone", two + ends + "row 1 - 2 5 3\nrow 2 - 1 0 0\n",
                   "clash 0 0 1 2\norder 1 0 1 2 5 3\norder 2 5 2 1 0 0\n");
  expect_explained("the lower action's resets differ alone", two + ends + "row 1 - 2 5 3\nrow 2 - 1 0,5 3\n",
                   "clash 0 0 1 2\norder 1 0 1 2 5 3\norder 2 5 2 1 0,5 3\n");
  expect_explained("the higher action's resets differ alone", two + ends + "row 1 - 2 - 3\nrow 2 - 1 0 3\n",
                   "clash 0 0 1 2\norder 1 0 1 2 - 3\norder 2 5 2 1 0 3\n");
  // The union of resets is the same in both orders.
  expect_explained("resets exchanged", two + "row 0 - 1 0 1\nrow 0 - 2 0 2\nrow 1 - 2 5 3\nrow 2 - 1 5 3\n",
                   "clash 0 0 1 2\norder 1 0 1 2 5 3\norder 2 0 2 1 5 3\n");
  expect_explained("inputs, which no state lacks", "comp 3 0\nact 62 uin\nact 63 uin\nrow 0 - 62 - 1\nrow 0 - 63 - 2\nrow 1 - 62 - 1\nrow 1 - 63 - 1\n"
                   "row 2 - 62 - 2\nrow 2 - 63 - 2\n",
                   "clash 0 0 62 63\norder 62 - 1 63 - 1\norder 63 - 2 62 - 2\n");
}

// The place is 18's: the first component, the lowest state that counts, the lowest two actions.
void places() {
  const Text clash = "comp 3 0\nact 4 uout\nact 7 uout\nact 9 uout\nrow 0 - 4 - 1\nrow 0 - 7 - 2\nrow 0 - 9 - 2\n";
  const std::string orders = " 0 4 7\norder 4 - 1 7 missing\norder 7 - 2 4 missing\n";
  expect_explained("the lowest two actions", clash, "clash 0" + orders);
  expect_explained("the third component", m + tabbed(clash), "clash 2" + orders);
  expect_explained("the first of two", clash + "comp 3 0\nact 10 uout\nact 11 uout\nrow 0 - 10 - 1\nrow 0 - 11 - 2\n", "clash 0" + orders);
  expect_explained("a lower state that does not count", "comp 4 1\nact 1 uout\nact 2 uout\nrow 0 - 1 - 1\nrow 0 - 2 - 2\nrow 1 - 1 - 3\nrow 3 - 1 - 1\nrow 3 - 2 - 2\n",
                   "clash 0 3 1 2\npath 1 - 1 - 3\norder 1 - 1 2 missing\norder 2 - 2 1 missing\n");
}

// Two urgent outputs, 60 and 61, that part in state s; their rows come last.
const Text parting = "act 60 uout\nact 61 uout\n";
Text part(unsigned s, unsigned one, unsigned other) {
  return "row " + std::to_string(s) + " - 60 - " + std::to_string(one) + "\nrow " + std::to_string(s) + " - 61 - " + std::to_string(other) + "\n";
}

void paths() {
  const Text waits = "act 1 out\nact 2 out\nact 3 uout\n" + parting + "clk 0 1\nclk 1 1\n";
  // Of two paths of two rows the one whose first row comes first, though the other goes by a lower state or ends by an earlier row.
  const std::string orders = "order 60 - 4 61 missing\norder 61 - 5 60 missing\n";
  expect_explained("a tie in the first row", "comp 6 0\n" + waits + "row 0 0 1 0,1 2\nrow 0 1 2 0,1 1\nrow 1 - 3 - 3\nrow 2 - 3 - 3\n" + part(3, 4, 5),
                   "clash 0 3 60 61\npath 0 0 1 0,1 2\npath 2 - 3 - 3\n" + orders);
  expect_explained("a tie of two rows to one state", "comp 6 0\n" + waits + "row 0 1 1 0,1 3\nrow 0 0 2 0,1 3\n" + part(3, 4, 5),
                   "clash 0 3 60 61\npath 0 1 1 0,1 3\n" + orders);
  expect_explained("the second row of an action is nearer", "comp 6 0\n" + waits + "row 0 0 1 0,1 2\nrow 0 1 1 0,1 3\nrow 2 - 3 - 3\n" + part(3, 4, 5),
                   "clash 0 3 60 61\npath 0 1 1 0,1 3\n" + orders);
  expect_explained("the first row leads the long way", "comp 6 0\n" + waits + "row 0 0 1 0,1 1\nrow 0 1 2 0,1 2\nrow 1 - 3 - 2\nrow 2 - 3 - 3\n" + part(3, 4, 5),
                   "clash 0 3 60 61\npath 0 1 2 0,1 2\npath 2 - 3 - 3\n" + orders);
  expect_explained("a tie in the second row", "comp 8 0\n" + waits + "row 0 0 1 0,1 1\nrow 1 0 1 0,1 6\nrow 1 1 2 0,1 2\nrow 2 - 3 - 3\n" + part(3, 4, 5) +
                   "row 6 - 3 - 3\n",
                   "clash 0 3 60 61\npath 0 0 1 0,1 1\npath 1 0 1 0,1 6\npath 6 - 3 - 3\n" + orders);
  expect_explained("a loop at the start", "comp 6 0\n" + waits + "row 0 0 1 0,1 0\nrow 0 1 2 0,1 3\n" + part(3, 4, 5), "clash 0 3 60 61\npath 0 1 2 0,1 3\n" + orders);
  // A row of an input counts though nobody outputs it, and though another component does otherwise: it is the component alone.
  const Text hears = "comp 4 0\nact 1 in\nact 2 uin\n" + parting + "row 0 - 1 - 1\nrow 0 - 2 - 0\nrow 1 - 1 - 1\nrow 1 - 2 - 1\n" + "row 1 - 60 - 2\nrow 1 - 61 - 3\n" +
                     "row 2 - 1 - 2\nrow 2 - 2 - 2\nrow 3 - 1 - 3\nrow 3 - 2 - 3\n";
  const std::string heard = " 1 60 61\npath 0 - 1 - 1\norder 60 - 2 61 missing\norder 61 - 3 60 missing\n";
  expect_explained("an input that nobody outputs", hears, "clash 0" + heard);
  expect_explained("an input that is never output", "comp 1 0\nact 1 out\n" + hears, "clash 1" + heard);
}

// Rows of the state left that are urgent count always; others only where no urgent output leaves it.
void rows_that_do_not_count() {
  const std::string orders = "order 60 - 3 61 missing\norder 61 - 4 60 missing\n";
  const Text more = "row 3 - 2 - 3\nrow 4 - 2 - 4\n";
  const Text head = "comp 5 0\nact 1 uout\nact 2 in\n" + parting;
  const Text parted = "row 2 - 2 - 2\n" + part(2, 3, 4);
  expect_explained("an input of an unstable state", head + "row 0 - 1 - 1\nrow 0 - 2 - 2\nrow 1 - 1 - 2\nrow 1 - 2 - 1\n" + parted + more,
                   "clash 0 2 60 61\npath 0 - 1 - 1\npath 1 - 1 - 2\n" + orders);
  expect_explained("the same of a stable one", head + "row 0 - 2 - 2\nrow 1 - 1 - 2\nrow 1 - 2 - 1\n" + parted + more, "clash 0 2 60 61\npath 0 - 2 - 2\n" + orders);
  expect_explained("an urgent input of an unstable state",
                   "comp 5 0\nact 1 uout\nact 2 uin\n" + parting + "row 0 - 1 - 0\nrow 0 - 2 - 2\nrow 1 - 2 - 1\nrow 2 - 1 - 2\nrow 2 - 2 - 2\n" + part(2, 3, 4) + more,
                   "clash 0 2 1 60\npath 0 - 2 - 2\norder 1 - 2 60 - 3\norder 60 - 3 1 missing\n");
  const Text timed = "comp 5 0\nact 1 uout\nact 2 out\n" + parting + "clk 0 1\n";
  expect_explained("an output of an unstable state", timed + "row 0 - 1 - 1\nrow 0 0 2 0 2\nrow 1 - 1 - 2\n" + part(2, 3, 4),
                   "clash 0 2 60 61\npath 0 - 1 - 1\npath 1 - 1 - 2\n" + orders);
  expect_explained("the same of a stable one", timed + "row 0 0 2 0 2\nrow 1 - 1 - 2\n" + part(2, 3, 4), "clash 0 2 60 61\npath 0 0 2 0 2\n" + orders);
}

std::string all_clocks() {
  std::string set = "0";
  for (unsigned x = 1; x < 64; ++x) set += "," + std::to_string(x);
  return set;
}

// As many rows as a path can have, one less than there are states: by urgent rows, and by timed ones that are as wide as they can be.
void long_paths() {
  std::string rows, path;
  for (unsigned s = 0; s < 127; ++s) {
    const std::string rest = std::to_string(s) + " - 1 - " + std::to_string(s + 1) + "\n";
    rows += "row " + rest;
    path += "path " + rest;
  }
  expect_explained("127 urgent rows", "comp 128 0\nact 1 uout\nact 2 uout\n" + rows + "row 127 - 1 - 0\nrow 127 - 2 - 1\n",
                   "clash 0 127 1 2\n" + path + "order 1 - 0 2 missing\norder 2 - 1 1 - 2\n");
  const std::string all = all_clocks();
  Text text = "comp 128 0\nact 10 out\nact 62 uout\nact 63 uout\n";
  for (unsigned x = 0; x < 64; ++x) text += "clk " + std::to_string(x) + " 1\n";
  path.clear();
  for (unsigned s = 0; s < 127; ++s) {
    const std::string rest = std::to_string(s) + " 63 10 " + all + " " + std::to_string(s + 1) + "\n";
    text += "row " + rest;
    path += "path " + rest;
  }
  text += "row 127 - 62 " + all + " 126\nrow 127 - 63 " + all + " 127\n";
  expect_explained("127 timed rows that reset all clocks", text,
                   "clash 0 127 62 63\n" + path + "order 62 " + all + " 126 63 missing\norder 63 " + all + " 127 62 " + all + " 126\n");
}

// What reading and acceptance refuse is a line of `explain`; the call on a table refuses what acceptance refuses. Lines count from the text's first.
void refusals() {
  for (const cases::TextCase& entry : cases::text_cases)
    if (entry.number > 0) expect_unread("the text " + entry.text.substr(0, 100), tabbed(entry.text), printed(refusal_of(entry)));
  for (const cases::ModelCase& entry : cases::model_cases) {
    if (!entry.refusal || entry.refusal.number == 18) continue;
    expect_unread(entry.why, tabbed(entry.text), printed(entry.refusal));
  }
  expect_unread("1", Text(32769, 'x'), "refused\t1\t0\n");
  expect_unread("1, whatever stands there", m + Text(32769, 'x'), "refused\t1\t0\n");
  expect_unread("2", Text(32768, 'x'), "refused\t2\t1,1\n");
  expect_unread("8", "", "refused\t8\t0\n");
  expect_unread("a request line is none of the text", tabbed("from 1,0 100\n") + m, "refused\t2\t1,1\n");
  Table wrong = image(m);
  wrong.back() = 1;
  Loan loan = lent_table(wrong);
  for (std::uint64_t room : {std::uint64_t{0}, explanation_bytes - 1, explanation_bytes}) {
    loan.out = Bytes(room, 0x77);
    loan.table = wrong;
    expect("20 before 24", calls::explain_table, loan, refused(20, {0}));
    loan.table = image(tabbed("comp 1 0\nact 0 in\n"));
    expect("12 before 24", calls::explain_table, loan, refused(12, {0, 0, 0}));
  }
  // 24 whatever the input: the need is one for all.
  for (const Text& text : {Text(), m, Text("x")})
    for (std::uint64_t room : {std::uint64_t{0}, std::uint64_t{9}, explanation_bytes - 1}) {
      loan = explaining(text, room);
      loan.table = image(m);
      for (const Call* call : {&calls::explain, &calls::explain_table}) expect("a short buffer", *call, loan, refused(24, {explanation_bytes}));
    }
}

}  // namespace

void stated_explanations() {
  stated_answers();
  orders();
  places();
  paths();
  rows_that_do_not_count();
  long_paths();
  refusals();
}
