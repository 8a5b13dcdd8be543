// The program's input: request lines of every wrong shape, the order of refusals behind them, and what is printed, to the byte.
#include "model_cases.hpp"
#include "request_cases.hpp"
#include "stated.hpp"
#include "text_cases.hpp"

namespace {

// The numbers from..to, joined by commas.
std::string range(unsigned from, unsigned to) {
  std::string line = std::to_string(from);
  for (unsigned n = from + 1; n <= to; ++n) line += "," + std::to_string(n);
  return line;
}

// 4,096 steps, each of which resets all 64 clocks, of 32 components in states of three digits: it fills the shortest buffer that is not refused.
void longest_report() {
  const std::string all = range(0, 63), states = "100" + repeated(",100", 31);
  Text model = tabbed("comp 101 100\nact 10 uout\n");
  for (unsigned x = 0; x < 64; ++x) model += tabbed("clk " + std::to_string(x) + " 0\n");
  model += tabbed("row 100 - 10 " + all + " 100\n") + repeated(tabbed("comp 101 100\n"), 31);
  const std::string tail = " " + all + " " + states + "\n";
  std::string report;
  for (unsigned n = 1; n <= 4096; ++n) report += tabbed("step " + std::to_string(n) + " 10" + tail);
  report += tabbed("unsettled 4096" + tail);
  Loan loan;
  loan.bytes = bytes_of(tabbed("from " + states + " 4096\n") + model);
  loan.out = Bytes(report_bytes, 0x77);
  Loan left = loan;
  left.out = bytes_of(report);
  expect("the longest report", calls::report, loan, done(report_bytes), left);
}

// Behind a request that is 21 and 22 at its turn: lines count from the model's first, and all that reading and the checks refuse comes first.
void behind_the_request() {
  const Text request = tabbed("from 128 4097\n");
  for (const cases::TextCase& entry : cases::text_cases)
    if (entry.number > 0) expect_report(request + tabbed(entry.text), printed(refusal_of(entry)));
  for (const cases::ModelCase& entry : cases::model_cases)
    expect_report(request + tabbed(entry.text), printed(entry.refusal ? entry.refusal : second::refuse(21, {0})));
  expect_report(request + repeated(tabbed("comp 1 0\n"), 33), "refused\t7\t33\n");
}

}  // namespace

void stated_requests() {
  // Those without refusal are stated below.
  for (const cases::RequestCase& entry : cases::request_cases)
    if (entry.refusal) expect_report(tabbed(entry.request) + m, printed(entry.refusal));
  expect_report(tabbed("from 1,0 100\n") + m, tabbed("step 1 1 0 0,1\nstep 2 2 - 0,2\nstable 2 0 0,2\n"));
  expect_report(tabbed("from 1,1 9\n") + m, tabbed("step 1 1 0 0,1\nstep 2 2 - 0,2\nstable 2 0 0,2\n"));
  expect_report(tabbed("from 1,0 1\n") + m, tabbed("step 1 1 0 0,1\nunsettled 1 0 0,1\n"));
  expect_report(tabbed("from 0,0 5\n") + m, tabbed("stable 0 - 0,0\n"));
  expect_report(tabbed("from 0,2 0\n") + m, tabbed("stable 0 - 0,2\n"));
  expect_report(tabbed("from 1,0 0\n") + m, tabbed("unsettled 0 - 1,0\n"));
  expect_report("", "refused\t9\t0\n");
  expect_report(tabbed("from 1,0 100"), "refused\t9\t0\n");
  expect_report(tabbed("from 1,0 100\n"), "refused\t8\t0\n");
  expect_report(Text(300, 'x') + "\n" + m, "refused\t9\t0\n");

  // 9 is first; 1 counts the text alone.
  const Text request = tabbed("from 9,9 9999\n");
  expect_report(tabbed("from 9,9\n") + Text(32769, 'x'), "refused\t9\t0\n");
  expect_report(request + Text(32769, 'x'), "refused\t1\t0\n");
  expect_report(request + Text(32768, 'x'), "refused\t2\t1,1\n");
  expect_report(request + m, "refused\t21\t0\n");
  behind_the_request();

  // The largest budget, and one more.
  const Text loop = tabbed("comp 1 0\nact 0 uout\nrow 0 - 0 - 0\n");
  std::string steps;
  for (unsigned n = 1; n <= 4096; ++n) steps += tabbed("step " + std::to_string(n) + " 0 - 0\n");
  expect_report(tabbed("from 0 4096\n") + loop, steps + tabbed("unsettled 4096 - 0\n"));
  expect_report(tabbed("from 0 4097\n") + loop, "refused\t22\t0\n");
  longest_report();

  // As many numbers as there may be components, of three digits, and one more.
  const Text all = repeated(tabbed("comp 128 127\n"), 32), widest = "127" + repeated(",127", 31);
  expect_report(tabbed("from " + widest + " 4096\n") + all, tabbed("stable 0 - " + widest + "\n"));
  expect_report(tabbed("from " + widest + ",127 4096\n") + all, "refused\t21\t0\n");
  expect_report(tabbed("from 128" + widest.substr(3) + " 4096\n") + all, "refused\t21\t0\n");

  // 24 whatever the input: the need is one for all.
  for (const Text& input : {Text(), tabbed("from 1,0 100\n") + m, Text("x")})
    for (std::uint64_t room : {std::uint64_t{0}, std::uint64_t{256}, report_bytes - 1}) {
      Loan loan;
      loan.bytes = bytes_of(input);
      loan.out = Bytes(room, 0x77);
      expect("a short buffer for the report", calls::report, loan, refused(24, {report_bytes}));
    }
}
