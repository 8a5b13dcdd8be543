// The program's request line: 9, what is no 9, and the order of refusals behind it.
#include "check.hpp"
#include "lending.hpp"
#include "request_cases.hpp"
#include "tests.hpp"

namespace {

// A well shaped request of just this length with its LF.
Text long_request(unsigned length) {
  Text request = "from\t0";
  while (request.size() + 4 < length) request += ",0";
  request += request.size() + 4 == length ? "\t10\n" : "\t1\n";
  return request;
}

// 32 components in state 100, the first of which resets all 64 clocks at every step.
void test_longest() {
  Text text = "comp 101 100\nact 63 uout\n", all;
  for (unsigned clock = 0; clock < 64; ++clock) {
    text += "clk " + std::to_string(clock) + " 0\n";
    all += (clock > 0 ? "," : "") + std::to_string(clock);
  }
  text += "row 100 - 63 " + all + " 100\n";
  Text request = "from 100";
  for (unsigned c = 1; c < 32; ++c) {
    text += "comp 101 100\n";
    request += ",100";
  }
  check(request.size() + 6 == 138, "the longest state is far from 256 bytes");
  const Text report = lend_report(tabbed(request + " 4096\n" + text));
  check(report.size() == second::longest_report, "the longest report: " + std::to_string(report.size()));
}

}  // namespace

void test_request_refusals() {
  for (const cases::RequestCase& entry : cases::request_cases) {
    const second::Refusal refusal = refusal_in(lend_report(tabbed(entry.request) + m));
    check(refusal == entry.refusal, shown(refusal) + " for the request\n" + entry.request);
  }
  check(lend_report("") == "refused\t9\t0\n", "no input");
  check(lend_report(tabbed("from 1,0 100")) == "refused\t9\t0\n", "a request without LF");
  check(lend_report(tabbed("from 1,0 100\n")) == "refused\t8\t0\n", "a request and no text");
  check(lend_report(tabbed("from 0,0 5\n") + m) == "stable\t0\t-\t0,0\n", "no step");
  check(lend_report(tabbed("from 1,0 0\n") + m) == "unsettled\t0\t-\t1,0\n", "budget 0");
  check(lend_report(tabbed("from 1,1 9\n") + m) == tabbed("step 1 1 0 0,1\nstep 2 2 - 0,2\nstable 2 0 0,2\n"), "from 1,1");

  test_longest();

  for (unsigned length = 250; length <= 262; ++length) {
    const Text request = long_request(length);
    check(request.size() == length, "a request of " + std::to_string(length));
    const std::uint64_t expected = length <= 256 ? 21 : 9;
    check(refusal_in(lend_report(request + m)).number == expected, "a request of " + std::to_string(length));
  }
  check(lend_report(Text(300, 'x') + "\n" + m) == "refused\t9\t0\n", "no LF among the first 256");

  // 1 counts the text alone, lines are counted from the model's first (DECISIONS, The program).
  const Text request = tabbed("from 9,9 9999\n");
  check(lend_report(request + Text(32769, 'x')) == "refused\t1\t0\n", "1");
  check(lend_report(request + Text(32768, 'x')) == "refused\t2\t1,1\n", "2 at 1, 1");
  check(lend_report(request + Text(100000, 'x')) == "refused\t1\t0\n", "1, far over");
  check(lend_report(request + tabbed("comp 1 0\nact 0 in\nact 0 in\n")) == "refused\t6\t3\n", "6 at 3");
  check(lend_report(request + tabbed("comp 1 0\nact 0 in\nrow 0 - 9 - 0\n")) == "refused\t5\t3,9\n", "5 at 3, 9");
  check(lend_report(request + m_with("row 2 - 1 - 2\n", "")) == "refused\t12\t1,2,1\n", "12 before 21");
  check(lend_report(request + m_with("row 1 - 2 - 2", "row 1 - 2 - 0")) == "refused\t18\t1,1,1,2\n", "18 before 21");
  check(lend_report(request + m) == "refused\t21\t0\n", "21 before 22");
  check(lend_report(tabbed("from 9,9\n") + "x") == "refused\t9\t0\n", "9 first");
}
