// Where the proved engine is slowest beside the second program: every input of some generated models is timed, and the worst ratios of each call are
// told with their outcome. This file stands in for tally.cpp, so the inputs are the comparison's own; but reports are left out, since lending a megabyte
// each time disturbs what is timed.
// usage: slowest MODELS
#include <chrono>
#include <cstdio>
#include <cstdlib>
#include <map>

#include "random_inputs.hpp"
#include "tally.hpp"

namespace {

constexpr unsigned rounds = 12;
constexpr std::size_t shown = 3;

struct Timed {
  double engine, second;
  std::string outcome, where;
  double ratio() const { return engine / second; }
};

std::map<const Call*, std::vector<Timed>> all;

double seconds(Said (*call)(const Lent&), const Loan& loan) {
  Kept kept(loan);
  const Lent lent = kept.lent();
  const auto start = std::chrono::steady_clock::now();
  call(lent);
  return std::chrono::duration<double>(std::chrono::steady_clock::now() - start).count();
}

void tell(const Call& call, std::vector<Timed>& timed) {
  std::sort(timed.begin(), timed.end(), [](const Timed& a, const Timed& b) { return a.ratio() > b.ratio(); });
  std::map<std::string, unsigned> over;
  double sum = 0;
  for (const Timed& t : timed) {
    sum += t.ratio();
    if (t.ratio() > 1) ++over[t.outcome];
  }
  std::printf("%-17s %6zu inputs, ratio %.3f on average; over 1.0:", call.name, timed.size(), sum / static_cast<double>(timed.size()));
  for (const auto& [outcome, times] : over) std::printf("  %s %u", outcome.c_str(), times);
  std::printf("\n");
  for (std::size_t w = 0; w < shown && w < timed.size(); ++w)
    std::printf("    %.2f, %.2f microseconds, %s, %s\n", timed[w].ratio(), timed[w].engine * 1e6, timed[w].outcome.c_str(), timed[w].where.c_str());
}

}  // namespace

Comparison compare(Input, const Call& call, const Loan& loan, const std::string& where) {
  Comparison made = made_by_both(call, loan, where);
  if (&call == &calls::report) return made;
  Timed timed{1, 1, call.outcome(made.second, made.left.lent()), where};
  for (unsigned round = 0; round < rounds; ++round) {
    timed.engine = std::min(timed.engine, seconds(call.engine, loan));
    timed.second = std::min(timed.second, seconds(call.second, loan));
  }
  all[&call].push_back(timed);
  return made;
}

void hold(const std::string&, bool, const std::string&) {}

int main(int count, char** words) {
  const std::uint64_t models = count > 1 ? std::strtoull(words[1], nullptr, 10) : 1000;
  for (std::uint64_t index = 0; index < models; ++index) try_input(1, index);
  for (const Call* call : calls::all)
    if (call != &calls::report) tell(*call, all[call]);
  return 0;
}
