#include "tally.hpp"

#include <cstdio>
#include <map>

namespace {

constexpr std::uint64_t shown = 3;  // differences and failures of a call told in full

struct Counts {
  std::uint64_t inputs = 0;
  std::uint64_t read_only = 0;    // inputs with every lent page read-only
  std::uint64_t differences = 0;
  std::uint64_t faults = 0;       // of those
  std::map<std::string, std::uint64_t> met;  // by generated inputs
  std::uint64_t stated = 0;
  std::uint64_t missed = 0;       // of those stated
  std::uint64_t told = 0;
};

std::map<const Call*, Counts> counts;

// What must hold of several answers together: how often it was asked, and how often it did not.
struct Held {
  std::uint64_t asked = 0;
  std::uint64_t missed = 0;
};

// Merging must not matter (compare/alike.cpp), nor the order of urgent steps after a path, and every tree's model is one to settle and to simulate
// (compare/random_inputs.cpp). 10,000 draws that a fused operation would change are stated (compare/stated/draws.cpp).
std::map<std::string, Held> held = {{"any order after a path ends alike", {}}, {"explained alike, as text and as table", {}}, {"10 to 17 passed again", {}},      {"18 passed again", {}},
                                    {"settle alike, merged or not", {}},       {"settle_list alike, merged or not", {}}, {"23 at the same index", {}},
                                    {"three merged either way", {}},           {"a tree's model is accepted", {}}, {"a tree's model passes the test", {}},
                                    {"10,000 draws that a fused operation would change", {}}};
std::uint64_t compared = 0;

unsigned long long plain(std::uint64_t number) { return number; }

void tell_difference(const Call& call, const Comparison& made, const std::string& where) {
  if (!made.fault.empty()) {
    std::printf("%s faults, %s: it touched %s%s\n", call.name, where.c_str(), made.fault.c_str(),
                made.read_only ? ", where every lent page is read-only" : "");
  } else {
    std::printf("%s differs, %s%s\n", call.name, where.c_str(), made.buffers_agree ? "" : ", in a buffer");
    print("engine", made.engine);
  }
  print("second", made.second);
  std::fflush(stdout);
}

}  // namespace

Comparison compare(Input input, const Call& call, const Loan& loan, const std::string& where) {
  Comparison made = made_by_both(call, loan, where);
  Counts& count = counts[&call];
  ++compared;
  ++count.inputs;
  if (made.read_only) ++count.read_only;
  if (input == Input::generated) ++count.met[call.outcome(made.second, made.left.lent())];
  if (made.agree()) return made;
  ++count.differences;
  if (!made.fault.empty()) ++count.faults;
  if (++count.told <= shown) tell_difference(call, made, where);
  return made;
}

std::uint64_t inputs() { return compared; }

void expect(const std::string& why, const Call& call, const Loan& loan, const Said& expected, const Loan& left) {
  const Comparison made = compare(Input::stated, call, loan, why);
  Counts& count = counts[&call];
  ++count.stated;
  const bool buffers = made.buffers_agree && made.left.holds(left);
  if (made.fault.empty() && made.engine == expected && made.second == expected && buffers) return;
  ++count.missed;
  if (++count.told > shown) return;
  std::printf("%s answers otherwise than stated%s: %s\n", call.name, buffers ? "" : ", or leaves another byte", why.c_str());
  print("stated", expected);
  print("engine", made.engine);
  print("second", made.second);
}

void expect(const std::string& why, const Call& call, const Loan& loan, const Said& expected) {
  expect(why, call, loan, expected, loan);
}

void hold(const std::string& what, bool good, const std::string& where) {
  Held& so = held[what];
  ++so.asked;
  if (!good && ++so.missed <= shown) std::printf("not so: %s, %s\n", what.c_str(), where.c_str());
}

int conclude(bool all) {
  std::uint64_t passed = 0, failed = 0;
  for (const Call* call : calls::all) {
    const Counts& count = counts[call];
    std::printf("%-17s %9llu inputs, %llu with a stated answer, %llu read-only; generated:", call->name, plain(count.inputs),
                plain(count.stated), plain(count.read_only));
    for (const auto& [what, times] : count.met) std::printf("  %s %llu", what.c_str(), plain(times));
    std::printf("\n");
    bool good = count.differences == 0;
    if (!good) std::printf("%s: %llu differences, %llu of them faults\n", call->name, plain(count.differences), plain(count.faults));
    if (count.missed > 0) std::printf("%s: %llu answers not as stated\n", call->name, plain(count.missed));
    for (const std::string& what : call->outcomes)
      if (all && count.met.count(what) == 0) {
        std::printf("%s: no generated input met %s\n", call->name, what.c_str());
        good = false;
      }
    ++(good ? passed : failed);
    passed += count.stated - count.missed;
    failed += count.missed;
  }
  for (const auto& [what, so] : held) {
    std::printf("%s: %llu times\n", what.c_str(), plain(so.asked));
    const bool good = so.missed == 0 && (so.asked > 0 || !all);
    if (!good) std::printf("%s: %s\n", what.c_str(), so.missed == 0 ? "no generated input met it" : (std::to_string(so.missed) + " times not so").c_str());
    ++(good ? passed : failed);
  }
  std::printf("%llu passed, %llu failed\n", plain(passed), plain(failed));
  return failed == 0 ? 0 : 1;
}
