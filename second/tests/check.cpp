#include "check.hpp"

#include <cstdio>
#include <iterator>
#include <map>

namespace {

unsigned long passed = 0;
unsigned long failed = 0;
std::map<std::uint64_t, unsigned long> refusals;
std::map<std::string, unsigned long> outcomes;
std::uint64_t lent_digest = 0;

const std::uint64_t all_refusals[] = {1,  2,  3,  4,  5,  6,  7,  8,  9,  10, 11, 12, 13, 14, 15,
                                      16, 17, 18, 19, 20, 21, 22, 23, 24, 25, 26, 27, 28, 29, 30,
                                      40, 41, 42, 43, 44, 45, 46, 47, 48, 49, 50};

const char* const all_outcomes[] = {
    "read",          "written",          "recognised",     "accepted",       "confluent",
    "component",     "compatible",       "started",
    "step moved",    "step stable",      "step_by moved",  "settle stable",  "settle unsettled",
    "list stable",   "list unsettled",   "timed fired",    "timed quiet",    "merged",
    "to names",      "to numbers",
    "tree read",     "simulated",        "simulated to quiet",
    "simulated by draws", "simulated by draws to quiet",
    "repaired",      "repaired nothing", "orderly",
    "settle_after stable", "settle_after unsettled", "list_after stable", "list_after unsettled",
    "explain refused", "explain confluent", "explain clash",
    "report stable", "report unsettled", "report refused"};

}  // namespace

void check(bool holds, const std::string& what) {
  if (holds) {
    ++passed;
    return;
  }
  ++failed;
  if (failed <= 40) std::printf("FAILED: %s\n", what.c_str());
}

void count_refusal(const second::Refusal& refusal) {
  if (refusal) ++refusals[refusal.number];
}

void count_outcome(const std::string& outcome) { ++outcomes[outcome]; }

void count_lent(std::uint64_t word) {
  // A sum, since the order in which arguments are lent is the compiler's.
  word = (word ^ (word >> 31)) * 0xbf58476d1ce4e5b9u;
  lent_digest += word ^ (word >> 29);
}

int conclude() {
  for (std::uint64_t number : all_refusals) {
    std::printf("refusal %2llu: %lu\n", static_cast<unsigned long long>(number), refusals[number]);
    check(refusals[number] > 0, "refusal " + std::to_string(number) + " is reached");
  }
  check(refusals.size() == std::size(all_refusals), "no other refusal is met");
  for (const char* outcome : all_outcomes) {
    std::printf("%s: %lu\n", outcome, outcomes[outcome]);
    check(outcomes[outcome] > 0, std::string("outcome ") + outcome + " is reached");
  }
  std::printf("digest of everything lent: %llu\n", static_cast<unsigned long long>(lent_digest));
  std::printf("%lu passed, %lu failed\n", passed, failed);
  return failed == 0 ? 0 : 1;
}

std::string shown(const second::Refusal& refusal) {
  std::string text = std::to_string(refusal.number) + " at";
  for (std::uint64_t p = 0; p < refusal.places; ++p) text += ' ' + std::to_string(refusal.place[p]);
  return text;
}
