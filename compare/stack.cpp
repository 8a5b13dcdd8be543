// The deepest stack of each call: every input of the comparison is tried on a painted stack, and one looks how far down it was written.
// Each is then held to what the header says of it: no deeper, and not much less deep.
// This file stands in for tally.cpp, so the stated tests and the generated inputs are the comparison's own.
// usage: stack MODELS HEADER
#include <ucontext.h>

#include <cstdio>
#include <cstdlib>
#include <fstream>
#include <map>
#include <sstream>

#include "random_inputs.hpp"
#include "stated/stated.hpp"

namespace {

constexpr std::size_t room = 1 << 17;
constexpr std::size_t word = sizeof(std::uint64_t);
constexpr std::uint64_t paint = 0xc3c3c3c3c3c3c3c3u;
alignas(64) std::uint64_t area[room / word];
std::uint64_t* lowest = area;  // what lies below is painted

constexpr std::size_t slack = 256;  // bytes that the header may say too much

ucontext_t outside, inside;
const Call* made = nullptr;
const Lent* lent_to = nullptr;
Said said_on_stack;
std::uint64_t tried = 0;
std::map<const Call*, std::size_t> deepest;

void make() { said_on_stack = made->engine(*lent_to); }

// How far down the call wrote.
std::size_t depth(const Call& call, const Lent& lent) {
  std::fill(lowest, std::end(area), paint);
  made = &call;
  lent_to = &lent;
  getcontext(&inside);
  inside.uc_stack.ss_sp = area;
  inside.uc_stack.ss_size = room;
  inside.uc_link = &outside;
  makecontext(&inside, make, 0);
  swapcontext(&outside, &inside);
  lowest = std::find_if(std::begin(area), std::end(area), [](std::uint64_t painted) { return painted != paint; });
  return static_cast<std::size_t>(std::end(area) - lowest) * word;
}

Said nothing(const Lent&) { return {}; }
const Call no_call = {"nothing", nothing, nothing, {}, nullptr};

// The number behind the call's name in the header's list of stacks, or 0.
std::size_t said_of(const std::string& header, const Call& call) {
  const std::size_t list = header.find("Stack, in bytes");
  const std::size_t at = header.find(" " + std::string(call.name) + " ", list == std::string::npos ? header.size() : list);
  return at == std::string::npos ? 0 : std::strtoull(header.c_str() + at + std::strlen(call.name) + 2, nullptr, 10);
}

}  // namespace

Comparison compare(Input, const Call& call, const Loan& loan, const std::string&) {
  Kept mine(loan);
  ++tried;
  std::size_t& most = deepest[&call];
  most = std::max(most, depth(call, mine.lent()));
  Comparison result{said_on_stack, {}, {}, true, false, Kept(loan)};
  result.second = call.second(result.left.lent());
  return result;
}

void expect(const std::string& why, const Call& call, const Loan& loan, const Said&) { compare(Input::stated, call, loan, why); }
void expect(const std::string& why, const Call& call, const Loan& loan, const Said& expected, const Loan&) { expect(why, call, loan, expected); }

void hold(const std::string&, bool, const std::string&) {}

int main(int count, char** words) {
  if (count != 3) {
    std::fprintf(stderr, "usage: stack MODELS HEADER\n");
    return 2;
  }
  const std::uint64_t models = std::strtoull(words[1], nullptr, 10);
  std::stringstream header;
  header << std::ifstream(words[2]).rdbuf();
  Kept none{Loan{}};
  const std::size_t of_nothing = depth(no_call, none.lent());
  try_stated();
  for (std::uint64_t index = 0; index < models; ++index) try_input(1, index);
  std::printf("Deepest stack over %llu inputs\n\n| Call | Bytes |\n|---|---|\n", (unsigned long long)tried);
  for (const Call* call : calls::all) std::printf("| %s | %zu |\n", call->name, deepest[call] - of_nothing);
  unsigned passed = 0, failed = 0;
  for (const Call* call : calls::all) {
    const std::size_t seen = deepest[call] - of_nothing, said = said_of(header.str(), *call);
    const bool good = seen <= said && said <= seen + slack;
    if (!good) std::printf("%s: the header says %zu\n", call->name, said);
    ++(good ? passed : failed);
  }
  std::printf("%u passed, %u failed\n", passed, failed);
  return failed == 0 ? 0 : 1;
}
