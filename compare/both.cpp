#include "both.hpp"

#include <cstdio>

#include "pages.hpp"

namespace {

// Refused, quiet, and stable or unsettled after no step: such a call writes its answer and no other byte, not even the byte that stood there.
bool writes_nothing(const floodneedle_answer& answer) {
  switch (answer.kind) {
    case FLOODNEEDLE_REFUSED:
    case FLOODNEEDLE_QUIET: return true;
    case FLOODNEEDLE_STABLE:
    case FLOODNEEDLE_UNSETTLED: return answer.count == 0;
    default: return false;
  }
}

}  // namespace

Comparison made_by_both(const Call& call, const Loan& loan, const std::string& where) {
  static PagedLoan pages;
  trying(call.name, where);
  Comparison made{{}, {}, {}, true, false, Kept(loan)};
  made.second = call.second(made.left.lent());
  made.read_only = writes_nothing(made.second.answer);
  pages.hold(loan);
  const void* touched = nullptr;
  if (!ran(call.engine, pages.lent(made.read_only), made.engine, touched)) made.fault = pages.place_of(touched);
  made.buffers_agree = pages.holds(made.left) && made.left.intact();
  return made;
}

void print(const char* whose, const Said& s) {
  const floodneedle_answer& a = s.answer;
  std::printf("  %s: kind %llu number %llu place", whose, (unsigned long long)a.kind, (unsigned long long)a.number);
  for (std::uint64_t p = 0; p < a.places && p < 4; ++p) std::printf(" %llu", (unsigned long long)a.place[p]);
  std::printf(" count %llu action %llu resets %llx ticks %llu after", (unsigned long long)a.count,
              (unsigned long long)a.action, (unsigned long long)a.resets, (unsigned long long)a.ticks);
  for (std::uint8_t part : s.after) std::printf(" %u", part);
  std::printf("\n");
}
