// Both engines behind one form: an answer in the words of include/floodneedle.h, the state after, and lent buffers as vectors.
#pragma once

#include <algorithm>
#include <array>
#include <cstdint>
#include <cstring>
#include <string>
#include <vector>

#include "floodneedle.h"
#include "second.hpp"

using Bytes = std::vector<std::uint8_t>;
using Table = std::vector<std::uint64_t>;
using Clocks = std::vector<std::int64_t>;
using After = std::array<std::uint8_t, FLOODNEEDLE_STATE>;

struct Said {
  floodneedle_answer answer{};
  After after{};
};

inline bool operator==(const Said& a, const Said& b) {
  return std::memcmp(&a.answer, &b.answer, sizeof a.answer) == 0 && a.after == b.after;
}

// A vector's front; never null, as the engine's buffers may not be.
template <class T>
T* front(std::vector<T>& v) {
  static T nothing{};
  return v.empty() ? &nothing : v.data();
}
template <class T>
const T* front(const std::vector<T>& v) {
  static const T nothing{};
  return v.empty() ? &nothing : v.data();
}

inline second::Bytes lent(const Bytes& v) { return {front(v), v.size()}; }
inline second::Words lent(const Table& v) { return {front(v), v.size()}; }

// ---- the second program's answers in those words

inline Said said(std::uint64_t kind, const second::Refusal& refusal) {
  Said s;
  if (!refusal) s.answer.kind = kind;
  s.answer.number = refusal.number;
  s.answer.places = refusal.places;
  std::copy_n(refusal.place, 4, s.answer.place);
  return s;
}

inline void set_after(Said& s, const second::State& state) {
  std::copy_n(state.parts, FLOODNEEDLE_STATE, s.after.begin());
}

inline Said said(const second::Answer& a) { return said(FLOODNEEDLE_DONE, a.refusal); }

inline Said said(const second::WriteAnswer& a) {
  Said s = said(FLOODNEEDLE_DONE, a.refusal);
  s.answer.count = a.length;
  return s;
}

inline Said said(const second::StartAnswer& a) {
  Said s = said(FLOODNEEDLE_DONE, a.refusal);
  s.answer.count = a.count;
  s.answer.resets = a.started;
  set_after(s, a.state);
  return s;
}

inline Said said(const second::RepairAnswer& a) {
  Said s = said(FLOODNEEDLE_DONE, a.refusal);
  s.answer.count = a.rows;
  return s;
}

inline Said said(const second::StepAnswer& a) {
  Said s = said(a.outcome == second::StepOutcome::moved ? FLOODNEEDLE_MOVED : FLOODNEEDLE_STABLE, a.refusal);
  s.answer.action = a.action;
  s.answer.resets = a.resets;
  set_after(s, a.state);
  return s;
}

inline Said said(const second::SettleAnswer& a) {
  Said s = said(a.verdict == second::Verdict::stable ? FLOODNEEDLE_STABLE : FLOODNEEDLE_UNSETTLED, a.refusal);
  s.answer.count = a.steps;
  s.answer.resets = a.resets;
  set_after(s, a.state);
  return s;
}

inline Said said(const second::SimulateAnswer& a) {
  Said s = said(FLOODNEEDLE_DONE, a.refusal);
  s.answer.count = a.rounds;
  set_after(s, a.state);
  return s;
}

inline Said said(const second::TimedAnswer& a) {
  Said s = said(a.outcome == second::TimedOutcome::fired ? FLOODNEEDLE_FIRED : FLOODNEEDLE_QUIET, a.refusal);
  s.answer.ticks = static_cast<std::uint64_t>(a.v);
  s.answer.action = a.action;
  s.answer.resets = a.resets;
  set_after(s, a.state);
  return s;
}
