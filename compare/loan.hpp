// What a call is lent, how the call gets it, and a loan kept between guards, so that a byte written too far shows.
#pragma once

#include <algorithm>

#include "engine.hpp"

// All that some call takes; each call uses its own part and must leave the others as they are.
struct Loan {
  Table table;                // read; `repair` writes it too
  Bytes state;                // read; `advance` writes it too
  std::uint64_t missing = 0;  // parts that the state is said to have beyond its bytes
  Bytes path;                 // read: a listed path
  Bytes bytes;                // read: a text, a list, recorded samples, distributions, or the program's input
  Table numbers;              // read: the numbers that draws take
  std::uint64_t number = 0;   // a budget, a named action, an index, or rounds
  Table into;                 // written: a table
  Bytes out;                  // written: a text, a trace, a report, or a list of added rows
  Clocks clocks;              // read and written; simulations write them alone
};

// The same as a call gets it: fronts and lengths, and where its answer goes.
struct Lent {
  second::Words table;
  second::WordsToWrite repaired;  // the table again, for `repair`
  second::Bytes state;
  second::BytesToWrite advanced;  // the state again, for `advance`
  second::Bytes path;
  second::Bytes bytes;
  second::Words numbers;
  std::uint64_t number;
  second::WordsToWrite into;
  second::BytesToWrite out;
  second::Ticks clocks;
  floodneedle_answer* answer;
  After* after;
};

// Bytes of noise before and behind a buffer.
constexpr std::size_t guard_bytes = 64;
constexpr std::uint8_t guard_byte = 0xa5;

inline bool is_guard(const void* front) {
  const auto* bytes = static_cast<const std::uint8_t*>(front);
  return std::all_of(bytes, bytes + guard_bytes, [](std::uint8_t byte) { return byte == guard_byte; });
}

inline bool same(const void* a, const void* b, std::size_t bytes) { return bytes == 0 || std::memcmp(a, b, bytes) == 0; }

// A buffer between guards.
template <class T>
class Guarded {
 public:
  explicit Guarded(const std::vector<T>& content) : store(guard + content.size() + guard) {
    std::memset(store.data(), guard_byte, guard_bytes);
    if (!content.empty()) std::memcpy(front(), content.data(), content.size() * sizeof(T));
    std::memset(front() + content.size(), guard_byte, guard_bytes);
  }

  T* front() { return store.data() + guard; }
  const T* front() const { return store.data() + guard; }
  std::size_t size() const { return store.size() - 2 * guard; }
  std::vector<T> content() const { return std::vector<T>(front(), front() + size()); }

  bool holds(const std::vector<T>& content) const { return content.size() == size() && same(content.data(), front(), size() * sizeof(T)); }
  // Whether the guards hold what they held.
  bool intact() const { return is_guard(store.data()) && is_guard(front() + size()); }

 private:
  static constexpr std::size_t guard = guard_bytes / sizeof(T);
  std::vector<T> store;
};

// A place for one value, between guards and full of noise, so that an answer left out shows.
template <class T>
class Framed {
 public:
  Framed() { std::memset(bytes, guard_byte, sizeof bytes); }
  T* place() { return reinterpret_cast<T*>(bytes + guard_bytes); }
  bool intact() const { return is_guard(bytes) && is_guard(bytes + guard_bytes + sizeof(T)); }

 private:
  alignas(16) std::uint8_t bytes[guard_bytes + sizeof(T) + guard_bytes];
};

// A loan kept for one program.
struct Kept {
  explicit Kept(const Loan& loan)
      : table(loan.table), state(loan.state), missing(loan.missing), path(loan.path), bytes(loan.bytes), numbers(loan.numbers), number(loan.number),
        into(loan.into), out(loan.out), clocks(loan.clocks) {}

  Lent lent() {
    const std::uint64_t parts = state.size() + missing;
    return {{table.front(), table.size()},
            {table.front(), table.size()},
            {state.front(), parts},
            {state.front(), parts},
            {path.front(), path.size()},
            {bytes.front(), bytes.size()},
            {numbers.front(), numbers.size()},
            number,
            {into.front(), into.size()},
            {out.front(), out.size()},
            {clocks.front(), clocks.size()},
            answer.place(),
            after.place()};
  }

  bool holds(const Loan& loan) const {
    return table.holds(loan.table) && state.holds(loan.state) && path.holds(loan.path) && bytes.holds(loan.bytes) && numbers.holds(loan.numbers) && into.holds(loan.into) &&
           out.holds(loan.out) && clocks.holds(loan.clocks);
  }
  // Whether all guards hold what they held.
  bool intact() const {
    return table.intact() && state.intact() && path.intact() && bytes.intact() && numbers.intact() && into.intact() && out.intact() &&
           clocks.intact() && answer.intact() && after.intact();
  }

  Guarded<std::uint64_t> table;
  Guarded<std::uint8_t> state;
  std::uint64_t missing;
  Guarded<std::uint8_t> path;
  Guarded<std::uint8_t> bytes;
  Guarded<std::uint64_t> numbers;
  std::uint64_t number;
  Guarded<std::uint64_t> into;
  Guarded<std::uint8_t> out;
  Guarded<std::int64_t> clocks;
  Framed<floodneedle_answer> answer;
  Framed<After> after;
};
