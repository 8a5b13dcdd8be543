// A loan in pages of its own, so that the engine faults where it stores to what it may only read, and where it touches what lies behind a buffer;
// and what catches such a fault, so that it is told and the next input tried.
#pragma once

#include "loan.hpp"

// Pages that are mapped twice: at one place they can be stored to, at the other a store faults. Behind either place lies a page that nobody may
// touch. What they hold lies at their end, with a guard before it.
class Pages {
 public:
  Pages() = default;
  Pages(const Pages&) = delete;
  Pages& operator=(const Pages&) = delete;
  ~Pages() { give_back(); }

  void hold(const void* content, std::size_t bytes);
  std::uint8_t* front(bool read_only) const { return (read_only ? shut : open) + room - held; }
  std::size_t bytes() const { return held; }
  bool holds(const void* content, std::size_t bytes) const;
  // Whether the address is one of theirs, and then which byte of what they hold: below 0 it lies before that, from `bytes` on behind it.
  bool find(const void* address, std::ptrdiff_t& byte) const;

 private:
  void make(std::size_t least);
  void give_back();
  std::uint8_t* open = nullptr;
  std::uint8_t* shut = nullptr;
  std::size_t room = 0;
  std::size_t held = 0;
};

template <class T>
class Paged : public Pages {
 public:
  void hold(const std::vector<T>& content) { Pages::hold(content.data(), content.size() * sizeof(T)); }
  bool holds(const Guarded<T>& other) const { return Pages::holds(other.front(), other.size() * sizeof(T)); }
  second::Lent<T> lent(bool read_only) const { return {reinterpret_cast<T*>(front(read_only)), bytes() / sizeof(T)}; }
};

// A loan in such pages.
class PagedLoan {
 public:
  void hold(const Loan& loan);
  // What a call only reads is read-only in any case; what some call writes is so where asked.
  Lent lent(bool read_only);
  // Whether every buffer holds what the other one holds, and all guards hold what they held.
  bool holds(const Kept& other) const;
  // In words: which byte of which buffer this is.
  std::string place_of(const void* address) const;

 private:
  Paged<std::uint64_t> table;
  Paged<std::uint8_t> state;
  std::uint64_t missing = 0;
  Paged<std::uint8_t> path;
  Paged<std::uint8_t> bytes;
  Paged<std::uint64_t> numbers;
  std::uint64_t number = 0;
  Paged<std::uint64_t> into;
  Paged<std::uint8_t> out;
  Paged<std::int64_t> clocks;
  Framed<floodneedle_answer> answer;
  Framed<After> after;
};

// Makes the call. Answers whether it ran to its end; if not, which address it touched and may not.
bool ran(Said (*call)(const Lent&), const Lent& lent, Said& said, const void*& touched);

// Whether such a fault is caught on this machine. Without that the comparison would see nothing.
bool faults_are_caught();

// What is tried from now on: a fault outside the engine ends the program, and is told with it.
void trying(const char* call, const std::string& where);
