// Buffers that the caller lends: a front and a length, owned by nobody here.
#pragma once

#include <cstdint>

namespace second {

template <class T>
struct Lent {
  T* front = nullptr;
  std::uint64_t length = 0;  // in elements of T
};

using Bytes = Lent<const std::uint8_t>;
using BytesToWrite = Lent<std::uint8_t>;
using Words = Lent<const std::uint64_t>;
using WordsToWrite = Lent<std::uint64_t>;
using Ticks = Lent<std::int64_t>;

}  // namespace second
