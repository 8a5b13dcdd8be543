// Generated inputs, good and bad, to every call, alone and in sequences. The same seed and index give the same inputs everywhere.
#pragma once

#include <cstdint>

void try_input(std::uint64_t seed, std::uint64_t index);
