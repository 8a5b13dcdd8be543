// The table of docs/TABLE.md: a model's image in 64-bit words.
#pragma once

#include <optional>
#include <vector>

#include "lent.hpp"
#include "model.hpp"

namespace second {

constexpr std::uint64_t block_words = 8 + max_states + 1;
constexpr std::uint64_t row_words = 4;
constexpr std::uint64_t rows_at = 1 + max_components * block_words;
constexpr std::uint64_t image_words = rows_at + max_rows * row_words;
constexpr std::uint64_t image_bytes = image_words * 8;
static_assert(block_words == 137 && rows_at == 4385 && image_words == 8481 && image_bytes == 67848,
              "as docs/TABLE.md counts them");

std::vector<std::uint64_t> image_of_model(const Model& model);

// Nothing where the buffer's front is no image.
std::optional<Model> model_of_image(Words table);

}  // namespace second
