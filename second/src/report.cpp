#include "report.hpp"

#include <optional>
#include <string_view>

#include "acceptance.hpp"
#include "number.hpp"
#include "reach.hpp"
#include "settling.hpp"
#include "text_reading.hpp"
#include "text_writing.hpp"

namespace second {
namespace {

static_assert(deciding_input == max_request + max_text + 1, "the sum of both limits, and one");

struct Request {
  std::vector<std::uint32_t> state;  // as it stands; whether it fits the model is 21
  std::uint32_t budget;
  std::string_view text;             // what follows the request line
};

std::optional<Request> request_in(std::string_view input) {
  const std::size_t end = input.substr(0, max_request).find('\n');
  if (end == std::string_view::npos) return std::nullopt;
  const auto fields = parted(input.substr(0, end), '\t');
  if (fields.size() != 3 || fields[0] != "from") return std::nullopt;
  auto state = numbers_in(fields[1]);
  const auto budget = number_in(fields[2]);
  if (!state || !budget) return std::nullopt;
  return Request{std::move(*state), *budget, input.substr(end + 1)};
}

std::string run_lines(const Run& run) {
  std::string lines;
  for (std::size_t m = 0; m < run.moves.size(); ++m) {
    const Move& move = run.moves[m];
    lines += "step\t" + std::to_string(m + 1) + '\t' + std::to_string(move.action) + '\t' +
             text_of_set(move.resets) + '\t' + text_of_state(move.after) + '\n';
  }
  lines += (run.stable ? "stable\t" : "unsettled\t") + std::to_string(run.moves.size()) + '\t' +
           text_of_set(resets_of(run)) + '\t' + text_of_state(run.last) + '\n';
  return lines;
}

}  // namespace

std::string refused_line(const Refusal& refusal) {
  std::string line = "refused\t" + std::to_string(refusal.number) + '\t';
  for (std::uint64_t p = 0; p < refusal.places; ++p) {
    if (p > 0) line += ',';
    line += std::to_string(refusal.place[p]);
  }
  return line + '\n';
}

std::string report(Bytes input) {
  const auto request = request_in({reinterpret_cast<const char*>(input.front), input.length});
  if (!request) return refused_line(refuse(9, {0}));
  const Reading reading = model_of_text(request->text);
  if (reading.refusal) return refused_line(reading.refusal);
  if (Refusal broken = acceptance_and_confluence(reading.model)) return refused_line(broken);
  if (!fits(reading.model, request->state.data(), request->state.size()))
    return refused_line(refuse(21, {0}));
  State from;
  for (std::uint32_t part : request->state) from.parts[from.count++] = static_cast<std::uint8_t>(part);
  if (const auto part = unreached_part(reading.model, from)) return refused_line(refuse(19, {*part}));
  if (request->budget > max_budget) return refused_line(refuse(22, {0}));
  return run_lines(settle_by_rule(reading.model, from, request->budget));
}

}  // namespace second
