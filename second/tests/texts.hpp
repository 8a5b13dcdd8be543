// Texts as the tests write them down, and model M.
#pragma once

#include <string>

using Text = std::string;

// Spaces to tabs and `_` to spaces, so that texts in the tests can be read.
inline Text tabbed(Text text) {
  for (char& byte : text) {
    if (byte == ' ') byte = '\t';
    else if (byte == '_') byte = ' ';
  }
  return text;
}

// Model M of paper 01.
inline const Text m = tabbed(
    "comp 2 0\n"
    "act 0 out\n"
    "act 1 uout\n"
    "clk 0 1\n"
    "row 0 0 0 - 1\n"
    "row 1 - 1 0 0\n"
    "comp 3 0\n"
    "act 1 uin\n"
    "act 2 uout\n"
    "row 0 - 1 - 1\n"
    "row 1 - 1 - 1\n"
    "row 1 - 2 - 2\n"
    "row 2 - 1 - 2\n");
