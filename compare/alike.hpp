// Merging must not matter (02, 11/13): a model merged at every place, both settled from paired states, and every three neighbours merged either way.
#pragma once

#include "drawing.hpp"

void try_alike(second::Random& random, const drawing::Drawn& drawn, const std::string& where);
