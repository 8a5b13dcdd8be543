// Request lines of the program and what it refuses. Kept apart so that other programs can be held to them too.
#pragma once

#include "refusal.hpp"
#include "texts.hpp"

namespace cases {

struct RequestCase {
  Text request;  // spaces stand for tabs
  second::Refusal refusal;
};

using second::refuse;

// Each before model M.
inline const RequestCase request_cases[] = {
    {"from 1,0 100\n", {}},
    {"from 0,2 0\n", {}},
    {"from 1,0 4096\n", {}},
    {"from 1,0 4097\n", refuse(22, {0})},
    {"from 1,0 99999\n", refuse(22, {0})},
    {"from 1,0 100000\n", refuse(9, {0})},
    {"from 1,0 05\n", refuse(9, {0})},
    {"from 1,0 +5\n", refuse(9, {0})},
    {"from 1,0 -\n", refuse(9, {0})},
    {"from 1,0 \n", refuse(9, {0})},
    {"from 1,0\n", refuse(9, {0})},
    {"from 1,0 1 1\n", refuse(9, {0})},
    {"from 1,0 1 \n", refuse(9, {0})},
    {"from 1,0 1\r\n", refuse(9, {0})},
    {" from 1,0 1\n", refuse(9, {0})},
    {"From 1,0 1\n", refuse(9, {0})},
    {"from_1,0_1\n", refuse(9, {0})},
    {"from  1,0 1\n", refuse(9, {0})},
    {"\n", refuse(9, {0})},
    {"", refuse(9, {0})},
    {"from - 1\n", refuse(9, {0})},
    {"from  1\n", refuse(9, {0})},
    {"from 1, 1\n", refuse(9, {0})},
    {"from ,1 1\n", refuse(9, {0})},
    {"from 1,,0 1\n", refuse(9, {0})},
    {"from 1,-0 1\n", refuse(9, {0})},
    {"from 1,00 1\n", refuse(9, {0})},
    {"from 1,100000 1\n", refuse(9, {0})},
    {"from 1,_0 1\n", refuse(9, {0})},
    {"from 2,0 1\n", refuse(21, {0})},
    {"from 1,3 1\n", refuse(21, {0})},
    {"from 1,64 1\n", refuse(21, {0})},
    {"from 1,128 1\n", refuse(21, {0})},
    {"from 257,0 1\n", refuse(21, {0})},
    {"from 1,256 1\n", refuse(21, {0})},
    {"from 65537,0 1\n", refuse(21, {0})},
    {"from 99999,0 1\n", refuse(21, {0})},
    {"from 1 1\n", refuse(21, {0})},
    {"from 1,0,0 1\n", refuse(21, {0})},
    {"from 0,0,0,0,0,0,0,0,0,0,0,0,0,0,0,0,0,0 1\n", refuse(21, {0})},
    {"from 0,0,0,0,0,0,0,0,0,0,0,0,0,0,0,0,0,0,0,0,0,0,0,0,0,0,0,0,0,0,0,0,0 1\n", refuse(21, {0})},
    {"from 1,3 4097\n", refuse(21, {0})},
};

}  // namespace cases
