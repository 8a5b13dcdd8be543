// The program itself, run on the examples: its output to the byte, its status, its silence on
// standard error.
#include <cstdio>
#include <cstdlib>
#include <fstream>
#include <iterator>

#include "check.hpp"
#include "lending.hpp"
#include "tests.hpp"

namespace {

std::string contents(const std::string& path) {
  std::ifstream file(path, std::ios::binary);
  return {std::istreambuf_iterator<char>(file), std::istreambuf_iterator<char>()};
}

struct Printed {
  int status;
  std::string out, err;
};

Printed run(const std::string& program, const std::string& in, const std::string& scratch) {
  const std::string out = scratch + "/printed.out", err = scratch + "/printed.err";
  const std::string command = "'" + program + "' < '" + in + "' > '" + out + "' 2> '" + err + "'";
  const int status = std::system(command.c_str());
  return {status, contents(out), contents(err)};
}

void check_program(const std::string& program, const std::string& in, const std::string& scratch,
                   const std::string& expected, const std::string& what) {
  const Printed printed = run(program, in, scratch);
  check(printed.out == expected, what + " prints\n" + printed.out);
  check(printed.status == 0 && printed.err.empty(), what + ": status 0 and nothing on standard error");
}

}  // namespace

void test_program(const std::string& program, const std::string& why, const std::string& examples, const std::string& scratch) {
  const std::string example = contents(examples + "/m.in");
  check(example == tabbed("from 1,0 100\n") + m, "the example's input is at hand");
  check_program(program, examples + "/m.in", scratch,
                tabbed("step 1 1 0 0,1\nstep 2 2 - 0,2\nstable 2 0 0,2\n"), "paper 01's example");
  for (const char* name : {"m", "refused", "unsettled", "empty"}) {
    const std::string base = examples + "/" + name;
    const std::string expected = contents(base + ".out");
    check(!expected.empty(), base + ".out is at hand");
    check_program(program, base + ".in", scratch, expected, base);
  }
  check_program(why, examples + "/why/clash.in", scratch, contents(examples + "/why/clash.out"), "why");
  check(contents(examples + "/why/clash.out") == tabbed("clash 1 1 1 2\npath 0 - 1 - 1\norder 1 - 1 2 - 0\norder 2 - 0 1 - 1\n"), "P7's clash");
  check_program(why, examples + "/empty.in", scratch, "refused\t8\t0\n", "why, of an empty text");
  // Longer than the program keeps: the report mustn't depend on what lies beyond.
  const std::string long_in = scratch + "/long.in";
  for (const char* request : {"from 1,0 100\n", "from 1,0\n"}) {
    std::ofstream(long_in, std::ios::binary) << tabbed(request) << m << std::string(1000000, 'x');
    check_program(program, long_in, scratch, lend_report(contents(long_in)), "a long input");
  }
  std::ofstream(long_in, std::ios::binary) << m << std::string(1000000, 'x');
  check_program(why, long_in, scratch, "refused\t1\t0\n", "why, of a long input");
  std::remove(long_in.c_str());
}
