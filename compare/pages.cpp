#include "pages.hpp"

#include <setjmp.h>
#include <sys/mman.h>
#include <unistd.h>

#include <csignal>
#include <cstdio>
#include <cstdlib>

namespace {

constexpr std::size_t page = 4096;  // of every x86-64

void need(bool good, const char* what) {
  if (good) return;
  std::perror(what);
  std::exit(2);
}

// Room for so many bytes, from this file, and a page behind it that nobody may touch.
std::uint8_t* mapped(int file, std::size_t room, int protection) {
  void* place = mmap(nullptr, room + page, PROT_NONE, MAP_PRIVATE | MAP_ANONYMOUS, -1, 0);
  need(place != MAP_FAILED, "mmap");
  need(mmap(place, room, protection, MAP_SHARED | MAP_FIXED, file, 0) == place, "mmap");
  return static_cast<std::uint8_t*>(place);
}

// ---- faults

sigjmp_buf before_the_call;
volatile std::sig_atomic_t in_the_engine = 0;
void* volatile touched_at = nullptr;
char tried[400] = "before the first call";

void tell(const char* words) { need(write(2, words, std::strlen(words)) >= 0, "write"); }

void met_fault(int number, siginfo_t* info, void*) {
  if (in_the_engine) {
    touched_at = info->si_addr;
    siglongjmp(before_the_call, 1);
  }
  tell("a fault outside the engine: ");
  tell(tried);
  tell("\n");
  std::signal(number, SIG_DFL);
  std::raise(number);
}

// On a stack of its own, as the fault may be that there is none left; and not held back while it runs, as it never returns.
void catch_faults() {
  static std::uint8_t room[1 << 16];
  stack_t stack{};
  stack.ss_sp = room;
  stack.ss_size = sizeof room;
  need(sigaltstack(&stack, nullptr) == 0, "sigaltstack");
  struct sigaction action {};
  action.sa_sigaction = met_fault;
  action.sa_flags = SA_SIGINFO | SA_ONSTACK | SA_NODEFER;
  for (int number : {SIGSEGV, SIGBUS, SIGILL, SIGFPE}) need(sigaction(number, &action, nullptr) == 0, "sigaction");
}

Said stores_where_it_may_only_read(const Lent& lent) {
  *const_cast<volatile std::uint64_t*>(lent.table.front) = *lent.table.front;
  return {};
}
Said reads_behind(const Lent& lent) {
  Said said;
  said.answer.count = static_cast<const volatile std::uint64_t*>(lent.table.front)[lent.table.length];
  return said;
}
Said reads(const Lent& lent) {
  Said said;
  said.answer.count = lent.table.front[lent.table.length - 1];
  return said;
}

}  // namespace

void Pages::give_back() {
  if (room == 0) return;
  munmap(open, room + page);
  munmap(shut, room + page);
}

void Pages::make(std::size_t least) {
  give_back();
  room = (2 * least + page - 1) / page * page;
  const int file = memfd_create("loan", 0);
  need(file >= 0 && ftruncate(file, static_cast<off_t>(room)) == 0, "memfd_create");
  open = mapped(file, room, PROT_READ | PROT_WRITE);
  shut = mapped(file, room, PROT_READ);
  close(file);
}

void Pages::hold(const void* content, std::size_t bytes) {
  if (guard_bytes + bytes > room) make(guard_bytes + bytes);
  held = bytes;
  if (bytes > 0) std::memcpy(front(false), content, bytes);
  std::memset(front(false) - guard_bytes, guard_byte, guard_bytes);
}

bool Pages::holds(const void* content, std::size_t bytes) const {
  return bytes == held && same(content, front(false), bytes) && is_guard(front(false) - guard_bytes);
}

bool Pages::find(const void* address, std::ptrdiff_t& byte) const {
  const auto* at = static_cast<const std::uint8_t*>(address);
  for (const std::uint8_t* place : {open, shut})
    if (place <= at && at < place + room + page) {
      byte = at - (place + room - held);
      return true;
    }
  return false;
}

void PagedLoan::hold(const Loan& loan) {
  table.hold(loan.table);
  state.hold(loan.state);
  missing = loan.missing;
  path.hold(loan.path);
  bytes.hold(loan.bytes);
  numbers.hold(loan.numbers);
  number = loan.number;
  into.hold(loan.into);
  out.hold(loan.out);
  clocks.hold(loan.clocks);
  answer = {};
  after = {};
}

Lent PagedLoan::lent(bool read_only) {
  const auto words = table.lent(true);
  const auto repaired = table.lent(read_only);
  const auto read = bytes.lent(true);
  const auto listed = path.lent(true);
  const auto drawn = numbers.lent(true);
  const auto parts = state.lent(true);
  const auto advanced = state.lent(read_only);
  return {{words.front, words.length},
          repaired,
          {parts.front, parts.length + missing},
          {advanced.front, advanced.length + missing},
          {listed.front, listed.length},
          {read.front, read.length},
          {drawn.front, drawn.length},
          number,
          into.lent(read_only),
          out.lent(read_only),
          clocks.lent(read_only),
          answer.place(),
          after.place()};
}

bool PagedLoan::holds(const Kept& other) const {
  return table.holds(other.table) && state.holds(other.state) && path.holds(other.path) && bytes.holds(other.bytes) && numbers.holds(other.numbers) &&
         into.holds(other.into) && out.holds(other.out) && clocks.holds(other.clocks) && answer.intact() && after.intact();
}

std::string PagedLoan::place_of(const void* address) const {
  const std::pair<const char*, const Pages*> all[] = {{"table", &table}, {"state", &state}, {"path", &path}, {"bytes", &bytes},
                                                      {"numbers", &numbers}, {"into", &into}, {"out", &out}, {"clocks", &clocks}};
  std::ptrdiff_t byte = 0;
  for (const auto& [name, pages] : all)
    if (pages->find(address, byte)) return "byte " + std::to_string(byte) + " of the " + std::to_string(pages->bytes()) + " of `" + name + "`";
  return "a byte of no buffer";
}

bool ran(Said (*call)(const Lent&), const Lent& lent, Said& said, const void*& touched) {
  static const bool caught = (catch_faults(), true);
  if (!caught || sigsetjmp(before_the_call, 0) != 0) {
    in_the_engine = 0;
    touched = touched_at;
    return false;
  }
  in_the_engine = 1;
  said = call(lent);
  in_the_engine = 0;
  return true;
}

bool faults_are_caught() {
  PagedLoan pages;
  Loan loan;
  loan.table = {1, 2, 3};
  pages.hold(loan);
  const Lent lent = pages.lent(true);
  Said said;
  const void* touched = nullptr;
  const bool reads_on = ran(reads, lent, said, touched) && said.answer.count == 3;
  const bool no_store = !ran(stores_where_it_may_only_read, lent, said, touched) && touched == lent.table.front;
  const bool no_more = !ran(reads_behind, lent, said, touched) && touched == lent.table.front + 3;
  return reads_on && no_store && no_more;
}

void trying(const char* call, const std::string& where) { std::snprintf(tried, sizeof tried, "%s, %s", call, where.c_str()); }
