// Runs a command as people do, on every kind of standard input and output, and holds both outputs and the status to what they must be.
// usage: drive [--script] [--system FILE] [--limits TEXT REQUEST COMPONENTS STATE LONGEST] [--case NAME].. COMMAND WORDS..
// --script: the command is ./settle, which gives what the program says a status. --system: a stand-in for read and write (system.c).
// From the repository's root: the example is crates/settle/stdin and crates/settle/stdout.
#include <dirent.h>
#include <fcntl.h>
#include <signal.h>
#include <sys/ioctl.h>
#include <sys/resource.h>
#include <sys/socket.h>
#include <sys/wait.h>
#include <unistd.h>

#include <algorithm>
#include <atomic>
#include <cerrno>
#include <chrono>
#include <cstdio>
#include <cstdlib>
#include <cstring>
#include <fstream>
#include <sstream>
#include <string>
#include <thread>
#include <vector>

namespace {

using Words = std::vector<std::string>;

// ---- what is lent to the command

struct Input {
  enum Kind { pipe, file, socket, directory, closed, write_only } kind = pipe;
  std::string bytes;
  std::size_t piece = 0;     // so many bytes at a time, each piece once the one before it was read
  std::string late;          // sent after a wait
  int wait = 0;              // in milliseconds
  bool nonblocking = false;  // the command's end
  bool dies = false;         // a socket's sender that ends before the text does
};

struct Output {
  enum Kind { pipe, file, closed, full } kind = pipe;
  int room = 0;              // of the pipe
  std::size_t take = 65536;  // so many bytes at a time
  int pause = 0;             // between them, in milliseconds
  bool nonblocking = false;  // the command's end
  std::size_t leave = 0;     // the reader goes after so many bytes
  rlim_t most = 0;           // how long a file may grow
};

// An exit status, or a signal below zero.
struct Case {
  std::string name;
  Input in;
  Output out;
  Output::Kind err = Output::pipe;
  std::string want_out, want_err;
  int status = 0, script = 0;
  bool ignores_pipe = false;  // SIGPIPE ignored when the command starts
  int signal = 0;             // sent to the program once it waits for its input
  std::string system;         // SYSTEM, with the stand-in
  bool any_err = false;       // what is said of a signal is the shell's own
};

struct Limits {
  std::size_t text, request, components, state, longest;
};

// ---- small things

void pause(int milliseconds) { std::this_thread::sleep_for(std::chrono::milliseconds(milliseconds)); }

[[noreturn]] void give_up(const std::string& what) {
  std::perror(what.c_str());
  std::exit(2);
}

int must(int got, const char* what) {
  if (got < 0) give_up(what);
  return got;
}

std::string read_file(const std::string& name) {
  std::ifstream file(name, std::ios::binary);
  if (!file) give_up(name);
  std::stringstream text;
  text << file.rdbuf();
  return text.str();
}

// A file without a name.
int scratch(const std::string& bytes) {
  std::FILE* file = std::tmpfile();
  if (file == nullptr) give_up("a scratch file");
  const int fd = must(fcntl(fileno(file), F_DUPFD_CLOEXEC, 10), "a scratch file");
  std::fclose(file);
  std::size_t done = 0;
  while (done < bytes.size()) done += must(write(fd, bytes.data() + done, bytes.size() - done), "a scratch file");
  lseek(fd, 0, SEEK_SET);
  return fd;
}

std::string whole(int fd) {
  std::string bytes;
  char part[65536];
  lseek(fd, 0, SEEK_SET);
  for (ssize_t got; (got = read(fd, part, sizeof part)) > 0;) bytes.append(part, got);
  return bytes;
}

void set_nonblocking(int fd) { must(fcntl(fd, F_SETFL, fcntl(fd, F_GETFL) | O_NONBLOCK), "O_NONBLOCK"); }

// ---- what the driver does at the other ends, each in a thread of its own

struct Sender {
  int fd = -1;
  bool all = true;  // nothing that was sent found its reader gone
  const std::atomic<bool>* over = nullptr;

  bool send(const std::string& bytes) {
    std::size_t done = 0;
    while (done < bytes.size()) {
      const ssize_t put = write(fd, bytes.data() + done, bytes.size() - done);
      if (put < 0) return all = false;
      done += put;
    }
    return true;
  }

  // The bytes that are on their way.
  int waiting(bool socket) const {
    int n = 0;
    ioctl(fd, socket ? TIOCOUTQ : FIONREAD, &n);
    return n;
  }

  void operator()(const Input& in) {
    const bool socket = in.kind == Input::socket;
    const std::size_t piece = in.piece == 0 ? in.bytes.size() : in.piece;
    for (std::size_t at = 0; at < in.bytes.size(); at += piece) {
      if (!send(in.bytes.substr(at, piece))) break;
      if (in.piece > 0 || in.dies)
        while (!*over && waiting(socket) > 0) pause(1);
      if (in.piece > 0) pause(1);
    }
    if (!in.late.empty()) {
      pause(in.wait);
      send(in.late);
    }
    if (!in.dies && socket) {
      while (!*over && waiting(true) > 0) pause(1);
    }
    close(fd);
  }
};

struct Reader {
  int fd = -1;
  std::string bytes;

  void operator()(const Output& out) {
    std::string part(out.take, '\0');
    for (;;) {
      const ssize_t got = read(fd, &part[0], part.size());
      if (got <= 0) break;
      bytes.append(part, 0, got);
      if (out.leave > 0 && bytes.size() >= out.leave) break;
      if (out.pause > 0) pause(out.pause);
    }
    close(fd);
  }
};

// ---- the command

// The process that runs the program: the command's own, or the child of the script.
pid_t program_of(pid_t command, bool script) {
  if (!script) return command;
  DIR* all = opendir("/proc");
  pid_t found = 0;
  while (const dirent* entry = all ? readdir(all) : nullptr) {
    const pid_t pid = std::atoi(entry->d_name);
    if (pid <= 0) continue;
    std::ifstream stat("/proc/" + std::to_string(pid) + "/stat");
    std::string text;
    std::getline(stat, text);
    const std::size_t end = text.rfind(')');
    char state;
    int parent = 0;
    if (end != std::string::npos && std::sscanf(text.c_str() + end + 1, " %c %d", &state, &parent) == 2 && parent == command) found = pid;
  }
  if (all) closedir(all);
  return found;
}

// Its words, or nothing where it is gone.
std::string words_of(pid_t pid) {
  std::ifstream file("/proc/" + std::to_string(pid) + "/cmdline", std::ios::binary);
  std::stringstream text;
  text << file.rdbuf();
  return text.str();
}

// Whether it sleeps.
bool sleeps(pid_t pid) {
  std::ifstream stat("/proc/" + std::to_string(pid) + "/stat");
  std::string text;
  std::getline(stat, text);
  const std::size_t end = text.rfind(')');
  return end != std::string::npos && text.size() > end + 2 && text[end + 2] == 'S';
}

// Waits until the program runs and sleeps, three looks in a row, and ends it.
void end_program(pid_t command, bool script, int signal, const std::string& program, const std::atomic<bool>& over) {
  for (int calm = 0; !over;) {
    const pid_t pid = program_of(command, script);
    const std::string words = pid > 0 ? words_of(pid) : "", first = words.substr(0, words.find('\0'));
    const bool runs = first.size() >= program.size() && first.compare(first.size() - program.size(), program.size(), program) == 0;
    calm = runs && sleeps(pid) ? calm + 1 : 0;
    if (calm == 3) {
      kill(pid, signal);
      return;
    }
    pause(50);
  }
}

struct Ends {
  int child = -1, mine = -1;
};

Ends input_ends(const Input& in) {
  Ends ends;
  int two[2];
  switch (in.kind) {
    case Input::pipe:
      must(pipe2(two, O_CLOEXEC), "a pipe");
      ends = {two[0], two[1]};
      break;
    case Input::socket:
      must(socketpair(AF_UNIX, SOCK_STREAM | SOCK_CLOEXEC, 0, two), "a socket");
      ends = {two[0], two[1]};
      // A byte that the sender has not read when it ends: the other side is told that it died.
      if (in.dies) must(write(two[0], "x", 1), "a socket");
      break;
    case Input::file: ends.child = scratch(in.bytes); break;
    case Input::directory: ends.child = must(open("/", O_RDONLY | O_CLOEXEC), "/"); break;
    case Input::write_only: ends.child = must(open("/dev/null", O_WRONLY | O_CLOEXEC), "/dev/null"); break;
    case Input::closed: break;
  }
  if (in.nonblocking) set_nonblocking(ends.child);
  return ends;
}

Ends output_ends(const Output& out) {
  Ends ends;
  int two[2];
  switch (out.kind) {
    case Output::pipe:
      must(pipe2(two, O_CLOEXEC), "a pipe");
      if (out.room > 0) must(fcntl(two[1], F_SETPIPE_SZ, out.room), "a pipe's room");
      ends = {two[1], two[0]};
      break;
    case Output::file: ends.child = scratch(""); break;
    case Output::full: ends.child = must(open("/dev/full", O_WRONLY | O_CLOEXEC), "/dev/full"); break;
    case Output::closed: break;
  }
  if (out.nonblocking) set_nonblocking(ends.child);
  return ends;
}

void put_at(int fd, int at) {
  if (fd < 0) {
    close(at);
  } else if (dup2(fd, at) < 0) {
    _exit(99);
  }
}

[[noreturn]] void become(const Words& command, const Case& c, const std::string& system, int in, int out, int err) {
  setpgid(0, 0);
  signal(SIGPIPE, c.ignores_pipe ? SIG_IGN : SIG_DFL);
  const rlimit none = {0, 0};
  setrlimit(RLIMIT_CORE, &none);
  if (c.out.most > 0) {
    signal(SIGXFSZ, SIG_IGN);
    const rlimit most = {c.out.most, c.out.most};
    setrlimit(RLIMIT_FSIZE, &most);
  }
  if (!c.system.empty()) {
    setenv("SYSTEM", c.system.c_str(), 1);
    setenv("LD_PRELOAD", system.c_str(), 1);
  }
  put_at(in, 0);
  put_at(out, 1);
  put_at(err, 2);
  std::vector<char*> words;
  for (const std::string& word : command) words.push_back(const_cast<char*>(word.c_str()));
  words.push_back(nullptr);
  execvp(words[0], words.data());
  _exit(99);
}

std::string shown(const std::string& bytes) {
  const std::string front = bytes.substr(0, 200);
  return std::to_string(bytes.size()) + " bytes \"" + front + (front.size() < bytes.size() ? "..\"" : "\"");
}

std::string differs(const char* what, const std::string& got, const std::string& want) {
  if (got == want) return "";
  return std::string(what) + " is " + shown(got) + " and should be " + shown(want) + "\n";
}

// What is wrong, or nothing.
std::string run(const Case& c, const Words& command, bool script, const std::string& system) {
  const Ends in = input_ends(c.in), out = output_ends(c.out);
  Output err_out;
  err_out.kind = c.err;
  const Ends err = output_ends(err_out);
  const pid_t pid = must(fork(), "fork");
  if (pid == 0) become(command, c, system, in.child, out.child, err.child);

  if (in.child >= 0) close(in.child);
  if (out.child >= 0 && c.out.kind != Output::file) close(out.child);
  if (err.child >= 0) close(err.child);
  std::atomic<bool> over{false};
  Sender sender;
  sender.fd = in.mine;
  sender.over = &over;
  Reader reader, err_reader;
  reader.fd = out.mine;
  err_reader.fd = err.mine;
  std::vector<std::thread> threads;
  if (c.signal > 0) {
    threads.emplace_back([&] { end_program(pid, script, c.signal, "out/settle", over); });
  } else if (in.mine >= 0) {
    threads.emplace_back([&] { sender(c.in); });
  }
  if (out.mine >= 0) threads.emplace_back([&] { reader(c.out); });
  if (err.mine >= 0) threads.emplace_back([&] { err_reader(err_out); });

  int ended = 0;
  bool late = false;
  const auto start = std::chrono::steady_clock::now();
  while (waitpid(pid, &ended, WNOHANG) == 0) {
    if (!late && std::chrono::steady_clock::now() - start > std::chrono::seconds(120)) {
      late = true;
      kill(-pid, SIGKILL);
    }
    pause(2);
  }
  over = true;
  kill(-pid, SIGKILL);  // whatever the command left behind
  for (std::thread& thread : threads) thread.join();
  if (c.signal > 0 && in.mine >= 0) close(in.mine);

  std::string wrong;
  if (late) wrong += "it did not end\n";
  const std::string printed = c.out.kind == Output::file ? whole(out.child) : reader.bytes;
  if (c.out.kind == Output::file) close(out.child);
  wrong += differs("standard output", printed, c.want_out);
  if (!c.any_err) wrong += differs("standard error", err_reader.bytes, c.err == Output::pipe ? c.want_err : "");
  const int status = WIFSIGNALED(ended) ? -WTERMSIG(ended) : WEXITSTATUS(ended);
  const int want = script ? c.script : c.status;
  if (status != want) wrong += "the status is " + std::to_string(status) + " and should be " + std::to_string(want) + "\n";
  if (!sender.all) wrong += "the sender found its reader gone\n";
  return wrong;
}

// ---- the cases

std::string tabbed(std::string text) {
  for (char& c : text)
    if (c == ' ') c = '\t';
  return text;
}

std::string repeated(const std::string& text, std::size_t times) {
  std::string all;
  while (times-- > 0) all += text;
  return all;
}

std::string range(std::size_t from, std::size_t to) {
  std::string line = std::to_string(from);
  for (std::size_t n = from + 1; n <= to; ++n) line += "," + std::to_string(n);
  return line;
}

const char* const not_read = "settle: standard input could not be read (error ";
const char* const not_written = "settle: the report could not be written whole (error ";

std::string says(const char* what, int error) { return what + std::to_string(error) + ")\n"; }

// One urgent step, and the row that it goes by is the last line: what stops before it is stable at once.
const std::string step_front = tabbed("from 0 5\ncomp 2 0\nact 0 uout\n"), step_last = tabbed("row 0 - 0 - 1\n");
const std::string step_report = tabbed("step 1 0 - 1\nstable 1 - 1\n");

// A list of clocks so many characters long: two-digit clocks, and two of one digit at most.
std::string clocks_of_length(std::size_t length) {
  std::size_t twos = (length + 1) / 3;
  while ((length + 1 - 3 * twos) % 2 != 0) --twos;
  const std::size_t ones = (length + 1 - 3 * twos) / 2;
  std::string list;
  for (std::size_t k = 0; k < ones; ++k) list += (list.empty() ? "" : ",") + std::to_string(k);
  for (std::size_t k = 0; k < twos; ++k) list += (list.empty() ? "" : ",") + std::to_string(10 + k);
  return list;
}

std::string row(std::size_t state, std::size_t action, const std::string& resets) {
  return "row " + std::to_string(state) + " - " + std::to_string(action) + " " + resets + " " + std::to_string(state) + "\n";
}

// A model whose text is as long as a text may be: one component that only hears, with long lists of resets,
// and one that takes an urgent step by the last line.
std::string longest_text(std::size_t length) {
  const std::size_t states = 32, inputs = 16;
  std::string head = "comp 32 0\n";
  for (std::size_t a = 0; a < inputs; ++a) head += "act " + std::to_string(a) + " in\n";
  for (std::size_t x = 0; x < 64; ++x) head += "clk " + std::to_string(x) + " 0\n";
  const std::string tail = "comp 2 0\nact 63 uout\nrow 0 - 63 - 1\n", all = range(0, 63);
  std::size_t spare = length - head.size() - tail.size();
  for (std::size_t s = 0; s < states; ++s)
    for (std::size_t a = 0; a < inputs; ++a) spare -= row(s, a, "-").size();
  std::string text = head;
  for (std::size_t s = 0; s < states; ++s)
    for (std::size_t a = 0; a < inputs; ++a) {
      const std::size_t more = std::min(spare, all.size() - 1);
      spare -= more;
      text += row(s, a, more == 0 ? "-" : more == all.size() - 1 ? all : clocks_of_length(more + 1));
    }
  return tabbed(text + tail);
}

// A well-shaped request of so many bytes, with far more states than there are components.
std::string longest_request(std::size_t length) {
  std::string states = "0";
  while (("from " + states + " 5\n").size() + 2 <= length) states += ",0";
  if (("from " + states + " 5\n").size() < length) states += "0", states[states.size() - 2] = '1';
  return tabbed("from " + states + " 5\n");
}

struct Longest {
  std::string input, report;
};

// The longest report there can be: every step resets all 64 clocks and leads back.
Longest longest_report(const Limits& limits) {
  const std::string all = range(0, 63), state = std::to_string(limits.state);
  const std::string states = state + repeated("," + state, limits.components - 1);
  const std::string comp = "comp " + std::to_string(limits.state + 1) + " " + state + "\n";
  std::string model = comp + "act 10 uout\n";
  for (unsigned x = 0; x < 64; ++x) model += "clk " + std::to_string(x) + " 0\n";
  model += "row " + state + " - 10 " + all + " " + state + "\n" + repeated(comp, limits.components - 1);
  const std::string tail = " " + all + " " + states + "\n";
  std::string report;
  for (unsigned n = 1; n <= 4096; ++n) report += "step " + std::to_string(n) + " 10" + tail;
  report += "unsettled 4096" + tail;
  return {tabbed("from " + states + " 4096\n" + model), tabbed(report)};
}

Case plain(const std::string& name, const std::string& in, const std::string& out) {
  Case c;
  c.name = name;
  c.in.bytes = in;
  c.want_out = out;
  return c;
}

Case failing(const std::string& name, const std::string& in, const std::string& out, const char* what, int error) {
  Case c = plain(name, in, out);
  c.want_err = says(what, error);
  c.script = 1;
  return c;
}

std::vector<Case> reading(const Limits& limits) {
  const std::string in = read_file("crates/settle/stdin"), out = read_file("crates/settle/stdout");
  std::vector<Case> all;
  Case c;

  c = plain("a file", in, out);
  c.in.kind = Input::file;
  all.push_back(c);
  all.push_back(plain("a pipe", in, out));
  c = plain("an empty file", "", tabbed("refused 9 0\n"));
  c.in.kind = Input::file;
  all.push_back(c);
  for (std::size_t piece : {1, 7}) {
    c = plain("pieces of " + std::to_string(piece), in, out);
    c.in.piece = piece;
    all.push_back(c);
    c.name += ", non-blocking";
    c.in.nonblocking = true;
    all.push_back(c);
  }

  // Up to the last byte that can matter, and on: a request and a text as long as they may be, a byte more, two, and very many.
  const std::string text = longest_text(limits.text), request = longest_request(limits.request), full = request + text;
  all.push_back(plain("the longest text", tabbed("from 0,0 5\n") + text, tabbed("step 1 63 - 0,1\nstable 1 - 0,1\n")));
  all.push_back(plain(std::to_string(full.size()) + " bytes", full, tabbed("refused 21 0\n")));
  for (std::size_t more : {1, 2})
    all.push_back(plain(std::to_string(full.size() + more) + " bytes", full + repeated("x", more), tabbed("refused 1 0\n")));
  all.push_back(plain("10000000 bytes", full + std::string(10000000 - full.size(), 'x'), tabbed("refused 1 0\n")));

  for (Input::Kind kind : {Input::pipe, Input::socket})
    for (bool nonblocking : {false, true}) {
      const std::string which = std::string(nonblocking ? "non-blocking " : "") + (kind == Input::pipe ? "pipe" : "socket");
      c = plain("the last line late, a " + which, step_front, step_report);
      c.in.kind = kind;
      c.in.nonblocking = nonblocking;
      c.in.late = step_last;
      c.in.wait = kind == Input::pipe && nonblocking ? 2000 : 300;
      all.push_back(c);
    }

  c = failing("a directory", "", "", not_read, EISDIR);
  c.in.kind = Input::directory;
  all.push_back(c);
  c = failing("closed", "", "", not_read, EBADF);
  c.in.kind = Input::closed;
  all.push_back(c);
  c = failing("open for writing alone", "", "", not_read, EBADF);
  c.in.kind = Input::write_only;
  all.push_back(c);
  c = failing("a sender that dies", step_front, "", not_read, ECONNRESET);
  c.in.kind = Input::socket;
  c.in.dies = true;
  all.push_back(c);
  return all;
}

std::vector<Case> writing(const Limits& limits) {
  const std::string in = read_file("crates/settle/stdin");
  const Longest longest = longest_report(limits);
  std::vector<Case> all;
  Case c;

  c = plain("the longest report to a file", longest.input, longest.report);
  c.out.kind = Output::file;
  all.push_back(c);
  all.push_back(plain("the longest report", longest.input, longest.report));
  c = plain("the longest report, a slow reader", longest.input, longest.report);
  c.out.room = 4096;
  c.out.take = 4096;
  c.out.pause = 1;
  all.push_back(c);
  c = plain("the longest report, a non-blocking pipe", longest.input, longest.report);
  c.out.nonblocking = true;
  all.push_back(c);
  c.name += " and a slow reader";
  c.out.take = 4096;
  c.out.pause = 4;
  all.push_back(c);

  c = failing("output closed", in, "", not_written, EBADF);
  c.out.kind = Output::closed;
  all.push_back(c);
  c = failing("output full", in, "", not_written, ENOSPC);
  c.out.kind = Output::full;
  all.push_back(c);
  c = failing("output full after 500000 bytes", longest.input, longest.report.substr(0, 500000), not_written, EFBIG);
  c.out.kind = Output::file;
  c.out.most = 500000;
  all.push_back(c);
  c = failing("a reader that leaves, its signal ignored", longest.input, longest.report.substr(0, 1000), not_written, EPIPE);
  c.out.take = 1000;
  c.out.leave = 1000;
  c.ignores_pipe = true;
  all.push_back(c);
  // The kit's runtime ignores the signal by itself.
  c.name = "a reader that leaves";
  c.ignores_pipe = false;
  all.push_back(c);
  return all;
}

std::vector<Case> both() {
  const std::string in = read_file("crates/settle/stdin"), out = read_file("crates/settle/stdout");
  std::vector<Case> all;
  Case c;

  c = failing("input and output closed", "", "", not_read, EBADF);
  c.in.kind = Input::closed;
  c.out.kind = Output::closed;
  all.push_back(c);
  c.name = "all closed";
  c.err = Output::closed;
  all.push_back(c);
  c = plain("error closed, and nothing to say", in, out);
  c.err = Output::closed;
  all.push_back(c);
  for (Output::Kind err : {Output::closed, Output::full}) {
    const std::string which = err == Output::closed ? "error closed" : "error full";
    c = failing("a directory, " + which, "", "", not_read, EISDIR);
    c.in.kind = Input::directory;
    c.err = err;
    all.push_back(c);
    c = failing("output full, " + which, in, "", not_written, ENOSPC);
    c.out.kind = Output::full;
    c.err = err;
    all.push_back(c);
  }
  for (int signal : {SIGKILL, SIGSEGV}) {
    c = plain("ended by signal " + std::to_string(signal), "", "");
    c.signal = signal;
    c.status = -signal;
    c.script = 128 + signal;
    c.any_err = true;
    all.push_back(c);
  }
  return all;
}

// With the stand-in.
std::vector<Case> system_cases() {
  const std::string in = read_file("crates/settle/stdin"), out = read_file("crates/settle/stdout");
  std::vector<Case> all = {plain("interrupted", in, out), failing("a read that fails in the text", in, "", not_read, EIO),
                           failing("a write that fails in the report", in, out.substr(0, 40), not_written, EIO),
                           failing("a write that takes nothing", in, "", not_written, EIO)};
  const char* const modes[] = {"interrupted", "read-fails", "write-fails", "takes-nothing"};
  for (std::size_t k = 0; k < all.size(); ++k) all[k].system = modes[k];
  return all;
}

bool among(const Words& names, const std::string& name) {
  for (const std::string& one : names)
    if (one == name) return true;
  return false;
}

}  // namespace

int main(int count, char** words) {
  for (int fd : {0, 1, 2})
    if (fcntl(fd, F_GETFD) < 0) must(open("/dev/null", O_RDWR), "/dev/null");
  signal(SIGPIPE, SIG_IGN);
  bool script = false;
  std::string system;
  Limits limits = {32768, 256, 32, 100, 1322226};
  Words only, command;
  for (int k = 1; k < count; ++k) {
    const std::string word = words[k];
    if (word == "--script") {
      script = true;
    } else if (word == "--system" && k + 1 < count) {
      system = words[++k];
    } else if (word == "--limits" && k + 5 < count) {
      for (std::size_t* limit : {&limits.text, &limits.request, &limits.components, &limits.state, &limits.longest})
        *limit = std::strtoul(words[++k], nullptr, 10);
    } else if (word == "--case" && k + 1 < count) {
      only.push_back(words[++k]);
    } else {
      for (; k < count; ++k) command.push_back(words[k]);
    }
  }
  if (command.empty()) {
    std::fputs("drive: no command; drive.cpp says how it is used\n", stderr);
    return 2;
  }

  std::vector<Case> all = reading(limits);
  for (const std::vector<Case>& more : {writing(limits), both(), system.empty() ? std::vector<Case>() : system_cases()})
    all.insert(all.end(), more.begin(), more.end());
  unsigned passed = 0, failed = 0;
  const auto tell = [&](const std::string& name, const std::string& wrong) {
    (wrong.empty() ? passed : failed)++;
    std::printf("%s: %s\n%s", wrong.empty() ? "passed" : "FAILED", name.c_str(), wrong.c_str());
    std::fflush(stdout);
  };
  if (only.empty()) {
    tell("the sizes", differs("the longest report", std::to_string(longest_report(limits).report.size()), std::to_string(limits.longest)) +
                          differs("the longest text", std::to_string(longest_text(limits.text).size()), std::to_string(limits.text)) +
                          differs("the longest request", std::to_string(longest_request(limits.request).size()), std::to_string(limits.request)));
  }
  for (const Case& c : all) {
    if (!only.empty() && !among(only, c.name)) continue;
    tell(c.name, run(c, command, script, system));
  }
  std::printf("%u passed, %u failed\n", passed, failed);
  return failed == 0 && passed > 0 ? 0 : 1;
}
