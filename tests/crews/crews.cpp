// What is shown of tracing for many crews (crates/grid/specs/Operations.antt), by the library alone and with no turn worked out here: of the turns since
// the beginning, numbered from 0, crew k has those with the remainder k by 32, and at its r-th since the hand-in a route of r cells is finished. That, the
// route's codes and the basin labels say what each crew collects and what the total is.
//   crews LISTS [SEED]      LISTS of hand-ins, runs and collections on small sheets, all said of them looked at after each call; then single turns of every
//                           crew, handed in at every crew's turn, and a route of 90,000 cells
#include "../../include/tervuola.h"
#include <algorithm>
#include <cstdio>
#include <cstdlib>
#include <cstring>
#include <random>
#include <vector>

static uint64_t looks = 0, collections = 0, just_in_time = 0;
static void holds(bool fact, const char *what) {
  looks++;
  if (fact)
    return;
  fprintf(stderr, "crews: %s does not hold\n", what);
  exit(1);
}
static std::mt19937_64 bits;
static uint32_t below(uint64_t n) { return (uint32_t)(bits() % n); }

// an accepted sheet of codes and its basins
struct Sheet {
  uint32_t rows, cols;
  std::vector<uint8_t> codes;
  std::vector<uint32_t> labels, work;
  Sheet(uint32_t rows, uint32_t cols) : rows(rows), cols(cols), codes(n()), labels(n()), work(4 * n()) {}
  size_t n() const { return (size_t)rows * cols; }
};
static Sheet with_labels(Sheet s) {
  tervuola_answer a = tervuola_labels(s.rows, s.cols, s.codes.data(), s.n(), s.labels.data(), s.n(), s.work.data(), s.work.size());
  holds(a.number == 0, "that the codes are accepted");
  return s;
}
// the codes of random country with voids
static Sheet drained(uint32_t rows, uint32_t cols) {
  Sheet s(rows, cols);
  std::vector<int16_t> e(s.n()), filled(s.n());
  std::vector<uint32_t> counts(s.n());
  for (auto &z : e)
    z = below(9) ? (int16_t)below(5) : TERVUOLA_VOID;
  tervuola_answer a = tervuola_drain(rows, cols, 0, 1, 1, e.data(), s.n(), filled.data(), s.n(), s.codes.data(), s.n(), counts.data(), s.n(),
                                     s.labels.data(), s.n(), s.work.data(), s.work.size());
  holds(a.number == 0, "that the sheet is accepted");
  return s;
}
// codes towards the south-east, and 0 here and there
static Sheet slope(uint32_t rows, uint32_t cols) {
  static const uint8_t down[] = {TERVUOLA_EAST, TERVUOLA_SOUTH_EAST, TERVUOLA_SOUTH};
  Sheet s(rows, cols);
  for (auto &c : s.codes)
    c = below(9) ? down[below(3)] : 0;
  return with_labels(s);
}
// one route over all cells: east, a row down, west, a row down ..
static Sheet snake(uint32_t rows, uint32_t cols) {
  Sheet s(rows, cols);
  for (size_t c = 0; c < s.n(); c++) {
    bool west = c / cols % 2, turns = c % cols == (west ? 0 : cols - 1);
    s.codes[c] = turns ? TERVUOLA_SOUTH : west ? TERVUOLA_WEST : TERVUOLA_EAST;
  }
  return with_labels(s);
}
static std::vector<uint32_t> route(const Sheet &s, uint32_t cell) {
  static const int down[8] = {-1, 0, 1, 1, 1, 0, -1, -1}, right[8] = {1, 1, 1, 0, -1, -1, -1, 0};
  std::vector<uint32_t> l;
  int64_t row = cell / s.cols, col = cell % s.cols;
  while (row >= 0 && row < s.rows && col >= 0 && col < s.cols && s.codes[(size_t)(row * s.cols + col)]) {
    l.push_back((uint32_t)(row * s.cols + col));
    int p = 0;
    while (s.codes[l.back()] != 1 << p)
      p++;
    row += down[p];
    col += right[p];
  }
  return l;
}

struct Trace {
  std::vector<uint32_t> route; // empty: no trace
  uint64_t since = 0;          // the turns that were taken before it was handed in
};
// A list of calls on one sheet, from no trace and any total.
struct List {
  Sheet &s;
  tervuola_crews crews = {};
  Trace traces[TERVUOLA_CREWS];
  uint64_t turns = 0, begun, collected = 0; // turns taken; the total at the beginning; the turns of traces that are collected
  List(Sheet &s, uint64_t total) : s(s), begun(total) { crews.words[65] = total; }

  // crew k's own turns since its trace was handed in, up to the one that finishes it
  uint64_t worked(uint32_t k) const {
    auto to = [&](uint64_t t) { return (t + 31 - k) / 32; };
    return std::min<uint64_t>(to(turns) - to(traces[k].since), traces[k].route.size());
  }
  void look_at(uint32_t k) const {
    const Trace &t = traces[k];
    tervuola_crews copy = crews;
    tervuola_collected c = tervuola_collect(k, &copy);
    holds(c.number == 0 && c.place == 0, "that a crew up to 31 may collect");
    if (t.route.empty()) {
      holds(c.status == TERVUOLA_NO_TRACE && c.cell == 0, "no trace");
      return;
    }
    bool finished = worked(k) == t.route.size();
    holds(finished || turns < t.since + 32 * t.route.size(), "that a trace of r cells is finished within 32 * r turns");
    holds(c.status == (finished ? TERVUOLA_FINISHED : TERVUOLA_WAITING), "finished at the crew's r-th turn, waiting before it");
    holds(c.cell == (finished ? s.labels[t.route[0]] - 1 : 0), "that the outlet of the cell handed in is collected");
    holds(crews.words[32 + k] == t.route[std::min<size_t>(worked(k), t.route.size() - 1)], "one cell down at each turn");
  }
  void look() const {
    uint64_t busy = collected;
    for (uint32_t k = 0; k < TERVUOLA_CREWS; k++) {
      look_at(k);
      busy += worked(k);
    }
    holds(tervuola_turns_worked(&crews) == (begun > UINT64_MAX - busy ? UINT64_MAX : begun + busy), "that the total counts busy turns");
    holds(crews.words[64] == turns % 32, "that turns go round the crews");
  }
  // the same state as before, and no turn taken
  void refused(const tervuola_crews &old) const {
    holds(memcmp(&crews, &old, sizeof crews) == 0, "that a refused call changes nothing");
  }
  void hand_in(uint32_t k, uint32_t cell) {
    tervuola_crews old = crews;
    uint32_t number = !traces[k].route.empty() ? TERVUOLA_NOT_COLLECTED : s.codes[cell] ? TERVUOLA_OK : TERVUOLA_NO_ROUTE;
    tervuola_answer a = tervuola_hand_in(s.rows, s.cols, s.codes.data(), s.n(), k, cell, &crews, s.work.data(), s.work.size());
    holds(a.number == number && a.place == 0, "the answer to a hand-in");
    if (number)
      return refused(old);
    traces[k].route = route(s, cell);
    traces[k].since = turns;
  }
  tervuola_answer run_on(tervuola_crews &c, uint16_t n, size_t work) {
    return tervuola_run(s.rows, s.cols, s.codes.data(), s.n(), n, &c, s.work.data(), work);
  }
  void run(uint16_t n) {
    holds(run_on(crews, n, s.work.size()).number == 0, "that a run on the same sheet is accepted");
    turns += n;
  }
  void short_run(uint16_t n) {
    tervuola_crews old = crews;
    holds(run_on(crews, n, s.work.size() - 1).number == TERVUOLA_SHORT_WORK, "that a short work buffer is refused");
    refused(old);
  }
  // a run of a + b turns, and runs of a and of b
  void split_run(uint16_t a, uint16_t b) {
    tervuola_crews whole = crews;
    run_on(whole, (uint16_t)(a + b), s.work.size());
    run(a);
    run(b);
    holds(memcmp(&whole, &crews, sizeof whole) == 0, "that a run may be cut at any turn");
  }
  void collect(uint32_t k) {
    bool finished = !traces[k].route.empty() && worked(k) == traces[k].route.size();
    tervuola_crews old = crews;
    tervuola_collect(k, &crews);
    if (!finished)
      return refused(old);
    collected += traces[k].route.size();
    traces[k].route.clear();
    collections++;
  }
};
static uint16_t some_turns() {
  switch (below(8)) {
  case 0:
    return (uint16_t)below(2000);
  case 1:
    return (uint16_t)(31 + below(3));
  case 2:
    return (uint16_t)below(200);
  default:
    return (uint16_t)below(3);
  }
}
static void some_list(Sheet s) {
  const uint64_t totals[] = {0, UINT64_MAX - below(60), UINT64_MAX};
  List l(s, totals[below(3)]);
  uint32_t few = below(2) ? 4 : TERVUOLA_CREWS;
  for (int calls = 0; calls < 100; calls++) {
    uint32_t k = below(few);
    switch (below(8)) {
    case 0:
    case 1:
      l.hand_in(k, below(s.n()));
      break;
    case 2:
      l.collect(k);
      break;
    case 3:
      l.split_run(some_turns(), some_turns());
      break;
    case 4:
      l.short_run(some_turns());
      break;
    default:
      l.run(some_turns());
    }
    l.look();
  }
}
// Crew k hands in the first cell of a route when crew p is next: its own first turn is the one after (k - p) % 32 others, and its last, 32 * (r - 1) later,
// the 32 * r-th at the latest.
static void single_turns(uint32_t k, uint32_t p, uint32_t r) {
  Sheet s = snake(1, r);
  List l(s, 0);
  l.run((uint16_t)p);
  l.hand_in(k, 0);
  uint32_t last = (k + 32 - p) % 32 + 32 * (r - 1) + 1;
  for (uint32_t turn = 1; turn <= 32 * r; turn++) {
    l.run(1);
    l.look_at(k);
    holds((l.crews.words[k] == TERVUOLA_FINISHED) == (turn >= last), "the turn at which a trace is finished");
  }
  just_in_time += last == 32 * r;
}
// crew 31's trace is finished at the last turn that it may take, past many runs
static void long_route(uint32_t side) {
  Sheet s = snake(side, side);
  List l(s, UINT64_MAX - s.n() / 2);
  l.hand_in(31, 0);
  uint64_t all = 32 * s.n();
  while (l.turns + 65535 < all) {
    l.run(65535);
    l.look();
  }
  l.run((uint16_t)(all - 1 - l.turns));
  l.look();
  l.run(1);
  l.look();
  l.collect(31);
  l.look();
}

int main(int argc, char **argv) {
  if (argc < 2) {
    fprintf(stderr, "crews LISTS [SEED]\n");
    return 2;
  }
  uint64_t lists = strtoull(argv[1], nullptr, 10);
  bits.seed(argc > 2 ? strtoull(argv[2], nullptr, 10) : 1);
  for (uint64_t i = 0; i < lists; i++) {
    uint32_t rows = 1 + below(9), cols = 1 + below(9);
    some_list(i % 3 == 0 ? drained(rows, cols) : i % 3 == 1 ? slope(rows, cols) : snake(rows, cols));
  }
  for (uint32_t k = 0; k < TERVUOLA_CREWS; k++)
    for (uint32_t p = 0; p < TERVUOLA_CREWS; p++)
      single_turns(k, p, 1 + (k + p) % 3);
  long_route(300);
  printf("crews: %llu looks, all facts hold; %llu traces collected, %llu finished at their 32 * r-th turn\n", (unsigned long long)looks,
         (unsigned long long)collections, (unsigned long long)just_in_time);
  return collections && just_in_time ? 0 : 1;
}
