// Demand 3 by brute force on tiny sheets, as a test of the statement: every chain without repeats, every rival sheet from the input up to 2.
// It looks only at the four results of tervuola_drain and tervuola_culverts and at the sentences of documents 01 and 02, with the elevations
// handed in as the input, and with the sheet opened by a list, under every number of closed sides, with gaps, and with cells of several shapes. A
// sheet is refused just where some data cell has no chain to an outlet.
#include "../../include/tervuola.h"
#include <cstdio>
#include <cstdlib>
#include <random>
#include <set>
#include <vector>
using std::vector;

static const int STEP[8][2] = {{-1, 1}, {0, 1}, {1, 1}, {1, 0}, {1, -1}, {0, -1}, {-1, -1}, {-1, 0}};
static int rows, cols;
static uint32_t sides;    // those that are closed
static vector<int16_t> e; // the input
static unsigned long facts = 0;

static int at_step(int c, int p) {
  int r = c / cols + STEP[p][0], q = c % cols + STEP[p][1];
  return r < 0 || q < 0 || r >= rows || q >= cols ? -1 : r * cols + q;
}
static bool data(int c) { return e[(size_t)c] != TERVUOLA_VOID; }
// a straight step at p goes through an open side, where it leads off the sheet
static bool open_side(int p) {
  switch (1 << p) {
  case TERVUOLA_WEST: return !(sides & TERVUOLA_CLOSED_WEST);
  case TERVUOLA_EAST: return !(sides & TERVUOLA_CLOSED_EAST);
  case TERVUOLA_NORTH: return !(sides & TERVUOLA_CLOSED_NORTH);
  case TERVUOLA_SOUTH: return !(sides & TERVUOLA_CLOSED_SOUTH);
  default: return false;
  }
}
static bool on_open_side(int c) {
  for (int p = 0; p < 8; p++)
    if (at_step(c, p) < 0 && open_side(p))
      return true;
  return false;
}
// "a void counts as outside only if neighbouring voids lead from it, itself included, to a void on an open side of the border": a flood from those
static vector<char> outside;
static void flood(int c) {
  if (data(c) || outside[(size_t)c])
    return;
  outside[(size_t)c] = 1;
  for (int p = 0; p < 8; p++)
    if (at_step(c, p) >= 0)
      flood(at_step(c, p));
}
// to be called for each sheet and its sides
static void find_outside() {
  outside.assign(e.size(), 0);
  for (int c = 0; c < (int)e.size(); c++)
    if (on_open_side(c))
      flood(c);
}
static bool gap(int c) { return !data(c) && !outside[(size_t)c]; }
static bool beside_gap(int c) {
  for (int p = 0; p < 8; p++)
    if (at_step(c, p) >= 0 && gap(at_step(c, p)))
      return true;
  return false;
}
// the step at p leads out: "through an open side by a straight step", or to a void that is outside
static bool leads_out(int c, int p) {
  int n = at_step(c, p);
  return n >= 0 ? outside[(size_t)n] != 0 : open_side(p);
}
// the first such step in document 01's sequence, as a code; 0 where there is none
static int outlet_code(int c) {
  for (int p : {5, 1, 7, 3, 0, 2, 4, 6})
    if (leads_out(c, p))
      return 1 << p;
  return 0;
}
static bool outlet(int c) { return data(c) && outlet_code(c); }
static void hold(bool fact, const char *what) {
  facts++;
  if (fact)
    return;
  printf("demand 3: %s fails on %d x %d, sides %u:", what, rows, cols, (unsigned)sides);
  for (int16_t x : e)
    printf(" %d", x);
  printf("\n");
  exit(1);
}

// the lowest highest elevation over all chains without repeats from c to an outlet; best stays where there is none
static const int NO_CHAIN = 32768;
static void chains(int c, int high, vector<char> &on, int &best) {
  if (e[(size_t)c] > high)
    high = e[(size_t)c];
  if (outlet(c) && high < best)
    best = high;
  on[(size_t)c] = 1;
  for (int p = 0; p < 8; p++) {
    int n = at_step(c, p);
    if (n >= 0 && data(n) && !on[(size_t)n])
      chains(n, high, on, best);
  }
  on[(size_t)c] = 0;
}

// from each data cell some chain to an outlet never rises on f
static bool drains(const vector<int16_t> &f) {
  size_t n = e.size();
  vector<char> ok(n, 0);
  for (size_t i = 0; i < n; i++)
    ok[i] = outlet((int)i);
  for (bool more = true; more;) {
    more = false;
    for (size_t i = 0; i < n; i++)
      if (data((int)i) && !ok[i])
        for (int p = 0; p < 8; p++) {
          int k = at_step((int)i, p);
          if (k >= 0 && data(k) && ok[(size_t)k] && f[(size_t)k] <= f[i])
            ok[i] = 1, more = true;
        }
  }
  for (size_t i = 0; i < n; i++)
    if (data((int)i) && !ok[i])
      return false;
  return true;
}

// the width and height of a cell, and the square of the distance to the neighbour at a position
static const uint32_t shapes[][2] = {{1, 1}, {1, 2}, {2, 1}, {5, 5}, {1, 1000}, {1000, 1}, {3, 4}};
static uint32_t width = 1, height = 1;
static void next_shape() {
  static size_t k = 0;
  k = (k + 1) % (sizeof shapes / sizeof *shapes);
  width = shapes[k][0], height = shapes[k][1];
}
static unsigned long long squared(int p) {
  unsigned long long w = (unsigned long long)width * width, h = (unsigned long long)height * height;
  return p % 2 == 0 ? w + h : p % 4 == 1 ? w : h;
}
// where the filled sheet f falls from c to a neighbour, the code's neighbour has a largest drop by distance
static void steepest(const vector<int16_t> &f, int c, int p) {
  int to = at_step(c, p);
  for (int q = 0; q < 8; q++) {
    int k = at_step(c, q);
    if (k < 0 || !data(k) || f[(size_t)k] >= f[(size_t)c])
      continue;
    unsigned long long drop = (unsigned long long)(f[(size_t)c] - f[(size_t)k]), ours = to < 0 ? 0 : (unsigned long long)(f[(size_t)c] - f[(size_t)to]);
    hold(to >= 0 && data(to) && f[(size_t)to] < f[(size_t)c] && drop * drop * squared(p) <= ours * ours * squared(q), "the largest drop");
  }
}

// the four results of a call for the input e
struct Four {
  vector<int16_t> filled;
  vector<uint8_t> codes;
  vector<uint32_t> counts, labels, work;
  explicit Four(size_t n) : filled(n), codes(n), counts(n), labels(n), work(4 * n) {}
};
static void judge(const Four &four) {
  size_t n = e.size();
  const vector<int16_t> &filled = four.filled;
  const vector<uint8_t> &codes = four.codes;
  const vector<uint32_t> &counts = four.counts, &labels = four.labels;
  vector<uint32_t> through(n, 0);
  for (size_t i = 0; i < n; i++) {
    int c = (int)i;
    if (!data(c)) {
      hold(filled[i] == TERVUOLA_VOID && codes[i] == 0 && counts[i] == 0 && labels[i] == 0, gap(c) ? "a gap" : "a void");
      continue;
    }
    std::set<int> seen;
    int x = c, high = -32768, last = c;
    for (;;) {
      hold(seen.insert(x).second, "passing no cell twice");
      if (x != c)
        through[(size_t)x]++;
      if (e[(size_t)x] > high)
        high = e[(size_t)x];
      last = x;
      int p = 0;
      while (p < 8 && codes[(size_t)x] != 1 << p)
        p++;
      hold(p < 8, "a code");
      if (x == c && !outlet(c))
        steepest(filled, c, p);
      int k = at_step(x, p);
      hold(k < 0 || !gap(k), "that no code points at a gap");
      if (k < 0 || codes[(size_t)k] == 0)
        break;
      x = k;
    }
    hold(outlet(last), "ending at an outlet");
    hold(!outlet(c) || codes[i] == outlet_code(c), "the code of an outlet");
    hold(labels[i] == (uint32_t)last + 1, "the label");
    hold(high == filled[i], "the highest elevation of the route");
    hold(filled[i] >= e[i], "not below the input");
    vector<char> on(n, 0);
    int best = NO_CHAIN;
    chains(c, -32768, on, best);
    hold(best != NO_CHAIN, "a chain to an outlet");
    hold(best >= high, "no lower chain");
  }
  for (size_t i = 0; i < n; i++)
    hold(!data((int)i) || counts[i] == through[i], "the count");
  hold(drains(filled), "a never-rising chain");
  vector<int16_t> f(e); // every rival sheet from the input up to 2
  for (;;) {
    bool above = true;
    for (size_t i = 0; i < n && above; i++)
      above = !data((int)i) || f[i] >= e[i];
    if (above && drains(f))
      for (size_t i = 0; i < n; i++)
        hold(!data((int)i) || filled[i] <= f[i], "no rival sheet is lower");
    size_t i = 0;
    while (i < n && (!data((int)i) || f[i] == 2)) {
      if (data((int)i))
        f[i] = e[i];
      i++;
    }
    if (i == n)
      break;
    f[i]++;
  }
}

// 0, or 18 with the first data cell that has no chain to an outlet as place; that all have one where it is 0 is for judge to see. Refused in all, and
// where a gap takes the last way out: that cell's chains come to a void.
static unsigned long refused = 0, islands = 0;
static bool comes_to_void(int c, vector<char> &on) {
  on[(size_t)c] = 1;
  for (int p = 0; p < 8; p++) {
    int n = at_step(c, p);
    if (n >= 0 && !on[(size_t)n] && (!data(n) || comes_to_void(n, on)))
      return true;
  }
  return false;
}
static bool accepted(uint32_t number, size_t place) {
  if (number == 0)
    return true;
  hold(number == TERVUOLA_NO_OUTLET && place < e.size() && data((int)place), "a number");
  for (int c = 0; c <= (int)place; c++) {
    vector<char> on(e.size(), 0);
    int best = NO_CHAIN;
    if (data(c))
      chains(c, -32768, on, best);
    hold(!data(c) || (best == NO_CHAIN) == (c == (int)place), "18 and its place");
  }
  refused++;
  vector<char> on(e.size(), 0);
  islands += comes_to_void((int)place, on);
  return false;
}
static bool drained(Four &r, uint32_t w, uint32_t h) {
  size_t n = e.size();
  tervuola_answer a = tervuola_drain((uint32_t)rows, (uint32_t)cols, sides, w, h, e.data(), n, r.filled.data(), n, r.codes.data(), n, r.counts.data(), n,
                                     r.labels.data(), n, r.work.data(), 4 * n);
  return accepted(a.number, a.place);
}
// accepted sheets with data cells that have a gap within the border, and one on closed sides, those where a cell beside a gap has water on it, and
// accepted sheets with gaps and with voids that are outside; accepted sheets with gaps and no data cell
static unsigned long inner_gaps = 0, side_gaps = 0, wet_shores = 0, both_voids = 0, no_data = 0;
static void count_gaps(const vector<int16_t> &filled) {
  bool inner = false, side = false, wet = false, out = false, some = false;
  for (int c = 0; c < (int)e.size(); c++) {
    bool border = c < cols || c >= (rows - 1) * cols || c % cols == 0 || c % cols == cols - 1;
    some = some || data(c);
    out = out || outside[(size_t)c];
    wet = wet || (data(c) && beside_gap(c) && filled[(size_t)c] > e[(size_t)c]);
    (border ? side : inner) |= gap(c);
  }
  inner_gaps += some && inner;
  side_gaps += some && side;
  wet_shores += wet;
  both_voids += some && out && (inner || side);
  no_data += !some && (inner || side);
}
// sheets in all, accepted ones with water against a closed side, and those whose codes are not the ones that square cells give
static unsigned long sheets = 0, closed_lakes = 0, other_codes = 0;
static void plain_sheet() {
  Four r(e.size()), square(e.size());
  next_shape();
  find_outside();
  sheets++;
  if (!drained(r, width, height))
    return;
  judge(r);
  count_gaps(r.filled);
  hold(drained(square, 1, 1) && square.filled == r.filled, "the same filled sheet with square cells");
  hold(width != height || square.codes == r.codes, "the same codes with square cells of any width");
  other_codes += square.codes != r.codes;
  bool lake = false;
  for (int c = 0; c < (int)e.size(); c++) {
    bool border = c < cols || c >= (rows - 1) * cols || c % cols == 0 || c % cols == cols - 1;
    lake = lake || (border && r.filled[(size_t)c] > e[(size_t)c]);
  }
  closed_lakes += lake;
}

// a culvert, and a list of them opened in the sheet that is handed in
struct Culvert {
  size_t cell;
  int16_t level;
};
static tervuola_located culverts(const vector<int16_t> &given, const vector<Culvert> &list, Four &r) {
  size_t n = given.size();
  vector<uint32_t> cells;
  vector<int16_t> levels;
  for (auto &c : list) {
    cells.push_back((uint32_t)c.cell);
    levels.push_back(c.level);
  }
  const vector<uint32_t> kept_cells(cells);
  const vector<int16_t> kept_sheet(given), kept_levels(levels);
  tervuola_located a = tervuola_culverts((uint32_t)rows, (uint32_t)cols, sides, width, height, given.data(), n, cells.data(), cells.size(), levels.data(),
                                         levels.size(), r.filled.data(), n, r.codes.data(), n, r.counts.data(), n, r.labels.data(), n, r.work.data(), 4 * n);
  hold(given == kept_sheet && cells == kept_cells && levels == kept_levels, "the sheet and the lists handed in");
  return a;
}
// Lists in all, and the most entries of one; those with a cell named at two levels, the lower one first, and last. Those that lower the filled sheet at a cell
// that they do not open: through inner cells alone, at outlets alone, through inner cells one of which is beside a gap, and where no opened cell alone would
// lower it as far.
static unsigned long opened = 0, longest = 0, lower_first = 0, lower_last = 0, inner_banks = 0, outlet_banks = 0, shore_banks = 0, joint_banks = 0;
static void count_named(const vector<Culvert> &list) {
  bool first = false, last = false;
  for (size_t k = 0; k < list.size(); k++)
    for (size_t j = 0; j < k; j++)
      if (list[j].cell == list[k].cell) {
        first = first || list[j].level < list[k].level;
        last = last || list[k].level < list[j].level;
      }
  lower_first += first;
  lower_last += last;
  if (list.size() > longest)
    longest = list.size();
}
// `given` is the sheet that was handed in, e the opened one, and `filled` what it is filled to; `plain` is what the first is
static void count_banks(const vector<int16_t> &given, const vector<int16_t> &filled, vector<int16_t> plain) {
  bool inner = false, at_outlet = false, shore = false, joint = false;
  vector<int16_t> alone(plain);
  for (size_t c = 0; c < e.size(); c++) {
    if (e[c] == given[c])
      continue;
    (outlet((int)c) ? at_outlet : inner) = true;
    shore = shore || (!outlet((int)c) && beside_gap((int)c));
    Four one(e.size());
    hold(culverts(given, {{c, e[c]}}, one).number == 0, "the same answer with one of the culverts");
    for (size_t i = 0; i < e.size(); i++)
      if (one.filled[i] < alone[i])
        alone[i] = one.filled[i];
    plain[c] = filled[c];
  }
  for (size_t i = 0; i < e.size(); i++)
    joint = joint || (e[i] == given[i] && filled[i] < alone[i]);
  if (plain == filled)
    return;
  inner_banks += !at_outlet;
  outlet_banks += !inner;
  shore_banks += !at_outlet && shore;
  joint_banks += joint;
}
// the call has the elevations as they were handed in, and is judged on the opened sheet: a cell has the lowest level that is named for it
static void opened_sheet(const vector<Culvert> &list) {
  size_t n = e.size();
  Four plain(n), r(n);
  const vector<int16_t> given(e);
  next_shape();
  find_outside(); // a culvert makes no void
  bool was = drained(plain, width, height);
  for (auto &c : list)
    if (c.level < e[c.cell])
      e[c.cell] = c.level;
  tervuola_located a = culverts(given, list, r);
  bool is = accepted(a.number, a.place);
  hold(is == was, "the same answer with the culverts");
  opened++;
  count_named(list);
  if (is) {
    judge(r);
    count_banks(given, r.filled, plain.filled);
  }
  e = given;
}
// how many sheets judge tries for this input
static double rivals(const vector<int16_t> &input) {
  double product = 1;
  for (int16_t x : input)
    product *= x == TERVUOLA_VOID ? 1 : 3 - x;
  return product;
}
// From one entry to some dozens, at data cells and levels from -1 to the elevation, about half of them at a cell that is named already. One at a void is
// left out, and one that would make the rival sheets too many to try; where all are, the list is empty.
static vector<Culvert> some_list(std::mt19937 &g) {
  vector<Culvert> list;
  const vector<int16_t> given(e);
  const double most = rivals(e) < 2000 ? 4000 : 2 * rivals(e);
  for (size_t k = 1 + (g() % 3 ? g() % 6 : g() % 48); k > 0; k--) {
    size_t c = list.empty() || g() % 2 ? g() % e.size() : list[g() % list.size()].cell;
    if (!data((int)c))
      continue;
    const int16_t level = (int16_t)((int)(g() % (unsigned)(given[c] + 2)) - 1), before = e[c];
    if (level < before)
      e[c] = level;
    if (rivals(e) > most)
      e[c] = before;
    else
      list.push_back({c, level});
  }
  e = given;
  return list;
}

int main() {
  std::mt19937 g(1);
  for (int size = 0; size < 5; size++) { // all sheets of these sizes, under all closed sides
    static const int sizes[5][2] = {{1, 1}, {1, 4}, {4, 1}, {2, 2}, {2, 3}};
    rows = sizes[size][0], cols = sizes[size][1];
    size_t n = (size_t)(rows * cols);
    unsigned long all = 1;
    for (size_t i = 0; i < n; i++)
      all *= 4;
    for (unsigned long k = 0; k < 16 * all; k++) {
      sides = (uint32_t)(k % 16);
      e.assign(n, 0);
      unsigned long v = k / 16;
      for (auto &x : e)
        x = v % 4 == 3 ? (int16_t)TERVUOLA_VOID : (int16_t)(v % 4), v /= 4;
      plain_sheet();
      for (size_t c = 0; c < n; c++) // and each with every cell opened to every level, or one in 64 of these
        for (int level = -1; data((int)c) && level <= e[c]; level++)
          if (n <= 4 || g() % 64 == 0)
            opened_sheet({{c, (int16_t)level}});
      if (n <= 4 || g() % 16 == 0) // and with a list
        opened_sheet(some_list(g));
    }
  }
  for (int k = 0; k < 1500; k++) { // some of these
    rows = k % 3 == 0 ? 3 : k % 3 == 1 ? 4 : 3, cols = k % 3 == 2 ? 4 : 3;
    sides = g() % 4 ? g() % 16 : 0;
    e.assign((size_t)(rows * cols), 0);
    unsigned voids = g() % 3 ? 0 : 10;
    for (auto &x : e)
      x = g() % 100 < voids ? (int16_t)TERVUOLA_VOID : (int16_t)(g() % 3);
    for (int r = 1; r + 1 < rows; r++) // hollows are likely inside
      for (int q = 1; q + 1 < cols; q++)
        if (g() % 2)
          e[(size_t)(r * cols + q)] = 0;
    plain_sheet();
    opened_sheet(some_list(g));
  }
  for (int k = 0; k < 100; k++) { // an inner cell as the bank of the other one, which lies deeper and has a high border
    rows = k % 2 ? 3 : 4, cols = k % 2 ? 4 : 3;
    sides = g() % 2 ? g() % 16 : 0;
    e.assign(12, 2);
    size_t hollow = k % 2 ? 5 : 4, bank = k % 2 ? 6 : 7, out = k % 2 ? 7 : 10; // in a row, or in a column
    e[hollow] = 0;
    e[bank] = (int16_t)(1 + g() % 2);
    e[out] = (int16_t)(g() % 2);
    if (g() % 4 == 0)
      e[0] = TERVUOLA_VOID;
    opened_sheet({{bank, (int16_t)((int)(g() % 2) - 1)}});
  }
  for (int k = 0; k < 400; k++) { // two banks between a hollow and the one open side, along a row or a column, each named a few times
    rows = k % 2 ? 2 : 5, cols = k % 2 ? 5 : 2;
    sides = 15 - (uint32_t)(k % 2 ? TERVUOLA_CLOSED_EAST : TERVUOLA_CLOSED_SOUTH);
    e.assign(10, 2);
    const size_t step = k % 2 ? 1 : 2, hollow = step;
    e[0] = (int16_t)(g() % 3);
    e[hollow] = 0;
    e[hollow + step] = (int16_t)(1 + g() % 2);
    e[hollow + 3 * step] = (int16_t)(g() % 2);
    vector<Culvert> list;
    for (size_t j = 2 + g() % 5; j > 0; j--) {
      const size_t bank = hollow + (1 + j % 2) * step;
      list.push_back({bank, (int16_t)((int)(g() % (unsigned)(e[bank] + 2)) - 1)});
    }
    opened_sheet(list);
  }
  for (int k = 0; k < 1200; k++) { // lakes: all or most of what lies within the border, and now and then a void on it
    static const int sizes[6][2] = {{3, 3}, {3, 4}, {4, 3}, {4, 4}, {3, 5}, {5, 3}};
    rows = sizes[k % 6][0], cols = sizes[k % 6][1];
    sides = g() % 3 ? g() % 16 : 0;
    e.assign((size_t)(rows * cols), 0);
    size_t inner = (size_t)((rows - 2) * (cols - 2)), kept = inner > 1 && g() % 2 ? g() % inner : inner;
    for (int r = 0, i = 0; r < rows; r++)
      for (int q = 0; q < cols; q++) {
        bool border = r == 0 || q == 0 || r == rows - 1 || q == cols - 1;
        bool is_void = border ? g() % 12 == 0 : (size_t)i++ != kept;
        e[(size_t)(r * cols + q)] = is_void ? (int16_t)TERVUOLA_VOID : (int16_t)(border ? 2 - g() % 5 / 2 : g() % 3);
      }
    plain_sheet();
    opened_sheet(some_list(g));
  }
  for (int k = 0; k < 200; k++) { // an island in a gap, with a way to it now and then
    rows = cols = 5;
    sides = g() % 3 ? g() % 16 : 0;
    e.assign(25, 2);
    for (int c = 0; c < 25; c++) {
      int r = c / 5 - 2, q = c % 5 - 2, ring = r * r > q * q ? r * r : q * q;
      e[(size_t)c] = ring == 1 ? (int16_t)TERVUOLA_VOID : (int16_t)(2 - (g() % 3 == 0));
    }
    static const size_t around[8] = {6, 7, 8, 11, 13, 16, 17, 18};
    if (k % 4 == 0)
      e[around[g() % 8]] = (int16_t)(1 + g() % 2);
    plain_sheet();
  }
  printf("demand 3: %lu facts on %lu tiny sheets under all closed sides, and on %lu opened ones, by up to %lu culverts; a cell is named at two levels, the lower "
         "first, %lu times, and last %lu\n",
         facts, sheets, opened, longest, lower_first, lower_last);
  printf("demand 3: lists that lower the filled sheet elsewhere: %lu through inner banks, %lu of them beside a gap, %lu at outlets, %lu further than any of their "
         "cells alone\n",
         inner_banks, shore_banks, outlet_banks, joint_banks);
  printf("demand 3: %lu sheets of oblong cells with other codes than square ones have\n", other_codes);
  printf("demand 3: %lu sheets with water on a border cell that is no outlet; %lu times no chain to an outlet, and 18, %lu of them beside a gap\n", closed_lakes,
         refused, islands);
  printf("demand 3: accepted sheets with gaps: %lu within the border, %lu on closed sides, %lu with water beside one, %lu with voids that are outside too, %lu "
         "without data\n",
         inner_gaps, side_gaps, wet_shores, both_voids, no_data);
  bool gaps = inner_gaps > 100 && side_gaps > 100 && wet_shores > 100 && both_voids > 100 && islands > 100 && shore_banks > 20 && no_data;
  bool lists = longest >= 24 && lower_first > 1000 && lower_last > 1000 && inner_banks > 100 && outlet_banks > 100 && joint_banks > 100;
  return gaps && lists && closed_lakes && refused && other_codes ? 0 : 1;
}
