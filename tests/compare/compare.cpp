// Every call of libtervuola.a against the second program as it is after request 11, on its sheets, on sheets of ponds, on sheets cut
// from larger ones, on sheets with gaps, under all closed sides, with cells of many shapes, on drops that tie by them, on random codes,
// on starts whose labels are different and repeated, on lists of culverts, good and bad ones, on walks, routes and lists of any numbers,
// on lists of hand-ins, runs and collections from any state of the crews, on damaged texts, and on wrong lengths. What is written is
// read again, and what is read is written again. Accepted culverts are opened in other orders too, and an empty list of them is held
// against the one call. Table 5's own starts go on to the watersheds.
//   compare ROUNDS [SEED]      sheets up to 5 by 5, each size under each number of closed sides, each way to lay voids on 3 by 3 and
//                              within the border of 5 by 5, short lists of culverts, each way to lay a few labels on up to 5 cells, and
//                              tens of thousands of starts; then ROUNDS of sheets up to 40 by 40
//   compare big KIND SIDE      one large sheet, by the second program's fast layer; the kind "lakes" is one of gaps
// A result buffer is lent with guard elements on both sides, and holds a pattern before the call; a no must leave it, and the work buffer
// up to question 9, which 17 and 20 come before. The counts call must leave the first 2 * rows * cols places of the work buffer
// beside every answer. Of the crews' state each of the 66 words is compared after each call, where the second program has no word for
// it too: a call changes just the words that it is said to change.
#include "../../include/tervuola.h"
#include "../second/gen.hpp"
#include <array>
#include <cstring>
using namespace oracle;
static const int REQUEST = 11;
// before request 9, when every void was outside
static const int BEFORE_GAPS = 8;
// before request 11, when a label could be on more than one cell
static const int BEFORE_LABELS = 10;

static u64 checks = 0;
static const char *part = "round";
[[noreturn]] static void fail(const char *call, const char *what, u64 round) {
  fprintf(stderr, "compare: %s: %s differs (%s %llu)\n", call, what, part, (unsigned long long)round);
  exit(1);
}

// A lent buffer: n elements of a pattern between two guards.
template <class T> struct Lent {
  V<T> all;
  size_t n;
  static T pattern(size_t i) { return (T)(0x9E3779B97F4A5A17u * (i + 1) + 3); }
  explicit Lent(size_t n) : all(n + 32), n(n) { renew(); }
  // as before any call
  void renew() {
    for (size_t i = 0; i < all.size(); i++)
      all[i] = pattern(i);
  }
  // what is handed in stands between guards too
  explicit Lent(const V<T> &in) : Lent(in.size()) { std::copy(in.begin(), in.end(), at()); }
  T *at() { return all.data() + 16; }
  V<T> list() const { return V<T>(all.begin() + 16, all.begin() + 16 + n); }
  bool guarded() const {
    for (size_t i = 0; i < 16; i++)
      if (all[i] != pattern(i) || all[16 + n + i] != pattern(16 + n + i))
        return false;
    return true;
  }
  bool untouched() const { return untouched(n + 16); }
  // the first k elements, and the guard before them
  bool untouched(size_t k) const {
    for (size_t i = 0; i < all.size() && i < 16 + k; i++)
      if (all[i] != pattern(i))
        return false;
    return true;
  }
};

static void same_answer(const char *call, u32 number, u64 place, const Reply &r, u64 round) {
  checks++;
  if (number != r.number)
    fail(call, "number", round);
  if (place != r.place)
    fail(call, "place", round);
}
template <class T> static void same_list(const char *call, const char *what, const Lent<T> &got, const V<T> &want, u64 round) {
  checks++;
  if (!got.guarded())
    fail(call, "a place outside the buffer", round);
  if (got.list() != want)
    fail(call, what, round);
}
static void same_work(const char *call, u32 number, const Lent<u32> &work, u64 round) {
  checks++;
  if (!work.guarded())
    fail(call, "a place outside the work buffer", round);
  if (((number >= 1 && number <= 9) || number == 17 || number == 20) && !work.untouched())
    fail(call, "the work buffer beside a number up to 9, 17 or 20", round);
}

// what is lent, with now and then a wrong length or a wrong size
struct Lengths {
  gen::Rng &g;
  bool wrong;
  size_t of(size_t n) {
    if (!wrong || !g.chance(25))
      return n;
    return g.chance(50) ? n + 1 + g.below(3) : n - (n ? 1 : 0);
  }
  size_t work(size_t n) {
    if (wrong && g.chance(25))
      return n ? 4 * n - 1 - g.below(n) : 0;
    return 4 * n + (g.chance(30) ? g.below(9) : 0);
  }
  u64 side(u64 k) {
    if (!wrong || !g.chance(15))
      return k;
    static const u64 odd[] = {0, 4001, 65536, 4294967295u};
    return odd[g.below(4)];
  }
  u64 closed(u64 k) {
    if (!wrong || !g.chance(20))
      return k;
    static const u64 odd[] = {16, 17, 31, 255, 256, 65536, 2147483648u, 4294967295u};
    return odd[g.below(8)];
  }
  u64 cell(u64 k) {
    if (!wrong || !g.chance(15))
      return k;
    static const u64 odd[] = {0, 1001, 1002, 2000, 65536, 65537, 2147483648u, 4294967295u};
    return odd[g.below(8)];
  }
};
// Shapes of cells: squares, those that tie a side with a corner or two sides (3, 4 and 5; 5, 12 and 13), and the extremes.
static const u64 SHAPES[][2] = {{1, 1},   {3, 4},   {4, 3},    {6, 8},    {12, 5}, {1, 2},   {2, 1},
                                {7, 7},   {1, 1000}, {1000, 1}, {999, 1000}, {1000, 1000}, {9, 12}, {8, 15}};
static const u64 SHAPE_COUNT = sizeof SHAPES / sizeof *SHAPES;
static void some_shape(gen::Rng &g, Desc &d) {
  u64 k = g.below(SHAPE_COUNT + 6);
  d.width = k < SHAPE_COUNT ? SHAPES[k][0] : k % 2 ? 1 : 1 + g.below(1000);
  d.height = k < SHAPE_COUNT ? SHAPES[k][1] : k % 2 ? 1 : 1 + g.below(1000);
}
static bool shaped(const Desc &d) { return d.width >= 1 && d.width <= 1000 && d.height >= 1 && d.height <= 1000; }
template <class T> static V<T> resized(const V<T> &v, size_t n) {
  V<T> r(v);
  r.resize(n);
  return r;
}
static bool on_border(const Desc &d, u64 c) { return c < d.cols || c >= d.n() - d.cols || c % d.cols == 0 || c % d.cols == d.cols - 1; }
// some neighbour of c is `such`
template <class Such> static bool beside(const Desc &d, u64 c, Such such) {
  for (int p = 0; p < 8; p++) {
    i64 j = at_step(d.rows, d.cols, c, p);
    if (j >= 0 && such((u64)j))
      return true;
  }
  return false;
}

// texts that differ from what is written again, by the case of letters; texts written into just their length, and refused a byte less
static u64 raised_texts = 0, exact_rooms = 0, short_rooms = 0;
// the answers that a call has given
static std::map<std::string, std::map<u32, u64>> answers;

// ---- voids that are outside, and gaps

// the voids that voids lead from to one on an open side that is not `but`: over sides and corners, or over sides alone
static V<u8> led_outside(const Desc &d, const V<i16> &e, bool corners, u64 but) {
  V<u8> is(d.n(), 0);
  V<u32> queue;
  auto take = [&](u64 c) {
    if (e[c] != VOIDMARK || is[c])
      return;
    is[c] = 1;
    queue.push_back((u32)c);
  };
  for (u64 c = 0; c < d.n(); c++)
    if (c != but && on_open_side(d, c))
      take(c);
  for (u64 k = 0; k < queue.size(); k++)
    for (int p = corners ? 0 : 1; p < 8; p += corners ? 1 : 2) {
      i64 j = at_step(d.rows, d.cols, queue[k], p);
      if (j >= 0)
        take((u64)j);
    }
  return is;
}
// a cell that holds data and lies beside a gap, and beside no void that is outside; `out` has those
static bool on_shore(const Desc &d, const V<i16> &e, const V<u8> &out, u64 c) {
  auto gap = [&](u64 j) { return e[j] == VOIDMARK && !out[j]; };
  return e[c] != VOIDMARK && beside(d, c, gap) && !beside(d, c, [&](u64 j) { return out[j] != 0; });
}
// Sheets that a call has answered: accepted ones that have, beside a data cell, a gap within the border, a gap on closed sides alone, a void that
// is outside over a corner alone, one that is so by one side of the sheet's corner alone, the other being closed, and gaps and voids that are
// outside at once; those refused with 18, a side being open, that would be accepted if every void were outside; and accepted ones of gaps and nothing else.
enum Voids { LAKE, CLOSED_SIDE, OVER_CORNER, SHEET_CORNER, BOTH, ISLAND, NO_DATA, VOIDS };
static const char *const VOID_NAMES[VOIDS] = {"a gap within the border", "on closed sides alone", "outside over a corner alone", "by one side of the sheet's corner",
                                              "a gap and a void outside", "an island in a gap", "no data cell"};
static std::map<std::string, std::array<u64, VOIDS>> voids_met;
static void voids_answer(const char *call, u32 number, const Desc &d, const V<i16> &e) {
  if ((number && number != 18) || std::find(e.begin(), e.end(), VOIDMARK) == e.end())
    return;
  auto &met = voids_met[call];
  const u64 n = d.n();
  if (number == 18) {
    LEVEL = BEFORE_GAPS;
    met[ISLAND] += d.closed != 15 && first_stranded(d, e) == n;
    LEVEL = REQUEST;
    return;
  }
  const V<u8> out = led_outside(d, e, true, n), sides = led_outside(d, e, false, n);
  if (out != fast::outside(d, e))
    fail(call, "which voids are outside", 0);
  bool has[VOIDS] = {false}, gap = false, is_outside = false, data = false;
  for (u64 c = 0; c < n; c++) {
    data = data || e[c] != VOIDMARK;
    if (e[c] != VOIDMARK || !beside(d, c, [&](u64 j) { return e[j] != VOIDMARK; }))
      continue;
    (out[c] ? is_outside : gap) = true;
    if (!out[c])
      has[on_border(d, c) ? CLOSED_SIDE : LAKE] = true;
    if (out[c] && !sides[c])
      has[OVER_CORNER] = true;
  }
  has[BOTH] = gap && is_outside;
  has[NO_DATA] = !data && std::find(out.begin(), out.end(), 0) != out.end();
  for (u64 k = 0; k < 4 && data && d.rows > 1 && d.cols > 1; k++) {
    u64 c = (k / 2 ? n - d.cols : 0) + (k % 2 ? d.cols - 1 : 0);
    bool along = d.closed & (k / 2 ? SOUTH : NORTH), across = d.closed & (k % 2 ? EAST : WEST);
    if (out[c] && along != across && !led_outside(d, e, true, c)[c])
      has[SHEET_CORNER] = true;
  }
  for (int k = 0; k < VOIDS; k++)
    met[k] += has[k];
}
// An answer of a call that works out outlets: the closed sides that it has accepted, and how often it has answered no where another
// question, asked later, has the answer no as well.
static std::map<std::string, std::set<u64>> accepted_sides;
static std::map<std::string, std::map<std::pair<u32, u32>, u64>> before;
static void outlets_answer(const char *call, u32 number, const Desc &d, const V<i16> &e, bool results, const Lent<u32> &work, bool codes) {
  auto &met = before[call];
  voids_answer(call, number, d, e);
  if (number == 0)
    accepted_sides[call].insert(d.closed);
  if ((number == 5 || number == 6) && d.closed > 15)
    met[{number, 17}]++;
  if (number == 17) {
    met[{17, 7}] += e.size() != d.n();
    met[{17, 8}] += !results;
    met[{17, 9}] += work.n < 4 * d.n();
    met[{17, 20}] += codes && !shaped(d);
  }
  if (codes && (number == 5 || number == 6) && !shaped(d))
    met[{number, 20}]++;
  if (number == 20) {
    met[{20, 7}] += e.size() != d.n();
    met[{20, 8}] += !results;
    met[{20, 9}] += work.n < 4 * d.n();
    met[{20, 18}] += e.size() == d.n() && first_stranded(d, e) < d.n();
  }
  if (number == 9 || number == 15 || number == 16)
    met[{number, 18}] += first_stranded(d, e) < d.n();
}

// A call from one sheet to another; `said` is the second program's answer to it.
template <class In, class Out>
using sheet_call = tervuola_answer (*)(u32, u32, const In *, size_t, Out *, size_t, u32 *, size_t);
// one that works out outlets has the closed sides too
template <class Out>
using outlets_call = tervuola_answer (*)(u32, u32, u32, const i16 *, size_t, Out *, size_t, u32 *, size_t);
template <class In, class Out, class Call, class Said>
static void one_sheet_round(const char *name, Call call, Said said, const Desc &d, const V<In> &in0, Lengths len, u64 round) {
  V<In> in = resized(in0, len.of(in0.size()));
  Lent<Out> out(len.of(in0.size()));
  Lent<u32> work(len.work(in0.size()));
  V<Out> want = out.list();
  Reply r = said(d, in, want, work.n);
  tervuola_answer a = call(in, out, work);
  same_answer(name, a.number, a.place, r, round);
  same_list(name, "the result", out, want, round);
  same_work(name, a.number, work, round);
  answers[name][a.number]++;
}
// `kept`: so many places of the work buffer come back as lent, beside every answer
template <class In, class Out, class Said>
static void sheet_round(const char *name, sheet_call<In, Out> call, Said said, const Desc &d, const V<In> &in0, u64 kept, Lengths len, u64 round) {
  one_sheet_round<In, Out>(
      name,
      [&](const V<In> &in, Lent<Out> &out, Lent<u32> &work) {
        tervuola_answer a = call((u32)d.rows, (u32)d.cols, in.data(), in.size(), out.at(), out.n, work.at(), work.n);
        checks += kept > 0;
        if (kept && !work.untouched(kept))
          fail(name, "a place of the work buffer that comes back as lent", round);
        return a;
      },
      said, d, in0, len, round);
}
template <class Out, class Said>
static void outlets_round(const char *name, outlets_call<Out> call, Said said, const Desc &d, const V<i16> &e0, Lengths len, u64 round) {
  one_sheet_round<i16, Out>(
      name,
      [&](const V<i16> &e, Lent<Out> &out, Lent<u32> &work) {
        tervuola_answer a = call((u32)d.rows, (u32)d.cols, (u32)d.closed, e.data(), e.size(), out.at(), out.n, work.at(), work.n);
        outlets_answer(name, a.number, d, e, out.n == d.n(), work, false);
        return a;
      },
      said, d, e0, len, round);
}
// Cells that are no outlets and have their largest drop at a side and a corner at once, those of them on the border, those with it at a side each way
// and at no corner, those with it at all three, and sheets whose codes are not those of square cells, among the accepted ones of oblong cells.
static u64 side_corner_ties = 0, border_ties = 0, side_side_ties = 0, three_ties = 0, other_codes = 0;
static void count_ties(const Desc &d, const V<i16> &e) {
  V<u8> out = fast::outlets(d, e);
  for (u64 c = 0; c < d.n(); c++) {
    if (e[c] == VOIDMARK || out[c])
      continue;
    i64 best = 0;
    int at = -1, corners = 0, across = 0, along = 0;
    for (int pass = 0; pass < 2; pass++)
      for (int p = 0; p < 8; p++) {
        i64 j = at_step(d.rows, d.cols, c, p);
        if (j < 0 || e[(u64)j] == VOIDMARK)
          continue;
        i64 drop = (i64)e[c] - e[(u64)j];
        if (drop <= 0)
          continue;
        int order = at < 0 ? 1 : cmp_drop(d, drop, p, best, at);
        if (pass == 0 && order > 0) {
          best = drop;
          at = p;
        }
        if (pass == 1 && order == 0)
          (p % 2 == 0 ? corners : p % 4 == 1 ? across : along) = 1;
      }
    side_corner_ties += corners && (across || along);
    border_ties += on_border(d, c) && corners && (across || along);
    side_side_ties += across && along && !corners;
    three_ties += corners && across && along;
  }
}
static void directions_round(const Desc &d, const V<i16> &e0, Lengths len, u64 round) {
  one_sheet_round<i16, u8>(
      "directions",
      [&](const V<i16> &e, Lent<u8> &out, Lent<u32> &work) {
        tervuola_answer a = tervuola_directions((u32)d.rows, (u32)d.cols, (u32)d.closed, (u32)d.width, (u32)d.height, e.data(), e.size(), out.at(),
                                                out.n, work.at(), work.n);
        outlets_answer("directions", a.number, d, e, out.n == d.n(), work, true);
        if (a.number == 0 && d.width != d.height) {
          count_ties(d, e);
          Desc square = d;
          square.width = square.height = 1;
          V<u8> codes;
          directions(square, e, codes);
          other_codes += codes != out.list();
        }
        return a;
      },
      call_directions, d, e0, len, round);
}
static Reply said_counts(const Desc &d, const V<u8> &c, V<u32> &out, u64 work) { return call_counts(d.rows, d.cols, c, out, work); }
static Reply said_labels(const Desc &d, const V<u8> &c, V<u32> &out, u64 work) { return call_labels(d.rows, d.cols, c, out, work); }
// the calls from codes to one sheet
static void code_rounds(const Desc &d, const V<u8> &codes, Lengths len, u64 round) {
  sheet_round("counts", tervuola_counts, said_counts, d, codes, 2 * d.n(), len, round);
  sheet_round("labels", tervuola_labels, said_labels, d, codes, 0, len, round);
}

// ---- starts

// labels where a byte more begins or a signed number ends, and the largest
static const u32 EDGE_LABELS[] = {1, 255, 256, 65535, 65536, 16777215, 16777216, 2147483647, 2147483648u, 4294967295u};
static const u64 EDGES = sizeof EDGE_LABELS / sizeof *EDGE_LABELS;
static u32 without_byte(u32 label, int k) { return label & ~(255u << 8 * k); }
// Labels above 0, all different: from 1 on, down from the largest, at the edges and beside them, any, and those that differ from others in
// one byte alone, the lowest, the second, the third or the highest.
enum LabelForm { FROM_ONE, FROM_LARGEST, AT_EDGES, ANY_LABEL, BY_ONE_BYTE, LABEL_FORMS = BY_ONE_BYTE + 4 };
static V<u32> some_labels(gen::Rng &g, u64 form, u64 count) {
  V<u32> l;
  std::set<u32> taken{0};
  u32 others = 0;
  for (u64 k = 0; l.size() < count; k++) {
    u32 v = (u32)g.g();
    if (form == FROM_ONE)
      v = (u32)(k + 1);
    if (form == FROM_LARGEST)
      v = (u32)(4294967295u - k);
    if (form == AT_EDGES && k < 100)
      v = EDGE_LABELS[g.below(EDGES)] + (k < 30 ? 0 : (u32)g.in(-1, 1));
    if (form >= BY_ONE_BYTE) {
      int b = (int)(form - BY_ONE_BYTE);
      if (k % 8 == 0)
        others = g.chance(30) ? 0 : v;
      v = without_byte(others, b) | (u32)g.below(256) << 8 * b;
    }
    if (taken.insert(v).second)
      l.push_back(v);
  }
  return l;
}
// such labels on these cells, rising along the sheet, falling, or in no order
enum LabelOrder { IN_ORDER, FROM_BEHIND, MIXED, LABEL_ORDERS };
static V<u32> different_starts(gen::Rng &g, const V<u32> &cells, size_t n, u64 form, u64 order) {
  V<u32> s(n), l = some_labels(g, form, cells.size());
  std::sort(l.begin(), l.end());
  if (order == FROM_BEHIND)
    std::reverse(l.begin(), l.end());
  if (order == MIXED)
    std::shuffle(l.begin(), l.end(), g.g);
  for (u64 k = 0; k < cells.size(); k++)
    s[cells[k]] = l[k];
  return s;
}
// labels of the two starts or more on these cells again in the place of others: any of them, one of them, or the largest
static void repeat_some(gen::Rng &g, const V<u32> &cells, V<u32> &s) {
  const u64 count = cells.size(), which = g.below(6);
  auto lower = [&](u32 a, u32 b) { return s[a] < s[b]; };
  const u32 one = which == 0 ? *std::max_element(cells.begin(), cells.end(), lower) : cells[g.below(count)];
  for (u64 again = g.chance(50) ? 1 : g.chance(70) ? 2 + g.below(4) : 1 + g.below(count); again > 0; again--)
    s[cells[g.below(count)]] = s[which < 2 ? one : cells[g.below(count)]];
}
// Starts on none, a few, some or all of the cells with a code, each with another label; then on half of the sheets some labels again. And
// now and then a start where the code is 0, with a label of another or its own.
static V<u32> some_starts(gen::Rng &g, const V<u8> &c, size_t n) {
  V<u32> cells, bare;
  for (u32 i = 0; i < n; i++)
    (i < c.size() && c[i] ? cells : bare).push_back(i);
  const u64 all = cells.size(), kind = g.below(10);
  const u64 count = kind == 0 ? 0 : std::min<u64>(all, kind < 4 ? 1 + g.below(4) : kind < 7 ? 2 + g.below(all) : all);
  std::shuffle(cells.begin(), cells.end(), g.g);
  cells.resize(count);
  std::sort(cells.begin(), cells.end());
  V<u32> s = different_starts(g, cells, n, g.chance(10) ? (u64)AT_EDGES : g.below(LABEL_FORMS), g.below(LABEL_ORDERS));
  if (count > 1 && g.chance(50))
    repeat_some(g, cells, s);
  if (!bare.empty() && g.chance(20))
    s[bare[g.below(bare.size())]] = count && g.chance(60) ? s[cells[g.below(count)]] : (u32)(1 + g.below(9));
  return s;
}
// the cells of each label above 0
static std::map<u32, V<u64>> cells_of_labels(const V<u32> &s) {
  std::map<u32, V<u64>> cells;
  for (u64 i = 0; i < s.size(); i++)
    if (s[i])
      cells[s[i]].push_back(i);
  return cells;
}
// What starts there were. Accepted: by their number; three or more whose labels rise along the sheet, fall, and do neither; with two
// cells or more that have a code and no label; with two labels that differ in one byte alone. Refused with 24: one label repeated, on
// two cells, and more labels; the lowest of these on three cells or more; starts on every cell with a code; more than 256 of them; with
// a lower label that is not repeated; with a higher one that is, and whose second cell comes first; with some repeated below 2^31 and
// some above; where it is the largest label of all; its cells beginning with the sheet's first, and the second of them the sheet's last;
// with a label between these two that differs in one byte alone, so that an order that leaves this byte out would part them.
enum Gauged {
  NO_START, FEW_STARTS, EVERY_CODE, OVER_256, LABELS_RISE, LABELS_FALL, LABELS_MIXED, WITHOUT_LABEL, APART_BY,
  ONE_REPEATED = APART_BY + 4, MORE_REPEATED, THREE_CELLS, EVERY_CODE_REFUSED, OVER_256_REFUSED, NOT_THE_LOWEST, ANOTHER_BEFORE,
  OTHER_SIGN, THE_LARGEST, FROM_FIRST_CELL, TO_LAST_CELL, PARTED_BY, GAUGED = PARTED_BY + 4
};
static const char *const GAUGED_NAMES[GAUGED] = {
    "none", "up to four", "on every cell with a code", "more than 256", "rising", "falling", "neither", "cells without a label",
    "labels apart by the lowest byte", "the second", "the third", "the highest", "one label", "more", "on three cells or more",
    "a start on every cell with a code", "more than 256", "a lower label is not", "a higher one comes first", "on both sides of 2^31",
    "the largest label", "from the first cell on", "to the last cell", "parted by the lowest byte", "the second", "the third",
    "the highest"};
static std::array<u64, GAUGED> gauged;
// the labels at the edges, accepted beside others, and as the lowest one that is repeated
static u64 edges_accepted[EDGES], edges_repeated[EDGES];
static void starts_accepted(const V<u8> &c, const V<u32> &s, const std::map<u32, V<u64>> &cells) {
  const u64 count = cells.size(), codes = c.size() - (u64)std::count(c.begin(), c.end(), 0);
  V<u32> l;
  for (u32 v : s)
    if (v)
      l.push_back(v);
  const bool rise = std::is_sorted(l.begin(), l.end()), fall = std::is_sorted(l.rbegin(), l.rend());
  gauged[NO_START] += count == 0;
  gauged[FEW_STARTS] += count > 0 && count <= 4;
  gauged[EVERY_CODE] += count > 1 && count == codes;
  gauged[OVER_256] += count > 256;
  gauged[LABELS_RISE] += count > 2 && rise;
  gauged[LABELS_FALL] += count > 2 && fall;
  gauged[LABELS_MIXED] += !rise && !fall;
  gauged[WITHOUT_LABEL] += count > 0 && codes > count + 1;
  for (int k = 0; k < 4; k++) {
    std::set<u32> rest;
    for (u32 v : l)
      rest.insert(without_byte(v, k));
    gauged[APART_BY + k] += rest.size() < count;
  }
  for (u64 k = 0; k < EDGES; k++)
    edges_accepted[k] += count > 1 && cells.count(EDGE_LABELS[k]);
}
static void starts_refused(const V<u8> &c, const V<u32> &s, const std::map<u32, V<u64>> &cells) {
  u64 repeated = 0, starts = 0;
  u32 lowest = 0;
  for (auto &l : cells) {
    starts += l.second.size();
    repeated += l.second.size() > 1;
    if (!lowest && l.second.size() > 1)
      lowest = l.first;
  }
  const V<u64> &its = cells.at(lowest);
  bool earlier = false, sign = false, parted[4] = {false};
  for (auto &l : cells) {
    if (l.first == lowest || l.second.size() < 2)
      continue;
    earlier = earlier || l.second[1] < its[1];
    sign = sign || (lowest >> 31) != (l.first >> 31);
  }
  for (u64 i = its[0] + 1; i < its[1]; i++)
    for (int k = 0; k < 4; k++)
      parted[k] = parted[k] || (s[i] && s[i] != lowest && without_byte(s[i], k) == without_byte(lowest, k));
  gauged[ONE_REPEATED] += repeated == 1 && its.size() == 2;
  gauged[MORE_REPEATED] += repeated > 1;
  gauged[THREE_CELLS] += its.size() > 2;
  gauged[EVERY_CODE_REFUSED] += starts == c.size() - (u64)std::count(c.begin(), c.end(), 0);
  gauged[OVER_256_REFUSED] += starts > 256;
  gauged[NOT_THE_LOWEST] += cells.begin()->first < lowest;
  gauged[ANOTHER_BEFORE] += earlier;
  gauged[OTHER_SIGN] += sign;
  gauged[THE_LARGEST] += cells.rbegin()->first == lowest;
  gauged[FROM_FIRST_CELL] += its[0] == 0;
  gauged[TO_LAST_CELL] += its[1] + 1 == s.size();
  for (int k = 0; k < 4; k++)
    gauged[PARTED_BY + k] += parted[k];
  for (u64 k = 0; k < EDGES; k++)
    edges_repeated[k] += lowest == EDGE_LABELS[k];
}
static bool every_kind_of_start(u64 least) {
  bool all = true;
  printf("compare: starts:");
  for (int k = 0; k < GAUGED; k++) {
    printf("%s  %s: %llu", k == ONE_REPEATED ? "; refused:" : "", GAUGED_NAMES[k], (unsigned long long)gauged[k]);
    all = all && gauged[k] && gauged[k] >= least;
  }
  printf("\ncompare: labels, accepted and as the lowest that is repeated:");
  for (u64 k = 0; k < EDGES; k++) {
    printf("  %u: %llu, %llu", EDGE_LABELS[k], (unsigned long long)edges_accepted[k], (unsigned long long)edges_repeated[k]);
    all = all && edges_accepted[k] >= least && edges_repeated[k] && edges_repeated[k] >= least / 4;
  }
  printf("\n");
  return all;
}
// the answers that more than one question has to do with: a repeated label, or a start where the code is 0, beside what is asked before
static void starts_answer(u32 number, const V<u8> &c, const V<u32> &s) {
  const std::map<u32, V<u64>> cells = cells_of_labels(s);
  if (number == 0)
    starts_accepted(c, s, cells);
  if (number == 24)
    starts_refused(c, s, cells);
  if (number == 0 || number == 24)
    return;
  bool bad = false;
  for (u64 i = 0; i < c.size() && i < s.size(); i++)
    bad = bad || (!c[i] && s[i]);
  before["watersheds"][{number, 13}] += bad;
  before["watersheds"][{number, 24}] += std::any_of(cells.begin(), cells.end(), [](auto &l) { return l.second.size() > 1; });
}
// The watersheds of starts against the second program; what is handed in must stay as it was.
static u32 watersheds_answer(const char *name, const Desc &d, const V<u8> &codes, const V<u32> &starts, Lent<u32> &out, Lent<u32> &work,
                             u64 round) {
  Lent<u8> c(codes);
  Lent<u32> s(starts);
  V<u32> want = out.list();
  Reply r = call_watersheds(d.rows, d.cols, codes, starts, want, work.n);
  tervuola_answer a = tervuola_watersheds((u32)d.rows, (u32)d.cols, c.at(), c.n, s.at(), s.n, out.at(), out.n, work.at(), work.n);
  same_answer(name, a.number, a.place, r, round);
  same_list(name, "the watersheds", out, want, round);
  same_list(name, "the codes handed in", c, codes, round);
  same_list(name, "the starts handed in", s, starts, round);
  same_work(name, a.number, work, round);
  answers[name][a.number]++;
  return a.number;
}
static void watersheds_round(const Desc &d, const V<u8> &c0, gen::Rng &g, Lengths len, u64 round) {
  V<u8> c = resized(c0, len.of(c0.size()));
  V<u32> s = some_starts(g, c, len.of(c0.size()));
  Lent<u32> out(len.of(c0.size())), work(len.work(c0.size()));
  starts_answer(watersheds_answer("watersheds", d, c, s, out, work, round), c, s);
}
// "Table 5's own starts always pass this": the answer is what it was before the request, and accepted. The sheets with two of them or
// more, and the most of one sheet.
static u64 own_starts = 0, most_own_starts = 0;
static void own_starts_round(const Desc &d, const V<u8> &c, const V<u32> &s, u64 count, Lengths len, u64 round) {
  Lent<u32> out(d.n()), work(Lengths{len.g, false}.work(d.n()));
  LEVEL = BEFORE_LABELS;
  u32 number = watersheds_answer("watersheds of Table 5's own starts", d, c, s, out, work, round);
  LEVEL = REQUEST;
  if (number)
    fail("watersheds of Table 5's own starts", "that they are accepted", round);
  own_starts += count > 1;
  most_own_starts = std::max(most_own_starts, count);
}
static void starts_round(const Desc &d, const V<u8> &c0, gen::Rng &g, Lengths len, u64 round) {
  V<u8> c = resized(c0, len.of(c0.size()));
  V<u32> n(len.of(c0.size()));
  const u32 thresholds[] = {0, 1, 2147483647, 2147483648u, 4294967294u, 4294967295u};
  const bool any = g.chance(20); // counts of any size
  u32 t = any ? thresholds[g.below(6)] : g.chance(80) ? (u32)g.below(4) : (u32)g.g();
  for (auto &x : n)
    x = !any && g.chance(90) ? (u32)g.below(12) : (u32)g.g();
  Lent<u32> out(len.of(c0.size())), work(len.work(c0.size()));
  V<u32> want = out.list();
  Reply r = call_table5(d.rows, d.cols, c, n, t, want, work.n);
  tervuola_counted a = tervuola_starts((u32)d.rows, (u32)d.cols, c.data(), c.size(), n.data(), n.size(), t,
                                       out.at(), out.n, work.at(), work.n);
  same_answer("starts", a.number, a.place, r, round);
  if (a.count != r.count)
    fail("starts", "the number of starts", round);
  same_list("starts", "the starts", out, want, round);
  same_work("starts", a.number, work, round);
  answers["starts"][a.number]++;
  if (a.number == 0 && d.n() <= 1000000)
    own_starts_round(d, c, want, a.count, len, round);
}
// the labels at the edges along a row, in turn from each of them on, and behind them none, or any two of them again
static void edge_starts() {
  Desc d;
  d.rows = 1;
  d.cols = EDGES + 2;
  const V<u8> c(d.n(), 2);
  part = "turn of labels";
  for (u64 turn = 0; turn < EDGES; turn++)
    for (u64 k = 0; k <= EDGES; k++) {
      V<u32> s(d.n());
      for (u64 i = 0; i < EDGES; i++)
        s[i] = EDGE_LABELS[(turn + i) % EDGES];
      for (u64 i = 0; i < 2 && k < EDGES; i++)
        s[EDGES + i] = EDGE_LABELS[(k + i * turn) % EDGES];
      Lent<u32> out(d.n()), work(4 * d.n());
      starts_answer(watersheds_answer("watersheds", d, c, s, out, work, turn), c, s);
    }
}
// Each way to lay three labels, or none, on up to five cells: labels beside each other, on both sides of 2^31, with one lowest byte, and
// with all but that the same. The codes are of routes that end, have a 0 at each place, a ring, and a bad code.
static void small_starts() {
  static const u64 sizes[][2] = {{1, 1}, {1, 2}, {2, 1}, {3, 1}, {2, 2}, {1, 4}, {1, 5}};
  static const u32 labels[][4] = {
      {0, 1, 2, 3}, {0, 1, 2147483648u, 4294967295u}, {0, 7, 263, 16777223}, {0, 16842753, 16842754, 16842880}};
  ENGINE = LITERAL;
  part = "few starts";
  u64 i = 0;
  for (auto &size : sizes)
    for (auto &from : labels) {
      Desc d;
      d.rows = size[0];
      d.cols = size[1];
      const u64 n = d.n();
      Lent<u32> out(n), work(4 * n);
      for (u64 form = 0; form < n + 3; form++) {
        V<u8> c(n, d.cols > 1 ? 2 : 8);
        if (form < n)
          c[form] = 0;
        if (form == n && n > 1)
          c[1] = d.cols > 1 ? 32 : 128;
        if (form == n + 1)
          c[n - 1] = 3;
        for (u64 way = 0; way < 1u << 2 * n; way++, i++) {
          V<u32> s(n);
          for (u64 k = 0; k < n; k++)
            s[k] = from[way >> 2 * k & 3];
          out.renew();
          work.renew();
          watersheds_answer("watersheds", d, c, s, out, work, i);
        }
      }
    }
  edge_starts();
  part = "round";
}
// many starts, of which it is known whether a label is repeated
static void starts_said(const Desc &d, const V<u8> &codes, const V<u32> &s, u32 number, u64 round) {
  Lent<u32> out(d.n()), work(4 * d.n());
  if (watersheds_answer("watersheds", d, codes, s, out, work, round) != number)
    fail("watersheds", number ? "that many starts with a repeated label are refused" : "that many starts are accepted", round);
}
// As many starts as 8, 14 and 16 bits count, one less and one more, with labels of several forms, fewer where there are more starts:
// accepted; then the last two with one label, or where they are counted from 1 the first two with the largest there is; then the last and
// the first with one and two between them with another; and then any of them repeated.
static void many_starts(u64 seed) {
  static const u64 sides[] = {20, 140, 275}, counts[] = {256, 16384, 65536}, all_counts[] = {LABEL_FORMS, ANY_LABEL, 0};
  ENGINE = FAST;
  part = "number of starts";
  for (u64 i = 0; i < 9 * LABEL_FORMS; i++) {
    const u64 size = i % 3, more = i / 3 % 3, form = i / 9, count = counts[size] + more - 1;
    if ((form >= all_counts[size] && more != form % 3) || (size == 2 && form >= ANY_LABEL))
      continue;
    gen::Rng g(seed * 1000003 + i);
    Desc d;
    d.rows = d.cols = sides[size];
    const V<u8> codes = gen::codes(seed + i, d.rows, d.cols, 4);
    V<u32> cells;
    for (u64 c = 0; c < d.n(); c++)
      if (codes[c])
        cells.push_back((u32)c);
    if (cells.size() < count)
      fail("watersheds", "that there are as many cells", i);
    cells.erase(cells.begin(), cells.end() - (long)count);
    const V<u32> s = different_starts(g, cells, d.n(), form, (form + more) % LABEL_ORDERS);
    starts_said(d, codes, s, 0, i);
    V<u32> two(s), ends(s), any(s);
    if (form == FROM_ONE)
      two[cells[0]] = two[cells[1]] = 4294967295u;
    else
      two[cells[count - 1]] = two[cells[count - 2]];
    starts_said(d, codes, two, 24, i);
    ends[cells[0]] = ends[cells[count - 1]];
    ends[cells[count / 2]] = ends[cells[count / 3]];
    starts_said(d, codes, ends, 24, i);
    repeat_some(g, cells, any);
    any[cells[count / 2]] = any[cells[count / 3]];
    starts_said(d, codes, any, 24, i);
  }
  part = "round";
}
// On a large sheet: about a thousand starts, or one on every cell with a code, with labels in no order: accepted, then two labels
// repeated.
static void large_starts(const Desc &d, const V<u8> &codes, bool all) {
  V<u32> cells;
  for (u64 c = 0; c < d.n(); c++)
    if (codes[c])
      cells.push_back((u32)c);
  if (cells.size() < 1000)
    fail("watersheds", "that there are cells for many starts", cells.size());
  V<u32> s(d.n());
  const u64 every = all ? 1 : cells.size() / 1000 + 1, last = (cells.size() - 1) / every;
  for (u64 k = 0; k <= last; k++)
    s[cells[k * every]] = (u32)(k + 1) * 2654435761u;
  starts_said(d, codes, s, 0, 0);
  s[cells[last / 3 * every]] = s[cells[last / 2 * every]];
  s[cells[last * every]] = s[cells[0]];
  starts_said(d, codes, s, 24, 0);
}
static void pour_points_round(const Desc &d, const V<i16> &e0, gen::Rng &g, Lengths len, u64 round) {
  V<i16> e = resized(e0, len.of(e0.size()));
  V<u32> l(len.of(e0.size()));
  u64 kinds = g.chance(50) ? 1 + g.below(6) : 1 + g.below(2 * l.size() + 1);
  for (auto &x : l)
    x = g.chance(98) ? (u32)g.below(kinds) : (u32)g.g();
  V<u32> none;
  size_t pairs = e.size() == d.n() && l.size() == d.n() && d.n() ? oracle::pairs(d.rows, d.cols, e, l).size() : 0;
  size_t k = g.chance(40) ? pairs : g.chance(50) ? pairs + g.below(5) : pairs ? pairs - 1 : 0;
  Lent<u32> a(k), b(len.of(k)), c(len.of(k));
  Lent<i16> z(len.of(k));
  V<u32> wa = a.list(), wb = b.list(), wc = c.list();
  V<i16> wz = z.list();
  Reply r = call_table6(d.rows, d.cols, e, l, wa, wb, wz, wc);
  tervuola_counted x = tervuola_pour_points((u32)d.rows, (u32)d.cols, e.data(), e.size(), l.data(), l.size(),
                                            a.at(), a.n, b.at(), b.n, z.at(), z.n, c.at(), c.n);
  same_answer("pour_points", x.number, x.place, r, round);
  if (x.count != r.count)
    fail("pour_points", "the number of pairs", round);
  same_list("pour_points", "the smaller labels", a, wa, round);
  same_list("pour_points", "the larger labels", b, wb, round);
  same_list("pour_points", "the elevations", z, wz, round);
  same_list("pour_points", "the cells", c, wc, round);
}
// what a call for the four results lends: where lengths are wrong, often that of the work buffer alone
struct FourLent {
  Lent<i16> filled;
  Lent<u8> codes;
  Lent<u32> counts, labels, work;
  FourLent(size_t cells, Lengths len) : FourLent(cells, Lengths{len.g, len.wrong && len.g.chance(60)}, len) {}
  FourLent(size_t cells, Lengths results, Lengths room)
      : filled(results.of(cells)), codes(results.of(cells)), counts(results.of(cells)), labels(results.of(cells)), work(room.work(cells)) {}
  void renew() {
    filled.renew();
    codes.renew();
    counts.renew();
    labels.renew();
    work.renew();
  }
  bool fits(u64 n) const { return filled.n == n && codes.n == n && counts.n == n && labels.n == n; }
  Four four() const {
    Four f;
    f.filled = filled.list();
    f.codes = codes.list();
    f.counts = counts.list();
    f.labels = labels.list();
    return f;
  }
};
static void same_four(const char *name, u32 number, const FourLent &lent, const Four &want, u64 round) {
  same_list(name, "the filled sheet", lent.filled, want.filled, round);
  same_list(name, "the codes", lent.codes, want.codes, round);
  same_list(name, "the counts", lent.counts, want.counts, round);
  same_list(name, "the labels", lent.labels, want.labels, round);
  same_work(name, number, lent.work, round);
}
// A call for the four results; `said` is the second program's answer to it. The sheet handed in must stay as it was. Gives the answer and what was lent
// for the results as the call left it.
struct Answered {
  u32 number;
  u64 place;
  Four four;
};
template <class Call, class Said>
static Answered four_round(const char *name, Call call, Said said, const Desc &d, const V<i16> &e, FourLent &lent, u64 round) {
  V<i16> input(e);
  Four want = lent.four();
  Reply r = said(want, lent.work.n);
  auto a = call();
  same_answer(name, a.number, a.place, r, round);
  same_four(name, a.number, lent, want, round);
  if (e != input)
    fail(name, "the sheet handed in", round);
  answers[name][a.number]++;
  outlets_answer(name, a.number, d, e, lent.fits(d.n()), lent.work, true);
  return {a.number, a.place, want};
}
// accepted sheets with a cell on the border that is no outlet and flows inward, and of these the ones where such a cell has water on it,
// and where it has no lower neighbour on the filled sheet
static u64 inward = 0, inward_wet = 0, inward_flat = 0;
static void closed_border(const Desc &d, const V<i16> &e, const V<i16> &filled) {
  V<u8> out = fast::outlets(d, e);
  bool some = false, wet = false, flat = false;
  for (u64 c = 0; c < d.n(); c++) {
    if (!on_border(d, c) || out[c] || e[c] == VOIDMARK)
      continue;
    some = true;
    wet = wet || filled[c] > e[c];
    flat = flat || !beside(d, c, [&](u64 j) { return e[j] != VOIDMARK && filled[j] < filled[c]; });
  }
  inward += some;
  inward_wet += wet;
  inward_flat += flat;
}
// accepted sheets with gaps: those where a cell on the shore of one has water on it, and where one has no lower neighbour, and those with other codes than
// if every void were outside
static u64 wet_shores = 0, flat_shores = 0, other_ways = 0;
static void shores(const Desc &d, const V<i16> &e, const Four &r) {
  const V<u8> out = fast::outside(d, e), outlets = fast::outlets(d, e);
  auto gap = [&](u64 c) { return e[c] == VOIDMARK && !out[c]; };
  bool gaps = false, wet = false, flat = false;
  for (u64 c = 0; c < d.n(); c++) {
    gaps = gaps || gap(c);
    if (e[c] == VOIDMARK || outlets[c] || !beside(d, c, gap))
      continue;
    wet = wet || r.filled[c] > e[c];
    flat = flat || !beside(d, c, [&](u64 j) { return e[j] != VOIDMARK && r.filled[j] < r.filled[c]; });
  }
  if (!gaps)
    return;
  wet_shores += wet;
  flat_shores += flat;
  LEVEL = BEFORE_GAPS;
  V<u8> codes;
  directions(d, oracle::fill(d, e), codes);
  LEVEL = REQUEST;
  other_ways += codes != r.codes;
}
// a list of culverts: entry k is the cell and the level at place k
struct Culverts {
  V<u32> cells;
  V<i16> levels;
  u64 count() const { return cells.size(); }
  void add(u32 cell, i16 level) {
    cells.push_back(cell);
    levels.push_back(level);
  }
};
// the sheet and the lists handed in must stay as they were, whatever is answered
static tervuola_located open_culverts(const Desc &d, const V<i16> &e, const Culverts &l, FourLent &lent, u64 round) {
  V<i16> input(e);
  Lent<u32> cells(l.cells);
  Lent<i16> levels(l.levels);
  auto given = [&](auto &list) { return list.n || round % 2 ? list.at() : nullptr; };
  tervuola_located a = tervuola_culverts((u32)d.rows, (u32)d.cols, (u32)d.closed, (u32)d.width, (u32)d.height, e.data(), e.size(), given(cells), cells.n,
                                         given(levels), levels.n, lent.filled.at(), lent.filled.n, lent.codes.at(), lent.codes.n, lent.counts.at(),
                                         lent.counts.n, lent.labels.at(), lent.labels.n, lent.work.at(), lent.work.n);
  same_list("culverts", "the cells handed in", cells, l.cells, round);
  same_list("culverts", "the levels handed in", levels, l.levels, round);
  if (e != input)
    fail("culverts", "the sheet handed in", round);
  return a;
}
static void drain_round(const Desc &d, const V<i16> &e0, Lengths len, u64 round) {
  V<i16> e = resized(e0, len.of(e0.size()));
  FourLent lent(e0.size(), len);
  Answered r = four_round(
      "drain",
      [&] {
        return tervuola_drain((u32)d.rows, (u32)d.cols, (u32)d.closed, (u32)d.width, (u32)d.height, e.data(), e.size(), lent.filled.at(), lent.filled.n,
                              lent.codes.at(), lent.codes.n, lent.counts.at(), lent.counts.n, lent.labels.at(), lent.labels.n, lent.work.at(), lent.work.n);
      },
      [&](Four &want, u64 work) { return call_four(d, e, want, work); }, d, e, lent, round);
  // "An empty list gives the plain results", and refusals
  lent.renew();
  tervuola_located a = open_culverts(d, e, {}, lent, round);
  checks++;
  if (a.number != r.number || a.place != r.place)
    fail("no culvert", "the answer of the one call", round);
  same_four("no culvert", a.number, lent, r.four, round);
  answers["no culvert"][a.number]++;
  if (r.number == 0) {
    closed_border(d, e, r.four.filled);
    shores(d, e, r.four);
  }
}

// ---- lists of culverts

// a sheet with more cells is one of the large ones
static const u64 LARGE = 10000;
// a level that a culvert may have at this elevation: it, a bit below, or as far down as there is a number
static i16 good_level(gen::Rng &g, i16 z) {
  if (g.chance(20))
    return z;
  return (i16)std::max<i64>(-32767, (i64)z - (i64)(g.chance(70) ? 1 + g.below(9) : 1 + g.below(65535)));
}
// and one that it may not have
static i16 bad_level(gen::Rng &g, i16 z) {
  if (z == 32767 || g.chance(40))
    return VOIDMARK;
  return g.chance(70) ? (i16)std::min<i64>(32767, (i64)z + 1 + (i64)g.below(3)) : (i16)g.in((i64)z + 1, 32767);
}
// a cell that no culvert may have: a void, or one off the sheet, such as a data cell's number and more bits
static u32 bad_cell(gen::Rng &g, const V<i16> &e, u32 cell) {
  for (int tries = 0; tries < 10 && g.chance(60) && !e.empty(); tries++) {
    u32 c = (u32)g.below(e.size());
    if (e[c] == VOIDMARK)
      return c;
  }
  const u32 off[] = {(u32)e.size(), (u32)e.size() + 1, cell | 65536u, cell | 2147483648u, 2147483648u, 4294967295u};
  return off[g.below(6)];
}
// Entries that a list has at this sheet's elevations, all of them good: at any data cells or at a few of them that lie beside each other, with some cells
// named more than once, at levels near each other. Without a data cell none is good.
static Culverts good_culverts(gen::Rng &g, const V<i16> &e, u64 count) {
  V<u32> data;
  for (u64 c = 0; c < e.size(); c++)
    if (e[c] != VOIDMARK)
      data.push_back((u32)c);
  Culverts l;
  u64 from = g.below(data.size()), range = data.size() <= LARGE && g.chance(50) ? 1 + g.below(4) : data.size();
  for (u64 k = 0; k < count; k++) {
    if (data.empty()) {
      l.add(bad_cell(g, e, 0), (i16)g.in(-32768, 9));
    } else if (k && g.chance(35)) {
      u64 j = g.below(k);
      i64 near = (i64)l.levels[j] + g.in(-2, 2);
      l.add(l.cells[j], (i16)std::min<i64>(e[l.cells[j]], std::max<i64>(-32767, near)));
    } else {
      u32 c = data[(from + g.below(range)) % data.size()];
      l.add(c, good_level(g, e[c]));
    }
  }
  return l;
}
// one entry made bad, at the first place, the last or any: by its cell, its level, or both; or by a level above the elevation that is below another
// one of the same cell, which is bad too
static void spoil(gen::Rng &g, const V<i16> &e, Culverts &l) {
  u64 place = g.below(3), k = place == 0 ? 0 : place == 1 ? l.count() - 1 : g.below(l.count()), j = g.below(l.count());
  u32 cell = l.cells[k];
  i16 level = bad_level(g, cell < e.size() ? e[cell] : (i16)0);
  u64 kind = g.below(6);
  if (kind < 3)
    l.cells[k] = bad_cell(g, e, cell);
  if (kind == 2)
    l.levels[k] = VOIDMARK;
  if (kind > 2)
    l.levels[k] = level;
  if (kind == 5 && j != k && level != VOIDMARK && level < 32767) {
    l.cells[j] = cell;
    l.levels[j] = (i16)(level + 1);
  }
}
// how many: none, one, two, a few, dozens, more than there are cells, or thousands
static u64 some_count(gen::Rng &g, const V<i16> &e) {
  u64 kind = g.below(100), n = e.size();
  if (kind < 50 && std::count(e.begin(), e.end(), VOIDMARK) == (i64)n)
    return 0;
  return kind < 8 ? 0 : kind < 28 ? 1 : kind < 43 ? 2 : kind < 83 ? 3 + g.below(6) : kind < 95 ? 12 + g.below(36) : kind < 98 ? n + 1 + g.below(n + 1) : 1000 + g.below(3000);
}
// Forty of a road: twenty from the west side on that make a ditch, level and as low as its lowest cell, so that ponds beside it fall; and twenty anywhere.
static Culverts forty_culverts(gen::Rng &g, const Desc &d, const V<i16> &e) {
  const u64 from = d.rows / 2 * d.cols;
  i16 lowest = 32767;
  Culverts l, any = good_culverts(g, e, 40);
  for (u64 c = from; c < from + 20; c++)
    if (e[c] != VOIDMARK)
      lowest = std::min(lowest, e[c]);
  for (u64 c = from; c < from + 20; c++)
    if (e[c] != VOIDMARK)
      l.add((u32)c, lowest);
  for (u64 k = l.count(); k < 40; k++)
    l.add(any.cells[k], any.levels[k]);
  return l;
}
static Culverts some_culverts(gen::Rng &g, const Desc &d, const V<i16> &e, Lengths len) {
  if (e.size() > LARGE)
    return forty_culverts(g, d, e);
  Culverts l = good_culverts(g, e, some_count(g, e));
  if (l.count() && g.chance(30))
    for (u64 k = 1 + g.below(3); k > 0; k--)
      spoil(g, e, l);
  if (len.wrong && g.chance(30)) { // lists of unlike lengths
    u64 more = 1 + g.below(3);
    switch (g.below(4)) {
    case 0:
      l.levels.resize(l.count() - std::min(l.count(), more));
      break;
    case 1:
      l.levels.resize(l.count() + more, (i16)g.in(-32768, 0));
      break;
    case 2:
      l.cells.clear();
      break;
    case 3:
      l.levels.clear();
      break;
    }
  }
  return l;
}
// the same entries in another order, and some of them again
static Culverts shuffled(gen::Rng &g, const Culverts &l, u64 again) {
  Culverts r(l);
  for (u64 k = 0; k < again; k++) {
    u64 j = g.below(l.count());
    r.add(l.cells[j], l.levels[j]);
  }
  for (u64 k = r.count(); k > 1; k--) {
    u64 j = g.below(k);
    std::swap(r.cells[k - 1], r.cells[j]);
    std::swap(r.levels[k - 1], r.levels[j]);
  }
  return r;
}

// What lists there were. Accepted: by length, and with a cell whose lowest level comes first of all that are named for it, between the others, and last; the
// first two have a level above one that was named before it. Refused, of three entries or more, by the bad entry's number and place. And refused where a later
// entry has the other number, where one entry is bad by both, where good entries before it would open a cell, and with 16 where another entry names the cell
// at a higher level still. Refused with 7 by their lengths alone.
enum Listed {
  NO_ENTRY, ONE_ENTRY, TWO_ENTRIES, DOZENS, OVER_SHEET, THOUSANDS, LOWEST_FIRST, LOWEST_AMID, LOWEST_LAST,
  CELL_FIRST, CELL_AMID, CELL_LAST, LEVEL_FIRST, LEVEL_AMID, LEVEL_LAST, CELL_THEN_LEVEL, LEVEL_THEN_CELL, BOTH_AT_ONCE, AFTER_GOOD, BELOW_ANOTHER,
  FEWER_LEVELS, MORE_LEVELS, NO_CELLS, NO_LEVELS, LISTED
};
static const char *const LISTED_NAMES[LISTED] = {
    "none", "one", "two", "dozens", "more than cells", "thousands", "a cell's lowest level first", "amid", "last",
    "15 at the first place", "amid", "at the last", "16 at the first place", "amid", "at the last", "15 and later 16", "16 and later 15", "both in one entry",
    "after one that would open a cell", "a level below another one of the cell", "fewer levels than cells", "more", "no cell", "no level"};
static std::array<u64, LISTED> listed;
static bool every_kind_of_list(u64 least) {
  bool all = true;
  printf("compare: lists of culverts:");
  for (int k = 0; k < LISTED; k++) {
    printf("%s  %s: %llu", k == CELL_FIRST ? "; refused:" : k == FEWER_LEVELS ? "; of unlike lengths:" : "", LISTED_NAMES[k], (unsigned long long)listed[k]);
    all = all && listed[k] && listed[k] >= least;
  }
  printf("\n");
  return all;
}
// 15 or 16 by which entry k is bad on this sheet, or 0
static u32 bad_entry(const V<i16> &e, const Culverts &l, u64 k) {
  u32 c = l.cells[k];
  return c >= e.size() || e[c] == VOIDMARK ? 15 : l.levels[k] == VOIDMARK || l.levels[k] > e[c] ? 16 : 0;
}
static void list_accepted(u64 n, const Culverts &l) {
  listed[NO_ENTRY] += l.count() == 0;
  listed[ONE_ENTRY] += l.count() == 1;
  listed[TWO_ENTRIES] += l.count() == 2;
  listed[DOZENS] += l.count() >= 12 && l.count() < 100;
  listed[OVER_SHEET] += l.count() > n;
  listed[THOUSANDS] += l.count() >= 1000;
  struct Named {
    i16 first, lowest, last;
  };
  std::map<u32, Named> named;
  for (u64 k = 0; k < l.count(); k++) {
    i16 z = l.levels[k];
    auto put = named.insert({l.cells[k], {z, z, z}});
    Named &m = put.first->second;
    m.lowest = std::min(m.lowest, z);
    m.last = z;
  }
  bool first = false, amid = false, last = false;
  for (auto &cell : named) {
    const Named &m = cell.second;
    first = first || (m.lowest == m.first && m.lowest < m.last);
    amid = amid || (m.lowest < m.first && m.lowest < m.last);
    last = last || (m.lowest < m.first && m.lowest == m.last);
  }
  listed[LOWEST_FIRST] += first;
  listed[LOWEST_AMID] += amid;
  listed[LOWEST_LAST] += last;
}
static void list_refused(const V<i16> &e, const Culverts &l, u32 number, u64 place) {
  bool opens = false, other = false, above = false;
  for (u64 k = 0; k < place; k++)
    opens = opens || l.levels[k] < e[l.cells[k]];
  for (u64 k = place + 1; k < l.count(); k++)
    other = other || bad_entry(e, l, k) == 31 - number;
  for (u64 k = 0; k < l.count(); k++)
    above = above || (l.cells[k] == l.cells[place] && l.levels[k] > l.levels[place]);
  if (l.count() >= 3)
    listed[(number == 15 ? CELL_FIRST : LEVEL_FIRST) + (place == 0 ? 0 : place + 1 < l.count() ? 1 : 2)]++;
  listed[number == 15 ? CELL_THEN_LEVEL : LEVEL_THEN_CELL] += other;
  listed[BOTH_AT_ONCE] += number == 15 && l.levels[place] == VOIDMARK;
  listed[AFTER_GOOD] += opens;
  listed[BELOW_ANOTHER] += number == 16 && l.levels[place] != VOIDMARK && above;
}
// the answers that more than one question has to do with: lists of unlike lengths beside the others, and a bad entry beside a wrong length
static void list_answer(const Desc &d, const V<i16> &e, const Culverts &l, const FourLent &lent, const Answered &r) {
  const u64 both = std::min(l.cells.size(), l.levels.size());
  const bool unlike = l.cells.size() != l.levels.size(), right = r.number != 5 && r.number != 6 && e.size() == d.n();
  u64 bad = 0;
  while (right && bad < both && !bad_entry(e, l, bad))
    bad++;
  const u32 number = right && bad < both ? bad_entry(e, l, bad) : 0;
  auto &met = before[unlike ? "lists of unlike lengths" : "culverts"];
  if (unlike && (r.number < 7 || r.number == 17 || r.number == 20))
    met[{r.number, 7}]++;
  if (unlike && r.number == 7 && right) {
    met[{7, 8}] += !lent.fits(d.n());
    met[{7, 9}] += lent.work.n < 4 * d.n();
    met[{7, number}]++;
    listed[FEWER_LEVELS] += l.levels.size() < l.cells.size();
    listed[MORE_LEVELS] += l.levels.size() > l.cells.size();
    listed[NO_CELLS] += l.cells.empty();
    listed[NO_LEVELS] += l.levels.empty();
  }
  if (!unlike && number && (r.number == 8 || r.number == 9))
    met[{r.number, number}]++;
  if (r.number == 0)
    list_accepted(d.n(), l);
  if (r.number == 15 || r.number == 16)
    list_refused(e, l, r.number, r.place);
}
// cells opened to a lower level, those of them on the border and on the shore of a gap; lists that lower the filled sheet where they open no cell
static u64 opened_lower = 0, opened_border = 0, opened_shores = 0, opened_banks = 0;
static void count_opened(const Desc &d, const V<i16> &e, const Culverts &l, const V<i16> &filled) {
  V<i16> plain = oracle::fill(d, e);
  const V<u8> out = fast::outside(d, e);
  std::set<u32> cells;
  for (u64 k = 0; k < l.count(); k++)
    if (l.levels[k] < e[l.cells[k]])
      cells.insert(l.cells[k]);
  for (u32 c : cells) {
    opened_lower++;
    opened_border += on_border(d, c);
    opened_shores += on_shore(d, e, out, c);
    plain[c] = filled[c];
  }
  opened_banks += plain != filled;
}
// A list against the second program; if it is accepted, the same entries in another order, and with some of them again, must leave the same results: on a
// large sheet both at once.
static void list_round(const Desc &d, const V<i16> &e, const Culverts &l, FourLent lent, gen::Rng &g, u64 round) {
  Answered r = four_round(
      "culverts", [&] { return open_culverts(d, e, l, lent, round); },
      [&](Four &want, u64 work) { return call_culvert(d, e, V<u64>(l.cells.begin(), l.cells.end()), l.levels, want, work); }, d, e, lent, round);
  list_answer(d, e, l, lent, r);
  if (r.number || !l.count())
    return;
  count_opened(d, e, l, r.four.filled);
  for (u64 again : {(u64)0, 1 + g.below(l.count())}) {
    if (!again && d.n() > LARGE)
      continue;
    lent.renew();
    tervuola_located a = open_culverts(d, e, shuffled(g, l, again), lent, round);
    checks++;
    if (a.number || a.place)
      fail("culverts in another order", "the answer", round);
    same_four("culverts in another order", a.number, lent, r.four, round);
  }
}
static void culverts_round(const Desc &d, const V<i16> &e0, gen::Rng &g, Lengths len, u64 round) {
  V<i16> e = resized(e0, len.of(e0.size()));
  Culverts l = some_culverts(g, d, e0, len);
  list_round(d, e, l, FourLent(e0.size(), len), g, round);
}
// Every list of up to two or three entries on sheets of two or three cells, with cells on the sheet and just off it, and with the void and the elevations, one
// less and one more, as levels; those of up to two also with a cell or a level too few. Then lists of more entries than 16 bits count, one with the lowest level amid, and
// one with a bad entry at its end.
static void small_culverts() {
  struct Sheet {
    u64 rows, cols, closed;
    V<i16> e;
    u64 most;
  };
  const Sheet sheets[] = {{1, 2, 0, {0, 1}, 3},
                          {2, 1, 0, {VOIDMARK, 1}, 3},
                          {1, 2, 0, {-32767, 32767}, 3},
                          {1, 3, WEST + NORTH + SOUTH, {0, 2, 1}, 2},
                          {3, 1, WEST + EAST + SOUTH, {1, VOIDMARK, 3}, 2},
                          {1, 2, 15, {0, 1}, 2},
                          {1, 2, 15, {VOIDMARK, VOIDMARK}, 2}};
  ENGINE = LITERAL;
  part = "short list of culverts";
  gen::Rng g(1);
  Lengths len{g, false};
  u64 i = 0;
  for (auto &s : sheets) {
    Desc d;
    d.rows = s.rows;
    d.cols = s.cols;
    d.closed = s.closed;
    const FourLent lent(d.n(), len);
    std::set<i64> levels{VOIDMARK};
    for (i64 z : s.e)
      for (i64 level = z - 1; level <= z + 1; level++)
        if (level >= VOIDMARK && level <= 32767)
          levels.insert(level);
    V<Culverts> all{{}};
    for (size_t k = 0; k < all.size(); k++)
      for (u32 c = 0; c <= d.n() && all[k].count() < s.most; c++)
        for (i64 level : levels) {
          all.push_back(all[k]);
          all.back().add(c, (i16)level);
        }
    for (auto &l : all) {
      list_round(d, s.e, l, lent, g, ++i);
      if (l.count() == 0 || l.count() == 3)
        continue;
      Culverts fewer_levels(l), fewer_cells(l);
      fewer_levels.levels.pop_back();
      fewer_cells.cells.pop_back();
      list_round(d, s.e, fewer_levels, lent, g, ++i);
      list_round(d, s.e, fewer_cells, lent, g, ++i);
    }
  }
  Desc d;
  d.rows = 1;
  d.cols = 3;
  d.closed = WEST + NORTH + SOUTH;
  const V<i16> e{0, 9, 1};
  Culverts l;
  for (u32 k = 0; k < 70000; k++)
    l.add(k % 3, k % 3 == 1 ? (i16)(k == 67000 ? 3 : 4 + k % 5) : e[k % 3]);
  list_round(d, e, l, FourLent(3, len), g, ++i);
  u64 refused = answers["culverts"][16];
  l.levels.back() = 1; // of cell 0
  list_round(d, e, l, FourLent(3, len), g, ++i);
  if (answers["culverts"][16] != refused + 1)
    fail("culverts", "that the last of many entries is refused", i);
  part = "round";
}
// On a large sheet: each data cell at its elevation and some of them lower, as many entries as there are data cells in falling order; then with the last of them
// off the sheet. The largest sheets would need more room than the test should take.
static void long_list_of_culverts(const Desc &d, const V<i16> &e, gen::Rng &g, Lengths len) {
  if (d.n() > 1000000)
    return;
  Culverts l;
  for (u64 c = d.n(); c-- > 0;)
    if (e[c] != VOIDMARK)
      l.add((u32)c, g.chance(1) ? good_level(g, e[c]) : e[c]);
  list_round(d, e, l, FourLent(d.n(), len), g, 0);
  l.cells.back() = (u32)d.n();
  list_round(d, e, l, FourLent(d.n(), len), g, 0);
}
// Sheets of ponds, at any height and with voids now and then.
enum Form { PITS, DIAGONALS, RINGS, BLOCKS, DEEPEST, FORMS };
static V<i16> pond_sheet(gen::Rng &g, u64 form, u64 rows, u64 cols) {
  int pits = (int)g.in(10, 90);
  bool rising = g.chance(60);
  i64 low = g.chance(40) ? g.in(-32767, 32700) : g.in(-9, 9), high = std::min<i64>(low + g.in(1, 60), 32767);
  if (form == DEEPEST) {
    pits = (int)g.in(50, 100);
    low = -32767;
    high = 32767;
  }
  V<i16> e(rows * cols);
  for (u64 r = 0; r < rows; r++)
    for (u64 q = 0; q < cols; q++) {
      u64 ring = std::min(std::min(r, rows - 1 - r), std::min(q, cols - 1 - q));
      i64 z = high;
      switch (form) {
      case PITS: // in level ground
      case DEEPEST:
        z = ring && g.chance(pits) ? low : high;
        break;
      case DIAGONALS: // pits that touch at corners, or are parted by one cell
        z = ring && (r + q) % 2 == 0 && (r + 2 * q) % 3 && g.chance(pits + 10) ? g.in(low, high) : high;
        break;
      case RINGS: // each second one low: ponds on islands of ponds where the others rise inwards, one pond where they fall
        z = ring % 2 ? low : std::max(low, std::min<i64>(high + (rising ? (i64)ring : -(i64)ring) - g.chance(10), 32767));
        break;
      case BLOCKS: // behind banks of unlike heights
        z = r % 4 == 0 || q % 4 == 0 ? std::max(low, high - (i64)((r / 4 + q / 4) % 3)) : g.in(low, high);
        break;
      }
      e[r * cols + q] = (i16)z;
    }
  if (g.chance(25))
    for (auto &x : e)
      if (g.chance(8))
        x = VOIDMARK;
  return e;
}
// A sheet cut from larger country: ponds and flats go on across its border.
static V<i16> cut_sheet(gen::Rng &g, u64 form, u64 rows, u64 cols) {
  u64 up = g.below(4), left = g.below(4), wide = left + cols + g.below(4);
  V<i16> all = pond_sheet(g, form, up + rows + g.below(4), wide), e(rows * cols);
  for (u64 r = 0; r < rows; r++)
    for (u64 q = 0; q < cols; q++)
      e[r * cols + q] = all[(up + r) * wide + left + q];
  return e;
}
// voids on a walk from a cell on, which goes through cells within the border
static void walk_of_voids(gen::Rng &g, const Desc &d, u64 from, u64 steps, V<i16> &e) {
  u64 c = from;
  e[c] = VOIDMARK;
  for (u64 k = 0; k < steps; k++) {
    i64 j = at_step(d.rows, d.cols, c, (int)g.below(8));
    if (j < 0 || on_border(d, (u64)j))
      continue;
    c = (u64)j;
    e[c] = VOIDMARK;
  }
}
// Sheets of at least 3 by 3 with voids: lakes within the border; a ring round an island, now and then with a way through; a walk from a side, mostly from
// a closed one; voids from corner to corner, from the border on, now and then with a cell between; a walk from a corner of the sheet whose one side is
// closed; and voids anywhere, or everywhere. Changes the closed sides where the form asks for it.
enum GapForm { LAKES, ISLANDS, SHORES, DIAGONAL, SHEET_CORNERS, ANYWHERE, GAP_FORMS };
static V<i16> gap_sheet(gen::Rng &g, u64 form, Desc &d) {
  const u64 rows = d.rows, cols = d.cols;
  const i64 low = g.chance(30) ? g.in(-32767, 32758) : g.in(-3, 3), high = low + g.in(0, 9);
  V<i16> e = cut_sheet(g, g.below(FORMS), rows, cols);
  if (g.chance(60))
    for (auto &x : e)
      x = (i16)g.in(low, high);
  auto inner = [&] { return (1 + g.below(rows - 2)) * cols + 1 + g.below(cols - 2); };
  // a cell on a side: west, east, north, south
  auto side_cell = [&](u64 side) {
    u64 r = g.below(rows), q = g.below(cols);
    return side == 0 ? r * cols : side == 1 ? r * cols + cols - 1 : side == 2 ? q : (rows - 1) * cols + q;
  };
  switch (form) {
  case LAKES:
    for (u64 k = 1 + g.below(3); k > 0; k--)
      walk_of_voids(g, d, inner(), g.below(rows + cols), e);
    break;
  case ISLANDS: {
    u64 h = std::min(rows, 3 + g.below(3)), w = std::min(cols, 3 + g.below(3)), top = g.below(rows - h + 1), left = g.below(cols - w + 1);
    bool within = g.chance(70), way = g.chance(25);
    if (within && rows > h + 1)
      top = 1 + g.below(rows - h - 1);
    if (within && cols > w + 1)
      left = 1 + g.below(cols - w - 1);
    for (u64 r = 0; r < h; r++)
      for (u64 q = 0; q < w; q++)
        if ((r == 0 || q == 0 || r + 1 == h || q + 1 == w) && !(way && g.chance(20)))
          e[(top + r) * cols + left + q] = VOIDMARK;
    break;
  }
  case SHORES: {
    if (d.closed == 0 || d.closed == 15)
      d.closed = 1 + g.below(14);
    u64 side = g.below(4);
    while (g.chance(90) && !(d.closed >> side & 1))
      side = g.below(4);
    walk_of_voids(g, d, side_cell(side), g.below(rows + cols), e);
    break;
  }
  case DIAGONAL: {
    i64 c = (i64)side_cell(g.below(4));
    int p = 2 * (int)g.below(4);
    for (u64 k = 2 + g.below(5); k > 0 && c >= 0; k--) {
      if (!g.chance(8))
        e[(u64)c] = VOIDMARK;
      c = at_step(rows, cols, (u64)c, p);
    }
    break;
  }
  case SHEET_CORNERS: {
    u64 k = g.below(4), across = k % 2 ? EAST : WEST, along = k / 2 ? SOUTH : NORTH;
    if (g.chance(80))
      d.closed = (d.closed & ~(across | along)) | (g.chance(50) ? across : along);
    walk_of_voids(g, d, (k / 2 ? (rows - 1) * cols : 0) + (k % 2 ? cols - 1 : 0), g.below(rows + cols), e);
    break;
  }
  case ANYWHERE: {
    int percent = g.chance(80) ? (int)g.in(5, 70) : 100;
    if (percent == 100 && g.chance(50))
      d.closed = 15;
    for (auto &x : e)
      if (g.chance(percent))
        x = VOIDMARK;
    break;
  }
  }
  return e;
}
// round lakes on a large sheet, some of them on its border
static V<i16> lakes(u64 side) {
  gen::Rng g(side);
  V<i16> e = gen::sheet("bog", 9, side, side).e;
  for (u64 k = 0; k < 60; k++) {
    const i64 n = (i64)side, row = g.in(0, n - 1), col = g.in(0, n - 1), radius = g.in(1, 1 + n / 25);
    for (i64 r = std::max<i64>(0, row - radius); r < std::min(n, row + radius); r++)
      for (i64 q = std::max<i64>(0, col - radius); q < std::min(n, col + radius); q++)
        if ((r - row) * (r - row) + (q - col) * (q - col) < radius * radius)
          e[(u64)(r * n + q)] = VOIDMARK;
  }
  return e;
}
// the most ponds of one sheet
static u64 most_ponds = 0;
static void ponds_round(const Desc &d, const V<i16> &e0, bool exact, gen::Rng &g, Lengths len, u64 round) {
  V<i16> e = resized(e0, len.of(e0.size()));
  Lent<u32> p(len.of(e0.size())), work(len.work(e0.size()));
  V<u32> numbers;
  size_t count = e.size() == d.n() && d.n() ? oracle::ponds(d, e, oracle::fill(d, e), numbers).size() : g.below(4);
  size_t k = exact || g.chance(40) ? count : g.chance(40) ? count + g.below(5) : g.chance(70) ? count - (count ? 1 : 0) : g.below(count + 1);
  Lent<i16> z(len.of(k));
  Lent<u32> c(len.of(k));
  Lent<u64> v(len.of(k));
  V<u32> wp = p.list(), wc = c.list();
  V<i16> wz = z.list();
  V<u64> wv = v.list();
  Reply r = call_ponds(d, e, wp, wz, wc, wv, work.n);
  tervuola_counted x = tervuola_ponds((u32)d.rows, (u32)d.cols, (u32)d.closed, e.data(), e.size(), p.at(), p.n, z.at(), z.n, c.at(), c.n,
                                      v.at(), v.n, work.at(), work.n);
  same_answer("ponds", x.number, x.place, r, round);
  if (x.count != r.count)
    fail("ponds", "the number of ponds", round);
  same_list("ponds", "the pond numbers", p, wp, round);
  same_list("ponds", "the levels", z, wz, round);
  same_list("ponds", "the cells", c, wc, round);
  same_list("ponds", "the volumes", v, wv, round);
  same_work("ponds", x.number, work, round);
  answers["ponds"][x.number]++;
  outlets_answer("ponds", x.number, d, e, p.n == d.n() && c.n == z.n && v.n == z.n, work, false);
  if (x.number == 18)
    before["ponds"][{18, 14}] += z.n < count;
  most_ponds = std::max<u64>(most_ponds, x.count);
}
// the bytes of a sheet's text, or the largest number of 64 bits: a size that is refused may have more
static u64 text_length(const Desc &d) {
  unsigned __int128 n = 9 + (unsigned __int128)d.rows * (4 * (unsigned __int128)d.cols + 1);
  return n > UINT64_MAX ? UINT64_MAX : (u64)n;
}
// A sheet written into `room` bytes, and the bytes that are reported read again.
static void write_round(const Desc &d, const V<i16> &e, size_t room, u64 round) {
  Lent<u8> text(room);
  V<u8> want = text.list();
  Reply r = call_write(d.rows, d.cols, e, want);
  tervuola_counted a = tervuola_write((u32)d.rows, (u32)d.cols, e.data(), e.size(), room ? text.at() : nullptr, text.n);
  same_answer("write", a.number, a.place, r, round);
  if (a.count != r.count)
    fail("write", "the length", round);
  same_list("write", "the text", text, want, round);
  answers["write"][a.number]++;
  auto &met = before["write"];
  if (a.number == 4) {
    met[{4, 5}] += d.rows < 1 || d.rows > 4000;
    met[{4, 6}] += d.cols < 1 || d.cols > 4000;
  }
  for (u32 k = 4; k <= 6; k++)
    met[{k, 7}] += a.number == k && e.size() != d.n();
  met[{5, 6}] += a.number == 5 && (d.cols < 1 || d.cols > 4000);
  u64 length = text_length(d);
  for (u32 k = 4; k <= 7; k++)
    met[{k, 8}] += a.number == k && room < length;
  exact_rooms += !a.number && room == length;
  short_rooms += a.number == 8 && room == length - 1;
  if (a.number)
    return;
  Lent<i16> again(e.size() + round % 3);
  V<i16> sheet = again.list();
  std::copy(e.begin(), e.end(), sheet.begin());
  tervuola_dimensions b = tervuola_read(text.at(), a.count, again.at(), again.n);
  if (b.number || b.place || b.rows != d.rows || b.cols != d.cols)
    fail("write", "what is read again", round);
  same_list("write", "the sheet that is read again", again, sheet, round);
}
// a buffer for a sheet's text: a byte short, none, shorter, longer, the longest there is, or else as long as it must be
static size_t text_room(const Desc &d, gen::Rng &g, u64 k) {
  size_t n = std::min<u64>(text_length(d), 20000);
  switch (k) {
  case 0:
    return n - 1;
  case 1:
    return 0;
  case 2:
    return g.below(n);
  case 3:
    return n + 1 + g.below(100);
  case 4:
    return TERVUOLA_TEXT_BYTES;
  default:
    return n;
  }
}
// "writing what was read yields the text with its letters raised to upper case"
static void write_again(const std::string &t, u32 rows, u32 cols, const i16 *e, gen::Rng &g, u64 round) {
  Lent<u8> text(t.size() + (g.chance(50) ? 0 : g.below(20)));
  V<u8> want = text.list();
  for (size_t i = 0; i < t.size(); i++)
    want[i] = (u8)(t[i] >= 'a' && t[i] <= 'z' ? t[i] - 'a' + 'A' : t[i]);
  tervuola_counted a = tervuola_write(rows, cols, e, (size_t)rows * cols, text.at(), text.n);
  if (a.number || a.place || a.count != t.size())
    fail("read", "the answer to what is written again", round);
  same_list("read", "the text that is written again", text, want, round);
  raised_texts += t != std::string(want.begin(), want.begin() + (long)t.size());
}
// a text with some of its letters in lower case, and now and then a byte that is damaged
static std::string mixed_case(std::string t, gen::Rng &g) {
  for (auto &c : t)
    if (c >= 'A' && c <= 'F' && g.chance(50))
      c = (char)(c - 'A' + 'a');
  if (g.chance(20))
    t[g.below(t.size())] = (char)g.below(256);
  return t;
}
// "Two sheets have equal text exactly when rows, columns and all elevations are equal": a sheet, itself, one with another cell, and one with rows
// for columns
static void equal_texts(u64 rows, u64 cols, const V<i16> &e, gen::Rng &g, u64 round) {
  auto text = [&](u64 r, u64 c, const V<i16> &x) {
    V<u8> t(TERVUOLA_TEXT_BYTES);
    tervuola_counted a = tervuola_write((u32)r, (u32)c, x.data(), x.size(), t.data(), t.size());
    if (a.number)
      fail("write", "the answer", round);
    t.resize(a.count);
    return t;
  };
  V<i16> other(e);
  other[g.below(e.size())] ^= (i16)(1u << g.below(16));
  V<u8> t = text(rows, cols, e);
  checks += 3;
  if (t != text(rows, cols, V<i16>(e)) || t == text(rows, cols, other) || (rows != cols && t == text(cols, rows, e)))
    fail("write", "whether texts are equal", round);
}
// sizes at the limits of the text format, and far past them, where rows * columns does not fit 32 bits
static void write_sizes(u64 seed) {
  static const u64 sizes[][2] = {{5000, 1}, {1, 5000}, {0, 9}, {9, 0}, {0, 0}, {2304, 0}, {0, 2304}, {65536, 65536}, {4294967295u, 4294967295u},
                                 {4294967295u, 0}, {0, 4294967295u}, {4294967295u, 1}, {2147483648u, 2}, {2, 2147483648u}, {1, 1}, {48, 48},
                                 {2304, 1}, {1, 2304}, {2305, 1}, {1, 2305}, {49, 47}, {49, 48}, {4000, 0}, {4001, 0}, {0, 4001}, {1152, 2}};
  part = "size";
  for (u64 i = 0; i < sizeof sizes / sizeof *sizes; i++)
    for (u64 k = 0; k < 24; k++) {
      gen::Rng g(seed * 1000003 + i * 24 + k);
      Desc d;
      d.rows = sizes[i][0];
      d.cols = sizes[i][1];
      V<i16> e(std::min<u64>(d.n(), 5000) + (k % 8 == 7));
      for (auto &x : e)
        x = (i16)g.below(65536);
      write_round(d, e, text_room(d, g, k % 6), i);
    }
  part = "round";
}
static void read_round(const std::string &t, gen::Rng &g, u64 round) {
  Lent<i16> out(g.chance(70) ? 2304 : g.below(2400));
  V<i16> want = out.list();
  Reply r = call_read(t, want);
  tervuola_dimensions a = tervuola_read((const u8 *)t.data(), t.size(), out.at(), out.n);
  same_answer("read", a.number, a.place, r, round);
  if (a.rows != r.rows || a.cols != r.cols)
    fail("read", "rows and columns", round);
  same_list("read", "the sheet", out, want, round);
  if (!a.number)
    write_again(t, a.rows, a.cols, out.at(), g, round);
}

// ---- two lists of cells

static V<u64> wide(const V<u32> &l) { return V<u64>(l.begin(), l.end()); }
// a walk of at most 1 + steps cells, each a neighbour of the one before
static V<u32> some_walk(gen::Rng &g, u64 rows, u64 cols, u64 from, u64 steps) {
  V<u32> l{(u32)from};
  for (u64 k = 0; k < steps; k++) {
    i64 j = at_step(rows, cols, l.back(), (int)g.below(8));
    if (j >= 0)
      l.push_back((u32)j);
  }
  return l;
}
// a walk that comes to the first cell of `tail`, and then that
static V<u32> walk_into(gen::Rng &g, u64 rows, u64 cols, const V<u32> &tail, u64 steps) {
  V<u32> l = some_walk(g, rows, cols, tail[0], steps);
  std::reverse(l.begin(), l.end());
  l.insert(l.end(), tail.begin() + 1, tail.end());
  return l;
}
// the route from a cell, or its first cells where it does not end
static V<u32> route_from(u64 rows, u64 cols, const V<u8> &codes, u64 cell) {
  V<u32> l;
  for (i64 c = (i64)cell; c >= 0 && l.size() < rows * cols; ) {
    int p = 0;
    while (p < 8 && codes[(u64)c] != 1u << p)
      p++;
    if (p == 8)
      break;
    l.push_back((u32)c);
    c = at_step(rows, cols, (u64)c, p);
  }
  return l;
}
// one place changed: the cell before it again, one off the sheet, one that is the next number or two further, or any
static void damage(gen::Rng &g, u64 n, V<u32> &l) {
  if (l.empty() || g.chance(5))
    l.push_back(0);
  u64 k = g.below(l.size());
  u32 before = k ? l[k - 1] : (u32)g.below(n);
  const u32 values[] = {before, (u32)n, (u32)n + 1, 4294967295u, before + 1, before + 2, (u32)g.g(), (u32)g.below(n)};
  l[k] = values[g.below(8)];
}
struct Lists {
  V<u32> first, second;
  bool routes;
};
static Lists some_lists(gen::Rng &g, u64 rows, u64 cols, const V<u8> &codes) {
  u64 n = rows * cols, kind = g.below(6);
  u64 a = g.below(n), b = g.below(n), steps = g.below(g.chance(80) ? 12 : 80);
  if (kind < 2)
    return {route_from(rows, cols, codes, a), route_from(rows, cols, codes, b), true};
  V<u32> tail = some_walk(g, rows, cols, a, steps);
  if (kind == 2) // one the other's ending, or both the same
    return g.chance(50) ? Lists{tail, walk_into(g, rows, cols, tail, g.below(5)), false}
                        : Lists{walk_into(g, rows, cols, tail, g.below(5)), tail, false};
  if (kind == 3)
    return {walk_into(g, rows, cols, tail, g.below(9)), walk_into(g, rows, cols, tail, g.below(9)), false};
  if (kind == 4)
    return {tail, g.chance(10) ? V<u32>() : some_walk(g, rows, cols, b, steps), false};
  V<u32> any(g.below(4));
  for (auto &x : any)
    x = g.chance(80) ? (u32)g.below(n + 2) : (u32)g.g();
  return g.chance(50) ? Lists{any, tail, false} : Lists{tail, any, false};
}
// the first place of a whose cell is one of b, or a's length
static u64 first_meeting(const V<u32> &a, const V<u32> &b) {
  std::set<u32> on(b.begin(), b.end());
  u64 k = 0;
  while (k < a.size() && !on.count(a[k]))
    k++;
  return k;
}
// shared endings that are the whole first list, a part of it, and none; whole routes that meet, and that never do; lists that both hold a bad
// cell, at two places
static u64 shared_whole = 0, shared_part = 0, shared_none = 0, routes_met = 0, routes_apart = 0, both_bad = 0;
static void lists_round(const Desc &d, const V<u32> &first, const V<u32> &second, bool whole_routes, u64 round) {
  V<u32> a(first), b(second);
  Reply r = call_lists(d.rows, d.cols, wide(a), wide(b));
  tervuola_located x = tervuola_check_lists((u32)d.rows, (u32)d.cols, a.data(), a.size(), b.data(), b.size());
  same_answer("check_lists", x.number, x.place, r, round);
  tervuola_part p = tervuola_shared_ending((u32)d.rows, (u32)d.cols, a.data(), a.size(), b.data(), b.size());
  u64 at = shared_ending(d.rows, d.cols, wide(a), wide(b));
  checks += 3;
  if (p.at != at || p.count != a.size() - at)
    fail("shared_ending", "the part", round);
  if (tervuola_part_of(a.data(), p) != a.data() + at)
    fail("shared_ending", "the part's place in memory", round);
  if (a != first || b != second)
    fail("shared_ending", "a list handed in", round);
  answers["check_lists"][x.number]++;
  auto &met = before["check_lists"];
  u64 n = d.rows * d.cols;
  bool off = std::any_of(a.begin(), a.end(), [&](u32 c) { return c >= n; });
  met[{5, 6}] += x.number == 5 && (d.cols < 1 || d.cols > 4000);
  met[{5, 19}] += x.number == 5 && off;
  met[{6, 19}] += x.number == 6 && off;
  if (x.number == 19) {
    Reply other = call_lists(d.rows, d.cols, wide(b), {});
    both_bad += other.number == 19 && other.place != x.place && call_lists(d.rows, d.cols, wide(a), {}).number == 19;
  }
  if (x.number)
    return;
  (at == a.size() ? shared_none : at ? shared_part : shared_whole) += !a.empty();
  if (!whole_routes)
    return;
  if (at != first_meeting(a, b))
    fail("shared_ending", "where two routes meet", round);
  (at < a.size() ? routes_met : routes_apart) += !a.empty() && !b.empty();
}
// both lists in one piece of memory: the same list, and a list beside an ending or a beginning of itself
static void one_list_round(const Desc &d, const V<u32> &list, gen::Rng &g, u64 round) {
  u64 k = g.below(list.size() + 1), n = list.size();
  const u32 *l = list.data();
  V<u32> ending(list.begin() + (long)k, list.end()), beginning(list.begin(), list.begin() + (long)k);
  lists_round(d, list, list, false, round);
  lists_round(d, list, ending, false, round);
  lists_round(d, list, beginning, false, round);
  auto same = [&](u64 from, u64 count, const V<u32> &second) {
    tervuola_part p = tervuola_shared_ending((u32)d.rows, (u32)d.cols, l, n, n ? l + from : l, count);
    tervuola_part q = tervuola_shared_ending((u32)d.rows, (u32)d.cols, l, n, second.data(), second.size());
    tervuola_located x = tervuola_check_lists((u32)d.rows, (u32)d.cols, l, n, n ? l + from : l, count);
    tervuola_located y = tervuola_check_lists((u32)d.rows, (u32)d.cols, l, n, second.data(), second.size());
    checks += 2;
    if (p.at != q.at || p.count != q.count || x.number != y.number || x.place != y.place)
      fail("shared_ending", "an answer about lists that overlap", round);
  };
  same(0, n, list);
  same(k, n - k, ending);
  same(0, k, beginning);
}
// every pair of lists of at most three cells, on or just off the sheet, on each sheet of at most four cells
static void small_lists() {
  static const u64 sizes[][2] = {{1, 1}, {1, 2}, {2, 1}, {1, 3}, {3, 1}, {2, 2}, {1, 4}, {4, 1}};
  part = "small list";
  for (u64 i = 0; i < sizeof sizes / sizeof *sizes; i++) {
    Desc d;
    d.rows = sizes[i][0];
    d.cols = sizes[i][1];
    V<V<u32>> all{{}};
    for (size_t k = 0; k < all.size(); k++)
      for (u32 c = 0; c <= d.n() && all[k].size() < 3; c++) {
        all.push_back(all[k]);
        all.back().push_back(c);
      }
    for (auto &a : all)
      for (auto &b : all)
        lists_round(d, a, b, false, i);
  }
  part = "round";
}
// sizes in range, at its ends and out of it, each with lists that have no cell, cells on such a sheet, and cells on none
static void list_sizes() {
  static const u64 sizes[][2] = {{0, 0}, {0, 3}, {3, 0}, {0, 4001}, {4001, 0}, {4001, 4001}, {4001, 3}, {3, 4001}, {65536, 65536},
                                 {4294967295u, 4294967295u}, {1, 1}, {1, 4000}, {4000, 1}, {4000, 4000}};
  static const V<V<u32>> lists{{}, {0}, {0, 1}, {1, 0}, {0, 0}, {3, 9}, {3999}, {4000}, {15999999}, {16000000}, {4294967295u}};
  part = "size of a list's sheet";
  for (u64 i = 0; i < sizeof sizes / sizeof *sizes; i++) {
    Desc d;
    d.rows = sizes[i][0];
    d.cols = sizes[i][1];
    for (auto &a : lists)
      for (auto &b : lists)
        lists_round(d, a, b, false, i);
  }
  part = "round";
}
// the cells that flow into c
static V<u32> donors(const Desc &d, const V<u8> &codes, u64 c) {
  V<u32> l;
  for (int p = 0; p < 8; p++) {
    i64 j = at_step(d.rows, d.cols, c, p);
    if (j >= 0 && codes[(u64)j] == 1u << ((p + 4) % 8))
      l.push_back((u32)j);
  }
  return l;
}
// up from c, always by the donor with the largest count
static u32 spring(const Desc &d, const V<u8> &codes, const V<u32> &counts, u32 c) {
  for (V<u32> l = donors(d, codes, c); !l.empty(); l = donors(d, codes, c))
    c = *std::max_element(l.begin(), l.end(), [&](u32 a, u32 b) { return counts[a] < counts[b]; });
  return c;
}
// routes on a large sheet, whole, and with the last cell off the sheet: from a few cells, from the spring of the largest stream, and from those of
// streams that run into it
static void long_lists(const Desc &d, const V<u8> &codes) {
  V<u32> counts(d.n());
  call_counts(d.rows, d.cols, codes, counts, 4 * d.n());
  u32 mouth = (u32)(std::max_element(counts.begin(), counts.end()) - counts.begin());
  V<u32> starts{0, (u32)(d.n() / 2), (u32)(d.n() - 1), mouth, spring(d, codes, counts, mouth)};
  V<u32> stem = route_from(d.rows, d.cols, codes, starts.back());
  for (u64 k = 1; k < stem.size() && starts.size() < 9; k++)
    for (u32 c : donors(d, codes, stem[k]))
      if (c != stem[k - 1] && k > (starts.size() - 5) * stem.size() / 6)
        starts.push_back(spring(d, codes, counts, c));
  u64 met = 0, longest = 0;
  for (u32 a : starts)
    for (u32 b : starts) {
      V<u32> first = route_from(d.rows, d.cols, codes, a), second = route_from(d.rows, d.cols, codes, b);
      tervuola_located x = tervuola_check_lists((u32)d.rows, (u32)d.cols, first.data(), first.size(), second.data(), second.size());
      tervuola_part p = tervuola_shared_ending((u32)d.rows, (u32)d.cols, first.data(), first.size(), second.data(), second.size());
      u64 meet = first_meeting(first, second);
      checks += 2;
      if (x.number || x.place)
        fail("check_lists", "whole routes on an accepted sheet", a);
      if (p.at != meet || p.count != first.size() - meet)
        fail("shared_ending", "where two routes meet", a);
      longest = std::max<u64>(longest, first.size());
      met += a != b && meet > 0 && meet < first.size();
      if (second.empty())
        continue;
      second.back() = (u32)d.n();
      x = tervuola_check_lists((u32)d.rows, (u32)d.cols, first.data(), first.size(), second.data(), second.size());
      p = tervuola_shared_ending((u32)d.rows, (u32)d.cols, first.data(), first.size(), second.data(), second.size());
      checks += 2;
      if (x.number != 19 || x.place != second.size() - 1)
        fail("check_lists", "a cell off the sheet", a);
      if (p.at != first.size() || p.count)
        fail("shared_ending", "the part of lists that are refused", a);
    }
  printf("compare: routes of up to %llu cells, %llu pairs that meet past the first's beginning\n", (unsigned long long)longest, (unsigned long long)met);
  if (longest < 3 || !met)
    fail("shared_ending", "that routes meet at all", longest);
}

// two lists on a sheet of this size, as they are and damaged; d is the size that is said
static void lists_rounds(u64 rows, u64 cols, const Desc &d, const V<u8> &codes, gen::Rng &g, u64 round) {
  V<u32> out(codes.size());
  bool accepted = call_labels(rows, cols, codes, out, 4 * codes.size()).number == 0;
  bool right = d.rows == rows && d.cols == cols;
  for (int k = 0; k < 4; k++) {
    Lists l = some_lists(g, rows, cols, codes);
    bool whole = l.routes && accepted && right;
    if (whole && call_lists(rows, cols, wide(l.first), wide(l.second)).number)
      fail("check_lists", "whole routes on an accepted sheet", round);
    lists_round(d, l.first, l.second, whole, round);
    one_list_round(d, l.first, g, round);
    V<u32> first(l.first), second(l.second);
    damage(g, rows * cols, second);
    lists_round(d, first, second, false, round);
    damage(g, rows * cols, first);
    lists_round(d, first, g.chance(50) ? second : l.second, false, round);
  }
}

// ---- crews

// a sheet of codes of its own size
struct CodeSheet {
  Desc d;
  V<u8> codes;
};
static CodeSheet code_sheet(u64 rows, u64 cols, const V<u8> &codes) {
  CodeSheet s;
  s.d.rows = rows;
  s.d.cols = cols;
  s.codes = codes;
  return s;
}
// what the second program makes of a state; it knows no cell of a crew without a trace
static Crews crews_of(const V<u64> &w) {
  Crews s;
  for (u64 k = 0; k < 32; k++)
    if (w[k] == 1 || w[k] == 2) {
      s.c[k].st = w[k] == 1 ? Crews::GOING : Crews::DONE;
      s.c[k].cell = (u32)w[32 + k];
    }
  s.next = (u32)(w[64] % 32);
  s.total = w[65];
  return s;
}
// The words that each call changes when it is accepted; all others stay, whatever they hold. `s` is what the second program has after the run.
static void words_handed_in(V<u64> &w, u32 crew, u32 cell) {
  w[crew] = 1;
  w[32 + crew] = cell;
}
static void words_run(V<u64> &w, uint16_t turns, const Crews &s) {
  for (u64 k = 0; k < 32; k++)
    if (w[k] == 1) {
      w[k] = s.c[k].st == Crews::DONE ? 2 : 1;
      if ((u32)w[32 + k] != s.c[k].cell) // a trace that does not move keeps its word
        w[32 + k] = s.c[k].cell;
    }
  if (turns)
    w[64] = s.next;
  w[65] = s.total;
}
static void words_collected(V<u64> &w, u32 crew) {
  if (w[crew] == 2)
    w[crew] = 0;
}
// the state as it is lent, and as the second program goes on with it
struct Traces {
  Lent<u64> words;
  Crews second;
  explicit Traces(const V<u64> &w) : words(66), second(crews_of(w)) { std::copy(w.begin(), w.end(), words.at()); }
  tervuola_crews *lent() { return reinterpret_cast<tervuola_crews *>(words.at()); }
};
static void same_state(const char *call, Traces &t, const V<u64> &want, u64 round) {
  same_list(call, "the state", t.words, want, round);
  Crews s = crews_of(want);
  bool same = s.next == t.second.next && s.total == t.second.total && tervuola_turns_worked(t.lent()) == s.total;
  for (u64 k = 0; k < 32; k++)
    same = same && s.c[k].st == t.second.c[k].st && s.c[k].cell == t.second.c[k].cell;
  checks++;
  if (!same)
    fail(call, "what the state says", round);
}
// what a hand-in or a run lends beside the state
struct CodesLent {
  Desc d;
  V<u8> codes;
  Lent<u32> work;
  CodesLent(const CodeSheet &s, Lengths len) : d(s.d), codes(resized(s.codes, len.of(s.codes.size()))), work(len.work(s.codes.size())) {
    d.rows = len.side(d.rows);
    d.cols = len.side(d.cols);
  }
  // those of the questions up to 12 that have the answer no, each asked by itself; a bad code ends a route
  V<u32> refused() const {
    V<u32> l;
    auto ask = [&](u32 question, bool no) {
      if (no)
        l.push_back(question);
    };
    bool rows = d.rows >= 1 && d.rows <= 4000, cols = d.cols >= 1 && d.cols <= 4000, fits = codes.size() == d.n();
    V<u8> good(codes);
    for (auto &x : good)
      x = is_code(x) ? x : 0;
    ask(5, !rows);
    ask(6, !cols);
    ask(7, !fits);
    ask(9, work.n < 4 * d.n());
    ask(11, good != codes);
    ask(12, rows && cols && fits && first_endless(d.rows, d.cols, good) < d.n());
    return l;
  }
};
// A call that lends codes and the state; `said` is the second program's answer to it, `after` makes the words what an accepted one leaves, and `own` are
// those of the questions past 12 that have the answer no.
template <class Call, class Said, class After>
static u32 crews_round(const char *name, CodesLent &l, Traces &t, const V<u32> &own, Call call, Said said, After after, u64 round) {
  V<u8> codes(l.codes);
  V<u64> want = t.words.list();
  Reply r = said();
  tervuola_answer a = call();
  same_answer(name, a.number, a.place, r, round);
  if (a.number == 0)
    after(want);
  same_state(name, t, want, round);
  same_work(name, a.number, l.work, round);
  if (l.codes != codes)
    fail(name, "the codes handed in", round);
  answers[name][a.number]++;
  if (a.number == 0)
    return 0;
  V<u32> refused = l.refused();
  refused.insert(refused.end(), own.begin(), own.end());
  if (refused.empty() || refused[0] != a.number)
    fail(name, "the question that decides", round);
  for (u64 k = 1; k < refused.size(); k++)
    before[name][{a.number, refused[k]}]++;
  return a.number;
}
static bool no_route(const V<u8> &codes, u64 cell) { return cell >= codes.size() || !codes[cell]; }
static void hand_in_round(Traces &t, const CodeSheet &s, u32 crew, u32 cell, Lengths len, u64 round) {
  CodesLent l(s, len);
  V<u32> own;
  if (crew > 31)
    own.push_back(21);
  else if (t.second.c[crew].st != Crews::FREE)
    own.push_back(22);
  if (no_route(l.codes, cell))
    own.push_back(23);
  crews_round(
      "hand_in", l, t, own,
      [&] {
        return tervuola_hand_in((u32)l.d.rows, (u32)l.d.cols, l.codes.data(), l.codes.size(), crew, cell, t.lent(), l.work.at(), l.work.n);
      },
      [&] { return call_hand_in(l.d.rows, l.d.cols, l.codes, l.work.n, t.second, crew, cell); },
      [&](V<u64> &w) { words_handed_in(w, crew, cell); }, round);
}
// the crews that a run has named with 23; runs of 0 turns that it refused so, and that were accepted; runs with all turns there can be; runs that came to
// the largest total, and that worked on past it
static std::set<u64> lost_crews;
static u64 lost_without_turns = 0, no_turns = 0, most_turns = 0, total_reached = 0, total_kept = 0;
static void run_round(Traces &t, const CodeSheet &s, uint16_t turns, Lengths len, u64 round) {
  CodesLent l(s, len);
  const Crews start = t.second;
  V<u32> own;
  u64 lost = 0;
  while (lost < 32 && !(start.c[lost].st == Crews::GOING && no_route(l.codes, start.c[lost].cell)))
    lost++;
  if (lost < 32)
    own.push_back(23);
  u32 number = crews_round(
      "run", l, t, own,
      [&] { return tervuola_run((u32)l.d.rows, (u32)l.d.cols, l.codes.data(), l.codes.size(), turns, t.lent(), l.work.at(), l.work.n); },
      [&] { return call_run(l.d.rows, l.d.cols, l.codes, l.work.n, t.second, turns); }, [&](V<u64> &w) { words_run(w, turns, t.second); }, round);
  if (number == 23) {
    lost_crews.insert(lost);
    lost_without_turns += turns == 0;
  }
  if (number)
    return;
  no_turns += turns == 0;
  most_turns += turns == 65535;
  total_reached += start.total < TOP && t.second.total == TOP;
  for (u64 k = 0; start.total == TOP && k < 32; k++)
    if (start.c[k].st != t.second.c[k].st) {
      total_kept++;
      return;
    }
}
// how often a collection has given each status, and a cell from a word with more than 32 bits
static u64 statuses[3], long_words = 0;
static void collect_round(Traces &t, u32 crew, u64 round) {
  V<u64> want = t.words.list();
  u64 count = 0;
  bool long_word = crew < 32 && want[32 + crew] > 4294967295u;
  Reply r = call_collect(t.second, crew, count);
  tervuola_collected a = tervuola_collect(crew, t.lent());
  same_answer("collect", a.number, a.place, r, round);
  if (a.status != (u32)r.answer)
    fail("collect", "the status", round);
  if (a.cell != r.cell)
    fail("collect", "the cell", round);
  if (a.number == 0)
    words_collected(want, crew);
  same_state("collect", t, want, round);
  answers["collect"][a.number]++;
  statuses[a.status] += a.number == 0;
  long_words += a.status == 2 && long_word;
}
// a cell: mostly one with a code, now and then any or one off the sheet
static u32 some_cell(gen::Rng &g, const V<u8> &codes) {
  if (g.chance(5)) {
    static const u32 off[] = {0, 1, 65536, 2147483648u, 4294967295u};
    u32 past = off[g.below(5)];
    return past > 1 ? past : (u32)codes.size() + past;
  }
  u32 cell = codes.empty() ? 0 : (u32)g.below(codes.size());
  for (int tries = 0; g.chance(95) && tries < 20 && !codes.empty() && !codes[cell]; tries++)
    cell = (u32)g.below(codes.size());
  return cell;
}
static u32 some_crew(gen::Rng &g) {
  static const u32 above[] = {32, 33, 63, 64, 255, 256, 65536, 2147483648u, 4294967264u, 4294967295u};
  return g.chance(6) ? above[g.below(10)] : (u32)g.below(g.chance(60) ? 4 : 32);
}
static uint16_t some_turns(gen::Rng &g) {
  static const uint16_t edges[] = {0, 1, 31, 32, 33, 64};
  if (g.chance(2))
    return g.chance(50) ? 65535 : (uint16_t)g.below(65536);
  return g.chance(40) ? edges[g.below(6)] : (uint16_t)g.below(200);
}
// Any content is a state: zeros, any numbers, or numbers at the edges of what they mean, with traces that mostly stand on a route.
static V<u64> some_state(gen::Rng &g, const V<u8> &codes, u64 kind) {
  V<u64> w(66);
  for (auto &x : w)
    x = kind ? g.g() : 0;
  if (kind < 2)
    return w;
  static const u64 status[] = {0, 1, 1, 1, 1, 2, 2, 3, 257, 4294967297u, 4294967298u, TOP - 1, TOP};
  static const u64 next[] = {0, 31, 32, 33, 63, 4294967301u, TOP - 31, TOP};
  const u64 total[] = {0, 4294967295u, TOP - g.below(99), TOP - 1, TOP, g.g()};
  bool lost = g.chance(15);
  for (u64 k = 0; k < 32; k++) {
    u32 cell = some_cell(g, codes);
    w[k] = status[g.below(13)];
    if (w[k] == 1 && !lost && no_route(codes, cell))
      w[k] = 3;
    w[32 + k] = cell + (g.chance(40) ? g.g() << 32 : 0);
  }
  w[64] = g.chance(50) ? next[g.below(8)] : g.below(32);
  w[65] = total[g.below(6)];
  return w;
}
// a list of hand-ins, runs and collections, each on one of the sheets, with right lengths and sizes or now and then wrong ones
static void crews_list(const V<CodeSheet> &sheets, const V<u64> &state, u64 count, gen::Rng &g, bool wrong, u64 round) {
  Traces t(state);
  for (u64 i = 0; i < count; i++) {
    const CodeSheet &s = sheets[g.below(sheets.size())];
    Lengths len{g, wrong};
    u32 crew = some_crew(g);
    u64 call = g.below(10);
    if (call < 4)
      hand_in_round(t, s, crew, some_cell(g, s.codes), len, round);
    else if (call < 7)
      run_round(t, s, some_turns(g), len, round);
    else
      collect_round(t, crew, round);
  }
}
// one sheet of codes whose routes end; two of two sizes in turn, so that traces of one stand off the other; or one and another that may have any codes
static void crews_lists(const CodeSheet &any, u64 kind, u64 count, gen::Rng &g, bool wrong, u64 round) {
  u64 rows = any.d.rows, cols = any.d.cols, other = 1 + g.below(5);
  V<CodeSheet> sheets{code_sheet(rows, cols, gen::codes(g.g() % 100000, rows, cols, 4))};
  if (kind % 3 == 1)
    sheets.push_back(code_sheet(other, cols, gen::codes(g.g() % 100000, other, cols, 4)));
  if (kind % 3 == 2)
    sheets.push_back(any);
  crews_list(sheets, some_state(g, sheets[0].codes, kind / 3 % 3), count, g, wrong, round);
}
// each crew as the lowest that a run names: those before it stand on a route, it and those behind it on code 0 or off the sheet
static void lost_in_turn() {
  const CodeSheet s = code_sheet(1, 2, {2, 0});
  gen::Rng g(1);
  for (u64 k = 0; k < 32; k++) {
    V<u64> w(66);
    for (u64 j = 0; j < 32; j++) {
      w[j] = 1;
      w[32 + j] = j < k ? 0 : 1 + j % 2;
    }
    Traces t(w);
    run_round(t, s, k % 2 ? 32 : 0, Lengths{g, false}, k);
  }
}
// every size up to 5 by 5, from each kind of state
static void small_crews(u64 seed) {
  ENGINE = LITERAL;
  part = "list of calls for crews";
  lost_in_turn();
  for (u64 i = 0; i < 25 * 9 * 2; i++) {
    gen::Rng g(seed * 1000003 + i);
    u64 rows = 1 + i / 18 % 5, cols = 1 + i / 90;
    crews_lists(code_sheet(rows, cols, gen::codes(i, rows, cols, (int)g.below(4))), i / 2, 60, g, i % 2 == 1, i);
  }
  part = "round";
}
// on a large sheet: crews at both ends of the sheet and between them, the first and the last crew among them
static void large_crews(const Desc &d, const V<u8> &codes, gen::Rng &g) {
  const CodeSheet s = code_sheet(d.rows, d.cols, codes);
  Traces t(V<u64>(66));
  Lengths len{g, false};
  const u32 cells[] = {0, some_cell(g, codes), (u32)d.n() - 1};
  for (u32 k = 0; k < 3; k++)
    hand_in_round(t, s, 31 * k / 2, cells[k], len, k);
  run_round(t, s, 40, len, 0);
  run_round(t, s, 65535, len, 0);
  for (u32 k = 0; k < 32; k++)
    collect_round(t, k, k);
}

// codes: random, from a sheet, or those with a ring or a bad byte
static V<u8> some_codes(gen::Rng &g, const Desc &d, const V<i16> &e) {
  u64 n = d.n();
  V<u8> c(n);
  switch (g.below(5)) {
  case 0:
    for (auto &x : c)
      x = g.chance(10) ? 0 : (u8)(1u << g.below(8));
    return c;
  case 1:
    for (auto &x : c)
      x = g.chance(3) ? (u8)g.below(256) : (u8)(1u << g.below(8));
    return c;
  case 2: // one way with few exceptions: long routes, now and then a ring
    for (auto &x : c)
      x = g.chance(95) ? (u8)2 : (u8)(1u << g.below(8));
    return c;
  case 3:
    return gen::codes(g.g() % 100000, d.rows, d.cols, (int)g.below(4));
  default: {
    V<u8> k;
    directions(d, oracle::fill(d, e), k);
    return k;
  }
  }
}

// how often a call gave each of the answers that it has; all of them must have come
static bool every_answer(const char *call, const V<u32> &numbers) {
  printf("compare: %s, times of each answer:", call);
  bool all = answers[call].size() == numbers.size();
  for (u32 number : numbers) {
    printf("  %u: %llu", number, (unsigned long long)answers[call][number]);
    all = all && answers[call][number];
  }
  printf("\n");
  return all;
}
// the two questions of each pair have been answered no at once, and the first of them decided
static bool every_order(const char *call, const V<std::pair<u32, u32>> &order) {
  bool all = true;
  printf("compare: %s, times that two would have been answered no:", call);
  for (auto &two : order) {
    printf("  %u before %u: %llu", two.first, two.second, (unsigned long long)before[call][two]);
    all = all && before[call][two];
  }
  printf("\n");
  return all;
}
// the same of a call that works out outlets: 17 and 18 are met in their order among the others (18 always comes before 10: without an
// outlet the lowest cell has no level), each number of closed sides has been accepted, and voids of each kind have been met at least so often, islands half as often
static bool every_outlets_answer(const char *call, const V<u32> &numbers, V<std::pair<u32, u32>> order, u64 least) {
  bool all = every_answer(call, numbers);
  order.insert(order.begin(), {{5, 17}, {6, 17}, {17, 7}, {17, 8}, {17, 9}, {9, 18}});
  all = every_order(call, order) && all;
  printf("compare: %s, closed sides accepted: %llu of 16\n", call, (unsigned long long)accepted_sides[call].size());
  all = all && accepted_sides[call].size() == 16;
  printf("compare: %s, sheets with voids:", call);
  for (int k = 0; k < VOIDS; k++) {
    u64 met = voids_met[call][k];
    printf("  %s: %llu", VOID_NAMES[k], (unsigned long long)met);
    all = all && (k == NO_DATA ? met > 0 : met >= (k == ISLAND ? least / 2 : least));
  }
  printf("\n");
  return all;
}

// the five calls that work out outlets, on one sheet
static void outlets_rounds(const Desc &d, const V<i16> &e, gen::Rng &g, Lengths len, u64 round) {
  outlets_round("fill", tervuola_fill, call_fill, d, e, len, round);
  directions_round(d, e, len, round);
  drain_round(d, e, len, round);
  ponds_round(d, e, false, g, len, round);
  culverts_round(d, e, g, len, round);
}

// every size up to 5 by 5 under every number of closed sides: a flat, two that are cut from larger ones, and one of these with a void; each
// with the right lengths and with wrong ones
static void small_sheets(u64 seed) {
  ENGINE = LITERAL;
  part = "small sheet";
  for (u64 i = 0; i < 25 * 16 * 4 * 2; i++) {
    gen::Rng g(seed * 1000003 + i);
    Desc d;
    d.rows = 1 + i / 128 % 5;
    d.cols = 1 + i / 640;
    d.closed = i / 8 % 16;
    u64 form = i / 2 % 4;
    V<i16> e = form ? cut_sheet(g, g.below(FORMS), d.rows, d.cols) : V<i16>(d.n(), (i16)g.in(-2, 2));
    if (form == 3)
      e[g.below(d.n())] = VOIDMARK;
    V<i16> filled = oracle::fill(d, e);
    Lengths len{g, i % 2 == 1};
    d.rows = len.side(d.rows);
    d.cols = len.side(d.cols);
    d.closed = len.closed(d.closed);
    d.width = len.cell(SHAPES[i % SHAPE_COUNT][0]);
    d.height = len.cell(SHAPES[i % SHAPE_COUNT][1]);
    outlets_rounds(d, e, g, len, i);
    directions_round(d, filled, len, i);
  }
  part = "round";
}

// each way to lay voids on 3 by 3, and within the border of 5 by 5, under every number of closed sides
static void small_gaps(u64 seed) {
  ENGINE = LITERAL;
  part = "small sheet with voids";
  for (u64 i = 0; i < 2 * 512 * 16; i++) {
    gen::Rng g(seed * 1000003 + i);
    const u64 voids = i / 16 % 512, border = i / (512 * 16);
    Desc d;
    d.rows = d.cols = 3 + 2 * border;
    d.closed = i % 16;
    V<i16> e(d.n());
    for (auto &x : e)
      x = (i16)g.below(3);
    for (u64 k = 0; k < 9; k++)
      if (voids >> k & 1)
        e[(border + k / 3) * d.cols + border + k % 3] = VOIDMARK;
    Lengths len{g, false};
    outlets_rounds(d, e, g, len, i);
  }
  part = "round";
}

// the whole root of a square, or 0
static i64 whole_root(u64 square) {
  u64 k = 0;
  while (k * k < square)
    k++;
  return k * k == square ? (i64)k : 0;
}
// the drops that tie with a shape, the same doubled, one less and one more of each, and the largest there are
static V<i64> tying_drops(u64 w, u64 h) {
  std::set<i64> l{0, 1, 2, 32767, 65534};
  for (i64 k : {(i64)w, (i64)h, whole_root(w * w + h * h)})
    for (i64 m : {k - 1, k, k + 1, 2 * k})
      if (k > 0)
        l.insert(m);
  return V<i64>(l.begin(), l.end());
}
// Cells with all these drops to a side across, to one along and to the corner between them, in each of the four quarters, with every shape. A block of
// three columns, and one of voids so that the cell's neighbours are outlets, has the cell in its middle, and up to 1,000 blocks stand side by side, so that
// the sums of many cells are worked out together; and blocks with drops that tie also by themselves as two rows, with the cell on a closed side.
static void tied_drops() {
  ENGINE = FAST;
  part = "drops";
  u64 i = 0;
  gen::Rng g(1);
  Lengths len{g, false};
  for (auto &shape : SHAPES)
    for (int quarter = 0; quarter < 4; quarter++) {
      const V<i64> drops = tying_drops(shape[0], shape[1]);
      const u64 k = drops.size(), all = k * k * k, column = quarter % 2 ? 2 : 0, row = quarter / 2 ? 2 : 0;
      Desc d, two;
      d.width = two.width = shape[0];
      d.height = two.height = shape[1];
      d.rows = 3;
      two.rows = 2;
      two.cols = 3;
      two.closed = row ? NORTH : SOUTH;
      for (u64 from = 0; from < all; from += 1000) {
        u64 blocks = std::min<u64>(1000, all - from);
        d.cols = 4 * blocks;
        V<i16> e(d.n(), 32767);
        for (u64 m = 0; m < blocks; m++) {
          i64 a = drops[(from + m) % k], b = drops[(from + m) / k % k], c = drops[(from + m) / k / k];
          u64 at = 4 * m;
          e[d.cols + at + column] = (i16)(32767 - a);
          e[row * d.cols + at + 1] = (i16)(32767 - b);
          e[row * d.cols + at + column] = (i16)(32767 - c);
          for (u64 r = 0; r < 3; r++)
            e[r * d.cols + at + 3] = VOIDMARK;
          if (cmp_drop(d, a, 1, b, 3) && cmp_drop(d, a, 1, c, 0) && cmp_drop(d, b, 3, c, 0))
            continue;
          u64 own = row ? 0 : 3, beside = 3 - own;
          V<i16> f(6, 32767);
          f[own + column] = (i16)(32767 - a);
          f[beside + 1] = (i16)(32767 - b);
          f[beside + column] = (i16)(32767 - c);
          directions_round(two, f, len, ++i);
        }
        u64 done = answers["directions"][0];
        directions_round(d, e, len, ++i);
        if (answers["directions"][0] != done + 1)
          fail("directions", "that all drops side by side are accepted", i);
      }
    }
  part = "round";
}

// a sheet with voids, as lent and with wrong lengths now and then
static void gap_rounds(gen::Rng &g, u64 round, u64 side, Lengths len) {
  Desc d;
  d.rows = 3 + g.below(side - 2);
  d.cols = 3 + g.below(side - 2);
  d.closed = g.chance(40) ? 0 : g.below(16);
  some_shape(g, d);
  ENGINE = d.n() <= 100 ? LITERAL : FAST;
  V<i16> e = gap_sheet(g, round % GAP_FORMS, d), filled = oracle::fill(d, e);
  d.rows = len.side(d.rows);
  d.cols = len.side(d.cols);
  d.closed = len.closed(d.closed);
  d.width = len.cell(d.width);
  d.height = len.cell(d.height);
  outlets_rounds(d, e, g, len, round);
  directions_round(d, filled, len, round);
}

static int rounds(u64 count, u64 seed) {
  auto &kinds = gen::kinds();
  auto &bad = gen::badkinds();
  small_sheets(seed);
  small_gaps(seed);
  small_culverts();
  small_starts();
  many_starts(seed);
  tied_drops();
  write_sizes(seed);
  small_lists();
  list_sizes();
  small_crews(seed);
  voids_met.clear(); // the rounds by themselves
  listed.fill(0);
  gauged.fill(0);
  for (u64 i = 0; i < count; i++) {
    gen::Rng g(seed * 1000003 + i);
    u64 side = g.chance(70) ? 9 : g.chance(70) ? 20 : 40;
    auto s = gen::sheet(kinds[i % kinds.size()], g.g() % 1000000, 1 + g.below(side), 1 + g.below(side), side);
    Desc d;
    d.rows = s.rows;
    d.cols = s.cols;
    d.closed = g.chance(25) ? 0 : g.chance(10) ? 15 : g.below(16);
    some_shape(g, d);
    ENGINE = d.n() <= 100 ? LITERAL : FAST;
    Lengths len{g, g.chance(20)};
    V<i16> filled = oracle::fill(d, s.e);
    V<u8> codes = some_codes(g, d, s.e);
    d.rows = len.side(d.rows);
    d.cols = len.side(d.cols);
    d.closed = len.closed(d.closed);
    d.width = len.cell(d.width);
    d.height = len.cell(d.height);
    outlets_rounds(d, s.e, g, len, i);
    directions_round(d, filled, len, i);
    code_rounds(d, codes, len, i);
    for (int k = 0; k < 3; k++)
      watersheds_round(d, codes, g, len, i);
    starts_round(d, codes, g, len, i);
    lists_rounds(s.rows, s.cols, d, codes, g, i);
    pour_points_round(d, s.e, g, len, i);
    V<i16> banks = pond_sheet(g, i % FORMS, s.rows, s.cols);
    ponds_round(d, banks, false, g, len, i);
    culverts_round(d, banks, g, len, i);
    outlets_rounds(d, cut_sheet(g, i % FORMS, s.rows, s.cols), g, len, i);
    gap_rounds(g, i, side, len);
    read_round(gen::badtext(bad[i % bad.size()], g.g() % 1000000), g, i);
    V<i16> any(s.e);
    for (auto &x : any)
      x = (i16)g.below(65536);
    if (s.rows * s.cols <= 2304) {
      read_round(gen::text(s), g, i);
      read_round(mixed_case(sheet_text(s.rows, s.cols, any), g), g, i);
    }
    write_round(d, resized(s.e, len.of(s.e.size())), text_room(d, g, g.below(7)), i);
    write_round(d, resized(any, len.of(any.size())), text_room(d, g, g.below(7)), i);
    if (s.rows * s.cols <= 2304)
      equal_texts(s.rows, s.cols, any, g, i);
    crews_lists(code_sheet(s.rows, s.cols, codes), g.below(9), 12, g, len.wrong, i);
  }
  printf("compare: %llu rounds, %llu comparisons, all equal\n", (unsigned long long)count, (unsigned long long)checks);
  printf("compare: up to %llu ponds; %llu cells opened to a lower level, %llu of them on the border, %llu on the shore of a gap; %llu lists that lower the "
         "filled sheet elsewhere\n",
         (unsigned long long)most_ponds, (unsigned long long)opened_lower, (unsigned long long)opened_border, (unsigned long long)opened_shores,
         (unsigned long long)opened_banks);
  printf("compare: sheets with gaps: %llu with water on the shore of one, %llu with a flat there, %llu with other codes than if every void were outside\n",
         (unsigned long long)wet_shores, (unsigned long long)flat_shores, (unsigned long long)other_ways);
  printf("compare: %llu sheets where a border cell flows inward, %llu with water on such a cell, %llu with one in a flat\n",
         (unsigned long long)inward, (unsigned long long)inward_wet, (unsigned long long)inward_flat);
  printf("compare: %llu texts read whose letters are raised when they are written again; %llu written into just their length, %llu refused a byte less\n",
         (unsigned long long)raised_texts, (unsigned long long)exact_rooms, (unsigned long long)short_rooms);
  printf("compare: shared endings: %llu the whole first list, %llu a part of it, %llu empty; whole routes: %llu meet, %llu never do; %llu times both lists bad\n",
         (unsigned long long)shared_whole, (unsigned long long)shared_part, (unsigned long long)shared_none, (unsigned long long)routes_met,
         (unsigned long long)routes_apart, (unsigned long long)both_bad);
  printf("compare: largest drops that tie: %llu at a side and a corner, %llu of them on a closed side, %llu at sides both ways, %llu at all three; %llu sheets "
         "of oblong cells with other codes than square ones have\n",
         (unsigned long long)side_corner_ties, (unsigned long long)border_ties, (unsigned long long)side_side_ties, (unsigned long long)three_ties,
         (unsigned long long)other_codes);
  printf("compare: collections: %llu of no trace, %llu waiting, %llu finished, %llu of them from a word past 32 bits; runs: %llu crews named with 23, %llu "
         "times without a turn; %llu accepted without a turn, %llu of 65,535, %llu that came to the largest total, %llu that went on from it\n",
         (unsigned long long)statuses[0], (unsigned long long)statuses[1], (unsigned long long)statuses[2], (unsigned long long)long_words,
         (unsigned long long)lost_crews.size(), (unsigned long long)lost_without_turns, (unsigned long long)no_turns, (unsigned long long)most_turns,
         (unsigned long long)total_reached, (unsigned long long)total_kept);
  printf("compare: Table 5's own starts: %llu sheets with two or more, up to %llu of them\n", (unsigned long long)own_starts,
         (unsigned long long)most_own_starts);
  bool all = every_answer("counts", {0, 5, 6, 7, 8, 9, 11, 12});
  all = every_answer("labels", {0, 5, 6, 7, 8, 9, 11, 12}) && all;
  const u64 least = count / 20; // of each kind of voids, for each call
  all = every_answer("starts", {0, 5, 6, 7, 8, 9, 11, 12}) && own_starts >= least && all;
  all = every_answer("watersheds", {0, 5, 6, 7, 8, 9, 11, 12, 13, 24}) && every_kind_of_start(least / 10) && all;
  all = every_order("watersheds", {{5, 24}, {6, 24}, {7, 24}, {8, 24}, {9, 24}, {11, 24}, {12, 24}, {13, 24}, {11, 13}, {12, 13}}) && all;
  all = every_outlets_answer("fill", {0, 5, 6, 17, 7, 8, 9, 18}, {}, least) && all;
  const V<std::pair<u32, u32>> shape{{5, 20}, {6, 20}, {17, 20}, {20, 7}, {20, 8}, {20, 9}, {20, 18}};
  V<std::pair<u32, u32>> culverts(shape);
  culverts.insert(culverts.end(), {{8, 15}, {8, 16}, {9, 15}, {9, 16}, {15, 18}, {16, 18}});
  all = every_outlets_answer("directions", {0, 5, 6, 17, 20, 7, 8, 9, 18, 10}, shape, least) && all;
  all = every_outlets_answer("drain", {0, 5, 6, 17, 20, 7, 8, 9, 18}, shape, least) && all;
  all = every_outlets_answer("ponds", {0, 5, 6, 17, 7, 8, 9, 18, 14}, {{18, 14}}, least) && all;
  all = every_outlets_answer("culverts", {0, 5, 6, 17, 20, 7, 8, 9, 15, 16, 18}, culverts, least) && all;
  all = every_order("lists of unlike lengths", {{5, 7}, {6, 7}, {17, 7}, {20, 7}, {7, 8}, {7, 9}, {7, 15}, {7, 16}}) && all;
  all = every_answer("no culvert", {0, 5, 6, 17, 20, 7, 8, 9, 18}) && every_kind_of_list(least / 10) && all;
  all = all && wet_shores >= least && flat_shores >= least && other_ways >= least && opened_shores >= least;
  all = every_answer("write", {0, 4, 5, 6, 7, 8}) && every_order("write", {{4, 5}, {4, 6}, {4, 7}, {4, 8}, {5, 6}, {5, 7}, {5, 8}, {6, 7}, {6, 8}, {7, 8}}) && all;
  all = every_answer("check_lists", {0, 5, 6, 19}) && every_order("check_lists", {{5, 6}, {5, 19}, {6, 19}}) && all;
  const V<std::pair<u32, u32>> codes_order{{5, 6}, {5, 7}, {5, 9}, {6, 7}, {6, 9}, {7, 9}, {7, 11}, {9, 11}, {9, 12}, {11, 12},
                                           {5, 23}, {6, 23}, {7, 23}, {9, 23}, {11, 23}, {12, 23}};
  V<std::pair<u32, u32>> hand_in(codes_order);
  hand_in.insert(hand_in.end(), {{9, 21}, {9, 22}, {11, 21}, {11, 22}, {12, 21}, {12, 22}, {21, 23}, {22, 23}});
  all = every_answer("hand_in", {0, 5, 6, 7, 9, 11, 12, 21, 22, 23}) && every_order("hand_in", hand_in) && all;
  all = every_answer("run", {0, 5, 6, 7, 9, 11, 12, 23}) && every_order("run", codes_order) && all;
  all = every_answer("collect", {0, 21}) && all;
  all = all && statuses[0] && statuses[1] && statuses[2] && long_words && lost_crews.size() == 32 && lost_without_turns && no_turns && most_turns;
  all = all && total_reached && total_kept;
  all = all && side_corner_ties && border_ties && side_side_ties && three_ties && other_codes;
  all = all && shared_whole && shared_part && shared_none && routes_met && routes_apart && both_bad;
  return checks && all && opened_border && opened_banks && inward_wet && inward_flat && raised_texts && exact_rooms && short_rooms ? 0 : 1;
}

static int big(const char *kind, u64 side) {
  ENGINE = FAST;
  const bool gaps = !strcmp(kind, "lakes");
  // with this seed the voids of 1,000 square leave no island in a gap
  const gen::Sheet s = gaps ? gen::Sheet{side, side, lakes(side)} : gen::sheet(kind, 3, side, side);
  Desc d;
  d.rows = s.rows;
  d.cols = s.cols;
  gen::Rng g(side);
  Lengths len{g, false};
  V<i16> filled = oracle::fill(d, s.e);
  V<u8> codes;
  directions(d, filled, codes);
  outlets_round("fill", tervuola_fill, call_fill, d, s.e, len, 0);
  directions_round(d, filled, len, 0);
  code_rounds(d, codes, len, 0);
  large_starts(d, codes, gaps);
  starts_round(d, codes, g, len, 0);
  long_lists(d, codes);
  large_crews(d, codes, g);
  drain_round(d, s.e, len, 0);
  V<i16> banks = pond_sheet(g, DEEPEST, side, side);
  ponds_round(d, s.e, true, g, len, 0);
  ponds_round(d, banks, true, g, len, 0);
  culverts_round(d, s.e, g, len, 0);
  culverts_round(d, banks, g, len, 1);
  long_list_of_culverts(d, s.e, g, len);
  d.width = 4;
  d.height = 3;
  directions_round(d, filled, len, 0);
  d.closed = WEST + EAST + NORTH;
  outlets_rounds(d, s.e, g, len, 0);
  d.closed += SOUTH;
  drain_round(d, s.e, len, 0);
  if (answers["culverts"][0] < 2 || !opened_banks || answers["drain"][0] < 2) {
    fprintf(stderr, "compare: no culverts were opened, or not both the sheet with every side open and that with one were accepted\n");
    return 1;
  }
  auto &met = voids_met["drain"];
  if (gaps && !(met[LAKE] && met[CLOSED_SIDE] && met[BOTH])) {
    fprintf(stderr, "compare: no lake is a gap on an accepted sheet\n");
    return 1;
  }
  printf("compare: %s at %llu square, %llu comparisons, all equal\n", kind, (unsigned long long)side, (unsigned long long)checks);
  return checks ? 0 : 1;
}

int main(int argc, char **argv) {
  LEVEL = REQUEST;
  if (argc == 4 && !strcmp(argv[1], "big"))
    return big(argv[2], strtoull(argv[3], 0, 10));
  if (argc < 2) {
    fprintf(stderr, "compare ROUNDS [SEED] | compare big KIND SIDE\n");
    return 2;
  }
  return rounds(strtoull(argv[1], 0, 10), argc > 2 ? strtoull(argv[2], 0, 10) : 1);
}
