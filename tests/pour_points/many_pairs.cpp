// Table 6 on sheets with more pairs than one batch of the call has room for (16,384), and on small ones, against the second program: labels few, random,
// falling and all different; columns exact, longer, one too short and of unlike lengths.
#include "../../include/tervuola.h"
#include "../second/oracle.hpp"
#include <cstdio>
#include <random>

using namespace oracle;

int main() {
  std::mt19937_64 g(6);
  auto below = [&](u64 n) { return n ? g() % n : 0; };
  int differ = 0, large = 0, rounds = 400;
  for (int round = 0; round < rounds; round++) {
    u64 most = round % 10 == 0 ? 90 : 14;
    u64 rows = 1 + below(most), cols = 1 + below(most), n = rows * cols;
    V<i16> e(n);
    V<u32> l(n);
    bool flat = below(3) == 0;
    for (auto &x : e)
      x = below(8) == 0 ? -32768 : (i16)(flat ? (i64)below(4) - 2 : (i64)below(65536) - 32768);
    u64 kinds = below(3) == 0 ? 1 + below(5) : below(2) ? 1 + below(2 * n) : 0;
    bool falling = below(4) == 0;
    for (u64 i = 0; i < n; i++)
      l[i] = kinds ? (u32)below(kinds) * (below(9) == 0 ? 123456789u : 1u) : falling ? (u32)(4294967295u - i) : (u32)g();
    u64 count = pairs(rows, cols, e, l).size();
    large += count > 16384;
    u64 k = below(3) == 0 ? count : below(2) ? count + below(5) : count ? count - 1 : 0;
    V<u32> a(k, 7), b(below(20) == 0 ? k + 1 : k, 8), c(k, 9);
    V<i16> z(k, 10);
    V<u32> wa = a, wb = b, wc = c;
    V<i16> wz = z;
    Reply r = call_table6(rows, cols, e, l, wa, wb, wz, wc);
    tervuola_counted x = tervuola_pour_points((u32)rows, (u32)cols, e.data(), e.size(), l.data(), l.size(), a.data(), a.size(), b.data(), b.size(), z.data(), z.size(), c.data(), c.size());
    if (x.number != r.number || x.place != r.place || x.count != r.count || a != wa || b != wb || z != wz || c != wc) {
      differ++;
      printf("round %d, %lu by %lu, %lu pairs: answer %u %u %u\n", round, (unsigned long)rows, (unsigned long)cols, (unsigned long)count, x.number, x.place, x.count);
    }
  }
  printf("pour points: %d sheets, %d with more than one batch of pairs, %d differ\n", rounds, large, differ);
  return differ != 0;
}
