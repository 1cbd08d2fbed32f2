// P8 in the second program: entries of its choice table.
#include "../second/oracle.hpp"
int main() {
  static const unsigned said[][2] = {{34, 2}, {7, 2}, {24, 8}, {138, 2}, {168, 32}, {255, 1}, {0, 0}};
  for (auto &s : said)
    if (oracle::table_entry(s[0]) != s[1]) {
      printf("known ground: P8: entry %u is %u, not %u\n", s[0], oracle::table_entry(s[0]), s[1]);
      return 1;
    }
}
