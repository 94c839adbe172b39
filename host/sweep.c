/* The differential pair of examples/day.desk, stood and biased by a program that owns its board; then one input is
   swept by 120 millivolts around the other. What each node must supply is read from the lent slices and written as
   columns: the input, then the pair's collectors, its emitters and the input's own current, in ticks of 2^-50 ampere.
   sweep LIBRARY LINES ANSWERS */
#include "told.h"

int main(int count, char **given) {
    static const int64_t pair1[7] = {3, 1, 1, 4, 4, 4, 0}, pair2[7] = {3, 2, 2, 5, 5, 5, 0};
    static const int64_t tail[7] = {0, 6, 6, 3, 3, 3, 0}, follower[7] = {8, 4, 4, 7, 7, 9, 0};
    static const int64_t bias[][2] = {{7, 2500000}, {9, 2499000}, {4, 1900000}, {8, 1150000}, {4, 1900000},
                                      {5, 1900000}, {3, 600000},  {1, 1350000}, {2, 1350000}, {6, 780000}};
    if (count != 4) end("sweep LIBRARY LINES ANSWERS");
    open_files(given[2], given[3]);
    tell_fresh();
    tell_library(given[1]);
    uint32_t npn4 = tell_load("npn4"), npn1 = tell_load("npn1"), npn16s = tell_load("npn16s");
    uint32_t left = tell_place(npn4, pair1, 7);
    tell_place(npn4, pair2, 7);
    tell_place(npn1, tail, 7);
    tell_place(npn16s, follower, 7);
    for (size_t i = 0; i < sizeof bias / sizeof bias[0]; i++) tell_move(bias[i][0], bias[i][1]);
    tell_all_nodes();
    printf("%10s %15s %15s %15s %15s\n", "input", "collector 4", "collector 5", "emitters 3", "input 1");
    for (int64_t v = 1290000; v <= 1410000; v += 5000) {
        if (tell_move(1, v)) continue;
        printf("%10lld %15lld %15lld %15lld %15lld\n", (long long)volts[1], (long long)totals[4], (long long)totals[5],
               (long long)totals[3], (long long)totals[1]);
        tell_all_nodes();
        tell_currents(left);
    }
    for (int64_t n = 0; n < 10; n++) {
        tell_who(n);
        tell_sum(n);
    }
    close_files();
    return 0;
}
