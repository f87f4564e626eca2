// Adds three shares of a whole by the header's calls from C++.
#include "ratio.h"

#include <cstdio>
#include <vector>

int main() {
    const std::vector<ratio_i64> shares = {{1, 2}, {1, 3}, {1, 6}};
    ratio_i64 total = {0, 1};
    for (const ratio_i64 &share : shares) {
        const ratio_pair_i64 pair = {total, share};
        ratio_answer_i64 answer;
        if (ratio_add_i64(&pair, 1, &answer, 1) != RATIO_DONE || answer.code != RATIO_ANSWERED) return 1;
        total = answer.value;
    }
    const ratio_pair_i64 wanted = {total, {2, 2}};
    ratio_truth equal;
    if (ratio_equal_i64(&wanted, 1, &equal, 1) == RATIO_DONE && equal.code == RATIO_ANSWERED && equal.holds) return 0;
    std::printf("wrong: the total of 1/2, 1/3 and 1/6\n");
    return 1;
}
