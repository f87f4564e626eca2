// Times `bakhsney::ratio` of include/ratio.hpp beside `boost::rational` over 64 bits, in turn, and prints the table of C++ in docs/benchmarks.md. It
// compares all results, and ends with status 1 where some differ.
//
//   cplusplus [ROUNDS]     each row is the median of so many rounds (default: 101)
#include "ratio.hpp"

#include <boost/rational.hpp>

#include <algorithm>
#include <cstdio>
#include <cstdlib>
#include <ctime>
#include <functional>
#include <random>
#include <vector>

using ours = bakhsney::ratio;
using theirs = boost::rational<std::int64_t>;

constexpr std::size_t PAIRS = 4096, SORTED = 100000;

struct fields {
    std::int64_t numer, denom;
};

/// Numerators of either sign up to the bound, and denominators from 1 to the bound.
static std::vector<fields> random_fields(std::size_t count, std::int64_t bound) {
    std::mt19937_64 random(20240229);
    std::vector<fields> made(count);
    const auto up_to = [&random](std::int64_t most) { return static_cast<std::int64_t>(random() % (static_cast<std::uint64_t>(most) + 1)); };
    for (fields &x : made) x = {up_to(2 * bound) - bound, up_to(bound - 1) + 1};
    return made;
}

template <class Ratio>
static std::vector<Ratio> of_fields(const std::vector<fields> &from) {
    std::vector<Ratio> made;
    for (fields x : from) made.emplace_back(x.numer, x.denom);
    return made;
}

/// What an operator gives for each fraction and the one behind it.
template <class Result, class Ratio, class Operator>
static std::vector<Result> of_neighbours(const std::vector<Ratio> &from, Operator call) {
    std::vector<Result> results(from.size() - 1);
    for (std::size_t i = 0; i + 1 < from.size(); ++i) results[i] = call(from[i], from[i + 1]);
    return results;
}

template <class Ratio>
static std::vector<Ratio> sorted(std::vector<Ratio> from) {
    std::sort(from.begin(), from.end());
    return from;
}

static bool is_same(char x, char y) { return x == y; }
static bool is_same(ours x, theirs y) { return x.numer() == y.numerator() && x.denom() == y.denominator(); }

/// The nanoseconds of processor time of a program.
template <class Program>
static double nanoseconds(Program program) {
    timespec begin, end;
    clock_gettime(CLOCK_PROCESS_CPUTIME_ID, &begin);
    program();
    clock_gettime(CLOCK_PROCESS_CPUTIME_ID, &end);
    return static_cast<double>(end.tv_sec - begin.tv_sec) * 1e9 + static_cast<double>(end.tv_nsec - begin.tv_nsec);
}

static double median(std::vector<double> values) {
    std::sort(values.begin(), values.end());
    return values[values.size() / 2];
}

static int rounds = 101;

/// Prints a row of the table, with nanoseconds for each of the results. Both programs return these.
template <class Ours, class Theirs>
static void row(const char *name, Ours our_program, Theirs their_program) {
    const auto got = our_program();
    const auto wanted = their_program();
    if (!std::equal(got.begin(), got.end(), wanted.begin(), wanted.end(), [](auto x, auto y) { return is_same(x, y); })) {
        std::fprintf(stderr, "bench/cplusplus: %s: the results differ\n", name);
        std::exit(1);
    }
    std::vector<double> our_times, their_times;
    for (int i = 0; i < rounds; ++i) {
        our_times.push_back(nanoseconds(our_program));
        their_times.push_back(nanoseconds(their_program));
    }
    const double count = static_cast<double>(got.size()), our_time = median(our_times) / count, their_time = median(their_times) / count;
    std::printf("| %s | %.1f | %.1f | %.2f |\n", name, their_time, our_time, our_time / their_time);
}

/// The rows of fractions whose numbers are up to a bound.
static void rows(const char *about, std::int64_t bound) {
    const auto pairs = random_fields(PAIRS + 1, bound), all = random_fields(SORTED, bound);
    const auto x = of_fields<ours>(pairs), many = of_fields<ours>(all);
    const auto y = of_fields<theirs>(pairs), their_many = of_fields<theirs>(all);
    const auto named = [about](const char *name) { return std::string(name) + " | " + about; };
    row(named("`+`").c_str(), [&] { return of_neighbours<ours>(x, std::plus<>()); }, [&] { return of_neighbours<theirs>(y, std::plus<>()); });
    row(named("`*`").c_str(), [&] { return of_neighbours<ours>(x, std::multiplies<>()); }, [&] { return of_neighbours<theirs>(y, std::multiplies<>()); });
    row(named("`<`").c_str(), [&] { return of_neighbours<char>(x, std::less<>()); }, [&] { return of_neighbours<char>(y, std::less<>()); });
    row(named("`std::sort` of 100,000").c_str(), [&] { return sorted(many); }, [&] { return sorted(their_many); });
}

int main(int count, char **words) {
    if (count > 1) rounds = std::atoi(words[1]);
    if (count > 2 || rounds < 1) {
        std::fprintf(stderr, "usage: bench/cplusplus [ROUNDS]\n");
        return 2;
    }
    std::printf("| Operator | Fractions | `boost::rational`, ns | `bakhsney::ratio`, ns | Part |\n|---|---|---|---|---|\n");
    rows("numbers up to 1,000", 1000);
    rows("numbers of 31 bits", (std::int64_t{1} << 31) - 1);
    return 0;
}
