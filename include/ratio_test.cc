// Tests ratio.hpp: each member beside values from elsewhere, integers of each type at their ends, and a million random pairs beside boost::rational.
//
//   ratio_test [PAIRS [SEED]]
#include "ratio.hpp"

#include <boost/rational.hpp>

#include <algorithm>
#include <array>
#include <cstdio>
#include <cstdlib>
#include <limits>
#include <new>
#include <random>
#include <sstream>
#include <unordered_set>

using bakhsney::ratio;
using bakhsney::ratio_error;
using bakhsney::rounding;
using namespace bakhsney::literals;
using bakhsney::div_round_to, bakhsney::try_add, bakhsney::try_div, bakhsney::try_mul, bakhsney::try_pow, bakhsney::try_rem, bakhsney::try_sub;
using wide = __int128;
using size = unsigned __int128;

static int wrong;

/// The greatest memory that was taken at once.
static std::size_t greatest;

// Inlined, gcc would warn of memory that one of these takes and the other frees.
[[gnu::noinline]] void *operator new(std::size_t bytes) {
    greatest = std::max(greatest, bytes);
    if (void *place = std::malloc(bytes)) return place;
    throw std::bad_alloc();
}

[[gnu::noinline]] void operator delete(void *place) noexcept { std::free(place); }
[[gnu::noinline]] void operator delete(void *place, std::size_t) noexcept { std::free(place); }

static void expect(bool holds, const char *what) {
    if (!holds && ++wrong <= 20) std::printf("wrong: %s\n", what);
}

#define EXPECT(condition) expect(condition, #condition)

/// Whether the expression ends with a ratio_error of this code.
#define EXPECT_CODE(expression, wanted)                                                        \
    try {                                                                                      \
        (void) (expression);                                                                   \
        expect(false, #expression " has a result");                                            \
    } catch (const std::range_error &error) {                                                  \
        const auto *known = dynamic_cast<const ratio_error *>(&error);                         \
        expect(known && known->code() == (wanted) && std::string(known->what()) == std::string("ratio: ") + ratio_code_text(wanted), #expression " and its code"); \
    }

/// Whether the class takes numbers of a type: alone, as each of two, and on each side of an operator. It takes all of these or none.
template <class Number>
constexpr int ways = std::is_constructible_v<ratio, Number> + std::is_convertible_v<Number, ratio> + std::is_constructible_v<ratio, Number, int> + std::is_constructible_v<ratio, int, Number>;
template <class Number, class Operator>
constexpr int sides = std::is_invocable_v<Operator, ratio, Number> + std::is_invocable_v<Operator, Number, ratio>;
template <class Number, class... Operators>
constexpr int uses = ways<Number> + (sides<Number, Operators> + ...);
template <class Number>
constexpr int taken = uses<Number, std::plus<>, std::minus<>, std::multiplies<>, std::divides<>, std::modulus<>, std::equal_to<>, std::not_equal_to<>, std::less<>, std::greater<>, std::less_equal<>, std::greater_equal<>>;
static_assert(taken<float> == 0 && taken<double> == 0 && taken<long double> == 0 && taken<bool> == 0 && taken<ratio_code> == 0 && taken<const char *> == 0);
static_assert(taken<int> == 26 && taken<char> == 26 && taken<unsigned long> == 26 && taken<wide> == (std::is_integral_v<wide> ? 26 : 0));
static_assert(!std::is_invocable_v<decltype(&ratio::nearest), ratio, double> && !std::is_convertible_v<ratio, double>);
static_assert(std::is_nothrow_default_constructible_v<ratio> && std::is_nothrow_copy_constructible_v<ratio>);
constexpr ratio seven = 7;
static_assert(seven.numer() == 7 && seven.denom() == 1 && seven == ratio(7));

static constexpr std::int64_t most = INT64_MAX, least = INT64_MIN;

static void making() {
    EXPECT(ratio().numer() == 0 && ratio().denom() == 1);
    EXPECT(ratio(6, -8).numer() == -3 && ratio(6, -8).denom() == 4);
    EXPECT(ratio(ratio_i64{10, 4}).value().numer == 5);
    EXPECT(ratio(most) == most && ratio(least) == least && ratio(std::uint64_t{most}) == most && ratio('a') == 97);
    EXPECT_CODE(ratio(1, 0), RATIO_ZERO_DENOMINATOR)
    EXPECT_CODE(ratio(1, least), RATIO_NOT_HELD)
    EXPECT_CODE(ratio(std::uint64_t{1} << 63), RATIO_NOT_HELD)
    EXPECT(ratio::from_double(0.75) == ratio(3, 4) && ratio::rationalize(0.1) == ratio(1, 10));
    EXPECT(ratio::from_double(0.1) == ratio(3602879701896397, 36028797018963968));
    EXPECT_CODE(ratio::from_double(1e300), RATIO_NOT_HELD)
    EXPECT_CODE(ratio::rationalize(std::numeric_limits<double>::infinity()), RATIO_NOT_HELD)
    EXPECT(ratio::parse("-1 1/2") == ratio(-3, 2) && ratio::parse("12.5%") == ratio(1, 8) && ratio::parse("6/4") == ratio(3, 2));
    EXPECT_CODE(ratio::parse("x"), RATIO_PARSE_ERROR)
    EXPECT_CODE(ratio::parse(std::string_view()), RATIO_PARSE_ERROR)
    EXPECT_CODE(ratio::parse("1/0"), RATIO_ZERO_DENOMINATOR)
    EXPECT(!ratio::try_parse("1/0") && !ratio::try_parse("1e40") && *ratio::try_parse("0.5") == ratio(1, 2));
    EXPECT(2.54_r == ratio(127, 50) && 3_r / 4 == ratio(3, 4) && 1'000_r == 1000 && 1e3_r == 1000 && 1.5e-3_r == ratio(3, 2000));
    EXPECT_CODE(0x10_r, RATIO_PARSE_ERROR)
    EXPECT_CODE(9223372036854775808_r, RATIO_NOT_HELD)
    EXPECT(ratio::between(ratio(1, 3), ratio(1, 2)) == ratio(2, 5));
    EXPECT_CODE(ratio::between(ratio(1, 2), ratio(1, 2)), RATIO_NOT_HELD)
}

static void computing() {
    const ratio a(1, 2), b(1, 3);
    EXPECT(a + b == ratio(5, 6) && a - b == ratio(1, 6) && a * b == ratio(1, 6) && a / b == ratio(3, 2) && ratio(7, 2) % b == ratio(1, 6));
    EXPECT(a + 1 == ratio(3, 2) && 1 - b == ratio(2, 3) && 2 * b == ratio(2, 3) && 1 / b == 3 && -a == ratio(-1, 2) && +a == a);
    ratio x = a;
    EXPECT((x += b) == ratio(5, 6) && (x -= 1) == ratio(-1, 6) && (x *= 3) == ratio(-1, 2) && (x /= b) == ratio(-3, 2) && (x %= 1) == ratio(-1, 2));
    EXPECT(*try_add(a, b) == ratio(5, 6) && *try_sub(a, b) == ratio(1, 6) && *try_mul(a, b) == ratio(1, 6) && *try_div(a, b) == ratio(3, 2) && *try_rem(a, b) == ratio(1, 6));
    EXPECT(!try_add(most, 1) && !try_sub(least, 1) && !try_mul(most, 2) && !try_div(1, 0) && !try_rem(1, 0) && !try_pow(0, -1) && *try_pow(2, 10) == 1024);
    EXPECT_CODE(ratio(most) + 1, RATIO_NOT_HELD)
    EXPECT_CODE(ratio(1) / 0, RATIO_DIVISION_BY_ZERO)
    EXPECT_CODE(ratio(1) % 0, RATIO_DIVISION_BY_ZERO)
    EXPECT_CODE(-ratio(least), RATIO_NOT_HELD)
    EXPECT_CODE(x += most, RATIO_NOT_HELD)
    EXPECT(x == ratio(-1, 2));
    EXPECT(abs(ratio(-3, 4)) == ratio(3, 4) && pow(ratio(-3, 2), -3) == ratio(-8, 27));
    EXPECT_CODE(abs(ratio(least)), RATIO_NOT_HELD)
    EXPECT_CODE(pow(ratio(2), 63), RATIO_NOT_HELD)
    EXPECT(gcd(ratio(1, 4), ratio(1, 6)) == ratio(1, 12) && lcm(ratio(1, 4), ratio(1, 6)) == ratio(1, 2));
}

static void comparing() {
    const ratio third(1, 3), half(1, 2);
    EXPECT(third < half && half > third && third <= third && third >= third && third != half && third == ratio(2, 6) && third <= half && half >= third);
    EXPECT(!(half < third) && !(third > half) && !(third < third) && !(third > third) && !(half <= third) && !(third >= half) && !(third != third));
    EXPECT(ratio(most, most - 1) < ratio(most - 1, most - 2) && half < 1 && 0 < half && half == ratio(1, 2) && 1 == ratio(3, 3));
#ifdef __cpp_lib_three_way_comparison
    EXPECT((third <=> half) == std::strong_ordering::less && (half <=> third) == std::strong_ordering::greater && (half <=> half) == std::strong_ordering::equal && (half <=> 1) < 0);
#endif
    std::vector<ratio> sorted = {half, ratio(-1, 2), third, 0};
    std::sort(sorted.begin(), sorted.end());
    EXPECT((sorted == std::vector<ratio>{ratio(-1, 2), 0, third, half}));
    const std::unordered_set<ratio> set = {half, ratio(2, 4), third};
    const std::hash<ratio> hash;
    EXPECT(hash(half) == hash(ratio(2, 4)) && hash(half) != hash(third) && hash(third) != hash(ratio(-1, 3)));
    EXPECT(set.size() == 2 && set.count(ratio(3, 9)) == 1 && set.count(ratio(1, 4)) == 0);
}

/// What an expression gives: a fraction, or the code of its error and 0.
struct outcome {
    std::uint32_t code;
    ratio value;
    bool operator==(outcome other) const { return code == other.code && value == other.value; }
};

template <class Call>
static outcome outcome_of(Call call) {
    try {
        return {RATIO_ANSWERED, call()};
    } catch (const ratio_error &error) {
        return {error.code(), 0};
    }
}

/// An integer of any type by its sign and its size, so that nothing is cut.
struct integer {
    template <class Integer>
    integer(Integer n) : below(static_cast<size>(n) >> 127 && static_cast<Integer>(-1) < static_cast<Integer>(1)), is(below ? -static_cast<size>(n) : static_cast<size>(n)) {}
    bool fits(int bits) const { return is <= (size{1} << (bits - 1)) - !below; }
    bool below;
    size is;
};

/// What n/d is: its lowest terms if they fit, or the code. Both have to fit 128 bits.
static outcome quotient(integer n, integer d, std::uint32_t code_of_zero) {
    if (!n.fits(128) || !d.fits(128)) return {RATIO_NOT_HELD, 0};
    if (d.is == 0) return {code_of_zero, 0};
    size common = n.is;
    for (size rest = d.is; rest != 0;) {
        const size next = common % rest;
        common = rest, rest = next;
    }
    n.is /= common, d.is /= common;
    n.below = n.is != 0 && n.below != d.below, d.below = false;
    if (!n.fits(64) || !d.fits(64)) return {RATIO_NOT_HELD, 0};
    return {RATIO_ANSWERED, ratio(ratio_i64{static_cast<std::int64_t>(n.below ? -n.is : n.is), static_cast<std::int64_t>(d.is)})};
}

/// The order of a fraction and an integer, by the whole part of the fraction's size.
static int order(ratio a, integer n) {
    const integer numer(a.numer());
    if (numer.below != n.below) return numer.below ? -1 : 1 - (numer.is == 0 && n.is == 0);
    const size denom = static_cast<size>(a.denom()), whole = numer.is / denom;
    const int by_size = whole != n.is ? (whole < n.is ? -1 : 1) : numer.is % denom != 0;
    return n.below ? -by_size : by_size;
}

/// The numbers of a type near its ends and near those of the others, some of them twice.
template <class Integer>
static std::array<Integer, 100> ends() {
    std::array<Integer, 100> found;
    std::size_t count = 0;
    for (int bits : {0, 7, 8, 15, 16, 31, 32, 63, 64, 127}) {
        for (int near : {-2, -1, 0, 1, 3}) {
            for (size n : {size{1} << bits, -(size{1} << bits)}) found[count++] = static_cast<Integer>(n + static_cast<size>(near));
        }
    }
    return found;
}

/// A fraction and an integer on each side of each comparison.
template <class Integer>
static void compared(ratio a, Integer n) {
    const int wanted = order(a, n);
    EXPECT((a < n) == (wanted < 0) && (a > n) == (wanted > 0) && (a <= n) == (wanted <= 0) && (a >= n) == (wanted >= 0) && (a == n) == (wanted == 0) && (a != n) == (wanted != 0));
    EXPECT((n > a) == (wanted < 0) && (n < a) == (wanted > 0) && (n >= a) == (wanted <= 0) && (n <= a) == (wanted >= 0) && (n == a) == (wanted == 0) && (n != a) == (wanted != 0));
#ifdef __cpp_lib_three_way_comparison
    EXPECT((a <=> n) == (wanted <=> 0) && (n <=> a) == (0 <=> wanted));
#endif
}

/// An operator that computes: each third with the fraction on the left, with the integer there, and with the fraction changed.
constexpr int operators = 15;
template <class Integer>
static ratio computed(int which, ratio a, Integer n) {
    switch (which) {
    case 0: return a + n;
    case 1: return n + a;
    case 2: return a += n;
    case 3: return a - n;
    case 4: return n - a;
    case 5: return a -= n;
    case 6: return a * n;
    case 7: return n * a;
    case 8: return a *= n;
    case 9: return a / n;
    case 10: return n / a;
    case 11: return a /= n;
    case 12: return a % n;
    case 13: return n % a;
    default: return a %= n;
    }
}

/// What it has to give. An integer that does not fit 64 bits has no result.
static outcome computed_wide(int which, ratio a, integer n) {
    if (!n.fits(64)) return {RATIO_NOT_HELD, 0};
    const ratio whole(static_cast<std::int64_t>(n.below ? -n.is : n.is)), left = which % 3 == 1 ? whole : a, right = which % 3 == 1 ? a : whole;
    const wide p = left.numer(), q = left.denom(), r = right.numer(), s = right.denom();
    switch (which / 3) {
    case 0: return quotient(p * s + r * q, q * s, RATIO_DIVISION_BY_ZERO);
    case 1: return quotient(p * s - r * q, q * s, RATIO_DIVISION_BY_ZERO);
    case 2: return quotient(p * r, q * s, RATIO_DIVISION_BY_ZERO);
    case 3: return quotient(p * s, q * r, RATIO_DIVISION_BY_ZERO);
    default: return r == 0 ? outcome{RATIO_DIVISION_BY_ZERO, 0} : quotient(p * s % (r * q), q * s, RATIO_DIVISION_BY_ZERO);
    }
}

/// All fractions of two integers of two types.
template <class Numer, class Denom>
static void made() {
    for (Numer n : ends<Numer>()) {
        for (Denom d : ends<Denom>()) EXPECT(outcome_of([&] { return ratio(n, d); }) == quotient(n, d, RATIO_ZERO_DENOMINATOR));
    }
}

template <class Integer>
static void integers_of(const std::vector<ratio> &fractions) {
    if constexpr (std::is_integral_v<Integer>) {
        using largest = std::conditional_t<std::is_integral_v<size>, size, unsigned long>;
        made<Integer, largest>(), made<largest, Integer>();
        for (Integer n : ends<Integer>()) {
            EXPECT(outcome_of([&] { return ratio(n); }) == quotient(n, 1, RATIO_ZERO_DENOMINATOR) && outcome_of([&]() -> ratio { return n; }) == quotient(n, 1, RATIO_ZERO_DENOMINATOR));
            for (ratio a : fractions) {
                compared(a, n);
                for (int i = 0; i < operators; ++i) EXPECT(outcome_of([&] { return computed(i, a, n); }) == computed_wide(i, a, n));
            }
        }
    }
}

template <class... Integers>
static void integers() {
    (integers_of<Integers>({0, 1, -1, ratio(1, 3), ratio(-7, 2), ratio(1, most), ratio(least, most), ratio(most, 2), most, least}), ...);
    EXPECT(ratio(18446744073709551614u, 2) == most && ratio(-3, 18446744073709551615u) == ratio(-1, 6148914691236517205));
    EXPECT(ratio(1, 3) < 18446744073709551615u && 18446744073709551615u != ratio(-1));
    // What other calls take has to fit.
    const ratio x(2, 3);
    EXPECT(pow(x, 2u) == ratio(4, 9) && x.round_to(100u) == ratio(67, 100) && x.nearest(2u) == ratio(1, 2) && *x.convergent('\2') == x && x.decimal(2LL) == "0.67");
    const ratio small(1, most);
    EXPECT(small.round_to(most) == small && mul_round_to(small, 1, most) == small && div_round_to(small, 1, most) == small && small.nearest(most) == small && !x.convergent(4294967295u));
    EXPECT(pow(ratio(-1), 2147483647) == -1 && pow(ratio(-1), -2147483647 - 1) == 1 && try_pow(ratio(-1), 2147483647) == ratio(-1) && try_pow(ratio(-1), -2147483647 - 1) == ratio(1));
    EXPECT_CODE(x.decimal(4294967295u), RATIO_BAD_OPTION)
    EXPECT_CODE(x.round_to(least), RATIO_BAD_OPTION)
    EXPECT_CODE(mul_round_to(x, x, least), RATIO_BAD_OPTION)
    EXPECT_CODE(div_round_to(x, x, least), RATIO_BAD_OPTION)
    EXPECT_CODE(x.nearest(least), RATIO_BOUND_NOT_POSITIVE)
    EXPECT_CODE(pow(x, std::int64_t{1} << 32), RATIO_NOT_HELD)
    EXPECT_CODE(try_pow(x, 2147483648u), RATIO_NOT_HELD)
    EXPECT_CODE(try_add(x, 18446744073709551615u), RATIO_NOT_HELD)
    EXPECT_CODE(x.round_to(18446744073709551615u), RATIO_NOT_HELD)
    EXPECT_CODE(mul_round_to(x, x, 18446744073709551615u), RATIO_NOT_HELD)
    EXPECT_CODE(div_round_to(x, x, 18446744073709551615u), RATIO_NOT_HELD)
    EXPECT_CODE(x.nearest(9223372036854775808u), RATIO_NOT_HELD)
    EXPECT_CODE(x.convergent(-1), RATIO_NOT_HELD)
    EXPECT_CODE(x.decimal(std::int64_t{1} << 32), RATIO_NOT_HELD)
    EXPECT_CODE(bakhsney::total().decimal(std::int64_t{1} << 32), RATIO_NOT_HELD)
}

static void rounding_and_printing() {
    const ratio x(-7, 2);
    EXPECT(x.floor() == -4 && x.ceil() == -3 && x.trunc() == -3 && x.round() == -4);
    EXPECT(ratio(2, 3).round_to(100) == ratio(67, 100) && ratio(5, 2).round_to(1) == 2 && ratio(5, 2).round_to(1, rounding::half_away) == 3);
    EXPECT(x.round_to(1, rounding::down) == -3 && x.round_to(1, rounding::up) == -4 && x.round_to(1, rounding::floor) == -4 && x.round_to(1, rounding::ceil) == -3);
    EXPECT_CODE(x.round_to(0), RATIO_BAD_OPTION)
    EXPECT(mul_round_to(ratio(1999, 100), ratio(9, 4), 100) == ratio(2249, 50) && div_round_to(ratio(1999, 100), ratio(4, 9), 100) == ratio(2249, 50));
    EXPECT(mul_round_to(ratio(1, 3), ratio(1, 2), 10, rounding::up) == ratio(1, 5) && div_round_to(1, 6, 10, rounding::down) == ratio(1, 10));
    EXPECT(ratio(355, 113).nearest(10) == ratio(22, 7));
    EXPECT_CODE(ratio(355, 113).nearest(0), RATIO_BOUND_NOT_POSITIVE)
    EXPECT(*ratio(415, 93).convergent(0) == 4 && *ratio(415, 93).convergent(2) == ratio(58, 13) && !ratio(415, 93).convergent(4));
    EXPECT(ratio(1, 3).to_double() == 1.0 / 3 && static_cast<double>(ratio(-3, 2)) == -1.5);
    EXPECT(ratio(3, 4).str() == "3/4" && ratio(-3).str() == "-3" && ratio(least, most).str() == "-9223372036854775808/9223372036854775807");
    EXPECT(ratio(2, 3).decimal(2) == "0.67" && ratio(1, 8).decimal(2) == "0.12" && ratio(1, 8).decimal(2, rounding::half_away) == "0.13" && x.decimal(0, rounding::down) == "-3");
    EXPECT_CODE(x.decimal(39), RATIO_BAD_OPTION)
    std::ostringstream out;
    out << ratio(3, 4) << ' ' << seven;
    EXPECT(out.str() == "3/4 7");
#ifdef __cpp_lib_format
    EXPECT(std::format("{} {:.2} {:.0} {:.38}", ratio(3, 4), ratio(2, 3), x, ratio()) == "3/4 0.67 -4 0." + std::string(38, '0'));
    for (const char *format : {"{:.}", "{:.39}", "{:2}", "{:.2f}", "{:.2.}"}) {
        const ratio half(1, 2);
        try {
            (void) std::vformat(format, std::make_format_args(half));
            expect(false, format);
        } catch (const std::format_error &) {
        }
    }
#elif defined(WITH_FORMAT)
#error "the library has no std::format"
#endif
}

static void totals() {
    std::vector<ratio> terms;
    for (int i = 1; i <= 1000; ++i) terms.push_back(ratio(1, i));
    bakhsney::total harmonic(terms.begin(), terms.end());
    EXPECT(harmonic.count() == 1000 && !harmonic.sum() && harmonic.decimal(20) == "7.48547086055034491266" && harmonic.sign() == 1);
    EXPECT(harmonic.to_double() == 7.485470860550345 && !harmonic.mean());
    bakhsney::total other = harmonic;
    other.merge(other);
    EXPECT(other.count() == 2000 && other.decimal(2) == "14.97");
    other.merge(harmonic);
    for (int i = 1; i <= 1000; ++i) other.subtract(ratio(1, i)), other.subtract(ratio(1, i)), other -= ratio(1, i);
    EXPECT(other.count() == 0 && *other.sum() == 0 && other.sign() == 0 && !other.mean());
    // 2^62 fractions, and then twice as many, whose count does not fit. What is refused changes nothing.
    bakhsney::total many;
    many.add(ratio(2, 3));
    for (int i = 0; i < 62; ++i) many.merge(many);
    const std::string before = many.decimal(3);
    EXPECT(many.count() == std::int64_t{1} << 62 && before == "3074457345618258602.667" && many.mean() == ratio(2, 3));
    EXPECT_CODE(many.merge(many), RATIO_NOT_HELD)
    EXPECT(many.count() == std::int64_t{1} << 62 && many.decimal(3) == before);
    bakhsney::total moved(std::move(many));
    many.add(1);
    EXPECT(moved.decimal(3) == before);
    const std::vector<ratio> back = {ratio(most), ratio(1, most), ratio(-1, most)};
    EXPECT(*bakhsney::try_sum(back.begin(), back.end()) == ratio(most));
    const std::vector<ratio> factors = {ratio(most, 3), 3, ratio(1, most)};
    const std::vector<int> large(64, 2);
    EXPECT(*bakhsney::try_product(factors.begin(), factors.end()) == 1 && *bakhsney::try_product(factors.begin(), factors.begin()) == 1);
    EXPECT(*bakhsney::try_product(large.begin(), large.begin() + 62) == ratio(std::int64_t{1} << 62) && !bakhsney::try_product(large.begin(), large.end()));
    bakhsney::total small;
    small += ratio(1, 36);
    small += ratio(1, 28);
    EXPECT(*small.sum() == ratio(4, 63) && *small.mean() == ratio(2, 63) && small.decimal(4) == "0.0635" && small.decimal(4, rounding::up) == "0.0635" && small.decimal(1, rounding::up) == "0.1");
    EXPECT(*bakhsney::total().sum() == 0 && bakhsney::total().decimal(1) == "0.0");
}

/// The memory grows with the unlike denominators that are in the total at one time.
static void memory_of_totals() {
    for (const std::size_t count : {1, 8, 9, 100, 5000}) {
        greatest = 0;
        bakhsney::total unlike;
        for (std::size_t i = 1; i <= count; ++i) unlike.add(ratio(1, i)), unlike.add(ratio(-1, i)), unlike.add(ratio(1, i));
        EXPECT(greatest <= std::max(std::size_t{192}, 54 * count));
    }
    greatest = 0;
    bakhsney::total window, last;
    for (int i = 1; i <= 20000; ++i) {
        window.add(ratio(1, i));
        if (i > 100) window.subtract(ratio(1, i - 100));
    }
    EXPECT(greatest < 20000);
    for (int i = 19901; i <= 20000; ++i) last.add(ratio(1, i));
    EXPECT(window.count() == 100 && window.decimal(30) == last.decimal(30));
}

/// The lowest terms of a fraction of wide numbers, as boost::rational keeps them.
static wide divisor(wide a, wide b) {
    for (a = a < 0 ? -a : a, b = b < 0 ? -b : b; b != 0;) {
        const wide rest = a % b;
        a = b, b = rest;
    }
    return a;
}

/// Whether a result is n/d, or none where the lowest terms of n/d do not fit.
static bool is_result(const std::optional<ratio> &x, wide n, wide d) {
    const wide common = divisor(n, d) * (d < 0 ? -1 : 1);
    n /= common, d /= common;
    const bool fits = n >= least && n <= most && d <= most;
    return x ? fits && x->numer() == n && x->denom() == d : !fits;
}

/// Whether boost has the same result. It does not test whether the steps fit, so they are tested here: over 32 bits all of them do.
static bool same(const std::optional<ratio> &x, const boost::rational<std::int64_t> &y) {
    return x && x->numer() == y.numerator() && x->denom() == y.denominator();
}

static void random_pairs(long pairs, unsigned long seed) {
    std::mt19937_64 random(seed);
    const auto number = [&](int bits) { return static_cast<std::int64_t>(random() >> (64 - bits)) - (std::int64_t{1} << (bits - 1)) + 0; };
    long compared = 0, held = 0;
    for (long i = 0; i < pairs && !wrong; ++i) {
        const int bits = i % 2 == 0 ? 31 : 3 + static_cast<int>(random() % 60);
        std::int64_t n[4];
        for (int k = 0; k < 4; ++k) n[k] = number(bits);
        if (n[1] == 0 || n[3] == 0) continue;
        const ratio a(n[0], n[1]), b(n[2], n[3]);
        const wide p = a.numer(), q = a.denom(), r = b.numer(), s = b.denom();
        const auto sum = try_add(a, b), difference = try_sub(a, b), product = try_mul(a, b), quotient = try_div(a, b);
        EXPECT(is_result(ratio(n[0], n[1]), n[0], n[1]));
        EXPECT(is_result(sum, p * s + r * q, q * s) && is_result(difference, p * s - r * q, q * s) && is_result(product, p * r, q * s));
        EXPECT(r == 0 ? !quotient : is_result(quotient, p * s, q * r));
        EXPECT((a < b) == (p * s < r * q) && (a == b) == (p * s == r * q) && (a >= b) == (p * s >= r * q));
        held += sum.has_value();
        if (bits > 31) continue;
        // Here no step of boost overflows 64 bits.
        const boost::rational<std::int64_t> x(n[0], n[1]), y(n[2], n[3]);
        EXPECT(same(a, x) && same(b, y) && same(sum, x + y) && same(difference, x - y) && same(product, x * y) && (n[2] == 0 || same(quotient, x / y)));
        EXPECT((a < b) == (x < y) && (a == b) == (x == y) && (a > b) == (x > y));
        ++compared;
    }
    EXPECT(pairs < 1000 || (compared > pairs / 2 && held > pairs / 2 && held < pairs));
    std::printf("ratio_test: %ld pairs, %ld of them beside boost::rational, %ld sums that fit\n", pairs, compared, held);
}

int main(int count, char **words) {
    making();
    computing();
    comparing();
    integers<char, signed char, unsigned char, wchar_t, char16_t, char32_t, short, unsigned short, int, unsigned, long, unsigned long, long long, unsigned long long, wide, size>();
    rounding_and_printing();
    totals();
    memory_of_totals();
    random_pairs(count > 1 ? std::atol(words[1]) : 1000000, count > 2 ? std::strtoul(words[2], nullptr, 10) : 1);
    return wrong != 0;
}
