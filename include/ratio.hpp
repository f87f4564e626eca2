// Exact fractions of 64 bits for C++17 and up, over the proved calls of ratio.h.
//
// A `bakhsney::ratio` is always in lowest terms, with a denominator above 0. An operator that has no result throws a `ratio_error`, which is a
// `std::range_error`: never does it return a wrong number. `try_add` and its like return an empty `std::optional` there. Only a division by
// zero and a result whose lowest terms do not fit 64 bits have none: no number on the way has to fit.
//
// An integer may have any type but bool, and no float becomes one. A comparison takes it as it is, however large. Anywhere else, even in `try_add`,
// one that does not fit 64 bits throws a `ratio_error` with RATIO_NOT_HELD. An exponent, a place and a number of places have to fit 32 bits.
//
//   using namespace bakhsney::literals;
//   bakhsney::ratio inch = 2.54_r;              // exactly 127/50
//   std::cout << 12 * inch << " = " << (12 * inch).decimal(2) << "\n";      // 762/25 = 30.48
//
// This layer is written by hand and tested. The calls of ratio.h that it makes are proved. It has no state, like the library.
#ifndef RATIO_HPP
#define RATIO_HPP

#include "ratio.h"

#include <cstddef>
#include <cstdint>
#include <functional>
#include <optional>
#include <ostream>
#include <random>
#include <stdexcept>
#include <string>
#include <string_view>
#include <type_traits>
#include <utility>
#include <vector>
#if __cplusplus >= 202002L
#include <compare>
#include <version>
#endif
#ifdef __cpp_lib_format
#include <format>
#endif

namespace bakhsney {

/// Why there is no result. `code` is one of `ratio_code`, and `what` is its text.
class ratio_error : public std::range_error {
public:
    explicit ratio_error(std::uint32_t code) : std::range_error(std::string("ratio: ") + ratio_code_text(code)), code_(static_cast<ratio_code>(code)) {}
    ratio_code code() const noexcept { return code_; }

private:
    ratio_code code_;
};

/// The rules of rounding: those of `ratio_rule`.
enum class rounding : std::uint32_t {
    half_away = RATIO_RULE_HALF_AWAY,
    half_even = RATIO_RULE_HALF_EVEN,
    down = RATIO_RULE_DOWN,
    up = RATIO_RULE_UP,
    floor = RATIO_RULE_FLOOR,
    ceil = RATIO_RULE_CEIL
};

class ratio;
class total;

namespace detail {

/// Ends with an error where a call got arrays of other lengths than it requires, which no call here gets.
inline void done(ratio_return returned) {
    if (returned != RATIO_DONE) throw std::logic_error("ratio: lengths that do not fit");
}

/// The answer of a call of ratio.h over one input, and over one pair.
template <class Answer, class Asked>
Answer one(ratio_return (*call)(const Asked *, std::size_t, Answer *, std::size_t), const Asked &asked) {
    Answer answer{};
    done(call(&asked, 1, &answer, 1));
    return answer;
}
template <class Answer>
Answer two(ratio_return (*call)(const ratio_pair_i64 *, std::size_t, Answer *, std::size_t), ratio_i64 a, ratio_i64 b) {
    return one(call, ratio_pair_i64{a, b});
}

/// Ends with an error where an answer has none.
inline void need(std::uint32_t code) {
    if (code != RATIO_ANSWERED) throw ratio_error(code);
}

/// An integer of up to 128 bits: `__int128` is one where the library says so, as by -std=gnu++17.
template <class Integer>
inline constexpr bool is_integer = std::is_integral_v<Integer> && !std::is_same_v<std::remove_cv_t<Integer>, bool> && sizeof(Integer) <= sizeof(ratio_wide);
template <class Integer>
using if_integer = std::enable_if_t<is_integer<Integer>, int>;
template <class A, class B, class Ratio>
using if_beside = std::enable_if_t<(is_integer<A> && std::is_base_of_v<Ratio, B>) || (std::is_base_of_v<Ratio, A> && is_integer<B>), int>;

template <class Integer>
constexpr bool is_negative(Integer n) noexcept {
    if constexpr (std::is_signed_v<Integer>) return n < 0;
    return false;
}

/// Where an integer lies beside those of a type: 0 if it is one of them, -1 below them, and 1 above.
template <class Number, class Integer>
constexpr int beyond(Integer n) noexcept {
    const auto cut = static_cast<Number>(n);
    if (static_cast<Integer>(cut) == n && is_negative(cut) == is_negative(n)) return 0;
    return is_negative(n) ? -1 : 1;
}

/// An integer of any type as one of the type that a call takes, or an error where it does not fit.
template <class Number>
struct whole {
    template <class Integer, if_integer<Integer> = 0>
    constexpr whole(Integer n) : number(static_cast<Number>(n)) {
        if (beyond<Number>(n) != 0) throw ratio_error(RATIO_NOT_HELD);
    }
    Number number;
};

/// An integer as 128 bits with a sign. An `unsigned __int128` may be too large.
template <class Integer>
ratio_wide wide(Integer n) {
    const auto number = static_cast<std::common_type_t<Integer, std::int64_t>>(n);
    const auto high = static_cast<std::int64_t>(number >> 32 >> 32);
    if (is_negative(high) != is_negative(n)) throw ratio_error(RATIO_NOT_HELD);
    return {static_cast<std::uint64_t>(number), high};
}

/// The lowest terms of two integers. Over 64 bits it is one call.
template <class Numer, class Denom>
ratio_answer_i64 lowest(Numer numer, Denom denom) {
    if (beyond<std::int64_t>(numer) == 0 && beyond<std::int64_t>(denom) == 0) {
        return one(ratio_reduce_i64, ratio_i64{static_cast<std::int64_t>(numer), static_cast<std::int64_t>(denom)});
    }
    const auto answer = one(ratio_reduce_i128, ratio_i128{wide(numer), wide(denom)});
    need(answer.code);
    return one(ratio_cast_i128_to_i64, answer.value);
}

} // namespace detail

/// A fraction of 64 bits in lowest terms. Copying it is copying 16 bytes.
class ratio {
public:
    /// 0
    constexpr ratio() noexcept : value_{0, 1} {}
    /// A whole number. No float becomes a fraction by itself: see `from_double` and `rationalize`.
    template <class Integer, detail::if_integer<Integer> = 0>
    constexpr ratio(Integer n) : value_{detail::whole<std::int64_t>(n).number, 1} {}
    /// The fraction numer/denom in lowest terms: 3/4 for 6 and 8. A denominator 0 is an error, and so is a number that does not fit 128 bits with
    /// a sign. If only the lowest terms fit 64 bits, that is enough.
    template <class Numer, class Denom, detail::if_integer<Numer> = 0, detail::if_integer<Denom> = 0>
    ratio(Numer numer, Denom denom) : ratio(taken(detail::lowest(numer, denom))) {}
    /// The same of a fraction of ratio.h.
    explicit ratio(ratio_i64 value) : ratio(taken(detail::one(ratio_reduce_i64, value))) {}

    /// Exactly the value of a float: 3/4 for 0.75, and 3602879701896397/36028797018963968 for 0.1. See `rationalize`.
    static ratio from_double(double x) { return taken(detail::one(ratio_from_f64_i64, x)); }
    /// The simplest fraction that rounds to a float: 1/10 for 0.1.
    static ratio rationalize(double x) { return taken(detail::one(ratio_rationalize_i64, x)); }
    /// What a person types: `3/4`, `0.75`, `-1 1/2` or `12.5%`. `try_parse` is empty where the text is none of these or does not fit.
    static ratio parse(std::string_view text) { return taken(read(text)); }
    static std::optional<ratio> try_parse(std::string_view text) { return maybe(read(text)); }
    /// The simplest fraction between two others, which are excluded: 2/5 for 1/3 and 1/2.
    static ratio between(ratio low, ratio high) { return taken(detail::one(ratio_between_i64, ratio_bounds_i64{low.value_, high.value_, 0})); }

    constexpr std::int64_t numer() const noexcept { return value_.numer; }
    constexpr std::int64_t denom() const noexcept { return value_.denom; }
    /// The same fraction for calls of ratio.h.
    constexpr ratio_i64 value() const noexcept { return value_; }

    friend std::optional<ratio> try_add(ratio a, ratio b) { return maybe(detail::two(ratio_add_i64, a.value_, b.value_)); }
    friend std::optional<ratio> try_sub(ratio a, ratio b) { return maybe(detail::two(ratio_sub_i64, a.value_, b.value_)); }
    friend std::optional<ratio> try_mul(ratio a, ratio b) { return maybe(detail::two(ratio_mul_i64, a.value_, b.value_)); }
    friend std::optional<ratio> try_div(ratio a, ratio b) { return maybe(detail::two(ratio_div_i64, a.value_, b.value_)); }
    friend std::optional<ratio> try_rem(ratio a, ratio b) { return maybe(detail::two(ratio_rem_i64, a.value_, b.value_)); }
    friend std::optional<ratio> try_pow(ratio a, detail::whole<std::int32_t> exponent) { return maybe(detail::one(ratio_pow_i64, ratio_power_i64{a.value_, exponent.number})); }

    friend ratio operator+(ratio a, ratio b) { return taken(detail::two(ratio_add_i64, a.value_, b.value_)); }
    friend ratio operator-(ratio a, ratio b) { return taken(detail::two(ratio_sub_i64, a.value_, b.value_)); }
    friend ratio operator*(ratio a, ratio b) { return taken(detail::two(ratio_mul_i64, a.value_, b.value_)); }
    friend ratio operator/(ratio a, ratio b) { return taken(detail::two(ratio_div_i64, a.value_, b.value_)); }
    /// The remainder: a - b * t, where t is the quotient cut towards zero.
    friend ratio operator%(ratio a, ratio b) { return taken(detail::two(ratio_rem_i64, a.value_, b.value_)); }
    ratio operator-() const { return taken(detail::one(ratio_neg_i64, value_)); }
    constexpr ratio operator+() const noexcept { return *this; }
    ratio &operator+=(ratio b) { return *this = *this + b; }
    ratio &operator-=(ratio b) { return *this = *this - b; }
    ratio &operator*=(ratio b) { return *this = *this * b; }
    ratio &operator/=(ratio b) { return *this = *this / b; }
    ratio &operator%=(ratio b) { return *this = *this % b; }

    /// Lowest terms are equal only where the values are.
    friend constexpr bool operator==(ratio a, ratio b) noexcept { return a.value_.numer == b.value_.numer && a.value_.denom == b.value_.denom; }
    template <class Integer, detail::if_integer<Integer> = 0>
    friend constexpr bool operator==(ratio a, Integer n) noexcept { return detail::beyond<std::int64_t>(n) == 0 && a == ratio(n); }
#ifdef __cpp_lib_three_way_comparison
    friend std::strong_ordering operator<=>(ratio a, ratio b) { return order(a, b) <=> 0; }
    template <class Integer, detail::if_integer<Integer> = 0>
    friend std::strong_ordering operator<=>(ratio a, Integer n) { return order(a, n) <=> 0; }
#else
    template <class Integer, detail::if_integer<Integer> = 0>
    friend constexpr bool operator==(Integer n, ratio a) noexcept { return a == n; }
    template <class A, class B, detail::if_beside<A, B, ratio> = 0>
    friend constexpr bool operator!=(A a, B b) noexcept { return !(a == b); }
    template <class A, class B, detail::if_beside<A, B, ratio> = 0>
    friend bool operator<(A a, B b) { return order(a, b) < 0; }
    template <class A, class B, detail::if_beside<A, B, ratio> = 0>
    friend bool operator>(A a, B b) { return order(a, b) > 0; }
    template <class A, class B, detail::if_beside<A, B, ratio> = 0>
    friend bool operator<=(A a, B b) { return order(a, b) <= 0; }
    template <class A, class B, detail::if_beside<A, B, ratio> = 0>
    friend bool operator>=(A a, B b) { return order(a, b) >= 0; }
    friend constexpr bool operator!=(ratio a, ratio b) noexcept { return !(a == b); }
    friend bool operator<(ratio a, ratio b) { return order(a, b) < 0; }
    friend bool operator>(ratio a, ratio b) { return order(a, b) > 0; }
    friend bool operator<=(ratio a, ratio b) { return order(a, b) <= 0; }
    friend bool operator>=(ratio a, ratio b) { return order(a, b) >= 0; }
#endif

    friend ratio abs(ratio a) { return taken(detail::one(ratio_abs_i64, a.value_)); }
    friend ratio pow(ratio a, detail::whole<std::int32_t> exponent) { return taken(detail::one(ratio_pow_i64, ratio_power_i64{a.value_, exponent.number})); }
    /// The greatest fraction that divides both, and the least one above 0 that both divide: 1/12 and 1/2 for 1/4 and 1/6.
    friend ratio gcd(ratio a, ratio b) { return taken(detail::two(ratio_gcd_i64, a.value_, b.value_)); }
    friend ratio lcm(ratio a, ratio b) { return taken(detail::two(ratio_lcm_i64, a.value_, b.value_)); }

    /// Whole numbers beside the fraction: -4, -3, -3 and -4 for -7/2. `round` takes a half away from zero.
    std::int64_t floor() const { return taken(detail::one(ratio_floor_i64, value_)).numer(); }
    std::int64_t ceil() const { return taken(detail::one(ratio_ceil_i64, value_)).numer(); }
    std::int64_t trunc() const { return taken(detail::one(ratio_trunc_i64, value_)).numer(); }
    std::int64_t round() const { return taken(detail::one(ratio_round_i64, value_)).numer(); }
    /// The multiple of 1/parts that the rule says: 67/100 for 2/3 and 100 parts.
    ratio round_to(detail::whole<std::int64_t> parts, rounding rule = rounding::half_even) const {
        return taken(detail::one(ratio_round_to_i64, ratio_multiple_i64{value_, parts.number, static_cast<std::uint32_t>(rule)}));
    }
    friend ratio mul_round_to(ratio a, ratio b, detail::whole<std::int64_t> parts, rounding rule);
    friend ratio div_round_to(ratio a, ratio b, detail::whole<std::int64_t> parts, rounding rule);
    /// The nearest fraction with a denominator from 1 to `most`: 22/7 for 355/113 and 10.
    ratio nearest(detail::whole<std::int64_t> most) const { return taken(detail::one(ratio_nearest_i64, ratio_bounded_i64{value_, most.number})); }
    /// The convergent at a place, from 0 on, or none behind the last one: 415/93 has 4, 9/2, 58/13 and 415/93.
    std::optional<ratio> convergent(detail::whole<std::uint32_t> place) const { return maybe(detail::one(ratio_convergent_i64, ratio_place_i64{value_, place.number})); }

    /// The nearest float: 0.3333333333333333 for 1/3.
    double to_double() const { return detail::one(ratio_to_f64_i64, value_).value; }
    explicit operator double() const { return to_double(); }
    /// `3/4`, and `3` for 3/1.
    std::string str() const {
        std::uint8_t bytes[RATIO_ROOM_I64];
        ratio_text text{};
        detail::done(ratio_print_i64(&value_, 1, bytes, sizeof bytes, &text, 1));
        return {reinterpret_cast<const char *>(bytes), text.span.end};
    }
    /// The decimal with exactly so many places, at most 38: `0.67` for 2/3 and 2 places.
    std::string decimal(detail::whole<std::uint32_t> places, rounding rule = rounding::half_even) const {
        const ratio_decimal_i64 asked{value_, places.number, static_cast<std::uint32_t>(rule)};
        std::uint8_t bytes[RATIO_DECIMAL_ROOM_I64];
        ratio_text text{};
        detail::done(ratio_print_decimal_i64(&asked, 1, bytes, sizeof bytes, &text, 1));
        detail::need(text.code);
        return {reinterpret_cast<const char *>(bytes), text.span.end};
    }
    friend std::ostream &operator<<(std::ostream &out, ratio x) { return out << x.str(); }

    /// A hash by the value.
    std::size_t hash() const { return static_cast<std::size_t>(detail::one(ratio_hash_lowest_i64, value_).hash); }

private:
    friend class total;
    template <class Iterator>
    friend std::optional<ratio> try_product(Iterator first, Iterator last);

    static ratio taken(const ratio_answer_i64 &answer) {
        detail::need(answer.code);
        ratio x;
        x.value_ = answer.value;
        return x;
    }
    static std::optional<ratio> maybe(const ratio_answer_i64 &answer) {
        if (answer.code != RATIO_ANSWERED) return std::nullopt;
        return taken(answer);
    }
    static int order(ratio a, ratio b) { return detail::two(ratio_compare_i64, a.value_, b.value_).order; }
    template <class Integer, detail::if_integer<Integer> = 0>
    static int order(ratio a, Integer n) {
        const int side = detail::beyond<std::int64_t>(n);
        return side == 0 ? order(a, ratio(n)) : -side;
    }
    template <class Integer, detail::if_integer<Integer> = 0>
    static int order(Integer n, ratio a) { return -order(a, n); }
    static ratio_answer_i64 read(std::string_view text) {
        const ratio_span all{0, text.size()};
        ratio_answer_i64 answer{};
        detail::done(ratio_read_text_i64(reinterpret_cast<const std::uint8_t *>(text.data()), text.size(), &all, 1, &answer, 1));
        return answer;
    }

    ratio_i64 value_;
};

// The calls of the class, by their whole names, too: `bakhsney::try_add(1, 2)`.
std::optional<ratio> try_add(ratio a, ratio b);
std::optional<ratio> try_sub(ratio a, ratio b);
std::optional<ratio> try_mul(ratio a, ratio b);
std::optional<ratio> try_div(ratio a, ratio b);
std::optional<ratio> try_rem(ratio a, ratio b);
std::optional<ratio> try_pow(ratio a, detail::whole<std::int32_t> exponent);
ratio abs(ratio a);
ratio pow(ratio a, detail::whole<std::int32_t> exponent);
ratio gcd(ratio a, ratio b);
ratio lcm(ratio a, ratio b);

/// The product and the quotient, rounded once to a multiple of 1/parts. They need not fit before.
inline ratio mul_round_to(ratio a, ratio b, detail::whole<std::int64_t> parts, rounding rule = rounding::half_even) {
    return ratio::taken(detail::one(ratio_mul_round_to_i64, ratio_operands_i64{a.value_, b.value_, parts.number, static_cast<std::uint32_t>(rule)}));
}
inline ratio div_round_to(ratio a, ratio b, detail::whole<std::int64_t> parts, rounding rule = rounding::half_even) {
    return ratio::taken(detail::one(ratio_div_round_to_i64, ratio_operands_i64{a.value_, b.value_, parts.number, static_cast<std::uint32_t>(rule)}));
}

static_assert(sizeof(ratio) == sizeof(ratio_i64) && std::is_trivially_copyable_v<ratio> && std::is_standard_layout_v<ratio>, "a ratio is a ratio_i64");

/// A total of any number of fractions that loses nothing on the way: its sum is rounded once, or not at all. It takes memory by itself: at most
/// 54 bytes for each unlike denominator, and at least 192. A call that throws changes nothing.
class total {
public:
    total() : slots_(8), header_{} {}
    // Moving would leave a total without slots.
    total(const total &) = default;
    total &operator=(const total &) = default;
    template <class Iterator>
    total(Iterator first, Iterator last) : total() {
        for (; first != last; ++first) add(*first);
    }

    void add(ratio x) { change(ratio_total_add_i64, x); }
    /// Takes a fraction out again, as from a window that moves.
    void subtract(ratio x) { change(ratio_total_subtract_i64, x); }
    /// Adds all that is in another total, which may be this one.
    void merge(const total &other) {
        total next = *this;
        next.take(other.slots_, other.header_.count);
        swap(next);
    }
    total &operator+=(ratio x) { return add(x), *this; }
    total &operator-=(ratio x) { return subtract(x), *this; }
    std::int64_t count() const noexcept { return header_.count; }

    /// The sum, and the mean of as many fractions as are in it. They are empty where their lowest terms do not fit 64 bits, and the mean of none is.
    std::optional<ratio> sum() const { return ratio::maybe(read<ratio_answer_i64>(ratio_total_sum_i64)); }
    std::optional<ratio> mean() const { return ratio::maybe(read<ratio_answer_i64>(ratio_total_mean_i64, header_.count)); }
    /// -1, 0 or 1: the order of the sum and 0.
    int sign() const { return needed(read<ratio_order>(ratio_total_sign_i64)).order; }
    /// The float nearest to the sum, rounded once.
    double to_double() const { return needed(read<ratio_float>(ratio_total_to_f64_i64)).value; }
    /// The sum as a decimal with any number of places, rounded once, however long it is.
    std::string decimal(detail::whole<std::uint32_t> places, rounding rule = rounding::half_even) const {
        std::vector<std::uint64_t> room(ratio_total_print_digits_i64(slots_.data(), slots_.size(), places.number) + 1);
        std::vector<std::uint8_t> bytes(ratio_total_print_bytes_i64(slots_.data(), slots_.size(), places.number) + 1);
        ratio_text text{};
        detail::done(ratio_total_print_i64(slots_.data(), slots_.size(), places.number, static_cast<std::uint32_t>(rule), room.data(), room.size(),
                                           bytes.data(), bytes.size(), &text, 1));
        detail::need(text.code);
        return {reinterpret_cast<const char *>(bytes.data()) + text.span.start, text.span.end - text.span.start};
    }

private:
    template <class Call>
    void change(Call call, ratio x) {
        detail::done(call(&x.value_, 1, &header_, 1, slots_.data(), slots_.size()));
        if (header_.code == RATIO_MORE_ROOM) {
            grow();
            detail::done(call(&x.value_, 1, &header_, 1, slots_.data(), slots_.size()));
        }
        detail::need(header_.code);
    }
    /// Merges these slots, and grows where they need more.
    void take(const std::vector<ratio_slot_i64> &slots, std::int64_t count) {
        for (std::size_t from = 0;;) {
            detail::done(ratio_total_merge_i64(slots.data() + from, slots.size() - from, count, &header_, 1, slots_.data(), slots_.size()));
            if (header_.code != RATIO_MORE_ROOM) break;
            from += static_cast<std::size_t>(header_.done);
            grow();
        }
        detail::need(header_.code);
    }
    /// Moves the fractions that are not 0 into other slots. The number of many slots is by chance.
    void grow() {
        std::vector<ratio_slot_i64> left = slots_;
        left.resize(static_cast<std::size_t>(ratio_total_leave_zeros_i64(left.data(), left.size())));
        const std::uint64_t chance = left.size() < 64 ? 0 : std::random_device()();
        const std::uint64_t length = ratio_total_next_length_i64(left.size(), 0, chance, slots_.max_size());
        if (length == 0) throw std::length_error("ratio: a total of too many denominators");
        total next;
        next.slots_.assign(static_cast<std::size_t>(length), ratio_slot_i64{});
        next.take(left, header_.count);
        swap(next);
    }
    void swap(total &other) noexcept {
        slots_.swap(other.slots_);
        std::swap(header_, other.header_);
    }
    template <class Answer, class Call, class... Arguments>
    Answer read(Call call, Arguments... arguments) const {
        std::vector<std::uint64_t> room(ratio_total_digits_i64(slots_.data(), slots_.size()) + 1);
        Answer answer{};
        detail::done(call(slots_.data(), slots_.size(), arguments..., room.data(), room.size(), &answer, 1));
        return answer;
    }
    template <class Answer>
    static Answer needed(Answer answer) {
        detail::need(answer.code);
        return answer;
    }

    std::vector<ratio_slot_i64> slots_;
    ratio_total_i64 header_;
};

/// The exact sum of many fractions, or none where its lowest terms do not fit 64 bits. No step has to fit.
template <class Iterator>
std::optional<ratio> try_sum(Iterator first, Iterator last) {
    return total(first, last).sum();
}

/// The exact product of many fractions, in the same way.
template <class Iterator>
std::optional<ratio> try_product(Iterator first, Iterator last) {
    const ratio_i64 one{1, 1};
    std::vector<ratio_i64> factors(1, one);
    for (; first != last; ++first) factors.push_back(ratio(*first).value());
    std::vector<std::int64_t> room(2 * factors.size());
    ratio_answer_i64 answer{};
    detail::done(ratio_quotient_of_i64(factors.data(), factors.size(), &one, 0, room.data(), room.size(), &answer, 1));
    return ratio::maybe(answer);
}

inline namespace literals {

/// `3_r` and `2.54_r` are exactly these numbers.
inline ratio operator""_r(const char *digits) {
    std::string text(digits);
    for (std::size_t i; (i = text.find('\'')) != std::string::npos;) text.erase(i, 1);
    return ratio::parse(text);
}

} // namespace literals

} // namespace bakhsney

template <>
struct std::hash<bakhsney::ratio> {
    std::size_t operator()(bakhsney::ratio x) const { return x.hash(); }
};

#ifdef __cpp_lib_format
/// `{}` is as `str`, and `{:.2}` a decimal with two places, a half to the even one.
template <>
struct std::formatter<bakhsney::ratio> {
    std::optional<std::uint32_t> places;
    constexpr auto parse(std::format_parse_context &context) {
        auto at = context.begin();
        if (at != context.end() && *at == '.') {
            std::uint32_t n = 0;
            bool any = false;
            for (++at; at != context.end() && *at >= '0' && *at <= '9'; ++at, any = true) n = n > 38 ? n : 10 * n + static_cast<std::uint32_t>(*at - '0');
            if (!any || n > 38) throw std::format_error("ratio: no such number of places");
            places = n;
        }
        if (at != context.end() && *at != '}') throw std::format_error("ratio: no such format");
        return at;
    }
    auto format(bakhsney::ratio x, std::format_context &context) const {
        return std::format_to(context.out(), "{}", places ? x.decimal(*places) : x.str());
    }
};
#endif

#endif
