/* Written by templates/write from templates/calls.h.txt: change that file, and write this one anew. */
/* The calls of ratio.h that have a place for each item, over each type of numbers. Programs for all of them begin with a macro for each kind.
 *
 *   CALLS_I32(X)    X(name, type of an item, how many numbers begin it, of which type, type of an answer)
 *   READS_I32(X)    the same for the calls that read texts, whose items are spans
 *   PRINTS_I32(X)   the same for the calls that print texts, with the room for each in place of the answer
 */

#define CALLS_I32(X) \
    X(compare_i32, ratio_pair_i32, 4, int32_t, ratio_order) \
    X(equal_i32, ratio_pair_i32, 4, int32_t, ratio_truth) \
    X(hash_i32, ratio_i32, 2, int32_t, ratio_hash) \
    X(add_i32, ratio_pair_i32, 4, int32_t, ratio_answer_i32) \
    X(sub_i32, ratio_pair_i32, 4, int32_t, ratio_answer_i32) \
    X(mul_i32, ratio_pair_i32, 4, int32_t, ratio_answer_i32) \
    X(div_i32, ratio_pair_i32, 4, int32_t, ratio_answer_i32) \
    X(rem_i32, ratio_pair_i32, 4, int32_t, ratio_answer_i32) \
    X(gcd_i32, ratio_pair_i32, 4, int32_t, ratio_answer_i32) \
    X(lcm_i32, ratio_pair_i32, 4, int32_t, ratio_answer_i32) \
    X(mul_round_i32, ratio_factors_i32, 4, int32_t, ratio_answer_i32) \
    X(mul_round_to_i32, ratio_operands_i32, 5, int32_t, ratio_answer_i32) \
    X(div_round_to_i32, ratio_operands_i32, 5, int32_t, ratio_answer_i32) \
    X(reduce_i32, ratio_i32, 2, int32_t, ratio_answer_i32) \
    X(neg_i32, ratio_i32, 2, int32_t, ratio_answer_i32) \
    X(abs_i32, ratio_i32, 2, int32_t, ratio_answer_i32) \
    X(floor_i32, ratio_i32, 2, int32_t, ratio_answer_i32) \
    X(ceil_i32, ratio_i32, 2, int32_t, ratio_answer_i32) \
    X(trunc_i32, ratio_i32, 2, int32_t, ratio_answer_i32) \
    X(round_i32, ratio_i32, 2, int32_t, ratio_answer_i32) \
    X(pow_i32, ratio_power_i32, 2, int32_t, ratio_answer_i32) \
    X(nearest_i32, ratio_bounded_i32, 3, int32_t, ratio_answer_i32) \
    X(between_i32, ratio_bounds_i32, 4, int32_t, ratio_answer_i32) \
    X(round_to_i32, ratio_multiple_i32, 3, int32_t, ratio_answer_i32) \
    X(from_scaled_i32, ratio_scaled, 1, ratio_wide, ratio_answer_i32) \
    X(convergent_i32, ratio_place_i32, 2, int32_t, ratio_answer_i32) \
    X(from_f64_i32, double, 1, double, ratio_answer_i32) \
    X(rationalize_i32, double, 1, double, ratio_answer_i32) \
    X(to_f64_i32, ratio_i32, 2, int32_t, ratio_float) \
    X(cast_i32_to_i64, ratio_i32, 2, int32_t, ratio_answer_i64) \
    X(cast_i32_to_i128, ratio_i32, 2, int32_t, ratio_answer_i128) \
    X(hash_lowest_i32, ratio_i32, 2, int32_t, ratio_hash) \

#define READS_I32(X) \
    X(read_i32, ratio_span, 2, size_t, ratio_answer_i32) \
    X(read_decimal_i32, ratio_span, 2, size_t, ratio_answer_i32) \
    X(read_text_i32, ratio_span, 2, size_t, ratio_answer_i32) \

#define PRINTS_I32(X) \
    X(print_i32, ratio_i32, 2, int32_t, RATIO_ROOM_I32) \
    X(print_decimal_i32, ratio_decimal_i32, 2, int32_t, RATIO_DECIMAL_ROOM_I32) \

#define CALLS_I64(X) \
    X(compare_i64, ratio_pair_i64, 4, int64_t, ratio_order) \
    X(equal_i64, ratio_pair_i64, 4, int64_t, ratio_truth) \
    X(hash_i64, ratio_i64, 2, int64_t, ratio_hash) \
    X(add_i64, ratio_pair_i64, 4, int64_t, ratio_answer_i64) \
    X(sub_i64, ratio_pair_i64, 4, int64_t, ratio_answer_i64) \
    X(mul_i64, ratio_pair_i64, 4, int64_t, ratio_answer_i64) \
    X(div_i64, ratio_pair_i64, 4, int64_t, ratio_answer_i64) \
    X(rem_i64, ratio_pair_i64, 4, int64_t, ratio_answer_i64) \
    X(gcd_i64, ratio_pair_i64, 4, int64_t, ratio_answer_i64) \
    X(lcm_i64, ratio_pair_i64, 4, int64_t, ratio_answer_i64) \
    X(mul_round_i64, ratio_factors_i64, 4, int64_t, ratio_answer_i64) \
    X(mul_round_to_i64, ratio_operands_i64, 5, int64_t, ratio_answer_i64) \
    X(div_round_to_i64, ratio_operands_i64, 5, int64_t, ratio_answer_i64) \
    X(reduce_i64, ratio_i64, 2, int64_t, ratio_answer_i64) \
    X(neg_i64, ratio_i64, 2, int64_t, ratio_answer_i64) \
    X(abs_i64, ratio_i64, 2, int64_t, ratio_answer_i64) \
    X(floor_i64, ratio_i64, 2, int64_t, ratio_answer_i64) \
    X(ceil_i64, ratio_i64, 2, int64_t, ratio_answer_i64) \
    X(trunc_i64, ratio_i64, 2, int64_t, ratio_answer_i64) \
    X(round_i64, ratio_i64, 2, int64_t, ratio_answer_i64) \
    X(pow_i64, ratio_power_i64, 2, int64_t, ratio_answer_i64) \
    X(nearest_i64, ratio_bounded_i64, 3, int64_t, ratio_answer_i64) \
    X(between_i64, ratio_bounds_i64, 4, int64_t, ratio_answer_i64) \
    X(round_to_i64, ratio_multiple_i64, 3, int64_t, ratio_answer_i64) \
    X(from_scaled_i64, ratio_scaled, 1, ratio_wide, ratio_answer_i64) \
    X(convergent_i64, ratio_place_i64, 2, int64_t, ratio_answer_i64) \
    X(from_f64_i64, double, 1, double, ratio_answer_i64) \
    X(rationalize_i64, double, 1, double, ratio_answer_i64) \
    X(to_f64_i64, ratio_i64, 2, int64_t, ratio_float) \
    X(cast_i64_to_i32, ratio_i64, 2, int64_t, ratio_answer_i32) \
    X(cast_i64_to_i128, ratio_i64, 2, int64_t, ratio_answer_i128) \
    X(hash_lowest_i64, ratio_i64, 2, int64_t, ratio_hash) \
    X(key_i64, ratio_i64, 2, int64_t, ratio_key) \
    X(hash_mod61_i64, ratio_i64, 2, int64_t, ratio_residue) \
    X(sortable_i64, ratio_i64, 2, int64_t, ratio_sortable) \

#define READS_I64(X) \
    X(read_i64, ratio_span, 2, size_t, ratio_answer_i64) \
    X(read_decimal_i64, ratio_span, 2, size_t, ratio_answer_i64) \
    X(read_text_i64, ratio_span, 2, size_t, ratio_answer_i64) \

#define PRINTS_I64(X) \
    X(print_i64, ratio_i64, 2, int64_t, RATIO_ROOM_I64) \
    X(print_decimal_i64, ratio_decimal_i64, 2, int64_t, RATIO_DECIMAL_ROOM_I64) \

#define CALLS_I128(X) \
    X(compare_i128, ratio_pair_i128, 4, ratio_wide, ratio_order) \
    X(equal_i128, ratio_pair_i128, 4, ratio_wide, ratio_truth) \
    X(hash_i128, ratio_i128, 2, ratio_wide, ratio_hash) \
    X(add_i128, ratio_pair_i128, 4, ratio_wide, ratio_answer_i128) \
    X(sub_i128, ratio_pair_i128, 4, ratio_wide, ratio_answer_i128) \
    X(mul_i128, ratio_pair_i128, 4, ratio_wide, ratio_answer_i128) \
    X(div_i128, ratio_pair_i128, 4, ratio_wide, ratio_answer_i128) \
    X(rem_i128, ratio_pair_i128, 4, ratio_wide, ratio_answer_i128) \
    X(gcd_i128, ratio_pair_i128, 4, ratio_wide, ratio_answer_i128) \
    X(lcm_i128, ratio_pair_i128, 4, ratio_wide, ratio_answer_i128) \
    X(mul_round_i128, ratio_factors_i128, 4, ratio_wide, ratio_answer_i128) \
    X(mul_round_to_i128, ratio_operands_i128, 5, ratio_wide, ratio_answer_i128) \
    X(div_round_to_i128, ratio_operands_i128, 5, ratio_wide, ratio_answer_i128) \
    X(reduce_i128, ratio_i128, 2, ratio_wide, ratio_answer_i128) \
    X(neg_i128, ratio_i128, 2, ratio_wide, ratio_answer_i128) \
    X(abs_i128, ratio_i128, 2, ratio_wide, ratio_answer_i128) \
    X(floor_i128, ratio_i128, 2, ratio_wide, ratio_answer_i128) \
    X(ceil_i128, ratio_i128, 2, ratio_wide, ratio_answer_i128) \
    X(trunc_i128, ratio_i128, 2, ratio_wide, ratio_answer_i128) \
    X(round_i128, ratio_i128, 2, ratio_wide, ratio_answer_i128) \
    X(pow_i128, ratio_power_i128, 2, ratio_wide, ratio_answer_i128) \
    X(nearest_i128, ratio_bounded_i128, 3, ratio_wide, ratio_answer_i128) \
    X(between_i128, ratio_bounds_i128, 4, ratio_wide, ratio_answer_i128) \
    X(round_to_i128, ratio_multiple_i128, 3, ratio_wide, ratio_answer_i128) \
    X(from_scaled_i128, ratio_scaled, 1, ratio_wide, ratio_answer_i128) \
    X(convergent_i128, ratio_place_i128, 2, ratio_wide, ratio_answer_i128) \
    X(from_f64_i128, double, 1, double, ratio_answer_i128) \
    X(rationalize_i128, double, 1, double, ratio_answer_i128) \
    X(to_f64_i128, ratio_i128, 2, ratio_wide, ratio_float) \
    X(cast_i128_to_i32, ratio_i128, 2, ratio_wide, ratio_answer_i32) \
    X(cast_i128_to_i64, ratio_i128, 2, ratio_wide, ratio_answer_i64) \

#define READS_I128(X) \
    X(read_i128, ratio_span, 2, size_t, ratio_answer_i128) \
    X(read_decimal_i128, ratio_span, 2, size_t, ratio_answer_i128) \
    X(read_text_i128, ratio_span, 2, size_t, ratio_answer_i128) \

#define PRINTS_I128(X) \
    X(print_i128, ratio_i128, 2, ratio_wide, RATIO_ROOM_I128) \
    X(print_decimal_i128, ratio_decimal_i128, 2, ratio_wide, RATIO_DECIMAL_ROOM_I128) \

