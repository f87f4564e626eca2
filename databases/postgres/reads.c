/* Reads of totals: the lowest terms, the mean, the sign, the nearest float, and decimals. The caller leaves out the slots that are 0. */
#include "totals.h"

#include "miscadmin.h"

/* Room for the calls of the library. A small total takes none from PostgreSQL. */
enum { SMALL = 64 };

typedef struct
{
	uint64	   *digits;
	size_t		length;
	uint64		small[SMALL];
} Room;

/* The time of a step of a long read grows with its slots and with the digits of the common denominator, of which there are at most MOST_DIGITS.
 * STEP slots with so many take some 7 milliseconds. */
enum { STEP = 64, MOST_DIGITS = 16384 };

static void
make_room(Room *room, uint64 length)
{
	room->length = length;
	room->digits = room->small;
	if (length > SMALL)
	{
		CHECK_FOR_INTERRUPTS();
		room->digits = palloc(length * sizeof(uint64));
	}
}

static void
give_back(Room *room)
{
	if (room->digits != room->small)
		pfree(room->digits);
}

/* How many slots the next step joins. The digits are at most as many as the slots, so the first steps join more of these: the first one joins
 * 1024. */
static uint64
next_step(uint64 done)
{
	return Max(STEP, STEP * MOST_DIGITS / (done + STEP * 16));
}

/* Joins the slots in the room, until a step is refused. */
static ratio_joined_i64
join(const ratio_slot_i64 *slots, size_t many, Room *room)
{
	ratio_joined_i64 joined = {0};

	while (joined.code == RATIO_ANSWERED && joined.done < many)
	{
		CHECK_FOR_INTERRUPTS();
		ratio_total_join_i64(slots, many, next_step(joined.done), &joined, 1, room->digits, room->length);
	}
	CHECK_FOR_INTERRUPTS();
	return joined;
}

/* Joins all slots in the room, and returns the digits of their common denominator. */
static uint64
join_all(const ratio_slot_i64 *slots, size_t many, Room *room, const char *call)
{
	ratio_joined_i64 joined = join(slots, many, room);

	if (joined.code != RATIO_ANSWERED)
		refuse(joined.code, call);
	return joined.digits;
}

static pg_noinline void
refuse_read(uint32 code, int64 count, const char *call)
{
	if (code == RATIO_NOT_HELD)
		ereport(ERROR, errcode(ERRCODE_NUMERIC_VALUE_OUT_OF_RANGE), errmsg("ratio out of range"),
				errdetail("The call was %s over " INT64_FORMAT " values. The exact total is kept: ratio_round(total(..), 20) gives the sum with 20 places.",
						  call, count));
	refuse(code, call);
}

Datum
sum_of(const ratio_slot_i64 *slots, size_t many, int64 count, const char *call)
{
	ratio_answer_i64 answer;
	Room		room;

	make_room(&room, ratio_total_digits_i64(slots, many));
	if (many <= LONG_TOTAL)
		ratio_total_sum_i64(slots, many, room.digits, room.length, &answer, 1);
	else
		ratio_joined_sum_i64(join_all(slots, many, &room, call), room.digits, room.length, &answer, 1);
	if (answer.code != RATIO_ANSWERED)
		refuse_read(answer.code, count, call);
	give_back(&room);
	return new_value(answer.value);
}

Datum
mean_of(const ratio_slot_i64 *slots, size_t many, int64 count, const char *call)
{
	ratio_answer_i64 answer;
	Room		room;

	make_room(&room, ratio_total_digits_i64(slots, many));
	if (many <= LONG_TOTAL)
		ratio_total_mean_i64(slots, many, count, room.digits, room.length, &answer, 1);
	else
		ratio_joined_mean_i64(join_all(slots, many, &room, call), count, room.digits, room.length, &answer, 1);
	if (answer.code != RATIO_ANSWERED)
		refuse_read(answer.code, count, call);
	give_back(&room);
	return new_value(answer.value);
}

bool
sign_of(const ratio_slot_i64 *slots, size_t many, int *sign)
{
	ratio_joined_i64 joined;
	ratio_order answer = {0};
	Room		room;

	make_room(&room, ratio_total_digits_i64(slots, many));
	if (many <= LONG_TOTAL)
		ratio_total_sign_i64(slots, many, room.digits, room.length, &answer, 1);
	else
	{
		joined = join(slots, many, &room);
		answer.code = joined.code;
		if (joined.code == RATIO_ANSWERED)
			ratio_joined_sign_i64(joined.digits, room.digits, room.length, &answer, 1);
	}
	give_back(&room);
	if (answer.code != RATIO_ANSWERED && answer.code != RATIO_TOO_LONG)
		refuse(answer.code, "a comparison");
	*sign = answer.order;
	return answer.code == RATIO_ANSWERED;
}

float8
float_of(const ratio_slot_i64 *slots, size_t many)
{
	static const char call[] = "float8(ratio_total)";
	ratio_float answer;
	Room		room;

	make_room(&room, ratio_total_digits_i64(slots, many));
	if (many <= LONG_TOTAL)
		ratio_total_to_f64_i64(slots, many, room.digits, room.length, &answer, 1);
	else
		ratio_joined_to_f64_i64(join_all(slots, many, &room, call), room.digits, room.length, &answer, 1);
	if (answer.code != RATIO_ANSWERED)
		refuse(answer.code, call);
	give_back(&room);
	return answer.value;
}

/* The text of a decimal, which ends where its memory ends. That of a long total comes from its bounds, in one pass, or from steps. */
char *
decimal_of(const ratio_slot_i64 *slots, size_t many, int32 places, uint32 rule, const char *call)
{
	size_t		bytes = ratio_total_print_bytes_i64(slots, many, places);
	char	   *text = palloc(bytes + 1);
	ratio_text	answer;
	Room		room;

	make_room(&room, ratio_total_print_digits_i64(slots, many, places));
	if (many <= LONG_TOTAL)
		ratio_total_print_i64(slots, many, places, rule, room.digits, room.length, (uint8_t *) text, bytes, &answer, 1);
	else
	{
		ratio_total_print_bounded_i64(slots, many, places, rule, room.digits, room.length, (uint8_t *) text, bytes, &answer, 1);
		if (answer.code != RATIO_ANSWERED)
			ratio_joined_print_i64(join_all(slots, many, &room, call), places, rule, room.digits, room.length, (uint8_t *) text, bytes, &answer, 1);
	}
	if (answer.code != RATIO_ANSWERED)
		refuse(answer.code, call);
	give_back(&room);
	text[answer.span.end] = '\0';
	return text + answer.span.start;
}
