/* Errors: each code of the library that is not an answer becomes one error of SQL, which names the call and its operands. */
#include "glue.h"

void
refuse(uint32 code, const char *call)
{
	switch (code)
	{
		case RATIO_NOT_HELD:
			ereport(ERROR, errcode(ERRCODE_NUMERIC_VALUE_OUT_OF_RANGE), errmsg("ratio out of range"), errdetail("The call was %s.", call));
			break;
		case RATIO_DIVISION_BY_ZERO:
		case RATIO_ZERO_DENOMINATOR:
			ereport(ERROR, errcode(ERRCODE_DIVISION_BY_ZERO), errmsg("division by zero"), errdetail("The call was %s.", call));
			break;
		case RATIO_BOUND_NOT_POSITIVE:
			ereport(ERROR, errcode(ERRCODE_INVALID_PARAMETER_VALUE), errmsg("the greatest denominator must be at least 1"),
					errdetail("The call was %s.", call));
			break;
		case RATIO_BAD_OPTION:
			ereport(ERROR, errcode(ERRCODE_INVALID_PARAMETER_VALUE), errmsg("there may be 0 to 38 places"), errdetail("The call was %s.", call));
			break;
		case RATIO_BELOW_ZERO:
			ereport(ERROR, errcode(ERRCODE_INVALID_PARAMETER_VALUE), errmsg("a share or a weight is below 0"), errdetail("The call was %s.", call));
			break;
		case RATIO_NOT_ONE:
			ereport(ERROR, errcode(ERRCODE_INVALID_PARAMETER_VALUE), errmsg("the shares do not add up to 1"), errdetail("The call was %s.", call));
			break;
		case RATIO_ALL_ZERO:
			ereport(ERROR, errcode(ERRCODE_INVALID_PARAMETER_VALUE), errmsg("the weights add up to 0"), errdetail("The call was %s.", call));
			break;
		case RATIO_TOO_LONG:
			ereport(ERROR, errcode(ERRCODE_PROGRAM_LIMIT_EXCEEDED), errmsg("the common denominator of a total has more than 2^20 bits"),
					errdetail("The call was %s. The exact total is kept: total(..) gives it.", call));
			break;
		default:
			ereport(ERROR, errcode(ERRCODE_DATA_CORRUPTED), errmsg("a stored ratio is damaged"),
					errdetail("The library refused %s with the code %u.", call, code));
	}
	pg_unreachable();
}

char *
quoted(Ratio x)
{
	if (x.denom == 1)
		return psprintf("'" INT64_FORMAT "'", x.numer);
	return psprintf("'" INT64_FORMAT "/" INT64_FORMAT "'", x.numer, x.denom);
}
