/* What the files here share: how an operand is read, what an error says, and the order of texts. A file that has its own SQLITE_EXTENSION_INIT follows. */
#include "sqlite3ext.h"

#define RATIO_CHECKED /* the calls here always get arrays of the lengths that they require */
#include "ratio.h"

/* A reason behind the name of the function and its operands as SQL writes them: ratio_div('1/2', 0): division by zero. Its reader frees it. It is
 * NULL where memory is out.
 */
char *ratio_refusal(sqlite3 *database, const char *name, int count, sqlite3_value **operands, const char *reason);

/* The fraction that a value is. NULL is none, and the code is RATIO_NO_TEXT where memory is out. */
ratio_answer_i64 ratio_of_value(sqlite3_value *operand);

/* The order of two texts by their values, of any length. A text that is no number comes after all numbers, and two of these are in the order of their
 * bytes. A number is what ratio_read_text_i64 reads or says is out of range.
 */
int ratio_order_of_texts(int is_left_number, const void *left, int left_length, int is_right_number, const void *right, int right_length);

/* Adds the tables of splits.c to a database, and returns SQLite's status. */
int ratio_splits_init(sqlite3 *database);
