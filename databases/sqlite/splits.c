/* An amount split so that its parts add up to it: ratio_split(amount, shares) and ratio_split_by_weights(amount, weights), tables with a row for
 * each part. The list is a JSON array.
 */
#include "operands.h"
SQLITE_EXTENSION_INIT3

#include <string.h>

/* What a table is called, what its list has, and the call that splits. */
typedef struct {
    const char *name;
    const char *element;
    const char *columns;
    enum ratio_code (*by_shares)(int64_t amount, const ratio_i64 *shares, size_t shares_len, int64_t *parts, size_t parts_len);
    enum ratio_code (*by_weights)(int64_t amount, const int64_t *weights, size_t weights_len, int64_t *parts, size_t parts_len);
} kind;

static const kind kinds[] = {
    {"ratio_split", "share", "CREATE TABLE split (part INTEGER, value INTEGER, amount HIDDEN, shares HIDDEN)", ratio_split_i64, 0},
    {"ratio_split_by_weights", "weight", "CREATE TABLE split (part INTEGER, value INTEGER, amount HIDDEN, weights HIDDEN)", 0, ratio_split_by_weights_i64},
};

enum { PART, VALUE, AMOUNT, LIST };

typedef struct {
    sqlite3_vtab base;
    sqlite3 *database;
    const kind *self;
} table;

/* The parts of one split, its operands, and the row that is read now. */
typedef struct {
    sqlite3_vtab_cursor base;
    sqlite3_value *operands[2];
    int64_t *parts;
    size_t count;
    size_t at;
} cursor;

/* A list while it is read. The shares or the weights lie in `elements`. */
typedef struct {
    void *elements;
    size_t size;
    size_t count;
    size_t room;
} list;

static int connect(sqlite3 *database, void *self, int argc, const char *const *argv, sqlite3_vtab **made, char **message) {
    const int status = sqlite3_declare_vtab(database, ((const kind *) self)->columns);
    table *split;
    (void) argc, (void) argv, (void) message;
    if (status != SQLITE_OK) return status;
    sqlite3_vtab_config(database, SQLITE_VTAB_INNOCUOUS);
    split = sqlite3_malloc(sizeof *split);
    if (!split) return SQLITE_NOMEM;
    memset(split, 0, sizeof *split);
    split->database = database;
    split->self = self;
    *made = &split->base;
    return SQLITE_OK;
}

static int disconnect(sqlite3_vtab *split) {
    sqlite3_free(split);
    return SQLITE_OK;
}

/* Both operands have to be known before the table is read. */
static int plan(sqlite3_vtab *split, sqlite3_index_info *info) {
    int i, places[2] = {-1, -1};
    for (i = 0; i < info->nConstraint; i++) {
        if (info->aConstraint[i].iColumn < AMOUNT || info->aConstraint[i].op != SQLITE_INDEX_CONSTRAINT_EQ) continue;
        if (!info->aConstraint[i].usable) return SQLITE_CONSTRAINT;
        places[info->aConstraint[i].iColumn - AMOUNT] = i;
    }
    if (places[0] < 0 || places[1] < 0) {
        split->zErrMsg = sqlite3_mprintf("%s takes two operands", ((table *) split)->self->name);
        return split->zErrMsg ? SQLITE_ERROR : SQLITE_NOMEM;
    }
    for (i = 0; i < 2; i++) {
        info->aConstraintUsage[places[i]].argvIndex = i + 1;
        info->aConstraintUsage[places[i]].omit = 1;
    }
    info->estimatedCost = 10;
    info->estimatedRows = 10;
    return SQLITE_OK;
}

static int open_cursor(sqlite3_vtab *split, sqlite3_vtab_cursor **made) {
    cursor *reader = sqlite3_malloc(sizeof *reader);
    (void) split;
    if (!reader) return SQLITE_NOMEM;
    memset(reader, 0, sizeof *reader);
    *made = &reader->base;
    return SQLITE_OK;
}

/* Frees what a cursor has of the last split. */
static void empty(cursor *reader) {
    sqlite3_value_free(reader->operands[0]);
    sqlite3_value_free(reader->operands[1]);
    sqlite3_free(reader->parts);
    reader->operands[0] = reader->operands[1] = NULL;
    reader->parts = NULL;
    reader->count = reader->at = 0;
}

static int close_cursor(sqlite3_vtab_cursor *reader) {
    empty((cursor *) reader);
    sqlite3_free(reader);
    return SQLITE_OK;
}

/* Ends the statement with a reason. Where `place` is not 0, it is that of one element. */
static int refuse(cursor *reader, sqlite3_uint64 place, const char *reason) {
    table *split = (table *) reader->base.pVtab;
    char *whole = place ? sqlite3_mprintf("%s %llu: %s", split->self->element, place, reason) : sqlite3_mprintf("%s", reason);
    sqlite3_free(split->base.zErrMsg);
    split->base.zErrMsg = whole ? ratio_refusal(split->database, split->self->name, 2, reader->operands, whole) : NULL;
    sqlite3_free(whole);
    return split->base.zErrMsg ? SQLITE_ERROR : SQLITE_NOMEM;
}

/* Puts one element behind those that were read. */
static int append(cursor *reader, list *found, sqlite3_value *value) {
    const int is_shares = ((table *) reader->base.pVtab)->self->by_shares != 0;
    ratio_answer_i64 share;
    void *more;
    if (found->count == found->room) {
        more = sqlite3_realloc64(found->elements, (2 * found->room + 8) * found->size);
        if (!more) return SQLITE_NOMEM;
        found->elements = more;
        found->room = 2 * found->room + 8;
    }
    if (is_shares) {
        share = ratio_of_value(value);
        if (share.code == RATIO_NO_TEXT) return SQLITE_NOMEM;
        if (share.code != RATIO_ANSWERED) return refuse(reader, found->count + 1, ratio_code_text(share.code));
        ((ratio_i64 *) found->elements)[found->count] = share.value;
    } else {
        if (sqlite3_value_numeric_type(value) != SQLITE_INTEGER) return refuse(reader, found->count + 1, "no whole number");
        ((int64_t *) found->elements)[found->count] = sqlite3_value_int64(value);
    }
    found->count++;
    return SQLITE_OK;
}

/* Reads the elements of a JSON array, one a row of a statement. */
static int read_rows(cursor *reader, list *found, sqlite3_stmt *elements) {
    int status;
    while ((status = sqlite3_step(elements)) == SQLITE_ROW) {
        sqlite3_value *value = sqlite3_value_dup(sqlite3_column_value(elements, 0));
        status = value ? append(reader, found, value) : SQLITE_NOMEM;
        sqlite3_value_free(value);
        if (status != SQLITE_OK) return status;
    }
    return status == SQLITE_DONE ? SQLITE_OK : status;
}

/* Runs a statement over the list. The rows are elements of `found`, or where it is NULL, the only row says whether the list is an array. */
static int read_list(cursor *reader, list *found) {
    static const char is_array[] = "SELECT CASE WHEN json_valid(?1) THEN json_type(?1) = 'array' END";
    static const char each[] = "SELECT CASE WHEN type IN ('true', 'false') THEN type ELSE value END FROM json_each(?1)";
    sqlite3_stmt *statement = NULL;
    int status = sqlite3_prepare_v2(((table *) reader->base.pVtab)->database, found ? each : is_array, -1, &statement, NULL);
    if (status == SQLITE_OK) status = sqlite3_bind_value(statement, 1, reader->operands[1]);
    if (status == SQLITE_OK && found) {
        status = read_rows(reader, found, statement);
    } else if (status == SQLITE_OK) {
        status = sqlite3_step(statement);
        if (status == SQLITE_ROW) status = sqlite3_column_int(statement, 0) ? SQLITE_OK : refuse(reader, 0, "no JSON array");
    }
    sqlite3_finalize(statement);
    return status;
}

/* Splits the amount by the list that was read. */
static int split_by(cursor *reader, const list *found) {
    const kind *self = ((table *) reader->base.pVtab)->self;
    const int64_t amount = sqlite3_value_int64(reader->operands[0]);
    enum ratio_code code;
    int64_t *parts = sqlite3_malloc64((found->count + 1) * sizeof *parts);
    if (!parts) return SQLITE_NOMEM;
    reader->parts = parts;
    if (self->by_shares) code = self->by_shares(amount, found->elements, found->count, parts, found->count);
    else code = self->by_weights(amount, found->elements, found->count, parts, found->count);
    if (code != RATIO_ANSWERED) return refuse(reader, 0, ratio_code_text(code));
    reader->count = found->count;
    return SQLITE_OK;
}

/* Begins a split. If an operand is NULL, it has no rows. */
static int filter(sqlite3_vtab_cursor *base, int unused, const char *none, int count, sqlite3_value **operands) {
    cursor *reader = (cursor *) base;
    list found = {NULL, ((table *) base->pVtab)->self->by_shares ? sizeof(ratio_i64) : sizeof(int64_t), 0, 0};
    int i, status;
    (void) unused, (void) none;
    empty(reader);
    for (i = 0; i < count; i++) {
        reader->operands[i] = sqlite3_value_dup(operands[i]);
        if (!reader->operands[i]) return SQLITE_NOMEM;
    }
    if (sqlite3_value_type(operands[0]) == SQLITE_NULL || sqlite3_value_type(operands[1]) == SQLITE_NULL) return SQLITE_OK;
    if (sqlite3_value_numeric_type(operands[0]) != SQLITE_INTEGER) return refuse(reader, 0, "the amount is no whole number");
    status = read_list(reader, NULL);
    /* No pointer may be null, also to a list without elements. */
    if (status == SQLITE_OK && !(found.elements = sqlite3_malloc64(found.size))) status = SQLITE_NOMEM;
    if (status == SQLITE_OK) status = read_list(reader, &found);
    if (status == SQLITE_OK) status = split_by(reader, &found);
    sqlite3_free(found.elements);
    return status;
}

static int next(sqlite3_vtab_cursor *reader) {
    ((cursor *) reader)->at++;
    return SQLITE_OK;
}

static int is_behind(sqlite3_vtab_cursor *reader) {
    return ((cursor *) reader)->at >= ((cursor *) reader)->count;
}

static int column(sqlite3_vtab_cursor *base, sqlite3_context *call, int which) {
    const cursor *reader = (const cursor *) base;
    if (which == PART) sqlite3_result_int64(call, (sqlite3_int64) reader->at + 1);
    else if (which == VALUE) sqlite3_result_int64(call, reader->parts[reader->at]);
    else sqlite3_result_value(call, reader->operands[which - AMOUNT]);
    return SQLITE_OK;
}

static int row_number(sqlite3_vtab_cursor *reader, sqlite3_int64 *number) {
    *number = (sqlite3_int64) ((cursor *) reader)->at + 1;
    return SQLITE_OK;
}

/* Without a way to create one, it is only a table with operands behind its name. */
static const sqlite3_module module = {
    .xConnect = connect, .xDisconnect = disconnect, .xBestIndex = plan, .xOpen = open_cursor, .xClose = close_cursor,
    .xFilter = filter, .xNext = next, .xEof = is_behind, .xColumn = column, .xRowid = row_number,
};

int ratio_splits_init(sqlite3 *database) {
    int status = SQLITE_OK;
    size_t i;
    for (i = 0; status == SQLITE_OK && i < sizeof kinds / sizeof *kinds; i++) {
        status = sqlite3_create_module(database, kinds[i].name, &module, (void *) &kinds[i]);
    }
    return status;
}
