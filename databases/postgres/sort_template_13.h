/* In place of lib/sort_template.h, which PostgreSQL 13 lacks, for stored.c. This sort cannot be cancelled. */
static int
compare_items(const void *x, const void *y, void *unused)
{
	return ST_COMPARE((const ST_ELEMENT_TYPE *) x, (const ST_ELEMENT_TYPE *) y);
}

ST_SCOPE void
ST_SORT(ST_ELEMENT_TYPE *items, size_t many)
{
	qsort_arg(items, many, sizeof(ST_ELEMENT_TYPE), compare_items, NULL);
}
