/* SPDX-License-Identifier: GPL-2.0 */
/* Keeps entries while the scheduler runs, and writes them as lines. tools/kernel judge reads them; docs/KERNEL.md has
 * their form.
 */
#include <errno.h>
#include <stdio.h>
#include <stdlib.h>
#include <string.h>
#include "record.h"

static struct entry *entries;
static unsigned long entry_count;

bool prepare_record(void)
{
	entries = calloc(ENTRIES_KEPT, sizeof *entries);
	if (!entries)
		fprintf(stderr, "kernel: there is no memory for the record\n");
	return entries;
}

int keep_entry(void *context, void *data, unsigned long size)
{
	(void)context;
	if (size == sizeof *entries && entry_count < ENTRIES_KEPT)
		memcpy(&entries[entry_count++], data, size);
	return 0;
}

unsigned long kept_entries(void)
{
	return entry_count;
}

static void write_constants(FILE *out, int cores, const struct facts *facts, const struct settings *settings)
{
	char names[NAMES], *rest, *name = names;

	memcpy(names, facts->names, NAMES);
	names[NAMES - 1] = 0;
	name = strtok_r(names, " ", &rest);
	for (unsigned int at = 0; name && at < facts->attributes && at < ATTRS; at++, name = strtok_r(NULL, " ", &rest))
		for (int core = 0; core < cores; core++)
			if (settings->given[core][at])
				fprintf(out, "core %d %s %lld\n", core, name, settings->attrs[core][at]);
}

static void write_entry(FILE *out, const struct entry *e, int cores)
{
	fprintf(out, "%u %u %u %u %u %u %u %llu t", e->at, e->kind, e->round, e->core, e->other, e->word, e->weight,
		e->nanoseconds);
	for (unsigned int thread = 0; thread < e->count && thread < MOVES; thread++)
		fprintf(out, " %u", e->threads[thread]);
	fprintf(out, " :");
	for (int core = 0; core < cores; core++)
		fprintf(out, " %u", e->reads[core]);
	fprintf(out, "\n");
}

bool write_record(const char *name, int cores, const struct facts *facts, const struct settings *settings,
		  const char *end)
{
	FILE *out = fopen(name, "w");
	bool good;

	if (!out) {
		fprintf(stderr, "kernel: %s: %s\n", name, strerror(errno));
		return false;
	}
	fprintf(out, "record 1 cores %d placed %u unit %llu\n", cores, facts->placed, settings->unit);
	write_constants(out, cores, facts, settings);
	for (unsigned long at = 0; at < entry_count; at++)
		write_entry(out, &entries[at], cores);
	fprintf(out, "%send %lu\n", end, entry_count);
	good = !ferror(out);
	if (fclose(out) || !good) {
		fprintf(stderr, "kernel: %s: the record isn't whole: %s\n", name, strerror(errno));
		return false;
	}
	return true;
}
