/* SPDX-License-Identifier: GPL-2.0 */
/* The record of a run: the entries that the scheduler writes to its ring, and their text. */
#ifndef RECORD_H
#define RECORD_H
#include <stdbool.h>
#include "shared.h"

enum { ENTRIES_MAX = 65536, ENTRIES_KEPT = ENTRIES_MAX + 4096 };

/* Makes room for all entries that a history may have. */
bool prepare_record(void);

/* Keeps one entry; for the reader of a ring. */
int keep_entry(void *context, void *data, unsigned long size);

unsigned long kept_entries(void);

/* Writes the record to the file, or says on standard error why it couldn't. `end` are further lines. */
bool write_record(const char *name, int cores, const struct facts *facts, const struct settings *settings,
		  const char *end);

#endif
