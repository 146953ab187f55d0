/* SPDX-License-Identifier: GPL-2.0 */
/* What the scheduler and its loader both know: limits, settings, counters, and the form of a recorded entry. */
#ifndef SHARED_H
#define SHARED_H

enum { CPUS = 64, THREADS = 1024, MOVES = 8, ATTRS = 8, COUNTERS = 16, NAMES = 512, ROUNDS_MAX = 4096 };

/* What an entry of the record tells. All but the last kind are entries of a history. */
enum entry_kind { A_ROUND, AN_ENTER, A_WAKE, A_WORK, A_STEAL, A_FAIL, A_PASS, A_DEPARTURE };

/* How a unit ended, in an entry of work. A yield adds AFTER_YIELD. */
enum outcome { TO_NOTHING, TO_KEEP, TO_QUEUE, TO_BLOCK, TO_END, AFTER_YIELD = 8 };

/* Its place in the history is `at`, a number that is drawn while the cores which the entry touches are held. */
struct entry {
	unsigned long long nanoseconds;
	unsigned int at, kind, round, core, other, word, count;
	unsigned int threads[MOVES], weight;
	unsigned int reads[CPUS];
};

/* Set by the loader before the scheduler begins; `stop` later too. A unit is CPU time, in nanoseconds. */
struct settings {
	unsigned long long unit, period;
	unsigned int stop, entries;
	unsigned char given[CPUS][ATTRS];	/* whether this constant of this core was given, else it begins as the policy says */
	long long attrs[CPUS][ATTRS];
};

/* What the loader has to know of the policy: whether it places threads, and its attributes of cores with their ranges.
 */
struct facts {
	unsigned int placed, attributes;
	long long least[ATTRS], greatest[ATTRS];
	char names[NAMES];			/* a blank before each */
};

enum counter {
	LOST_ENTRIES, DEPARTURES, BESIDE, ROUNDS, DEFERRED, BY_TIMER, OVERDUE, HELPED, RECORD_FULL, EXIT_KIND, RACED
};

#endif
