/* SPDX-License-Identifier: GPL-2.0 */
/* A workload as it was read: threads and what they do, constants of cores, and what is done to threads from outside. */
#ifndef WORKLOAD_H
#define WORKLOAD_H
#include <stdbool.h>
#include "shared.h"

enum { ACTIONS = 64, MEDDLINGS = 16, SECONDS = 600 };
enum action_kind { RUN, SLEEP, YIELD, FORK, LEAVE };
/* A planned thread is of the model; a pinned one runs beside it; a hog is of the usual class. */
enum plan_kind { PLANNED, PINNED, HOG };

struct action { enum action_kind kind; long milliseconds; };

struct plan {
	enum plan_kind kind;
	int core, nice, count;
	long after;
	struct action actions[ACTIONS];
	volatile int tid, done;			/* while it runs */
	double ended;
};

/* After so many milliseconds the thread is pinned to a core, or, where that is below 0, moved to the usual class. */
struct meddling { long after; int plan, core; };

struct workload {
	struct plan plans[THREADS];
	struct meddling meddlings[MEDDLINGS];
	int plan_count, meddling_count;
	struct settings settings;
	unsigned short lines[CPUS];		/* of each core, the line that gave its constants */
	char constants[CPUS][NAMES];		/* and what it gave: NAME V .. */
};

/* Reads the file. Of a fault it says the line and the word on standard error. */
bool read_workload(struct workload *workload, const char *name);

/* Gives the policy's constants the values of the file. A name that the policy doesn't have says nothing of it. */
bool fit_constants(struct workload *workload, const char *name, const struct facts *facts);

#endif
