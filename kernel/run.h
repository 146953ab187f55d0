/* SPDX-License-Identifier: GPL-2.0 */
/* The threads of a workload, or a command, as they run in the class of sched_ext. */
#ifndef RUN_H
#define RUN_H
#include <stdbool.h>
#include "workload.h"

/* Starts the workload's threads, or the command where there are words of one. */
bool start_all(struct workload *workload, char **command);

/* How many of them haven't ended. */
int count_left(void);

/* Does to threads from outside what is due. */
void meddle(void);

/* Lets busy threads end early, ends the command, and waits for all. */
void end_all(void);

/* Whether there is no such command. */
bool command_is_missing(void);

/* Seconds from the start until the last thread ended. */
double time_of_last(void);

#endif
