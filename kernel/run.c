/* SPDX-License-Identifier: GPL-2.0 */
/* Runs a workload's threads, or a command. A thread is first of the usual class, on the core where it comes; there it
 * changes the class.
 */
#define _GNU_SOURCE
#include <errno.h>
#include <pthread.h>
#include <sched.h>
#include <signal.h>
#include <stdio.h>
#include <stdlib.h>
#include <string.h>
#include <sys/resource.h>
#include <sys/syscall.h>
#include <sys/wait.h>
#include <time.h>
#include <unistd.h>
#include "run.h"

enum { EXT_CLASS = 7 };

static struct workload *run;
static pthread_t runners[THREADS];
static volatile int over;
static double began, last_ended;
static pid_t child;
static int child_status;
int class_of_threads = EXT_CLASS;	/* the usual one, where Linux's own scheduler is measured */

static double seconds(clockid_t clock)
{
	struct timespec at;

	clock_gettime(clock, &at);
	return at.tv_sec + at.tv_nsec / 1e9;
}

static void rest(long milliseconds)
{
	struct timespec time = { milliseconds / 1000, milliseconds % 1000 * 1000000 };

	nanosleep(&time, NULL);
}

static void stay_on(int core)
{
	cpu_set_t set;

	CPU_ZERO(&set);
	CPU_SET(core, &set);
	sched_setaffinity(0, sizeof set, &set);
}

static void go_anywhere(void)
{
	cpu_set_t set;

	memset(&set, 0xff, sizeof set);
	sched_setaffinity(0, sizeof set, &set);
}

static void change_class(pid_t tid, int class)
{
	struct sched_param none = { 0 };

	if (sched_setscheduler(tid, class, &none) && errno != ESRCH)
		fprintf(stderr, "kernel: a thread couldn't change its class: %s\n", strerror(errno));
}

static void be_busy(long milliseconds)
{
	double end = seconds(CLOCK_THREAD_CPUTIME_ID) + milliseconds / 1e3;

	while (seconds(CLOCK_THREAD_CPUTIME_ID) < end && !over)
		for (volatile int turn = 0; turn < 5000; turn++)
			;
}

static void be_busy_as_process(long milliseconds)
{
	if (fork())
		return;
	be_busy(milliseconds);
	_exit(0);
}

static void act(const struct action *action)
{
	switch (action->kind) {
	case RUN:
		be_busy(action->milliseconds);
		break;
	case SLEEP:
		rest(action->milliseconds);
		break;
	case YIELD:
		sched_yield();
		break;
	case FORK:
		be_busy_as_process(action->milliseconds);
		break;
	case LEAVE:
		change_class(0, SCHED_OTHER);
	}
}

static void *live(void *argument)
{
	struct plan *plan = argument;

	stay_on(plan->core);
	plan->tid = syscall(SYS_gettid);
	setpriority(PRIO_PROCESS, plan->tid, plan->nice);
	rest(plan->after);
	if (plan->kind == PLANNED)
		go_anywhere();
	if (plan->kind != HOG)
		change_class(0, class_of_threads);
	for (int at = 0; at < plan->count && !over; at++)
		act(&plan->actions[at]);
	plan->ended = seconds(CLOCK_MONOTONIC) - began;
	plan->done = 1;
	return NULL;
}

static bool start_command(char **command)
{
	child = fork();
	if (child < 0) {
		fprintf(stderr, "kernel: there can't be another process: %s\n", strerror(errno));
		return false;
	}
	if (child)
		return true;
	setpgid(0, 0);
	change_class(0, class_of_threads);
	execvp(command[0], command);
	fprintf(stderr, "kernel: %s: %s\n", command[0], strerror(errno));
	_exit(127);
}

bool start_all(struct workload *workload, char **command)
{
	run = workload;
	began = seconds(CLOCK_MONOTONIC);
	if (command)
		return start_command(command);
	for (int at = 0; at < run->plan_count; at++) {
		if (pthread_create(&runners[at], NULL, live, &run->plans[at])) {
			fprintf(stderr, "kernel: there can't be another thread\n");
			run->plan_count = at;
			return false;
		}
	}
	return true;
}

int count_left(void)
{
	int left = 0;

	if (child && waitpid(child, &child_status, WNOHANG) == child) {
		child = 0;
		last_ended = seconds(CLOCK_MONOTONIC) - began;
	}
	for (int at = 0; at < run->plan_count; at++)
		left += !run->plans[at].done;
	return left + (child > 0);
}

static void meddle_with(const struct meddling *meddling, pid_t tid)
{
	cpu_set_t set;

	if (meddling->core < 0) {
		change_class(tid, SCHED_OTHER);
		return;
	}
	CPU_ZERO(&set);
	CPU_SET(meddling->core, &set);
	if (sched_setaffinity(tid, sizeof set, &set) && errno != ESRCH)
		fprintf(stderr, "kernel: a thread couldn't be pinned: %s\n", strerror(errno));
}

void meddle(void)
{
	double passed = seconds(CLOCK_MONOTONIC) - began;

	for (int at = 0; at < run->meddling_count; at++) {
		struct meddling *meddling = &run->meddlings[at];
		struct plan *plan = &run->plans[meddling->plan];

		if (meddling->after < 0 || passed < meddling->after / 1e3)
			continue;
		meddling->after = -1;
		if (plan->tid && !plan->done)
			meddle_with(meddling, plan->tid);
	}
}

void end_all(void)
{
	over = 1;
	if (child > 0) {
		kill(-child, SIGTERM);
		rest(200);
		kill(-child, SIGKILL);
		waitpid(child, &child_status, 0);
	}
	for (int at = 0; at < run->plan_count; at++) {
		pthread_join(runners[at], NULL);
		if (run->plans[at].ended > last_ended && run->plans[at].kind != HOG)
			last_ended = run->plans[at].ended;
	}
}

bool command_is_missing(void)
{
	return WIFEXITED(child_status) && WEXITSTATUS(child_status) == 127;
}

double time_of_last(void)
{
	return last_ended;
}
