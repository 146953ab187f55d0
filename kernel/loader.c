/* SPDX-License-Identifier: GPL-2.0 */
/* Loads the scheduler, runs a workload or a command under it, unloads it, and writes the record.
 *
 * loader OBJECT RECORD SECONDS [unit N] [period N] WORKLOAD, or in its place `--` and a command. Where OBJECT is
 * `none`, Linux's own scheduler is left, and no record is written. When this process ends in whatever way, the kernel
 * unloads the scheduler. Status: 0, 1 where something went wrong, which is said, 2 for bad words or a bad workload.
 */
#define _GNU_SOURCE
#include <bpf/bpf.h>
#include <bpf/libbpf.h>
#include <errno.h>
#include <signal.h>
#include <stdarg.h>
#include <stdio.h>
#include <stdlib.h>
#include <string.h>
#include <time.h>
#include <unistd.h>
#include "record.h"
#include "run.h"

extern int class_of_threads;

static struct workload workload = { .settings = { .unit = 4000000, .period = 1000000, .entries = ENTRIES_MAX } };
static struct facts facts;
static unsigned long long counters[COUNTERS];
static volatile sig_atomic_t told_to_end;
static char reason[512];		/* why the verifier refused the scheduler */

static void note_end(int number)
{
	told_to_end = number;
}

static void pause_milliseconds(long milliseconds)
{
	struct timespec time = { milliseconds / 1000, milliseconds % 1000 * 1000000 };

	nanosleep(&time, NULL);
}

/* The verifier's reason is the first line behind the last instruction that it looked at, whose line begins with a
 * number.
 */
static void find_reason(char *log)
{
	char *rest, *line;
	bool behind = false;

	for (line = strtok_r(log, "\n", &rest); line; line = strtok_r(NULL, "\n", &rest)) {
		if (*line >= '0' && *line <= '9' && line[strspn(line, "0123456789")] == ':') {
			behind = true;
		} else if (behind && *line != ';') {
			snprintf(reason, sizeof reason, "%s", line);
			behind = false;
		}
	}
}

/* Listens to libbpf, which tells what the verifier said. */
static int keep_reason(enum libbpf_print_level level, const char *form, va_list rest)
{
	char *text;
	int length;

	if (level == LIBBPF_DEBUG || (length = vasprintf(&text, form, rest)) < 0)
		return 0;
	if (strstr(text, "BEGIN PROG LOAD LOG"))
		find_reason(text);
	free(text);
	return length;
}

static bool fail(const char *what)
{
	fprintf(stderr, "kernel: %s: %s\n", what, strerror(errno));
	return false;
}

static bool read_state(char *state, int size)
{
	FILE *file = fopen("/sys/kernel/sched_ext/state", "r");
	bool there = file && fgets(state, size, file);

	if (file)
		fclose(file);
	if (!there)
		fprintf(stderr, "kernel: this kernel has no sched_ext\n");
	state[there ? strcspn(state, "\n") : 0] = 0;
	return there;
}

static bool say_taken(void)
{
	fprintf(stderr, "kernel: another scheduler of sched_ext is loaded\n");
	return false;
}

static bool may_load(void)
{
	char state[64];

	if (geteuid()) {
		fprintf(stderr, "kernel: only root may load a scheduler\n");
		return false;
	}
	return read_state(state, sizeof state) && (!strcmp(state, "disabled") || say_taken());
}

static struct bpf_map *map_named(struct bpf_object *object, const char *name)
{
	struct bpf_map *map;

	bpf_object__for_each_map(map, object)
		if (strstr(bpf_map__name(map), name))
			return map;
	return NULL;
}

static bool write_settings(struct bpf_object *object)
{
	int key = 0;

	return !bpf_map_update_elem(bpf_map__fd(map_named(object, "data.settings")), &key, &workload.settings, 0)
		|| fail("the settings can't be written");
}

static bool read_counters(struct bpf_object *object)
{
	int key = 0;

	return !bpf_map_lookup_elem(bpf_map__fd(map_named(object, "data.counters")), &key, counters);
}

static struct bpf_object *load(const char *name)
{
	struct bpf_object *object = bpf_object__open_file(name, NULL);
	int key = 0;

	if (!object) {
		fail(name);
		return NULL;
	}
	if (bpf_object__load(object)) {
		fprintf(stderr, "kernel: the kernel refused the scheduler: %s\n", *reason ? reason : strerror(errno));
	} else if (bpf_map_lookup_elem(bpf_map__fd(map_named(object, "data.facts")), &key, &facts)) {
		fail("the policy's facts can't be read");
	} else {
		return object;
	}
	bpf_object__close(object);
	return NULL;
}

/* Until all threads have ended, the record is full, the kernel has unloaded the scheduler, or the time is over. */
static const char *watch(struct ring_buffer *ring, struct bpf_object *object, double seconds)
{
	char state[64];
	struct timespec now;
	double end;

	clock_gettime(CLOCK_MONOTONIC, &now);
	end = now.tv_sec + now.tv_nsec / 1e9 + seconds;
	while (count_left()) {
		if (ring)
			ring_buffer__poll(ring, 20);
		else
			pause_milliseconds(20);
		meddle();
		clock_gettime(CLOCK_MONOTONIC, &now);
		if (told_to_end)
			return "interrupted";
		if (now.tv_sec + now.tv_nsec / 1e9 > end)
			return "time over";
		if (object && read_counters(object) && counters[RECORD_FULL])
			return "record full";
		if (object && read_state(state, sizeof state) && strcmp(state, "enabled"))
			return "unloaded by the kernel";
	}
	return "ended";
}

static const char *counted(const char *how)
{
	static const char *const names[COUNTERS] = { "lost", "departures", "beside", "rounds", "deferred", "timer", "overdue",
		"helped", "full", "exit", "raced" };
	static char text[1024];
	int length = snprintf(text, sizeof text, "run %s\ntook %.3f\n", how, time_of_last());

	for (int at = 0; at < COUNTERS && names[at]; at++)
		length += snprintf(text + length, sizeof text - length, "%s %llu\n", names[at], counters[at]);
	return text;
}

/* Lets the last round end, stops the rounds, and unloads the scheduler. */
static void unload(struct bpf_object *object, struct bpf_link *link, struct ring_buffer *ring)
{
	char state[64];

	pause_milliseconds(50);
	workload.settings.stop = 1;
	write_settings(object);
	pause_milliseconds(20);
	bpf_link__destroy(link);
	for (int tries = 0; tries < 200 && read_state(state, sizeof state) && strcmp(state, "disabled"); tries++)
		pause_milliseconds(10);
	ring_buffer__consume(ring);
	read_counters(object);
}

static int run_under(struct bpf_object *object, const char *record, double seconds, char **command)
{
	struct bpf_link *link;
	struct ring_buffer *ring;
	const char *how;
	bool good;

	ring = ring_buffer__new(bpf_map__fd(bpf_object__find_map_by_name(object, "record")),
				(ring_buffer_sample_fn)keep_entry, NULL, NULL);
	if (!ring || !write_settings(object))
		return 1;
	link = bpf_map__attach_struct_ops(bpf_object__find_map_by_name(object, "balancer"));
	if (!link)
		return !(errno == EBUSY ? say_taken() : fail("the scheduler can't be loaded"));
	good = start_all(&workload, command);
	how = good ? watch(ring, object, seconds) : "not started";
	unload(object, link, ring);
	end_all();
	good = good && !command_is_missing();
	return !write_record(record, libbpf_num_possible_cpus(), &facts, &workload.settings, counted(how)) || !good;
}

static int run_alone(double seconds, char **command)
{
	const char *how;

	class_of_threads = 0;
	if (!start_all(&workload, command))
		return 1;
	how = watch(NULL, NULL, seconds);
	end_all();
	printf("run %s\ntook %.3f\n", how, time_of_last());
	return 0;
}

/* The words `unit N` and `period N`, in microseconds, that stand before the workload. */
static char **read_options(char **words)
{
	for (; words[0] && words[1]; words += 2) {
		unsigned long long value = strtoull(words[1], NULL, 10) * 1000;

		if (!strcmp(words[0], "unit"))
			workload.settings.unit = value;
		else if (!strcmp(words[0], "period"))
			workload.settings.period = value;
		else
			break;
	}
	return words;
}

int main(int word_count, char **words)
{
	struct sigaction action = { .sa_handler = note_end };
	struct bpf_object *object;
	unsigned long long unit;
	char **rest;

	if (word_count < 5) {
		fprintf(stderr, "kernel: loader OBJECT RECORD SECONDS [unit N] [period N] WORKLOAD\n");
		return 2;
	}
	rest = read_options(words + 4);
	unit = workload.settings.unit;
	if (!rest[0] || (strcmp(rest[0], "--") ? !read_workload(&workload, rest[0]) : !rest[1]))
		return 2;
	if (rest != words + 4)
		workload.settings.unit = unit;		/* what is told here counts more than the workload's line */
	sigaction(SIGINT, &action, NULL);
	sigaction(SIGTERM, &action, NULL);
	sigaction(SIGHUP, &action, NULL);
	if (!strcmp(words[1], "none"))
		return run_alone(atof(words[3]), strcmp(rest[0], "--") ? NULL : rest + 1);
	libbpf_set_print(keep_reason);
	if (!may_load() || !prepare_record() || !(object = load(words[1])))
		return 1;
	if (strcmp(rest[0], "--") && !fit_constants(&workload, rest[0], &facts))
		return 2;
	return run_under(object, words[2], atof(words[3]), strcmp(rest[0], "--") ? NULL : rest + 1);
}
