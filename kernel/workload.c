/* SPDX-License-Identifier: GPL-2.0 */
/* Reads a workload. docs/KERNEL.md says what a line may be; a line whose first word begins with # says nothing. */
#include <errno.h>
#include <stdio.h>
#include <stdlib.h>
#include <string.h>
#include "workload.h"

static const char *file_name;
static int line_number;
static char *rest_of_line;

static bool fault(const char *what, const char *word)
{
	fprintf(stderr, "kernel: %s: line %d: %s: %s\n", file_name, line_number, word ? word : "the line ends", what);
	return false;
}

static char *next_word(void)
{
	return rest_of_line ? strtok_r(NULL, " \t\r\n", &rest_of_line) : NULL;
}

static bool read_number(long *value, long least, long greatest, const char *what)
{
	char *word = next_word(), *end;

	if (!word)
		return fault(what, NULL);
	errno = 0;
	*value = strtol(word, &end, 10);
	if (*end || errno || *value < least || *value > greatest)
		return fault(what, word);
	return true;
}

static bool read_core(int *core)
{
	long value;

	if (!read_number(&value, 0, CPUS - 1, "a core's number from 0 to 63 should stand here"))
		return false;
	*core = value;
	return true;
}

static bool read_time(long *milliseconds)
{
	return read_number(milliseconds, 0, SECONDS * 1000L, "milliseconds from 0 to 600000 should stand here");
}

static bool add_action(struct plan *plan, enum action_kind kind)
{
	struct action *action = &plan->actions[plan->count];

	if (plan->count == ACTIONS)
		return fault("a thread does at most 64 things", "this line");
	action->kind = kind;
	plan->count++;
	return kind == YIELD || kind == LEAVE || read_time(&action->milliseconds);
}

static bool read_action(struct plan *plan, const char *word)
{
	static const char *const words[] = { "run", "sleep", "yield", "fork", "leave" };

	for (int kind = RUN; kind <= LEAVE; kind++)
		if (!strcmp(word, words[kind]))
			return add_action(plan, kind);
	return fault("run, sleep, yield, fork or leave should stand here", word);
}

/* thread C [nice N] [after MS] ACTION .., and the same for a thread that is pinned and for a hog. */
static bool read_plan(struct workload *workload, enum plan_kind kind)
{
	struct plan *plan = &workload->plans[workload->plan_count];
	long nice = 0;
	char *word;

	if (workload->plan_count == THREADS - 1)
		return fault("there are at most 1023 threads", "this line");
	plan->kind = kind;
	if (!read_core(&plan->core))
		return false;
	for (word = next_word(); word; word = next_word()) {
		if (!strcmp(word, "nice")) {
			if (!read_number(&nice, -20, 19, "a nice value from -20 to 19 should stand here"))
				return false;
		} else if (!strcmp(word, "after")) {
			if (!read_time(&plan->after))
				return false;
		} else if (!read_action(plan, word)) {
			return false;
		}
	}
	plan->nice = nice;
	workload->plan_count++;
	return plan->count > 0 || fault("a thread has to do something", NULL);
}

/* at MS pin T C, or at MS move T: threads are counted from 1, in the order of their lines. */
static bool read_meddling(struct workload *workload)
{
	struct meddling *meddling = &workload->meddlings[workload->meddling_count];
	char *word;
	long plan;

	if (workload->meddling_count == MEDDLINGS)
		return fault("at most 16 lines begin with at", "this line");
	if (!read_time(&meddling->after))
		return false;
	word = next_word();
	if (!word || (strcmp(word, "pin") && strcmp(word, "move")))
		return fault("pin or move should stand here", word);
	if (!read_number(&plan, 1, workload->plan_count, "the number of a thread of an earlier line should stand here"))
		return false;
	meddling->plan = plan - 1;
	meddling->core = -1;
	workload->meddling_count++;
	return *word == 'm' || read_core(&meddling->core);
}

static bool read_constants(struct workload *workload)
{
	char *value;
	int core;

	if (!read_core(&core))
		return false;
	if (workload->lines[core])
		return fault("its constants were given before", "this core");
	workload->lines[core] = line_number;
	value = workload->constants[core];
	snprintf(value, NAMES, "%s", rest_of_line ? rest_of_line : "");
	rest_of_line = NULL;
	return true;
}

static bool read_line(struct workload *workload, const char *word)
{
	long value;

	if (!strcmp(word, "thread"))
		return read_plan(workload, PLANNED);
	if (!strcmp(word, "pinned"))
		return read_plan(workload, PINNED);
	if (!strcmp(word, "hog"))
		return read_plan(workload, HOG);
	if (!strcmp(word, "at"))
		return read_meddling(workload);
	if (!strcmp(word, "core"))
		return read_constants(workload);
	if (strcmp(word, "unit"))
		return fault("thread, pinned, hog, core, at or unit should stand here", word);
	if (!read_number(&value, 100, 1000000, "microseconds from 100 to 1000000 should stand here"))
		return false;
	workload->settings.unit = value * 1000;
	return true;
}

bool read_workload(struct workload *workload, const char *name)
{
	FILE *file = fopen(name, "r");
	char line[4096];
	bool good = true;

	file_name = name;
	if (!file) {
		fprintf(stderr, "kernel: %s: %s\n", name, strerror(errno));
		return false;
	}
	for (line_number = 1; good && fgets(line, sizeof line, file); line_number++) {
		char *word;

		if (!strchr(line, '\n') && !feof(file)) {
			good = fault("it is longer than 4094 bytes", "the line");
			break;
		}
		word = strtok_r(line, " \t\r\n", &rest_of_line);
		if (word && *word != '#')
			good = read_line(workload, word) && (!(word = next_word()) || fault("nothing should stand here", word));
	}
	fclose(file);
	if (good && !workload->plan_count)
		good = fault("there is no thread", "the file");
	return good;
}

/* The place of the name among the policy's attributes of cores, -1 where it isn't one. */
static int attribute_of(const struct facts *facts, const char *name)
{
	char names[NAMES], *rest, *word = names;
	int at = 0;

	memcpy(names, facts->names, NAMES);
	names[NAMES - 1] = 0;
	for (word = strtok_r(names, " ", &rest); word; word = strtok_r(NULL, " ", &rest), at++)
		if (!strcmp(word, name))
			return at;
	return -1;
}

static bool fit_core(struct workload *workload, int core, const struct facts *facts)
{
	struct settings *settings = &workload->settings;
	char *name = strtok_r(workload->constants[core], " \t\r\n", &rest_of_line);

	line_number = workload->lines[core];
	for (; name; name = next_word()) {
		int at = attribute_of(facts, name);
		long value;

		if (!read_number(&value, -1048575, 1048575, "a number from -1048575 to 1048575 should stand here"))
			return false;
		if (at < 0)
			continue;
		if (value < facts->least[at] || value > facts->greatest[at])
			return fault("the policy's range doesn't have the value given", name);
		settings->given[core][at] = 1;
		settings->attrs[core][at] = value;
	}
	return true;
}

bool fit_constants(struct workload *workload, const char *name, const struct facts *facts)
{
	file_name = name;
	for (int core = 0; core < CPUS; core++)
		if (workload->lines[core] && !fit_core(workload, core, facts))
			return false;
	return true;
}
