/* SPDX-License-Identifier: GPL-2.0 */
/* ask OBJECT QUESTIONS: asks the functions of a header, as the processor has them and as the kernel runs their object of BPF, and
 * compares the answers. It writes by what the kernel ran them, how many questions there were, and how many answers differ.
 * Status 0: none differs. 1: some do. 2: it can't be done, which is said.
 */
#include <bpf/bpf.h>
#include <bpf/libbpf.h>
#include <errno.h>
#include <stdio.h>
#include <string.h>
#include <sys/mman.h>
#include "question.h"

static struct question *shared;		/* the kernel's own */
static int program;

static int fail(const char *what)
{
	fprintf(stderr, "ask: %s: %s\n", what, strerror(errno));
	return 2;
}

/* Loads the object. */
static const char *load(const char *file)
{
	struct bpf_object *object = bpf_object__open_file(file, NULL);
	struct bpf_map *map;

	if (!object || bpf_object__load(object))
		return "the object can't be loaded";
	program = bpf_program__fd(bpf_object__find_program_by_name(object, "ask"));
	map = bpf_object__find_map_by_name(object, ".bss");
	if (!map || bpf_map__value_size(map) < sizeof *shared)
		return "the object has no question";
	shared = mmap(NULL, sizeof *shared, PROT_READ | PROT_WRITE, MAP_SHARED, bpf_map__fd(map), 0);
	return shared == MAP_FAILED ? "the question can't be shared" : NULL;
}

/* What runs the object: the interpreter, or code for the processor. */
static const char *runner(void)
{
	struct bpf_prog_info info = { 0 };
	__u32 size = sizeof info;

	if (bpf_prog_get_info_by_fd(program, &info, &size))
		return "something";
	return info.jited_prog_len ? "code for the processor" : "the interpreter";
}

/* Whether both give the same answers to the values. */
static bool same(const struct values *values, int *status)
{
	LIBBPF_OPTS(bpf_test_run_opts, options);
	struct question question = { .values = *values };

	ask_all(&question);
	memset(&shared->answers, -1, sizeof shared->answers);
	shared->values = *values;
	if (bpf_prog_test_run_opts(program, &options) || options.retval)
		*status = fail("the kernel didn't run it");
	return !memcmp(&question, shared, sizeof question);
}

int main(int word_count, char **words)
{
	FILE *questions = word_count == 3 ? fopen(words[2], "r") : NULL;
	struct values values;
	long asked = 0, differ = 0;
	int status = 0;
	const char *wrong;

	if (!questions)
		return fail("the questions can't be read");
	if ((wrong = load(words[1])))
		return fail(wrong);
	for (; !status && fread(&values, sizeof values, 1, questions) == 1; asked++)
		differ += !same(&values, &status);
	printf("%s: %ld questions, %ld differ\n", runner(), asked, differ);
	return status ? status : differ > 0;
}
