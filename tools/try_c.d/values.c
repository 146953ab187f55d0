/*
 * Asks every function of a printed header, for tools/try_c.
 *
 *     values draw SEED COUNT   draws values, and writes behind each ':' what the functions answer
 *     values ask WORD ..       whether the filter and the batch hold at the point of these words, as `self.nr=2`
 */
#include "common.h"

static struct NAME(_core) self, a, b;
static struct NAME(_thread) one, other;
static uint64_t state;

/* A number between the two: near one of them, near 0, or any. */
static int64_t draw(int64_t least, int64_t greatest)
{
	uint64_t drawn, near;
	int64_t value;

	state = state * 6364136223846793005u + 1442695040888963407u;
	drawn = state >> 33;
	near = drawn / 4 % 4;
	switch (drawn % 4) {
	case 0:
		value = least + (int64_t)near;
		break;
	case 1:
		value = greatest - (int64_t)near;
		break;
	case 2:
		value = (int64_t)near - 1;
		break;
	default:
		value = least + (int64_t)(drawn / 4 % (uint64_t)(greatest - least + 1));
	}
	return value < least ? least : value > greatest ? greatest : value;
}

static void draw_attrs(void *owner, const struct attr *attrs)
{
	for (; attrs->name; attrs++)
		*field(owner, attrs) = draw(attrs->least, attrs->greatest);
}

static void write_attrs(void *owner, const struct attr *attrs)
{
	for (; attrs->name; attrs++)
		printf(" %lld", (long long)*field(owner, attrs));
}

static void draw_core(struct NAME(_core) *core)
{
	core->nr = draw(0, NAME(_NR_MAX));
	core->load = draw(0, NAME(_LOAD_MAX));
	draw_attrs(core, core_attrs);
	printf(" %lld %lld", (long long)core->nr, (long long)core->load);
	write_attrs(core, core_attrs);
}

static void draw_thread(struct NAME(_thread) *thread)
{
	thread->weight = draw(NAME(_WEIGHT_MIN), NAME(_WEIGHT_MAX));
	draw_attrs(thread, thread_attrs);
	printf(" %lld", (long long)thread->weight);
	write_attrs(thread, thread_attrs);
}

/* Where an event puts the thread, and its attributes as the event leaves them. */
static void write_outcome(enum NAME(_put) where, struct NAME(_thread) *thread)
{
	printf(" %s", where == NAME(_put_queue) ? "queue" : where == NAME(_put_keep) ? "keep" : "block");
	write_attrs(thread, thread_attrs);
}

static void write_events(bool fresh)
{
	struct NAME(_thread) thread = one;

	write_outcome(NAME(_on_enqueue)(&self, &thread, fresh), &thread);
	thread = one;
	write_outcome(NAME(_on_tick)(&self, &thread), &thread);
	thread = one;
	write_outcome(NAME(_on_yield)(&self, &thread), &thread);
	thread = one;
	write_outcome(NAME(_on_block)(&self, &thread), &thread);
}

static void write_answers(bool fresh)
{
	printf(" : %d %d", NAME(_may_steal)(&self, &a), NAME(_choose_before)(&self, &a, &b));
	printf(" %d %d", NAME(_steal_before)(&one, &other), NAME(_elect_before)(&one, &other));
	printf(" %d %d", NAME(_place_before)(&a, &b), NAME(_steal_on)(&self, &a, &one));
	write_events(fresh);
	puts("");
}

static void write_range(const char *kind, const struct attr *attr)
{
	printf("%s %s %lld %lld %lld\n", kind, attr->name, (long long)attr->least, (long long)attr->greatest, (long long)attr->start);
}

/* The constants of the header, a line each. */
static void write_constants(void)
{
	printf("accepted %d\n", NAME(_ACCEPTED));
	printf("%d %d %d %d %d %d\n", NAME(_NR_MAX), NAME(_LOAD_MAX), NAME(_WEIGHT_MIN), NAME(_WEIGHT_MAX), NAME(_STEAL_LIMIT), NAME(_PLACE_HERE));
	for (const struct attr *attr = core_attrs; attr->name; attr++)
		write_range("core", attr);
	for (const struct attr *attr = thread_attrs; attr->name; attr++)
		write_range("thread", attr);
}

static void set_word(char *word)
{
	char *name = strchr(word, '.') + 1, *number = strchr(word, '=') + 1;
	int64_t value = strtoll(number, NULL, 10);
	struct NAME(_core) *core = *word == 's' ? &self : &a;

	number[-1] = 0;
	if (*word == 't' && !strcmp(name, "weight"))
		one.weight = value;
	else if (*word == 't')
		set_named(&one, thread_attrs, name, value);
	else if (!strcmp(name, "nr"))
		core->nr = value;
	else if (!strcmp(name, "load"))
		core->load = value;
	else
		set_named(core, core_attrs, name, value);
}

int main(int count, char **words)
{
	if (!strcmp(words[1], "ask")) {
		for (int at = 2; at < count; at++)
			set_word(words[at]);
		printf("%d %d\n", NAME(_may_steal)(&self, &a), NAME(_steal_on)(&self, &a, &one));
		return 0;
	}
	state = strtoull(words[2], NULL, 10);
	write_constants();
	for (long left = strtol(words[3], NULL, 10); left > 0; left--) {
		bool fresh = draw(0, 1);

		draw_core(&self), draw_core(&a), draw_core(&b), draw_thread(&one), draw_thread(&other);
		printf(" %d", fresh);
		write_answers(fresh);
	}
	return 0;
}
