/*
 * Plays a trace on its standard input serially, as a balancer would by the functions of a printed header, and writes its
 * history: that of `ipanema play`. Status 8 where the next round might not fit the trace's limit of entries.
 */
#include "common.h"

#define BLANKS " \t\r\n"

enum { CORES = 64, THREADS = 1023, ROUNDS = 4096, BURSTS = 16, TURNS = 256 };
enum ending { YIELD, BLOCK, END, FOREVER };

struct thread {
	struct NAME(_thread) seen;
	struct burst { enum ending ending; long units, rounds; } bursts[BURSTS];
	long number, core, round, burst, done, wake;
	bool entered, ended;
};

struct core {
	struct NAME(_core) seen, look[CORES];
	struct thread *current;
	struct list { long length; struct thread *items[THREADS]; } queue, blocked;
	long touched, reads[CORES];
	bool worked, looked, attempted;
};

typedef bool before(const struct NAME(_thread) *, const struct NAME(_thread) *);

static struct core cores[CORES];
static struct thread threads[THREADS];
static long core_count, thread_count, round_count, limit = 8192, round_now, entries, start;
static long turn_counts[ROUNDS + 1], turns[ROUNDS + 1][TURNS];

static void push(struct thread *thread, struct list *list)
{
	list->items[list->length++] = thread;
}

static struct thread *take(struct list *list, long at)
{
	struct thread *taken = list->items[at];

	memmove(list->items + at, list->items + at + 1, (size_t)(--list->length - at) * sizeof *list->items);
	return taken;
}

/* The place of the thread that comes first, of equals the earliest. */
static long best_of(const struct list *list, before *first)
{
	long best = 0;

	for (long at = 1; at < list->length; at++)
		if (first(&list->items[at]->seen, &list->items[best]->seen))
			best = at;
	return best;
}

static void recount(struct core *core)
{
	core->seen.nr = core->queue.length + (core->current != NULL);
	core->seen.load = core->current ? core->current->seen.weight : 0;
	for (long at = 0; at < core->queue.length; at++)
		core->seen.load += core->queue.items[at]->seen.weight;
}

static const char *put(struct core *core, struct thread *thread, enum NAME(_put) where)
{
	if (where == NAME(_put_keep))
		core->current = thread;
	else
		push(thread, where == NAME(_put_queue) ? &core->queue : &core->blocked);
	recount(core);
	return where == NAME(_put_keep) ? "keep" : where == NAME(_put_queue) ? "queue" : "block";
}

/* How many entries behind the round's start the last one stands that touched the core. */
static long read_of(long core)
{
	return cores[core].touched > start ? cores[core].touched - start : 0;
}

/* Ends the line of an entry that touches these two cores. */
static void end_entry(struct core *one, struct core *other)
{
	puts("");
	one->touched = other->touched = ++entries;
}

/* A thread comes to a core by way of another, which looks at all cores where the policy asks for that. */
static bool let_in(const char *word, long by, struct thread *thread, bool fresh)
{
	long to = NAME(_PLACE_HERE) ? by : 0;

	for (long at = 1; at < core_count && !NAME(_PLACE_HERE); at++)
		if (NAME(_place_before)(&cores[at].seen, &cores[to].seen))
			to = at;
	printf("%s %ld %ld %ld%s", word, thread->number, by, to, NAME(_PLACE_HERE) ? "" : " :");
	for (long at = 0; at < core_count && !NAME(_PLACE_HERE); at++)
		printf(" %ld", read_of(at));
	put(&cores[to], thread, NAME(_on_enqueue)(&cores[to].seen, &thread->seen, fresh));
	end_entry(&cores[to], fresh ? &cores[to] : &cores[by]);
	return true;
}

/* What comes of the thread behind its unit. */
static const char *meet(struct core *core, struct thread *thread)
{
	const struct burst *burst = &thread->bursts[thread->burst];

	if (burst->ending == FOREVER || ++thread->done < burst->units)
		return put(core, thread, NAME(_on_tick)(&core->seen, &thread->seen));
	thread->burst++;
	thread->done = 0;
	thread->wake = round_now + burst->rounds;
	if (burst->ending == YIELD)
		return put(core, thread, NAME(_on_yield)(&core->seen, &thread->seen));
	if (burst->ending == BLOCK)
		return put(core, thread, NAME(_on_block)(&core->seen, &thread->seen));
	thread->ended = true;
	recount(core);
	return "end";
}

static void work(long by, struct core *core)
{
	struct thread *thread = core->current;

	if (!thread && core->queue.length)
		thread = take(&core->queue, best_of(&core->queue, NAME(_elect_before)));
	core->current = NULL;
	core->worked = true;
	if (thread)
		printf("work %ld %ld %s", by, thread->number, meet(core, thread));
	else
		printf("work %ld -", by);
	end_entry(core, core);
}

static void look(struct core *core)
{
	for (long at = 0; at < core_count; at++) {
		core->look[at] = cores[at].seen;
		core->reads[at] = read_of(at);
	}
	core->looked = true;
}

/* The core to steal from, by what was seen of all cores, or -1. Of equals it is the one with the lowest number. */
static long choice(long by, const struct NAME(_core) *seen)
{
	long best = -1;

	for (long at = 0; at < core_count; at++)
		if (at != by && NAME(_may_steal)(&seen[by], &seen[at])
		    && (best < 0 || NAME(_choose_before)(&seen[by], &seen[at], &seen[best])))
			best = at;
	return best;
}

/* Moves threads, and says how many. The filter is asked again before the first, and the batch before the others. */
static long steal(struct core *thief, struct core *victim, long *stolen)
{
	long moved = 0;

	while (moved < NAME(_STEAL_LIMIT) && victim->queue.length) {
		long at = best_of(&victim->queue, NAME(_steal_before));
		struct thread *next = victim->queue.items[at];

		if (moved ? !NAME(_steal_on)(&thief->seen, &victim->seen, &next->seen) : !NAME(_may_steal)(&thief->seen, &victim->seen))
			break;
		push(take(&victim->queue, at), &thief->queue);
		stolen[moved++] = next->number;
		recount(thief);
		recount(victim);
	}
	return moved;
}

static void attempt(long by, struct core *core)
{
	long stolen[NAME(_STEAL_LIMIT)], from = choice(by, core->look), moved = from < 0 ? 0 : steal(core, &cores[from], stolen);

	if (from < 0)
		printf("pass %ld", by);
	else
		printf("%s %ld %ld", moved ? "steal" : "fail", by, from);
	for (long at = 0; at < moved; at++)
		printf(" %ld", stolen[at]);
	printf(" :");
	for (long at = 0; at < core_count; at++)
		printf(" %ld", core->reads[at]);
	core->attempted = true;
	end_entry(core, from < 0 ? core : &cores[from]);
}

/* The core's next step in its turn, if one is left. */
static bool step(long by)
{
	struct core *core = &cores[by];

	for (struct thread *thread = threads; thread < threads + thread_count; thread++)
		if (thread->core == by && thread->round == round_now && !thread->entered)
			return thread->entered = true, let_in("enter", by, thread, true);
	for (long at = 0; at < core->blocked.length; at++)
		if (core->blocked.items[at]->wake <= round_now)
			return let_in("wake", by, take(&core->blocked, at), false);
	if (core->attempted)
		return false;
	if (!core->worked)
		work(by, core);
	else if (!core->looked)
		look(core);
	else
		attempt(by, core);
	return true;
}

static bool is_due(void)
{
	for (long at = 0; at < thread_count; at++)
		if (!threads[at].ended)
			return round_now < round_count;
	return false;
}

static void play_round(void)
{
	printf("round %ld\n", ++round_now);
	start = ++entries;
	for (long at = 0; at < core_count; at++)
		cores[at].worked = cores[at].looked = cores[at].attempted = false;
	for (long at = 0; at < turn_counts[round_now]; at++)
		step(turns[round_now][at]);
	for (long at = 0; at < core_count;)
		at += !step(at);
}

static long number(void)
{
	return strtol(strtok(NULL, BLANKS), NULL, 10);
}

static void read_thread(struct thread *thread, long called)
{
	long last = -1;

	set_starts(&thread->seen, thread_attrs);
	thread->seen.weight = 1;
	thread->number = called;
	for (const char *word; (word = strtok(NULL, BLANKS));)
		if (!strcmp(word, "core"))
			thread->core = number();
		else if (!strcmp(word, "round"))
			thread->round = number();
		else if (!strcmp(word, "weight"))
			thread->seen.weight = NAME(_WEIGHT_MAX) == 1 ? number(), 1 : number();
		else if (!strcmp(word, "run"))
			thread->bursts[++last] = (struct burst){ END, number(), 0 };
		else if (!strcmp(word, "forever"))
			thread->bursts[++last] = (struct burst){ FOREVER, 0, 0 };
		else if (!strcmp(word, "yield"))
			thread->bursts[last].ending = YIELD;
		else
			thread->bursts[last] = (struct burst){ BLOCK, thread->bursts[last].units, number() };
}

static void read_line(const char *word)
{
	const long first = number();

	if (!strcmp(word, "thread"))
		read_thread(&threads[thread_count++], first);
	else if (!strcmp(word, "order"))
		while ((word = strtok(NULL, BLANKS)))
			turns[first][turn_counts[first]++] = strtol(word, NULL, 10);
	else if (!strcmp(word, "core"))
		while ((word = strtok(NULL, BLANKS)))
			set_named(&cores[first].seen, core_attrs, word, number());
	else
		*(!strcmp(word, "cores") ? &core_count : !strcmp(word, "rounds") ? &round_count : &limit) = first;
}

int main(void)
{
	static char line[1 << 16];
	const char *word;

	for (long at = 0; at < CORES; at++)
		set_starts(&cores[at].seen, core_attrs);
	while (fgets(line, sizeof line, stdin))
		if ((word = strtok(line, BLANKS)) && *word != '#')
			read_line(word);
	printf("history 2 cores %ld\n", core_count);
	while (is_due()) {
		if (entries + 1 + 2 * core_count + thread_count > limit)
			return 8;
		play_round();
	}
	return 0;
}
