/* SPDX-License-Identifier: GPL-2.0 */
/* The cores and threads of the model: to which core a thread belongs, in which order it waits there, and how a core is
 * held and read.
 *
 * The kernel's own queues only hold tasks that may run, each in a queue of its own. So a thread that is stolen is moved
 * in here, in no time, and the thief's CPU finds it by its number. A core's queue is changed by whoever holds the core.
 */
enum phase { TRIED, READY, RUNNING, RAN, LOOKED };
enum ending { NOT_YET, TICK, YIELDED, BLOCKED, ENDED };

struct model_core {
	u64 word;			/* count, load, and the position from which both are so */
	u32 held, claimed, phase;
	u32 elected, kept;		/* whose unit it is, and who goes on in the next one: numbers of threads, or 0 */
	u32 first, last;		/* the ends of its queue, or 0 */
	u32 taken;			/* another class has its CPU */
	s32 victim;			/* of its choice */
	u64 moved;			/* when its phase changed last */
	u64 let_in;			/* the place of whom it let in last in this round */
	u32 reads[CPUS];
	struct P(core) self, other;	/* of an attempt; on the stack the verifier would count with their values */
};

struct model_thread {
	struct P(thread) seen;
	u32 before, behind;		/* its neighbours in the queue */
	u32 slot;			/* the kernel's queue in which its task waits for a CPU */
	u32 ending;			/* how its next unit ends, where that is settled: it may have run ahead of the model */
	u32 on;				/* the CPU on which it runs, plus one */
	u32 inside;			/* it has entered and neither sleeps nor has ended */
	s32 core;
	u64 slept;			/* the place of its last sleep among all sleeps */
};

/* What is kept of a task. */
struct note { u32 number, slot, fresh; s32 cpu; u64 arrival, ran; };

struct settings settings SEC(".data.settings");
u64 counters[COUNTERS] SEC(".data.counters");
static struct model_core cores[CPUS];
static struct model_thread threads[THREADS];
static u32 count, round, start, entries, left, opening, numbers, slots, inside;
/* Units are cut short. Were it not volatile, clang would make one byte of it, and the kernel refuse its size. */
static volatile u32 hurry;
static u64 arrivals, sleeps;

struct { __uint(type, BPF_MAP_TYPE_RINGBUF); __uint(max_entries, 1 << 24); } record SEC(".maps");
struct {
	__uint(type, BPF_MAP_TYPE_TASK_STORAGE);
	__uint(map_flags, BPF_F_NO_PREALLOC);
	__type(key, int);
	__type(value, struct note);
} notes SEC(".maps");

static __always_inline void add(u32 what) { __sync_fetch_and_add(&counters[what], 1); }
static __always_inline struct model_core *at(s32 cpu) { return &cores[cpu & (CPUS - 1)]; }
static __always_inline struct model_thread *numbered(u32 number) { return &threads[number & (THREADS - 1)]; }
static __always_inline struct note *note_of(struct task_struct *p) { return bpf_task_storage_get(&notes, p, 0, 0); }
static __always_inline bool take(u32 *word) { return __sync_val_compare_and_swap(word, 0, 1) == 0; }
static __always_inline void give(u32 *word) { __sync_val_compare_and_swap(word, 1, 0); }

static __always_inline void enter_phase(struct model_core *c, u32 phase)
{
	c->moved = bpf_ktime_get_ns();
	*(volatile u32 *)&c->phase = phase;
}

/* A word has 10 bits of count, 30 of load and 24 of position, so that one load reads all three at one moment. */
#define COUNT(word) ((s64)((word) & 0x3ff))
#define LOAD(word) ((s64)((word) >> 10 & 0x3fffffff))
#define SINCE(word) ((u32)((word) >> 40))

static __always_inline u64 word_of(s32 cpu) { return *(volatile u64 *)&at(cpu)->word; }

static __always_inline void set_word(s32 cpu, s64 nr, s64 load, u32 since)
{
	*(volatile u64 *)&at(cpu)->word = (u64)nr | (u64)load << 10 | (u64)since << 40;
}

/* A core as the policy sees it. */
static __always_inline void see(struct P(core) *core, s32 cpu, u64 word)
{
	u32 here __attribute__((unused)) = cpu & (CPUS - 1), next __attribute__((unused)) = 0;

	core->nr = COUNT(word);
	core->load = LOAD(word);
#define SET(name) \
	core->attr_##name = settings.given[here][next] ? settings.attrs[here][next] : P(CORE_START_##name); \
	next++;
	P(CORE_ATTRS)(SET)
#undef SET
}

/* A read is written as its distance from the start of the round; one before that as 0. */
static __always_inline u32 distance(u64 word)
{
	return SINCE(word) > start ? SINCE(word) - start : 0;
}

static __always_inline u32 draw(void) { return __sync_fetch_and_add(&entries, 1); }

static __always_inline struct entry *entry(u32 drawn, u32 kind, s32 core, s32 other)
{
	struct entry *e = bpf_ringbuf_reserve(&record, sizeof *e, 0);

	if (!e) {
		add(LOST_ENTRIES);
		return NULL;
	}
	e->nanoseconds = bpf_ktime_get_ns();
	e->at = drawn;
	e->kind = kind;
	e->round = round;
	e->core = core;
	e->other = other;
	e->word = e->count = e->weight = 0;
	return e;
}

static __always_inline void copy_reads(struct entry *e, struct model_core *c)
{
	u32 i;

	bpf_for(i, 0, CPUS)
		e->reads[i & (CPUS - 1)] = c->reads[i & (CPUS - 1)];
}

/* Whether its task could run now. One that sleeps or is gone has a unit to come that is over at once. */
static __always_inline bool may_run(struct model_thread *t)
{
	u32 ending = *(volatile u32 *)&t->ending;

	return ending != BLOCKED && ending != ENDED;
}

/* Puts the thread to the end of the core's queue. */
static __always_inline void append(s32 cpu, u32 number)
{
	struct model_core *c = at(cpu);
	struct model_thread *t = numbered(number);

	t->behind = 0;
	t->before = c->last;
	t->core = cpu;
	if (c->last)
		numbered(c->last)->behind = number;
	else
		c->first = number;
	c->last = number;
}

/* Takes the thread out of the core's queue. */
static __always_inline void leave(s32 cpu, u32 number)
{
	struct model_core *c = at(cpu);
	struct model_thread *t = numbered(number);

	if (t->before)
		numbered(t->before)->behind = t->behind;
	else
		c->first = t->behind;
	if (t->behind)
		numbered(t->behind)->before = t->before;
	else
		c->last = t->before;
	t->before = t->behind = 0;
}

enum wanted { TO_ELECT, TO_STEAL, TO_RUN_AHEAD };

/* Functions that aren't static are judged by the verifier once each, and not on every path that calls them. They are
 * weak, else clang looks into them, and leaves out an argument that the policy doesn't ask for.
 */

/* A thread may be run ahead where nothing is settled of it, and no other CPU has it. */
static __always_inline bool may_run_ahead(struct model_thread *t, s32 cpu)
{
	return *(volatile u32 *)&t->ending == NOT_YET && (!t->on || t->on == cpu + 1);
}

/* The number of the best thread of the queue, of equals the earliest; 0 where there is none. */
__weak __noinline u32 best(s32 cpu, u32 wanted)
{
	struct P(thread) chosen = {};
	u32 number = 0, next = at(cpu)->first, i;

	bpf_for(i, 0, THREADS) {
		struct model_thread *t = numbered(next);

		if (!next)
			break;
		if (wanted != TO_RUN_AHEAD || may_run_ahead(t, cpu))
			if (!number || (wanted == TO_STEAL ? P(steal_before)(&t->seen, &chosen) : P(elect_before)(&t->seen, &chosen))) {
				number = next;
				chosen = t->seen;
			}
		next = t->behind;
	}
	return number;
}
