// SPDX-License-Identifier: GPL-2.0
/* A sched_ext scheduler over any policy: the compiler is told the header that `emit` or `draft` wrote, and the policy's
 * name as POLICY.
 *
 * The model goes in rounds. A round opens when every core has made its attempt, and then each core has its turn
 * (round.h, turn.h). A CPU doesn't rest while the others make theirs: it runs ahead. The thread that would be elected
 * next runs already, and what becomes of it is kept until the model elects it. So units are known by their ends alone,
 * and a thread never runs where it doesn't belong for longer than an interrupt takes.
 */
#include "vmlinux.h"
#include <bpf/bpf_helpers.h>
#include <bpf/bpf_tracing.h>
#include "policy.h"
#include "shared.h"

#define CALLBACK(name, args...) SEC("struct_ops/" #name) BPF_PROG(name, ##args)
#define SLEEPY(name, args...) SEC("struct_ops.s/" #name) BPF_PROG(name, ##args)
#define ITERATOR (&___it)
#define DEAD 0x80			/* TASK_DEAD of the kernel's sched.h */
#define QUEUED 1			/* SCX_TASK_QUEUED: the task may run */
#define STEPS 8

/* A function of the kernel that answers a bool settles 8 bits of the register alone, and the compiler takes all of them
 * for settled.
 */
#define ANSWER(call) ({ u64 bits = (call); asm volatile("" : "+r"(bits)); (bits & 0xff) != 0; })

#include "model.h"
#include "turn.h"
#include "round.h"

char _license[] SEC("license") = "GPL";

#define LEAST(name) P(CORE_MIN_##name),
#define GREATEST(name) P(CORE_MAX_##name),
#define WORD(name) " " #name
#define ONE(name) + 1
struct facts facts SEC(".data.facts") = {
	.placed = !P(PLACE_HERE), .attributes = 0 P(CORE_ATTRS)(ONE),
	.least = { P(CORE_ATTRS)(LEAST) }, .greatest = { P(CORE_ATTRS)(GREATEST) }, .names = "" P(CORE_ATTRS)(WORD),
};

struct ticker { struct bpf_timer timer; };
struct {
	__uint(type, BPF_MAP_TYPE_ARRAY);
	__uint(max_entries, 1);
	__type(key, u32);
	__type(value, struct ticker);
} clocks SEC(".maps");

/* The thread of the model that the task is, if it is inside. */
static __always_inline struct model_thread *thread_of(struct note *note)
{
	struct model_thread *t = note && note->number ? numbered(note->number) : NULL;

	return t && t->inside ? t : NULL;
}

static __always_inline void settle(struct model_thread *t, u32 ending)
{
	__sync_val_compare_and_swap(&t->ending, NOT_YET, ending);
}

/* The CPU time that is left of the task's unit. Where none is, its unit is over, and the next one begins. The kernel
 * looks at each tick alone, so an eighth less is enough: else a unit as long as a tick would mostly take two.
 */
static __always_inline u64 rest_of_unit(struct task_struct *p, struct note *note, struct model_thread *t)
{
	u64 ran = p->se.sum_exec_runtime - note->ran, enough = settings.unit - settings.unit / 8;

	if (ran < enough && !hurry)
		return enough - ran;
	note->ran = p->se.sum_exec_runtime;
	settle(t, TICK);
	return enough;
}

/* For the model the thread's next unit is its last. If it waits, this is a departure, of which the model knows nothing.
 */
static __always_inline void depart(struct task_struct *p, struct note *note, struct model_thread *t)
{
	if (!ANSWER(scx_bpf_task_running(p)) && !t->on) {
		struct entry *e = entry(~0U, A_DEPARTURE, t->core, 0);

		if (e) {
			e->threads[0] = note->number;
			e->count = 1;
			bpf_ringbuf_submit(e, 0);
		}
		add(DEPARTURES);
	}
	t->ending = ENDED;
	t->on = 0;
	note->number = 0;
	note->fresh = 1;
}

s32 CALLBACK(select_cpu, struct task_struct *p, s32 prev, u64 flags)
{
	return prev;
}

void CALLBACK(enqueue, struct task_struct *p, u64 flags)
{
	struct note *note = note_of(p);
	struct model_thread *t = thread_of(note);

	if (!note || !note->slot || p->nr_cpus_allowed < count) {	/* beside the model, which pins no thread */
		if (t && may_run(t))
			depart(p, note, t);
		add(BESIDE);
		scx_bpf_dsq_insert(p, SCX_DSQ_LOCAL, settings.unit, flags);
	} else if (t && may_run(t)) {		/* it comes from running */
		scx_bpf_dsq_insert(p, SLOT(note->slot), rest_of_unit(p, note, t), flags);
		if (t->core != scx_bpf_task_cpu(p))
			scx_bpf_kick_cpu(t->core, 0);
	} else {
		if (note->fresh) {
			note->cpu = scx_bpf_task_cpu(p);
			note->arrival = __sync_fetch_and_add(&arrivals, 1);
		}
		scx_bpf_dsq_insert(p, COMING, settings.unit, flags);
		scx_bpf_kick_cpu(scx_bpf_task_cpu(p), SCX_KICK_IDLE);
	}
}

/* The thread that this CPU is to run: the elected one in its unit; else one that will be elected, as far as can be
 * told. A CPU that has none helps a core whose own CPU another class has.
 */
__weak __noinline u32 to_run(s32 cpu)
{
	struct model_core *c = at(cpu);
	u32 number = c->phase == RUNNING ? c->elected : c->kept, i;

	if (number && *(volatile u32 *)&numbered(number)->ending <= (c->phase == RUNNING ? YIELDED : TICK))
		return number;
	i = best(cpu, TO_RUN_AHEAD);
	if (i || (number && may_run(numbered(number))))
		return i ?: number;
	number = c->first;
	if (number && may_run(numbered(number)))
		return number;
	bpf_for(i, 0, count) {
		struct model_core *other = at(i);

		number = other->elected ?: other->kept;
		if (other->taken && number && may_run(numbered(number)) && !numbered(number)->on) {
			add(HELPED);
			return number;
		}
	}
	return 0;
}

void CALLBACK(dispatch, s32 cpu, struct task_struct *prev)
{
	struct note *note = prev ? note_of(prev) : NULL;
	struct model_thread *t = thread_of(note);
	u64 rest = 0;
	u32 i, number;

	at(cpu)->taken = 0;
	if (t)
		rest = rest_of_unit(prev, note, t);
	bpf_for(i, 0, STEPS)
		if (!step(cpu, 0))
			break;
	number = to_run(cpu);
	if (!number)
		return;
	if ((!note || number != note->number) && ANSWER(scx_bpf_dsq_move_to_local(SLOT(numbered(number)->slot))))
		return;
	if (t && t->core == cpu && may_run(t) && prev->scx.flags & QUEUED)
		scx_bpf_task_set_slice(prev, rest);
}

void CALLBACK(running, struct task_struct *p)
{
	struct note *note = note_of(p);
	struct model_thread *t = thread_of(note);
	s32 cpu = scx_bpf_task_cpu(p);

	if (t)
		t->on = cpu + 1;
	else if (note && note->fresh && note->slot && p->nr_cpus_allowed >= count)
		scx_bpf_kick_cpu(cpu, SCX_KICK_PREEMPT);	/* it came to this class as it ran, so it isn't let in yet */
}

void CALLBACK(stopping, struct task_struct *p, bool runnable)
{
	struct note *note = note_of(p);

	if (note && note->number)
		numbered(note->number)->on = 0;
}

bool CALLBACK(yields, struct task_struct *from, struct task_struct *to)
{
	struct note *note = note_of(from);
	struct model_thread *t = thread_of(note);

	if (t) {
		note->ran = from->se.sum_exec_runtime;
		settle(t, YIELDED);
	}
	scx_bpf_task_set_slice(from, 0);
	return false;
}

/* The task sleeps or dies. */
void CALLBACK(quiescent, struct task_struct *p, u64 flags)
{
	struct note *note = note_of(p);
	struct model_thread *t = thread_of(note);

	if (t && flags & SCX_DEQ_SLEEP)
		t->ending = p->__state & DEAD ? ENDED : BLOCKED;
}

s32 SLEEPY(init_task, struct task_struct *p, struct scx_init_task_args *args)
{
	return bpf_task_storage_get(&notes, p, 0, BPF_LOCAL_STORAGE_GET_F_CREATE) ? 0 : -12;
}

/* A task comes to this class, or leaves it. */
void CALLBACK(enable, struct task_struct *p)
{
	struct note *note = note_of(p);

	if (!note)
		return;
	note->fresh = 1;
	note->number = 0;
	if (!note->slot && slots < THREADS - 1)
		note->slot = __sync_fetch_and_add(&slots, 1) + 1;
}

void CALLBACK(disable, struct task_struct *p)
{
	struct note *note = note_of(p);
	struct model_thread *t = thread_of(note);

	if (t && may_run(t))
		depart(p, note, t);
}

/* For cores whose CPUs don't come, since they sleep or another class has them. */
static int look_after(void *map, u32 *key, struct ticker *clock)
{
	u64 now = bpf_ktime_get_ns();
	u32 i, k;

	if (is_urgent())
		hurry = 1;
	bpf_for(i, 0, count) {
		if (now - at(i)->moved < settings.period)
			continue;
		if (hurry && at(i)->phase == RUNNING)
			scx_bpf_kick_cpu(i, SCX_KICK_PREEMPT);
		bpf_for(k, 0, STEPS) {
			if (!step(i, 1))
				break;
			add(BY_TIMER);
		}
		if (at(i)->phase != TRIED || at(i)->first)
			scx_bpf_kick_cpu(i, SCX_KICK_IDLE);
	}
	bpf_timer_start(&clock->timer, settings.period, 0);
	return 0;
}

s32 SLEEPY(init)
{
	struct ticker *clock;
	u32 key = 0, slot;

	count = scx_bpf_nr_cpu_ids();
	if (count > CPUS)
		return -22;
	if (scx_bpf_create_dsq(COMING, -1))
		return -12;
	bpf_for(slot, 1, THREADS)
		if (scx_bpf_create_dsq(SLOT(slot), -1))
			return -12;
	clock = bpf_map_lookup_elem(&clocks, &key);
	if (!clock)
		return -2;
	bpf_timer_init(&clock->timer, &clocks, 1 /* CLOCK_MONOTONIC */);
	bpf_timer_set_callback(&clock->timer, look_after);
	return bpf_timer_start(&clock->timer, settings.period, 0);
}

void CALLBACK(gone, struct scx_exit_info *info)
{
	counters[EXIT_KIND] = info->kind;
}

SEC(".struct_ops.link")
struct sched_ext_ops balancer = {
	.select_cpu = (void *)select_cpu, .enqueue = (void *)enqueue, .dispatch = (void *)dispatch, .running = (void *)running,
	.stopping = (void *)stopping, .yield = (void *)yields, .quiescent = (void *)quiescent, .init_task = (void *)init_task,
	.enable = (void *)enable, .disable = (void *)disable, .init = (void *)init, .exit = (void *)gone,
	.flags = SCX_OPS_SWITCH_PARTIAL | SCX_OPS_ENQ_LAST,
	.timeout_ms = 30000,		/* of the watchdog; the kernel takes no more */
	.name = SCHEDULER,
};
