/* SPDX-License-Identifier: GPL-2.0 */
/* A core's turn in a round: it elects a thread, the thread's unit ends, the core looks at all cores, and makes its
 * attempt.
 *
 * A core is held from its election to the end of its unit. Else a thief could see a thread gone that in the model still
 * waits, or take the one that was elected. Nothing waits for a core that is held: the step is made later.
 */

/* A task's queue: it is there while it may run and doesn't. */
#define SLOT(slot) (0x1000 + (u64)(slot))
/* Tasks that a round is to let in. */
#define COMING 0x100

/* The turn begins. A thread that was kept goes on; of the others the best is elected. */
__weak __noinline u32 begin(s32 cpu)
{
	struct model_core *c = at(cpu);
	struct entry *e;
	u32 number;

	if (!take(&c->held))
		return 0;
	number = c->kept;
	if (!number) {
		number = best(cpu, TO_ELECT);
		if (number)
			leave(cpu, number);
	}
	if (number) {
		c->elected = number;
		c->kept = 0;
		enter_phase(c, RUNNING);
		return 1;
	}
	e = entry(draw(), A_WORK, cpu, 0);
	if (e)
		bpf_ringbuf_submit(e, 0);
	enter_phase(c, RAN);
	give(&c->held);
	return 1;
}

/* Thieves that wait for this core, which isn't held any longer, may go on. */
static __always_inline void wake_thieves(s32 cpu)
{
	u32 i;

	bpf_for(i, 0, count)
		if (i != cpu && at(i)->phase == LOOKED && at(i)->victim == cpu)
			scx_bpf_kick_cpu(i, 0);
}

/* How the unit ended, and NOT_YET where it goes on. That a thread sleeps or is gone stays settled until it is let in
 * again: else it could be taken for one that runs, should it wake before this is an entry. A unit is overdue where
 * another class has the CPU: then its thread had no time in it.
 */
static __always_inline u32 ending_of(struct model_core *c, struct model_thread *t, u32 late)
{
	u32 ending = *(volatile u32 *)&t->ending;

	if (ending == TICK || ending == YIELDED)
		return __sync_val_compare_and_swap(&t->ending, ending, NOT_YET);
	if (ending != NOT_YET)
		return ending;
	if (!late || t->on || bpf_ktime_get_ns() - c->moved <= settings.unit)
		return NOT_YET;
	c->taken = 1;
	add(OVERDUE);
	return TICK;
}

/* A unit is over: here it becomes an entry. */
__weak __noinline u32 finish(s32 cpu, u32 late)
{
	struct model_core *c = at(cpu);
	u32 number = c->elected, word = TO_QUEUE, ending, drawn;
	struct model_thread *t = numbered(number);
	u64 now = word_of(cpu);
	s64 nr = COUNT(now), load = LOAD(now);
	struct P(core) core;
	struct P(thread) seen;
	struct entry *e;

	ending = ending_of(c, t, late);
	if (ending == NOT_YET)
		return 0;
	see(&core, cpu, now);
	seen = t->seen;
	if (ending == TICK || ending == YIELDED) {
		if ((ending == TICK ? P(on_tick)(&core, &seen) : P(on_yield)(&core, &seen)) == P(put_keep))
			word = TO_KEEP;
	} else {
		if (ending == BLOCKED)
			P(on_block)(&core, &seen);
		word = ending == BLOCKED ? TO_BLOCK : TO_END;
		nr--;
		load -= seen.weight;
	}
	t->seen = seen;
	if (word == TO_KEEP) {
		c->kept = number;
	} else if (word == TO_QUEUE) {
		append(cpu, number);
	} else {
		t->core = cpu;
		t->slept = __sync_fetch_and_add(&sleeps, 1);
		t->inside = 0;
		__sync_fetch_and_sub(&inside, 1);
	}
	drawn = draw();
	set_word(cpu, nr, load, drawn + 1);
	e = entry(drawn, A_WORK, cpu, 0);
	if (e) {
		e->threads[0] = number;
		e->count = 1;
		e->word = word | (ending == YIELDED ? AFTER_YIELD : 0);
		bpf_ringbuf_submit(e, 0);
	}
	c->elected = 0;
	enter_phase(c, RAN);
	give(&c->held);
	wake_thieves(cpu);
	return 1;
}

static __always_inline void tried(struct model_core *c)
{
	enter_phase(c, TRIED);
	__sync_fetch_and_sub(&left, 1);
}

/* The choice: each core is read once, and none is held. */
__weak __noinline u32 look(s32 cpu)
{
	struct model_core *c = at(cpu);
	struct P(core) own, seen, chosen = {};
	struct entry *e;
	s32 victim = -1;
	u64 word = word_of(cpu);
	u32 i;

	see(&own, cpu, word);
	c->reads[cpu & (CPUS - 1)] = distance(word);
	bpf_for(i, 0, count) {
		if (i == cpu)
			continue;
		word = word_of(i);
		c->reads[i & (CPUS - 1)] = distance(word);
		see(&seen, i, word);
		if (P(may_steal)(&own, &seen) && (victim < 0 || P(choose_before)(&own, &seen, &chosen))) {
			victim = i;
			chosen = seen;
		}
	}
	c->victim = victim;
	if (victim >= 0) {
		enter_phase(c, LOOKED);
		return 1;
	}
	e = entry(draw(), A_PASS, cpu, 0);
	if (e) {
		copy_reads(e, c);
		bpf_ringbuf_submit(e, 0);
	}
	tried(c);
	return 1;
}

/* The thread belongs to this core now. A CPU on which it runs ahead lets it go. */
static __always_inline void hand_over(u32 number, s32 cpu)
{
	u32 on = numbered(number)->on;

	if (on && on != cpu + 1)
		scx_bpf_kick_cpu(on - 1, SCX_KICK_PREEMPT);
	scx_bpf_kick_cpu(cpu, SCX_KICK_IDLE);
}

/* The attempt: both cores are held, the filter is asked again, and threads are moved. */
__weak __noinline u32 attempt(s32 cpu)
{
	struct model_core *c = at(cpu);
	s32 from = c->victim;
	struct model_core *v = at(from), *low = cpu < from ? c : v, *high = cpu < from ? v : c;
	struct P(core) *self = &c->self, *victim = &c->other;
	u32 stolen[MOVES] = {}, moved = 0, drawn, i;
	struct entry *e;

	if (!take(&low->held)) {
		add(DEFERRED);
		return 0;
	}
	if (!take(&high->held)) {
		give(&low->held);
		add(DEFERRED);
		return 0;
	}
	see(self, cpu, word_of(cpu));
	see(victim, from, word_of(from));
	bpf_for(i, 0, P(STEAL_LIMIT)) {
		u32 number = best(from, TO_STEAL);
		struct model_thread *t = numbered(number);

		if (!number || (i ? !P(steal_on)(self, victim, &t->seen) : !P(may_steal)(self, victim)))
			break;
		leave(from, number);
		append(cpu, number);
		stolen[i & (MOVES - 1)] = number;
		moved = i + 1;			/* not moved++: of that the verifier makes one state each time, without end */
		self->nr++;
		victim->nr--;
		self->load += t->seen.weight;
		victim->load -= t->seen.weight;
	}
	drawn = draw();
	if (moved) {
		set_word(cpu, self->nr, self->load, drawn + 1);
		set_word(from, victim->nr, victim->load, drawn + 1);
	}
	e = entry(drawn, moved ? A_STEAL : A_FAIL, cpu, from);
	if (e) {
		e->count = moved;
		bpf_for(i, 0, MOVES)
			e->threads[i & (MOVES - 1)] = stolen[i & (MOVES - 1)];
		copy_reads(e, c);
		bpf_ringbuf_submit(e, 0);
	}
	give(&high->held);
	give(&low->held);
	tried(c);
	bpf_for(i, 0, moved)
		hand_over(stolen[i & (MOVES - 1)], cpu);
	return 1;
}
