/* SPDX-License-Identifier: GPL-2.0 */
/* How a round opens: it lets in who came or woke since the last one, and then each core has its turn. */

/* As many are let in by a core in one round; the others come in the next. */
#define ENTRANTS 64

/* Whether the task comes to this core, and its place among those that do: new ones first, in their order, and then
 * those that wake, in the order in which they fell asleep. Places begin with 1.
 */
static __always_inline bool is_coming_to(struct note *note, s32 cpu, u64 *place)
{
	struct model_thread *t = numbered(note->number);

	if (note->fresh) {
		*place = note->arrival + 1;
		return note->cpu == cpu;
	}
	*place = 1ULL << 32 | t->slept;
	return !t->inside && t->core == cpu;	/* else its sleep isn't an entry yet */
}

/* The slot of the task that this core is to let in next, 0 where there is none. Who comes meanwhile and would have been
 * before one that is in already has to wait for the next round.
 */
__weak __noinline u32 next_coming(s32 cpu)
{
	struct model_core *c = at(cpu);
	struct task_struct *p;
	u64 least = ~0ULL;
	u32 slot = 0;

	bpf_rcu_read_lock();
	bpf_for_each(scx_dsq, p, COMING, 0) {
		struct note *note = note_of(p);
		u64 place;

		if (note && is_coming_to(note, cpu, &place) && place > c->let_in && place < least) {
			least = place;
			slot = note->slot;
		}
	}
	bpf_rcu_read_unlock();
	if (slot)
		c->let_in = least;
	return slot;
}

/* The core on which a thread is placed that this core lets in. */
__weak __noinline s32 place_for(s32 cpu)
{
	struct P(core) seen, chosen;
	s32 to = 0;
	u32 i;

	if (P(PLACE_HERE))
		return cpu;
	see(&chosen, 0, word_of(0));
	bpf_for(i, 1, count) {
		see(&seen, i, word_of(i));
		if (P(place_before)(&seen, &chosen)) {
			to = i;
			chosen = seen;
		}
	}
	return to;
}

/* A new thread gets a number, its weight, and the attributes with which threads begin. */
static __always_inline u32 number_for(struct task_struct *p, struct note *note)
{
	u32 number = ++numbers;
	struct model_thread *t = numbered(number);

	t->seen.weight = P(cut)(p->scx.weight / 100, P(WEIGHT_MIN), P(WEIGHT_MAX));
#define SET(name) t->seen.attr_##name = P(THREAD_START_##name);
	P(THREAD_ATTRS)(SET)
#undef SET
	t->slot = note->slot;
	note->number = number;
	return number;
}

static __always_inline void enter(struct task_struct *p, struct note *note, s32 cpu)
{
	u32 fresh = note->fresh, number = fresh ? number_for(p, note) : note->number, drawn, i;
	struct model_thread *t = numbered(number);
	s32 to = place_for(cpu);
	u64 word = word_of(to);
	struct P(core) seen;
	struct entry *e;

	see(&seen, to, word);
	P(on_enqueue)(&seen, &t->seen, fresh);
	note->fresh = 0;
	note->ran = p->se.sum_exec_runtime;
	t->ending = NOT_YET;
	t->inside = 1;
	append(to, number);
	drawn = draw();
	e = entry(drawn, fresh ? AN_ENTER : A_WAKE, cpu, to);
	if (e) {
		e->threads[0] = number;
		e->count = 1;
		e->weight = t->seen.weight;
		bpf_for(i, 0, CPUS)
			e->reads[i & (CPUS - 1)] = distance(word_of(i));
		bpf_ringbuf_submit(e, 0);
	}
	set_word(to, seen.nr + 1, seen.load + t->seen.weight, drawn + 1);
	__sync_fetch_and_add(&inside, 1);
}

/* Lets in the task of this slot, and says whether it was there. */
__weak __noinline u32 let_in(s32 cpu, u32 slot)
{
	struct task_struct *p;
	u32 done = 0;

	bpf_rcu_read_lock();
	bpf_for_each(scx_dsq, p, COMING, 0) {
		struct note *note = note_of(p);

		if (!note || note->slot != slot)
			continue;
		if (ANSWER(scx_bpf_dsq_move(ITERATOR, p, SLOT(slot), 0))) {
			enter(p, note, cpu);
			done = 1;
		}
		break;
	}
	bpf_rcu_read_unlock();
	return done;
}

__weak __noinline u32 let_all_in(s32 cpu)
{
	u32 i;

	at(cpu)->let_in = 0;
	bpf_for(i, 0, ENTRANTS) {
		u32 slot = numbers < THREADS - 1 ? next_coming(cpu) : 0;

		if (!slot || !let_in(cpu, slot))
			break;
	}
	return 0;
}

/* Whether a history may have another round. Where it mayn't, the loader unloads the scheduler. */
static __always_inline bool has_room(void)
{
	if (entries + count * (2 + ENTRANTS) < settings.entries && round < ROUNDS_MAX && numbers < THREADS - 1)
		return true;
	counters[RECORD_FULL] = 1;
	return false;
}

static __always_inline bool has_work(void)
{
	return *(volatile u32 *)&inside || scx_bpf_dsq_nr_queued(COMING) > 0;
}

/* Opens the next round where every core has made its attempt, and says whether it did. No round is opened for nobody.
 */
__weak __noinline u32 open_round(void)
{
	struct entry *e;
	u32 i, drawn;

	if (*(volatile u32 *)&left || !take(&opening))
		return 0;
	if (*(volatile u32 *)&left || settings.stop || !has_work() || !has_room()) {
		give(&opening);
		return 0;
	}
	round++;
	add(ROUNDS);
	drawn = draw();
	start = drawn + 1;
	e = entry(drawn, A_ROUND, 0, 0);
	if (e)
		bpf_ringbuf_submit(e, 0);
	bpf_for(i, 0, count)
		let_all_in(i);
	hurry = 0;
	left = count;
	bpf_for(i, 0, count)
		enter_phase(at(i), READY);
	give(&opening);
	bpf_for(i, 0, count)
		scx_bpf_kick_cpu(i, SCX_KICK_PREEMPT);
	return 1;
}

/* Whether a core has so many threads. */
__weak __noinline u32 has_core_with(u32 least, u32 most)
{
	u32 i;

	bpf_for(i, 0, count) {
		u32 nr = COUNT(word_of(i));

		if (nr >= least && nr <= most)
			return 1;
	}
	return 0;
}

/* Whether a core is idle while a thread comes, or waits at another core. Then units are cut short, since a core is let
 * have a thread, or makes its next attempt, in the next round alone.
 */
static __always_inline bool is_urgent(void)
{
	return has_core_with(0, 0) && (scx_bpf_dsq_nr_queued(COMING) > 0 || has_core_with(2, THREADS));
}

/* One step of a core's turn, and whether there was one. `late` says that the CPU itself doesn't come. */
__weak __noinline u32 step(s32 cpu, u32 late)
{
	struct model_core *c = at(cpu);
	u32 phase, done = 0;

	if (!take(&c->claimed)) {
		add(RACED);
		return 0;
	}
	phase = *(volatile u32 *)&c->phase;
	if (phase == READY)
		done = begin(cpu);
	else if (phase == RUNNING)
		done = finish(cpu, late);
	else if (phase == RAN)
		done = look(cpu);
	else if (phase == LOOKED)
		done = attempt(cpu);
	give(&c->claimed);
	if (phase == TRIED)
		done = open_round();
	return done;
}
