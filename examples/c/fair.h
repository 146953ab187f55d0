/*
 * The scheduling policy fair as C99, printed from its text. Change the text,
 * and print it again.
 *
 * The policy was accepted: it meets what policies owe. The laws of such
 * policies are proved of a model, and of no balancer. In the model it is so:
 * - There are at most 1023 threads in all, on any number of cores.
 * - The load of a core is the sum of the weights of its threads, the
 *   running one counted. A core that has threads runs one of them.
 * - Weights and attributes lie in their ranges. Neither weights nor the
 *   attributes of cores change.
 * - In a round each core makes one attempt. It reads count and load of
 *   each core at one moment, which isn't before the start of the round.
 *   Of the cores of which the filter holds it takes the best, of equals
 *   the one with the lowest number.
 * - Both cores are held while the filter is asked again and threads are
 *   moved. They are moved out of the victim's queue, the best first. The
 *   one that runs stays.
 * - The next round begins once each core has made its attempt.
 * No proof of this project speaks of C. tools/prove_c has frama-c prove
 * that each function is the policy's rule.
 */
#ifndef fair_POLICY_H
#define fair_POLICY_H

#if defined(__KERNEL__)
#include <linux/types.h>
#elif !defined(__VMLINUX_H__) /* which has these types */
#include <stdbool.h>
#include <stdint.h>
#endif

/* A rule need not look at all that it is given, and may compare a number
 * with itself.
 */
#ifdef __GNUC__
#pragma GCC diagnostic push
#pragma GCC diagnostic ignored "-Wunused-parameter"
#pragma GCC diagnostic ignored "-Wtautological-compare"
#endif

/* 1 where the policy was accepted, 0 in a draft. */
#define fair_ACCEPTED 1

#define fair_NR_MAX 1023
#define fair_LOAD_MAX 8184
#define fair_WEIGHT_MIN 1
#define fair_WEIGHT_MAX 8
#define fair_THREAD_MIN_used 0
#define fair_THREAD_MAX_used 1000
#define fair_THREAD_START_used 0

/* The attributes of cores and of threads: each is given to a macro X of one parameter. */
#define fair_CORE_ATTRS(X)
#define fair_THREAD_ATTRS(X) X(used)

/* 1 where a rule is computed in __int128, which compilers for 32 bits and for BPF lack, else 0. */
#define fair_WIDE 0

/* A core, as another core may see it. */
struct fair_core {
	int64_t nr; /* its threads, the running one counted: from 0 to 1023 */
	int64_t load; /* the sum of their weights: from 0 to 8184 */
};

/* A thread. */
struct fair_thread {
	int64_t weight; /* from 1 to 8 */
	int64_t attr_used; /* from 0 to 1000, begins as 0 */
};

/* Where an event puts a thread: at the queue's end, still running, or among the blocked. */
enum fair_put { fair_put_queue, fair_put_keep, fair_put_block };

static inline int64_t
fair_cut(int64_t value, int64_t least, int64_t greatest)
{
	return value < least ? least : value > greatest ? greatest : value;
}

/* Whether self may take a thread from victim. Ask it in a choice, and again with both cores held. */
static inline bool
fair_may_steal(const struct fair_core *self, const struct fair_core *victim)
{
	return (self->nr == 0 && victim->nr >= 2) || victim->load - self->load > 8;
}

/* Whether self chooses a rather than b. Of equals it chooses the core with the lowest number. */
static inline bool
fair_choose_before(const struct fair_core *self, const struct fair_core *a, const struct fair_core *b)
{
	if (a->load != b->load)
		return a->load > b->load;
	return false;
}

/* Whether a is stolen rather than b. Of equals the one that stands first in the queue is stolen. */
static inline bool
fair_steal_before(const struct fair_thread *a, const struct fair_thread *b)
{
	if (a->weight != b->weight)
		return a->weight > b->weight;
	return false;
}

/* The most threads that one steal moves. */
#define fair_STEAL_LIMIT 1

/* Not asked: a steal moves one thread. */
static inline bool
fair_steal_on(const struct fair_core *self, const struct fair_core *victim,
	const struct fair_thread *thread)
{
	return false;
}

/* 1 where a thread stays on the core that lets it in, else 0. */
#define fair_PLACE_HERE 0

/* Whether a thread is placed on a rather than on b. Of equals it is the lowest number. */
static inline bool
fair_place_before(const struct fair_core *a, const struct fair_core *b)
{
	return a->load < b->load;
}

/* Whether a runs rather than b. Of equals the one that stands first in the queue runs. */
static inline bool
fair_elect_before(const struct fair_thread *a, const struct fair_thread *b)
{
	if (a->attr_used != b->attr_used)
		return a->attr_used < b->attr_used;
	return false;
}

/* A thread enters self's queue, fresh where it is new, not where it wakes. No steal calls this. */
static inline enum fair_put
fair_on_enqueue(const struct fair_core *self, struct fair_thread *thread, bool fresh)
{
	return fair_put_queue;
}

/* The thread that runs on self has run a while, and isn't done. */
static inline enum fair_put
fair_on_tick(const struct fair_core *self, struct fair_thread *thread)
{
	thread->attr_used = fair_cut(thread->attr_used + 1, fair_THREAD_MIN_used, fair_THREAD_MAX_used);
	return fair_put_queue;
}

/* The thread that runs on self yields. */
static inline enum fair_put
fair_on_yield(const struct fair_core *self, struct fair_thread *thread)
{
	return fair_put_queue;
}

/* The thread that runs on self blocks. */
static inline enum fair_put
fair_on_block(const struct fair_core *self, struct fair_thread *thread)
{
	return fair_put_block;
}

#ifdef __GNUC__
#pragma GCC diagnostic pop
#endif

#endif
