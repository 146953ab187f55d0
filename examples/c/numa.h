/*
 * The scheduling policy numa as C99, printed from its text. Change the text,
 * and print it again.
 *
 * The policy was accepted: it meets what policies owe. The laws of such
 * policies are proved of a model, and of no balancer. In the model it is so:
 * - There are at most 1023 threads in all, on any number of cores.
 * - The load of a core is the sum of the weights of its threads, the
 *   running one counted. A core that has threads runs one of them.
 * - Weights and attributes lie in their ranges. Neither weights nor the
 *   attributes of cores change.
 * - In a round each core makes one attempt. It reads count and load of
 *   each core at one moment, which isn't before the start of the round.
 *   Of the cores of which the filter holds it takes the best, of equals
 *   the one with the lowest number.
 * - Both cores are held while the filter is asked again and threads are
 *   moved. They are moved out of the victim's queue, the best first. The
 *   one that runs stays.
 * - The next round begins once each core has made its attempt.
 * No proof of this project speaks of C. tools/prove_c has frama-c prove
 * that each function is the policy's rule.
 */
#ifndef numa_POLICY_H
#define numa_POLICY_H

#if defined(__KERNEL__)
#include <linux/types.h>
#elif !defined(__VMLINUX_H__) /* which has these types */
#include <stdbool.h>
#include <stdint.h>
#endif

/* A rule need not look at all that it is given, and may compare a number
 * with itself.
 */
#ifdef __GNUC__
#pragma GCC diagnostic push
#pragma GCC diagnostic ignored "-Wunused-parameter"
#pragma GCC diagnostic ignored "-Wtautological-compare"
#endif

/* 1 where the policy was accepted, 0 in a draft. */
#define numa_ACCEPTED 1

#define numa_NR_MAX 1023
#define numa_LOAD_MAX 1023
#define numa_WEIGHT_MIN 1
#define numa_WEIGHT_MAX 1
#define numa_CORE_MIN_node 0
#define numa_CORE_MAX_node 1
#define numa_CORE_START_node 0

/* The attributes of cores and of threads: each is given to a macro X of one parameter. */
#define numa_CORE_ATTRS(X) X(node)
#define numa_THREAD_ATTRS(X)

/* 1 where a rule is computed in __int128, which compilers for 32 bits and for BPF lack, else 0. */
#define numa_WIDE 0

/* A core, as another core may see it. */
struct numa_core {
	int64_t nr; /* its threads, the running one counted: from 0 to 1023 */
	int64_t load; /* the sum of their weights: from 0 to 1023 */
	int64_t attr_node; /* from 0 to 1, begins as 0 */
};

/* A thread. */
struct numa_thread {
	int64_t weight; /* from 1 to 1 */
};

/* Where an event puts a thread: at the queue's end, still running, or among the blocked. */
enum numa_put { numa_put_queue, numa_put_keep, numa_put_block };

static inline int64_t
numa_cut(int64_t value, int64_t least, int64_t greatest)
{
	return value < least ? least : value > greatest ? greatest : value;
}

/* Whether self may take a thread from victim. Ask it in a choice, and again with both cores held. */
static inline bool
numa_may_steal(const struct numa_core *self, const struct numa_core *victim)
{
	return victim->nr - self->nr >= 2 && (self->attr_node == victim->attr_node || self->nr == 0 || victim->nr - self->nr >= 3);
}

/* Whether self chooses a rather than b. Of equals it chooses the core with the lowest number. */
static inline bool
numa_choose_before(const struct numa_core *self, const struct numa_core *a, const struct numa_core *b)
{
	if (a->nr != b->nr)
		return a->nr > b->nr;
	return false;
}

/* Whether a is stolen rather than b. Of equals the one that stands first in the queue is stolen. */
static inline bool
numa_steal_before(const struct numa_thread *a, const struct numa_thread *b)
{
	return false;
}

/* The most threads that one steal moves. */
#define numa_STEAL_LIMIT 1

/* Not asked: a steal moves one thread. */
static inline bool
numa_steal_on(const struct numa_core *self, const struct numa_core *victim,
	const struct numa_thread *thread)
{
	return false;
}

/* 1 where a thread stays on the core that lets it in, else 0. */
#define numa_PLACE_HERE 1

/* Not asked: a thread stays on the core that lets it in. */
static inline bool
numa_place_before(const struct numa_core *a, const struct numa_core *b)
{
	return false;
}

/* Whether a runs rather than b. Of equals the one that stands first in the queue runs. */
static inline bool
numa_elect_before(const struct numa_thread *a, const struct numa_thread *b)
{
	return false;
}

/* A thread enters self's queue, fresh where it is new, not where it wakes. No steal calls this. */
static inline enum numa_put
numa_on_enqueue(const struct numa_core *self, struct numa_thread *thread, bool fresh)
{
	return numa_put_queue;
}

/* The thread that runs on self has run a while, and isn't done. */
static inline enum numa_put
numa_on_tick(const struct numa_core *self, struct numa_thread *thread)
{
	return numa_put_keep;
}

/* The thread that runs on self yields. */
static inline enum numa_put
numa_on_yield(const struct numa_core *self, struct numa_thread *thread)
{
	return numa_put_queue;
}

/* The thread that runs on self blocks. */
static inline enum numa_put
numa_on_block(const struct numa_core *self, struct numa_thread *thread)
{
	return numa_put_block;
}

#ifdef __GNUC__
#pragma GCC diagnostic pop
#endif

#endif
