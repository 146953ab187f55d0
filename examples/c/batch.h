/*
 * The scheduling policy batch as C99, printed from its text. Change the text,
 * and print it again.
 *
 * The policy was accepted: it meets what policies owe. The laws of such
 * policies are proved of a model, and of no balancer. In the model it is so:
 * - There are at most 1023 threads in all, on any number of cores.
 * - The load of a core is the sum of the weights of its threads, the
 *   running one counted. A core that has threads runs one of them.
 * - Weights and attributes lie in their ranges. Neither weights nor the
 *   attributes of cores change.
 * - In a round each core makes one attempt. It reads count and load of
 *   each core at one moment, which isn't before the start of the round.
 *   Of the cores of which the filter holds it takes the best, of equals
 *   the one with the lowest number.
 * - Both cores are held while the filter is asked again and threads are
 *   moved. They are moved out of the victim's queue, the best first. The
 *   one that runs stays.
 * - The next round begins once each core has made its attempt.
 * No proof of this project speaks of C. tools/prove_c has frama-c prove
 * that each function is the policy's rule.
 */
#ifndef batch_POLICY_H
#define batch_POLICY_H

#if defined(__KERNEL__)
#include <linux/types.h>
#elif !defined(__VMLINUX_H__) /* which has these types */
#include <stdbool.h>
#include <stdint.h>
#endif

/* A rule need not look at all that it is given, and may compare a number
 * with itself.
 */
#ifdef __GNUC__
#pragma GCC diagnostic push
#pragma GCC diagnostic ignored "-Wunused-parameter"
#pragma GCC diagnostic ignored "-Wtautological-compare"
#endif

/* 1 where the policy was accepted, 0 in a draft. */
#define batch_ACCEPTED 1

#define batch_NR_MAX 1023
#define batch_LOAD_MAX 1023
#define batch_WEIGHT_MIN 1
#define batch_WEIGHT_MAX 1

/* The attributes of cores and of threads: each is given to a macro X of one parameter. */
#define batch_CORE_ATTRS(X)
#define batch_THREAD_ATTRS(X)

/* 1 where a rule is computed in __int128, which compilers for 32 bits and for BPF lack, else 0. */
#define batch_WIDE 0

/* A core, as another core may see it. */
struct batch_core {
	int64_t nr; /* its threads, the running one counted: from 0 to 1023 */
	int64_t load; /* the sum of their weights: from 0 to 1023 */
};

/* A thread. */
struct batch_thread {
	int64_t weight; /* from 1 to 1 */
};

/* Where an event puts a thread: at the queue's end, still running, or among the blocked. */
enum batch_put { batch_put_queue, batch_put_keep, batch_put_block };

static inline int64_t
batch_cut(int64_t value, int64_t least, int64_t greatest)
{
	return value < least ? least : value > greatest ? greatest : value;
}

/* Whether self may take a thread from victim. Ask it in a choice, and again with both cores held. */
static inline bool
batch_may_steal(const struct batch_core *self, const struct batch_core *victim)
{
	return victim->nr - self->nr >= 2;
}

/* Whether self chooses a rather than b. Of equals it chooses the core with the lowest number. */
static inline bool
batch_choose_before(const struct batch_core *self, const struct batch_core *a, const struct batch_core *b)
{
	if (a->nr != b->nr)
		return a->nr > b->nr;
	return false;
}

/* Whether a is stolen rather than b. Of equals the one that stands first in the queue is stolen. */
static inline bool
batch_steal_before(const struct batch_thread *a, const struct batch_thread *b)
{
	return false;
}

/* The most threads that one steal moves. */
#define batch_STEAL_LIMIT 8

/* Whether a steal goes on to this thread, with both cores as the moves so far left them. */
static inline bool
batch_steal_on(const struct batch_core *self, const struct batch_core *victim,
	const struct batch_thread *thread)
{
	return victim->nr - self->nr >= 2;
}

/* 1 where a thread stays on the core that lets it in, else 0. */
#define batch_PLACE_HERE 1

/* Not asked: a thread stays on the core that lets it in. */
static inline bool
batch_place_before(const struct batch_core *a, const struct batch_core *b)
{
	return false;
}

/* Whether a runs rather than b. Of equals the one that stands first in the queue runs. */
static inline bool
batch_elect_before(const struct batch_thread *a, const struct batch_thread *b)
{
	return false;
}

/* A thread enters self's queue, fresh where it is new, not where it wakes. No steal calls this. */
static inline enum batch_put
batch_on_enqueue(const struct batch_core *self, struct batch_thread *thread, bool fresh)
{
	return batch_put_queue;
}

/* The thread that runs on self has run a while, and isn't done. */
static inline enum batch_put
batch_on_tick(const struct batch_core *self, struct batch_thread *thread)
{
	return batch_put_keep;
}

/* The thread that runs on self yields. */
static inline enum batch_put
batch_on_yield(const struct batch_core *self, struct batch_thread *thread)
{
	return batch_put_queue;
}

/* The thread that runs on self blocks. */
static inline enum batch_put
batch_on_block(const struct batch_core *self, struct batch_thread *thread)
{
	return batch_put_block;
}

#ifdef __GNUC__
#pragma GCC diagnostic pop
#endif

#endif
