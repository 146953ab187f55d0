/* A question to every function of a policy's header, and its answers. The compiler is told the header and `-DPOLICY=NAME`. */
#define JOINED(policy, word) policy##_##word
#define JOIN(policy, word) JOINED(policy, word)
#define P(word) JOIN(POLICY, word)

enum { ENQUEUE, TICK, YIELD, BLOCK, EVENTS };

struct values {
	struct P(core) self, a, b;
	struct P(thread) one, other;
	int64_t fresh;
};

struct answers {
	int64_t may_steal, choose_before, steal_before, elect_before, place_before, steal_on;
	int64_t put[EVENTS];			/* where each event puts the thread `one` */
	struct P(thread) left[EVENTS];		/* and the thread behind it */
};

struct question {
	struct values values;
	struct answers answers;
};

static inline __attribute__((always_inline)) void ask_all(struct question *asked)
{
	struct values *values = &asked->values;
	struct answers *answers = &asked->answers;

	for (int event = 0; event < EVENTS; event++)
		answers->left[event] = values->one;
	answers->may_steal = P(may_steal)(&values->self, &values->a);
	answers->choose_before = P(choose_before)(&values->self, &values->a, &values->b);
	answers->steal_before = P(steal_before)(&values->one, &values->other);
	answers->elect_before = P(elect_before)(&values->one, &values->other);
	answers->place_before = P(place_before)(&values->a, &values->b);
	answers->steal_on = P(steal_on)(&values->self, &values->a, &values->one);
	answers->put[ENQUEUE] = P(on_enqueue)(&values->self, &answers->left[ENQUEUE], values->fresh != 0);
	answers->put[TICK] = P(on_tick)(&values->self, &answers->left[TICK]);
	answers->put[YIELD] = P(on_yield)(&values->self, &answers->left[YIELD]);
	answers->put[BLOCK] = P(on_block)(&values->self, &answers->left[BLOCK]);
}
