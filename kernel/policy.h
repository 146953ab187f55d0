/* SPDX-License-Identifier: GPL-2.0 */
/* How the scheduler names what the header of a policy has. The compiler is told the header and `-DPOLICY=NAME`. A
 * draft, the header of a policy that isn't accepted, makes a scheduler too, and the scheduler's name says so.
 */
#define JOINED(policy, word) policy##_##word
#define JOIN(policy, word) JOINED(policy, word)
#define P(word) JOIN(POLICY, word)
#define TEXT_OF(word) #word
#define TEXT(word) TEXT_OF(word)

#if P(ACCEPTED)
#define SCHEDULER TEXT(POLICY)
#else
#define SCHEDULER TEXT(POLICY) "_draft"
#endif

#if P(WIDE)
#error "a rule of the policy needs numbers of 128 bits, which BPF doesn't have"
#endif
