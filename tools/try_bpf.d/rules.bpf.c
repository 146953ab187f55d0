/* SPDX-License-Identifier: GPL-2.0 */
/* Asks every function of a header in the kernel. Each of them is a function of BPF too: none is put into its caller. */
#include "question.h"

#define SEC(name) __attribute__((section(name), used))

char _license[] SEC("license") = "GPL";
struct question question;

SEC("syscall")
int ask(void *context)
{
	ask_all(&question);
	return 0;
}
