/* SPDX-License-Identifier: GPL-2.0 */
/* check WORKLOAD: reads a workload, and says on standard error what is wrong with it. Status 2 where something is. */
#include "workload.h"

static struct workload workload;

int main(int word_count, char **words)
{
	return word_count == 2 && read_workload(&workload, words[1]) ? 0 : 2;
}
