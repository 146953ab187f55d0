"""What the guest's own tracing says of a run, whichever scheduler there was.

A thread waits from when it is woken, or stopped though it could run on, until it runs. Core time is wasted while a CPU
is idle and a thread waits, by as many as both are. A migration is a thread that is moved to another CPU.
"""

import re

OURS = "loader"                 # the name of all threads of a workload

# What was traced of the call goes to the output, behind what the call says there itself.
TRACED = """cd /sys/kernel/tracing; echo 0 > tracing_on; echo 16384 > buffer_size_kb; echo > trace
for event in sched_switch sched_wakeup sched_wakeup_new sched_migrate_task; do echo 1 > events/sched/$event/enable; done
echo 1 > tracing_on; {call}; status=$?; echo 0 > tracing_on
grep -v '^#' trace; echo > trace; exit $status"""

LINE = re.compile(r"\[(\d+)\] \S+ +([\d.]+): (\w+): (.*)")
SWITCH = re.compile(r"prev_comm=(.*) prev_pid=(\d+) prev_prio=\S+ prev_state=(\S+) ==> next_comm=(.*) next_pid=(\d+) ")
WOKEN = re.compile(r"comm=(.*) pid=(\d+) ")


class Clock:
    """Who runs and who waits, as the trace tells it. So far some thread waited for so many seconds, and for so many of
    them a CPU was idle.
    """

    def __init__(self, cpus):
        self.idle, self.waiting, self.at = set(range(cpus)), set(), None
        self.waited = self.beside_idle = self.wasted = 0.0
        self.migrations = 0

    def pass_to(self, now):
        if self.at is not None and self.waiting:
            self.waited += now - self.at
            self.beside_idle += (now - self.at) * bool(self.idle)
            self.wasted += min(len(self.idle), len(self.waiting)) * (now - self.at)
        self.at = now

    def switch(self, cpu, rest):
        found = SWITCH.search(rest + " ")
        if not found:
            return
        before, before_pid, state, after, after_pid = found.groups()
        if before == OURS and state.startswith("R"):
            self.waiting.add(before_pid)
        if after_pid == "0":
            self.idle.add(cpu)
        else:
            self.idle.discard(cpu)
        if after == OURS:
            self.waiting.discard(after_pid)

    def take(self, cpu, now, event, rest):
        self.pass_to(now)
        woken = WOKEN.search(rest)
        if event == "sched_switch":
            self.switch(cpu, rest)
        elif woken and woken[1] == OURS:
            if event == "sched_migrate_task":
                self.migrations += 1
            else:
                self.waiting.add(woken[2])


def read_trace(text, cpus):
    """The clock at the end of what was traced."""
    clock = Clock(cpus)
    for line in text.splitlines():
        found = LINE.search(line)
        if found:
            clock.take(int(found[1]), float(found[2]), found[3], found[4])
    return clock


def sentence(clock):
    return f"a thread waited for {clock.waited:.3f} s, for {clock.beside_idle:.3f} s of them beside an idle CPU"
