/* Linux's verifier on the lines of line.h. Each program is loaded TIMES times by bpf(2) as an XDP program, as root; it
 * is attached to nothing. Printed are NAME and the least time in nanoseconds, or NAME and `refused`.
 *
 * The time is the kernel's own, "verification time N usec" of log level 4: whole microseconds, rounded down. It holds
 * checking and rewriting the program, and not its compilation by the JIT. */
#include "line.h"
#include <errno.h>
#include <linux/bpf.h>
#include <stdlib.h>
#include <sys/syscall.h>
#include <unistd.h>

#define STATISTICS 4

static char text[1 << 12];

/* Loads the program and leaves the kernel's log in `text`; -1 if it is refused, else a descriptor. */
static int load(const struct line *line, unsigned level)
{
	union bpf_attr attr;

	memset(&attr, 0, sizeof attr);
	memset(text, 0, sizeof text);
	attr.prog_type = BPF_PROG_TYPE_XDP;
	attr.insns = (uintptr_t)line->program;
	attr.insn_cnt = line->slots;
	attr.license = (uintptr_t)"GPL";
	attr.log_level = level;
	attr.log_buf = (uintptr_t)text;
	attr.log_size = sizeof text;
	return syscall(__NR_bpf, BPF_PROG_LOAD, &attr, sizeof attr);
}

/* The least time of that many loads, in microseconds; -1 if the program is refused. */
static long least_time(const struct line *line)
{
	long least = -1;

	for (unsigned time = 0; time < line->times; time++) {
		int program = load(line, STATISTICS);
		if (program < 0)
			return -1;
		close(program);
		const char *told = strstr(text, "verification time ");
		long taken = told ? atol(told + strlen("verification time ")) : -1;
		if (least < 0 || taken < least)
			least = taken;
	}
	return least;
}

int main(void)
{
	static struct line line;

	while (read_line(&line)) {
		long least = least_time(&line);
		if (least >= 0)
			printf("%s %ld\n", line.name, least * 1000);
		else if (errno == EPERM || errno == ENOSYS)
			return perror("bpf(2)"), 1;
		else
			printf("%s refused\n", line.name);
	}
	return 0;
}
