#define _GNU_SOURCE /* fopencookie and ppoll */
#include "input.h"
#include <errno.h>
#include <poll.h>
#include <signal.h>
#include <string.h>
#include <time.h>
#include <unistd.h>

static volatile sig_atomic_t is_ended;
static uint64_t last; /* when reading ends after a signal, in nanoseconds */

uint64_t nanoseconds(void)
{
	struct timespec now;

	clock_gettime(CLOCK_MONOTONIC, &now);
	return (uint64_t)now.tv_sec * SECOND + (uint64_t)now.tv_nsec;
}

static void end(int number)
{
	(void)number;
	is_ended = 1;
}

void await_signals(void)
{
	struct sigaction action = {.sa_handler = end, .sa_flags = SA_RESTART | (int)SA_RESETHAND}, before;
	int numbers[] = {SIGINT, SIGTERM};

	for (int i = 0; i < 2; i++)
		if (!sigaction(numbers[i], NULL, &before) && before.sa_handler != SIG_IGN)
			sigaction(numbers[i], &action, NULL);
}

bool is_input_ended(void)
{
	return is_ended;
}

/* When the wait that begins now has to end, in nanoseconds; 0 is never. */
static uint64_t end_of_wait(const struct input *input)
{
	uint64_t due = input->interval ? input->next : 0;

	if (is_ended && !last)
		last = nanoseconds() + SECOND;
	return last && (!due || last < due) ? last : due;
}

/* Whether bytes are there, or the file's end; else the wait's end came, or a signal, which only comes while this waits. */
static bool is_there(const struct input *input, uint64_t until)
{
	struct pollfd file = {.fd = input->file, .events = POLLIN};
	uint64_t now = nanoseconds(), left = until > now ? until - now : 0;
	struct timespec time = {(time_t)(left / SECOND), (long)(left % SECOND)};
	sigset_t both, others;

	sigemptyset(&both);
	sigaddset(&both, SIGINT);
	sigaddset(&both, SIGTERM);
	sigprocmask(SIG_BLOCK, &both, &others);
	bool has_begun = is_ended && !last;
	int count = has_begun ? 0 : ppoll(&file, 1, until ? &time : NULL, &others);

	sigprocmask(SIG_SETMASK, &others, NULL);
	return count > 0 || (count < 0 && errno != EINTR);
}

/* Calls what is due. */
static void tick(struct input *input)
{
	if (!input->interval || nanoseconds() < input->next)
		return;
	input->due(input->context);
	input->next = nanoseconds() + (uint64_t)input->interval * SECOND;
}

static ssize_t read_input(void *cookie, char *bytes, size_t size)
{
	struct input *input = cookie;

	if (!is_there(input, 1))
		input->idle(input->context);
	for (;;) {
		tick(input);
		uint64_t until = end_of_wait(input);

		if (last && nanoseconds() >= last)
			return 0;
		if (is_there(input, until))
			break;
	}
	return read(input->file, bytes, size);
}

static int close_input(void *cookie)
{
	struct input *input = cookie;

	return input->file == STDIN_FILENO ? 0 : close(input->file);
}

FILE *stream_of(struct input *input)
{
	cookie_io_functions_t calls = {.read = read_input, .close = close_input};

	input->next = nanoseconds() + (uint64_t)input->interval * SECOND;
	return fopencookie(input, "rb", calls);
}
