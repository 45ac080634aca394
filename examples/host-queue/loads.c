/* That laxonje_drive.h reads each word of a page once, in rising order, and none beside those of the op, by loads of 16 bytes and of 8 too: the
 * page can't be reached, so each load ends in a signal, is noted, and is made alone by the processor's step flag. For x86-64 and Linux. */
#define _GNU_SOURCE
#include <laxonje_drive.h>
#include <signal.h>
#include <stdio.h>
#include <string.h>
#include <sys/mman.h>
#include <ucontext.h>

enum { PAGE = 4096, STEP_FLAG = 0x100, MOST = LAXONJE_PAGE_WORDS };

static uint8_t *guarded;
static uintptr_t loads[MOST];
static size_t count;
static int wrong;

static void is(const char *what, size_t found, size_t wanted)
{
	if (found == wanted)
		return;
	printf("%s: %zu, and not %zu\n", what, found, wanted);
	wrong++;
}

/* A load of the page: noted, and made. */
static void on_load(int number, siginfo_t *information, void *context)
{
	(void)number;
	if (count < MOST)
		loads[count++] = (uintptr_t)information->si_addr - (uintptr_t)guarded;
	mprotect(guarded, PAGE, PROT_READ);
	((ucontext_t *)context)->uc_mcontext.gregs[REG_EFL] |= STEP_FLAG;
}

/* After it the page can't be reached again. */
static void on_step(int number, siginfo_t *information, void *context)
{
	(void)number, (void)information;
	mprotect(guarded, PAGE, PROT_NONE);
	((ucontext_t *)context)->uc_mcontext.gregs[REG_EFL] &= ~STEP_FLAG;
}

/* A READ of these words of the page. */
static void reads(uint32_t word, uint32_t words)
{
	static uint32_t lent[LAXONJE_PAGE_WORDS + 1];
	uint32_t at = word, end = word + words, seen = 0;
	memset(lent, 0xee, sizeof lent);
	count = 0;
	laxonje_drive_load_((const uint32_t *)(const void *)guarded + word, words, lent);
	for (; at < end; at += end - at >= 4 ? 4 : end - at >= 2 ? 2 : 1, seen++)
		is("a load's place", loads[seen], 4 * at);
	is("loads", count, seen);
	for (uint32_t i = 0; i < words; i++)
		is("a word", lent[i], 0x01010101 * (word + i));
	is("the word after them", lent[words], 0xeeeeeeee);
}

int main(void)
{
	struct sigaction load = { .sa_sigaction = on_load, .sa_flags = SA_SIGINFO }, step = { .sa_sigaction = on_step, .sa_flags = SA_SIGINFO };
	guarded = mmap(NULL, 2 * PAGE, PROT_READ | PROT_WRITE, MAP_PRIVATE | MAP_ANONYMOUS, -1, 0);
	if (guarded == MAP_FAILED)
		return perror("mmap"), 1;
	for (uint32_t i = 0; i < LAXONJE_PAGE_WORDS; i++)
		((uint32_t *)(void *)guarded)[i] = 0x01010101 * i;
	sigaction(SIGSEGV, &load, NULL);
	sigaction(SIGTRAP, &step, NULL);
	mprotect(guarded, 2 * PAGE, PROT_NONE);
	for (uint32_t words = 1; words <= 33; words++)
		for (uint32_t word = 0; word < 8; word++)
			reads(word, words), reads((uint32_t)LAXONJE_PAGE_WORDS - words - word, words);
	reads(0, LAXONJE_PAGE_WORDS);
	reads(1, LAXONJE_PAGE_WORDS - 1);
	printf("%d wrong\n", wrong);
	return wrong != 0;
}
