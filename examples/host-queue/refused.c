/* Calls that take memory, with all allocations refused from each one on: the answer is that memory ran out, and the handles have what
 * they had. Link with -Wl,--wrap=malloc,--wrap=realloc, which leads the library's calls here. It is C and C++. */
#include "rows.h"
#include <malloc.h>
#include <stdlib.h>

#ifdef __cplusplus
extern "C" {
#endif
void *__real_malloc(size_t size);
void *__real_realloc(void *old, size_t size);
void *__wrap_malloc(size_t size);
void *__wrap_realloc(void *old, size_t size);

/* How many allocations there were, and the number of the first that is refused, from 1. */
static size_t count, refused = SIZE_MAX;

void *__wrap_malloc(size_t size)
{
	return ++count >= refused ? NULL : __real_malloc(size);
}

/* A block that gets smaller isn't counted: if that is refused, the library goes on with the block as it is. */
void *__wrap_realloc(void *old, size_t size)
{
	if (old && size <= malloc_usable_size(old))
		return __real_realloc(old, size);
	return ++count >= refused ? NULL : __real_realloc(old, size);
}
#ifdef __cplusplus
}
#endif

static const uint8_t code[] = { 0xb7, 0, 0, 0, LAXONJE_PASS, 0, 0, 0, 0x95, 0, 0, 0, 0, 0, 0, 0 };
static const char settings[] = "program = [\"b7000000020000009500000000000000\"]\n[[map]]\nname = \"hits\"\nentries = 2\n";
static const uint16_t owners[] = { GUEST, GUEST, GUEST };
static const struct laxonje_extent extents[] = { { 3, GUEST } };
static const uint32_t table[] = { 2 };
static const struct laxonje_queue_desc desc = { 0, 1, GUEST, 0, PORT, 0, 0, 0, 0 };
static struct laxonje_program *program, *other;
static struct laxonje_queue *queue;

/* Each call: whether it is done, or else whether it answers that memory ran out. */
enum answer { DONE, MEMORY, ANOTHER };

static enum answer of_verdict(struct laxonje_verdict verdict)
{
	if (verdict.kind == LAXONJE_ACCEPTED)
		return DONE;
	if (verdict.kind == LAXONJE_REFUSED && verdict.cause == LAXONJE_V_MEMORY)
		return MEMORY;
	return verdict.kind == LAXONJE_SETTINGS && verdict.cause == LAXONJE_L_MEMORY ? MEMORY : ANOTHER;
}

static enum answer of_made(uint32_t made)
{
	return made == LAXONJE_MADE ? DONE : made == LAXONJE_MADE_MEMORY ? MEMORY : ANOTHER;
}

static enum answer checks(void)
{
	return of_verdict(laxonje_check(code, sizeof code, NULL, 0));
}

static enum answer loads(void)
{
	return of_verdict(laxonje_load(code, sizeof code, NULL, 0, program));
}

static enum answer loads_settings(void)
{
	return of_verdict(laxonje_load_settings((const uint8_t *)settings, sizeof settings - 1, other));
}

static enum answer relists(void)
{
	return of_verdict(laxonje_relist(other, (const uint8_t *)settings, sizeof settings - 1));
}

static enum answer loads_again(void)
{
	return of_verdict(laxonje_again(program, other));
}

static enum answer makes_of_list(void)
{
	return of_made(laxonje_queue_make(program, owners, 3, table, 1, &desc, queue));
}

static enum answer makes_of_extents(void)
{
	return of_made(laxonje_queue_make_extents(program, extents, 1, table, 1, &desc, queue));
}

/* Refuses the allocations of a call from each one on, until none is left. The queue, and the program that it is made of, stay as they were. */
static void tries(const char *what, enum answer (*call)(void))
{
	enum answer answer;
	refused = 0;
	do {
		char at[LAXONJE_HANDLE], of[LAXONJE_HANDLE];
		memcpy(at, queue, sizeof at);
		memcpy(of, program, sizeof of);
		count = 0;
		refused++;
		answer = call();
		is(what, answer, count < refused ? DONE : MEMORY);
		is(what, call == loads || !memcmp(of, program, sizeof of), 1);
		is(what, answer == DONE || !memcmp(at, queue, sizeof at), 1);
	} while (count >= refused);
	is(what, refused > 1, 1);
	refused = SIZE_MAX;
}

/* A turn of a queue that was made after all. */
static const struct row idle[] = { TURN(0), PUSH(0, 1, 1, 0, 0), ENDS(LAXONJE_TURN_IDLE, 0, 0) };

int main(void)
{
	program = laxonje_program_new();
	other = laxonje_program_new();
	queue = laxonje_queue_new();
	tries("check", checks);
	tries("load", loads);
	tries("load of settings", loads_settings);
	tries("lists of settings", relists);
	tries("the same program again", loads_again);
	tries("a queue of a list", makes_of_list);
	tries("a queue of extents", makes_of_extents);
	GOES(queue, LAXONJE_OPS, idle);
	laxonje_queue_delete(&queue);
	laxonje_program_delete(&other);
	laxonje_program_delete(&program);
	printf("%d wrong\n", wrong);
	return wrong != 0;
}
