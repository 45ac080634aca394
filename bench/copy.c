/* The loop that a turn's copy is measured beside: each 32-bit word of a packet's pages once, by a volatile load, into a
 * buffer. usage: copy SIZE TIMES; prints the nanoseconds per packet, the least of five rounds. */
#include <stdint.h>
#include <stdio.h>
#include <stdlib.h>
#include <time.h>

static uint32_t pages[16][1024];
static uint32_t buffer[16384];

static double now(void)
{
	struct timespec t;
	clock_gettime(CLOCK_MONOTONIC, &t);
	return t.tv_sec * 1e9 + t.tv_nsec;
}

int main(int argc, char **argv)
{
	unsigned size = argc > 1 ? atoi(argv[1]) : 64, times = argc > 2 ? atoi(argv[2]) : 1000;
	unsigned words = (size + 3) / 4;
	double least = 1e18;

	for (int round = 0; round < 5; round++) {
		double start = now();
		for (unsigned time = 0; time < times; time++) {
			volatile uint32_t *from = &pages[0][0];
			for (unsigned word = 0; word < words; word++)
				buffer[word] = from[word];
			__asm__ volatile("" : : "r"(buffer) : "memory");
		}
		double taken = (now() - start) / times;
		if (taken < least)
			least = taken;
	}
	printf("%.1f\n", least);
	return 0;
}
