/* How this library was built: tools/parts/pack-host compiles it into each archive. */
#include <stdint.h>

uint32_t laxonje_proved(void);
const char *laxonje_build(void);

uint32_t laxonje_proved(void)
{
	return LAXONJE_PROVED;
}

const char *laxonje_build(void)
{
	return LAXONJE_BUILD;
}
