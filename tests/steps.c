/*
 * Makes the steps over bits that stand on standard input, and prints what each answers; board.py holds that to its own
 * reading. A step: one byte, 0 to take, 1 to skip or 2 to count; position, number of bits and length, eight bytes each,
 * the lowest first; and so many lent bytes.
 */
#include <stdio.h>

#include "pierstrand.h"

static uint8_t lent[512];

static uint64_t number(void)
{
	uint64_t n = 0;

	for (int shift = 0; shift < 64; shift += 8)
		n |= (uint64_t)getchar() << shift;
	return n;
}

int main(void)
{
	for (int kind = getchar(); kind != EOF; kind = getchar()) {
		uint64_t at = number(), n = number(), length = number();
		struct pierstrand_step step;

		if (length > sizeof lent)
			return 1;
		for (uint64_t i = 0; i < length; i++)
			lent[i] = (uint8_t)getchar();
		if (kind == 2) {
			printf("%zu\n", pierstrand_count_left(lent, length, at));
			continue;
		}
		step = (kind == 0 ? pierstrand_take_bits : pierstrand_skip_bits)(lent, length, at, n);
		printf("%u %llu %zu\n", step.fault, (unsigned long long)step.value, step.at);
	}
	return 0;
}
