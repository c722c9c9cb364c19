#include <stdio.h>
#include "primes.h"

int main(void)
{
	int count = sizeof(primes) / sizeof(primes[0]);

	printf("%d primes, the last is %d\n", count, primes[count - 1]);
	return 0;
}
