#include <stdio.h>

#define TEXT(word) #word
#define TEXT_OF(word) TEXT(word)

int main(void)
{
	NUMBER of[] = {1, 2, 4, 3};
	NUMBER sum = 0;
	int i, count = sizeof(of) / sizeof(of[0]);

	for (i = 0; i < count; i++)
		sum += of[i];
	printf("average by %s: %g\n", TEXT_OF(NUMBER), (double)(sum / count));
	return 0;
}
