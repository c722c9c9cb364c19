#include <stdio.h>

#define TEXT(word) #word
#define TEXT_OF(word) TEXT(word)

#ifndef NAME
#define NAME nobody
#endif

int main(void)
{
#ifdef LOUD
	printf("HELLO, %s!\n", TEXT_OF(NAME));
#else
	printf("hello, %s\n", TEXT_OF(NAME));
#endif
	return 0;
}
