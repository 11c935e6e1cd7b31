#include "a.h"
#define TWICE(x) ((x) + add(x, 0))
typedef unsigned long word;
static int add(int a, int b) {
	return a + b;
}
int main(void) {
	return add(1, 2) / TWICE(3);
}
