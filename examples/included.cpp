#include <cstdio>

int main() {
    int level = 3;
#include "examples/limits.h"
    putchar('0' + level);
    putchar('\n');
    return 0;
}
