#include <stdio.h>
#include <string.h>

int count(int items[], int size) {
    int total;
    int unused = 3;
    for (int i = 0; i <= size; i++)
        total += items[i];
    if (total = 5)
        printf("%s items\n", total);
    return total
}

void copy(char *name) {
    char buffer[4];
    strcpy(buffer, "larger than that");
    printf(name);
    undeclared(buffer);
}

struct box { int width; };

int area(struct box *b) {
    return b->widht * b.width;
}

static int never(void) { return 1; }

int same(unsigned a, int b) {
    /* ü */ return a < b && a == -1;
}
