#include <stdlib.h>
#include <stdio.h>

int *find(int key)
{
    int local = key;
    int *p = malloc(sizeof(int));
    if (p == NULL)
        printf("no memory\n");
    *p = 1;
    return &local;
}

int twice(int n) {
    int table[3] = {1, 2, 3};
    int result;
    if (n > 3 && n < 2)
        return table[5];
    switch (n) {
    case 1: result = 1;
    case 2: result = 2; break;
    }
    char *text = "a";
    text == "b";
    return n / 0;
}

double half(int n) { const int k; return n % 2 ? 1 : "two"; }
