/* Calls the function that the program example_toy writes first: the sum of the numbers from 1 to its argument. */
#include <stdio.h>

unsigned long toy(unsigned long count);

int main(void) {
    printf("%lu %lu %lu\n", toy(0), toy(10), toy(100000));
    return toy(10) != 55;
}
