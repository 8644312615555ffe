/* The number that the benchmarks print of several repetitions: the least, which
 * other programs on the machine disturbed least. */
#ifndef FASTEST_H
#define FASTEST_H

enum { MAX_REPETITIONS = 99 };

static double fastest(const double *numbers, int count)
{
    double least = numbers[0];
    for (int i = 1; i < count; i++)
        least = numbers[i] < least ? numbers[i] : least;
    return least;
}

#endif
