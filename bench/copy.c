/* memcpy, for comparison: copies an object's bytes from one buffer to another, so many times. */
#include <stdint.h>
#include <stdio.h>
#include <stdlib.h>
#include <string.h>

static uint8_t from[13312], to[13312];

int main(int argc, char **argv)
{
    long rounds = argc > 1 ? atol(argv[1]) : 0;
    uint64_t sum = 0;

    for (long i = 0; i < rounds; i++) {
        from[i % 13312] = (uint8_t)i;
        memcpy(to, from, sizeof to);
        __asm__ volatile("" : : "r"(to) : "memory");
        sum += to[i * 7 % 13312];
    }
    printf("%llu\n", (unsigned long long)sum);
    return 0;
}
