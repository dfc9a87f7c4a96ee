/* Random bytes to the fuzz target where the compiler brings no fuzzer: driver SECONDS [SEED]. */
#include <stdint.h>
#include <stdio.h>
#include <stdlib.h>
#include <time.h>

int LLVMFuzzerTestOneInput(const uint8_t *data, size_t size);

int main(int argc, char **argv)
{
    static uint8_t data[2048];
    long seconds = argc > 1 ? atol(argv[1]) : 10;
    uint64_t x = argc > 2 ? strtoull(argv[2], NULL, 10) : 1;
    time_t start = time(NULL);
    unsigned long runs = 0;
    x = x * 2 + 1;
    while (time(NULL) - start < seconds) {
        size_t n = 0, size = (size_t)(x % sizeof data);
        for (; n < size; n++) {
            x ^= x << 13, x ^= x >> 7, x ^= x << 17;
            data[n] = (uint8_t)(x >> 32);
        }
        LLVMFuzzerTestOneInput(data, size);
        x ^= x << 13, x ^= x >> 7, x ^= x << 17;
        runs++;
    }
    fprintf(stderr, "Done %lu runs\n", runs);
    return 0;
}
