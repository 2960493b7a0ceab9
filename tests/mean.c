/* The mean of two numbers, through the code that was looked at: by hand, and against half of the 64-bit sum, rounded down. */
#include <inttypes.h>
#include <stdint.h>
#include <stdio.h>

int64_t mean_of(int32_t a, int32_t b);

static int failed = 0;

static void expect(int32_t a, int32_t b, int64_t want) {
    const int64_t got = mean_of(a, b);
    if (got != want) {
        fprintf(stderr, "FAILED: the mean of %" PRId32 " and %" PRId32 " is %" PRId64 ", expected %" PRId64 "\n", a, b, got, want);
        failed = 1;
    }
}

/* Division rounds toward zero, so an odd sum below zero is taken one down first. */
static int64_t half(int64_t s) { return (s < 0 && s % 2 != 0 ? s - 1 : s) / 2; }

int main(void) {
    expect(-3, 0, -2);
    expect(0, -3, -2);
    expect(-1, 0, -1);
    expect(-2, -1, -2);
    expect(1, 0, 0);
    expect(3, 10, 6);
    expect(INT32_MAX, INT32_MAX, INT32_MAX);
    expect(INT32_MAX, INT32_MAX - 1, INT32_MAX - 1);
    expect(INT32_MIN, INT32_MIN, INT32_MIN);
    expect(INT32_MIN, INT32_MIN + 1, INT32_MIN);
    expect(INT32_MIN, INT32_MAX, -1);
    expect(INT32_MIN, 1, -1073741824);
    expect(INT32_MAX, -2, 1073741822);

    /* Every pair of numbers near zero, near the ends and near the powers of two. */
    int32_t near[600];
    int count = 0;
    for (int k = 0; k < 32; k++)
        for (int64_t d = -3; d <= 3; d++)
            for (int sign = -1; sign <= 1; sign += 2) {
                const int64_t z = sign * ((int64_t)1 << k) + d;
                if (z >= INT32_MIN && z <= INT32_MAX) near[count++] = (int32_t)z;
            }
    long pairs = 0;
    for (int i = 0; i < count; i++)
        for (int j = 0; j < count; j++, pairs++)
            expect(near[i], near[j], half((int64_t)near[i] + near[j]));

    uint64_t x = 88172645463325252u;
    for (int i = 0; i < 10000000; i++, pairs++) {
        x ^= x << 13, x ^= x >> 7, x ^= x << 17;
        const int32_t a = (int32_t)(uint32_t)x, b = (int32_t)(uint32_t)(x >> 32);
        expect(a, b, half((int64_t)a + b));
        if (failed) break;
    }
    printf("13 means by hand and %ld against the 64-bit sum\n", pairs);
    return failed;
}
