/* Steps and batches by one archive, over tables that it has read itself. Compiled once with the header of each archive. */
#include "side.h"

#include <sojimu.h>
#include <string.h>
#include <time.h>

enum { STEPS = 2000, BATCHES = 40, MANY = 100, ROOM = MANY * SOJIMU_MESSAGE };

static struct sojimu_table table;
static uint8_t bytes[ROOM], out[ROOM];
static size_t one;

bool side_take(const char *text, const unsigned char *message, size_t length)
{
    const struct sojimu_reading reading = sojimu_read((const uint8_t *)text, strlen(text));
    if (!sojimu_matches() || reading.question != 0 || length > SOJIMU_MESSAGE)
        return false;
    table = reading.table;
    one = length;
    for (size_t i = 0; i < MANY; i++)
        memcpy(bytes + i * one, message, one);
    return true;
}

static double now(void)
{
    struct timespec t;
    clock_gettime(CLOCK_MONOTONIC, &t);
    return (double)t.tv_sec * 1e9 + (double)t.tv_nsec;
}

double side_steps(void)
{
    struct sojimu_state s = sojimu_fresh(&table, 200).state;
    const double start = now();
    for (int i = 0; i < STEPS; i++) {
        if (sojimu_step(&table, &s, SOJIMU_DEVICE, bytes, one, out, SOJIMU_MESSAGE).outcome != SOJIMU_FORWARDED)
            return 0;
        __asm__ volatile("" ::: "memory");
    }
    return (now() - start) / STEPS;
}

double side_batches(void)
{
    struct sojimu_state s = sojimu_fresh(&table, 200).state;
    const double start = now();
    for (int i = 0; i < BATCHES; i++) {
        if (sojimu_batch(&table, &s, bytes, MANY * one, NULL, 0, NULL, 0, out, ROOM).used_device != MANY * one)
            return 0;
        __asm__ volatile("" ::: "memory");
    }
    return (now() - start) / (BATCHES * MANY);
}
