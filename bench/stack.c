/* Measures how much stack the functions of the archive use: each is called by a thread whose stack is filled with one byte
   before, and looked at afterwards.

     cc -O2 -I include bench/stack.c target/libion_map.a -lpthread -o stack && ./stack

   A line has a function, how many bytes it wrote at most below its caller's frame on a map of one container, of 32 and of
   63 in each other, and how many that is for each container more. The caller's own call is counted with it, which is some
   dozens of bytes and not the same by every compiler. */

#define _POSIX_C_SOURCE 200112L /* for a thread's stack */

#include "ion_map.h"
#include "ion_map_kit.h"

#include <pthread.h>
#include <stdio.h>
#include <stdlib.h>
#include <string.h>

enum {
    STACK = 1 << 20,
    FILLED = 0xA5,
    LIMIT = ION_MAP_DEFAULT_ANNOTATIONS,
    DEPTH = ION_MAP_MOST_DEPTH,
    SIZE = ION_MAP_RECORD_SIZE,
    MANY = 64 /* how many records ion_map_steps has room for */
};

static uint8_t map[4096], packed[4096], out[MANY * SIZE + ION_MAP_CHECK_SIZE];
static size_t length;
static const uint8_t *frame; /* of the thread's function */
static volatile uint64_t answer;

static void call_step(void)
{
    size_t position = 0;

    do {
        answer = ion_map_step(map, length, 0, length, position, ION_MAP_PART_STREAM, LIMIT, out, SIZE);
        position = (size_t)ion_map_word(out, ION_MAP_AT_VALUE_END);
    } while (ion_map_word(out, ION_MAP_AT_KIND) == ION_MAP_KIND_VALUE);
}

static void call_steps(void)
{
    uint64_t count;

    answer = ion_map_steps(map, length, 0, length, 0, ION_MAP_PART_STREAM, LIMIT, out, MANY * SIZE, &count);
}

static void call_scalar(void)
{
    answer = ion_map_scalar(map, length, 0, length, 0, LIMIT, out, SIZE);
}

static void call_text(void)
{
    answer = ion_map_text(map, length, ion_map_system_text(), ION_MAP_SYSTEM_TEXT_SIZE, 0, length, length, 10, LIMIT, out,
                          SIZE);
}

static void call_walked(void)
{
    answer = ion_map_walked(map, length, UINT64_MAX, LIMIT, DEPTH);
}

static void call_check(void)
{
    answer = ion_map_check(map, length, LIMIT, DEPTH, out, ION_MAP_CHECK_SIZE);
}

static void call_packed_size(void)
{
    answer = ion_map_packed_size(map, length, LIMIT, DEPTH, out, SIZE);
}

static void call_pack(void)
{
    answer = ion_map_pack(map, length, LIMIT, DEPTH, packed, sizeof packed, out, SIZE);
}

static void call_write_container(void)
{
    answer = ion_map_write_container(ION_MAP_TYPE_LIST, map, length, LIMIT, DEPTH, packed, sizeof packed, out, SIZE);
}

static const struct {
    const char *name;
    void (*call)(void);
} functions[] = {
    {"ion_map_step", call_step},
    {"ion_map_steps", call_steps},
    {"ion_map_scalar", call_scalar},
    {"ion_map_text", call_text},
    {"ion_map_walked", call_walked},
    {"ion_map_check", call_check},
    {"ion_map_packed_size", call_packed_size},
    {"ion_map_pack", call_pack},
    {"ion_map_write_container", call_write_container}
};

static void *run(void *function)
{
    frame = (const uint8_t *)__builtin_frame_address(0);
    functions[*(const size_t *)function].call();
    return NULL;
}

/* How many bytes below the frame of `run` a call wrote. */
static size_t used(uint8_t *stack, size_t function)
{
    pthread_t thread;
    pthread_attr_t how;
    const uint8_t *lowest = stack;

    memset(stack, FILLED, STACK);
    if (pthread_attr_init(&how) != 0 || pthread_attr_setstack(&how, stack, STACK) != 0
        || pthread_create(&thread, &how, run, &function) != 0 || pthread_join(thread, NULL) != 0) {
        fprintf(stderr, "stack: no thread with a stack of its own\n");
        exit(2);
    }
    pthread_attr_destroy(&how);
    while (*lowest == FILLED) {
        lowest++;
    }
    return (size_t)(frame - lowest);
}

/* A map of so many lists and sexps in each other, around values of which much is read. */
static void make_map(unsigned containers)
{
    static const uint8_t inner[] = {
        0xE6, 0x81, 0x84, 0x83, 'a', 'b', 'c',                                    /* a string with an annotation */
        0x52, 0xC1, 0x63,                                                         /* a decimal */
        0x6B, 0x43, 0xA4, 0x0F, 0xE8, 0x82, 0x9D, 0x96, 0x9E, 0x8F, 0xC3, 0x07,   /* a timestamp */
        0x44, 0x3F, 0xC0, 0, 0, 0x8E, 0, 0, 0, 0, 0x81, 'x'                       /* a float, and a length of five bytes */
    };
    unsigned i;

    memcpy(map, inner, sizeof inner);
    length = sizeof inner;
    for (i = 0; i < containers; i++) {
        if (ion_map_write_container(i % 2 == 0 ? ION_MAP_TYPE_LIST : ION_MAP_TYPE_SEXP, map, length, LIMIT, DEPTH, packed,
                                    sizeof packed, out, SIZE) != 0) {
            fprintf(stderr, "stack: no such map\n");
            exit(2);
        }
        length = (size_t)ion_map_word(out, ION_MAP_AT_WRITTEN_LENGTH);
        memcpy(map, packed, length);
    }
}

int main(void)
{
    static const unsigned containers[] = {1, 32, 63};
    uint8_t *stack = (uint8_t *)aligned_alloc(4096, STACK);
    size_t bytes[3], i, k;

    if (stack == NULL) {
        perror("stack");
        return 2;
    }
    for (i = 0; i < sizeof functions / sizeof *functions; i++) {
        for (k = 0; k < 3; k++) {
            make_map(containers[k]);
            bytes[k] = used(stack, i);
        }
        /* Stacks grow by whole words: what is less comes of the map's bytes, as a longer length does. */
        printf("%s %zu %zu %zu, %zu a container\n", functions[i].name, bytes[0], bytes[1], bytes[2],
               (bytes[2] - bytes[1]) / 31 / 8 * 8);
    }
    free(stack);
    return 0;
}
