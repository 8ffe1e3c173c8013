/* The library for C as one file for any machine whose numbers lie with the low byte first: WebAssembly
 * that was made of the proved code (checks/generated/wasm.sh), written as C by wasm2c of Debian's wabt, whose
 * text stands under the Apache License 2.0; then the functions of hidreport.h. All else: MIT (LICENSE). */
#include <stdbool.h>
#include <stddef.h>
#include <stdint.h>
#include <stdlib.h>
#include <string.h>

#include "hidreport.h"

#if defined(__BYTE_ORDER__) && __BYTE_ORDER__ != __ORDER_LITTLE_ENDIAN__
#error "hidreport.c is for machines whose numbers lie with the low byte first"
#endif

/* What wasm2c's text asks of a system. */
#define WASM_RT_MEMCHECK_SIGNAL_HANDLER 0
#define WASM_RT_USE_STACK_DEPTH_COUNT 0
#define WABT_BIG_ENDIAN 0
#define wasm_rt_memcpy memcpy
#ifdef __GNUC__
#define LIKELY(x) __builtin_expect(!!(x), 1)
#define UNLIKELY(x) __builtin_expect(!!(x), 0)
#else
#define LIKELY(x) (x)
#define UNLIKELY(x) (x)
#endif

enum { WASM_RT_I32, WASM_RT_I64, WASM_RT_F32, WASM_RT_F64 };

typedef struct {
    uint8_t *data;
    uint32_t pages, max_pages;
    uint32_t size;
    size_t room; /* how many bytes lie at `data`; the module has the first `size` of them */
} wasm_rt_memory_t;

/* It has no table of functions. */
typedef void (*wasm_rt_function_ptr_t)(void);
typedef struct {
    uint32_t func_type;
    wasm_rt_function_ptr_t func;
    void *module_instance;
} wasm_rt_funcref_t;
typedef void *wasm_rt_externref_t;
typedef struct {
    wasm_rt_funcref_t *data;
    uint32_t max_size, size;
} wasm_rt_funcref_table_t;
typedef struct {
    wasm_rt_externref_t *data;
    uint32_t max_size, size;
} wasm_rt_externref_table_t;
static const wasm_rt_externref_t wasm_rt_externref_null_value = NULL;

enum { PAGE = 65536 };

/* What the module was made of is proved to divide by no zero, to stay within its memory, and to come to
 * no instruction that ends it: so this can't be. */
#define wasm_rt_trap(reason) abort()
#define wasm_rt_is_initialized() true
#define wasm_rt_register_func_type(...) 0

static void wasm_rt_allocate_memory(wasm_rt_memory_t *memory, uint32_t pages, uint32_t most)
{
    memory->pages = pages, memory->max_pages = most;
    memory->size = pages * PAGE;
    memory->room = memory->size;
    memory->data = calloc(pages, PAGE);
}

/* Whether there is room for so many bytes: where it grows by half as much again, since a system may copy
 * all of it each time, or by what is needed where it can't. */
static bool has_room(wasm_rt_memory_t *memory, size_t size)
{
    size_t wanted = size <= SIZE_MAX - size / 2 ? size + size / 2 : size;
    uint8_t *grown;

    if (size <= memory->room)
        return true;
    grown = realloc(memory->data, wanted);
    if (grown == NULL) {
        wanted = size;
        grown = realloc(memory->data, wanted);
    }
    if (grown == NULL)
        return false;
    memory->data = grown;
    memory->room = wanted;
    return true;
}

/* How many pages there were, or as many bits as that has where so many more are refused. */
static uint32_t wasm_rt_grow_memory(wasm_rt_memory_t *memory, uint32_t more)
{
    uint32_t before = memory->pages;
    uint64_t size = ((uint64_t)before + more) * PAGE;

    if (size > UINT32_MAX || size > SIZE_MAX || !has_room(memory, (size_t)size))
        return UINT32_MAX;
    memset(memory->data + memory->size, 0, (size_t)more * PAGE);
    memory->pages = before + more;
    memory->size = (uint32_t)size;
    return before;
}

static void wasm_rt_free_memory(wasm_rt_memory_t *memory)
{
    free(memory->data);
}
