/* The module, one for each thread, which is made at its first call. Nothing is kept in it between two
 * calls but room: where that has grown it is given back. */
#if defined(__STDC_VERSION__) && __STDC_VERSION__ >= 201112L && !defined(__STDC_NO_THREADS__)
#define OF_THREAD _Thread_local
#elif defined(_MSC_VER)
#define OF_THREAD __declspec(thread)
#else
#define OF_THREAD __thread
#endif

enum { MOST_TAKEN = 8, FEW = 65536, MOST_KEPT = 4 * 1024 * 1024 };

typedef struct {
    Z_hidreport_instance_t instance;
    u64 answer;
    u64 taken[MOST_TAKEN];
    unsigned count;
    bool is_there;
} module;

static OF_THREAD module own_module;

/* The module; none where its memory is refused. */
static module *module_of(bool *is_room)
{
    module *m = &own_module;

    if (!m->is_there) {
        init_globals(&m->instance);
        wasm_rt_allocate_memory(&m->instance.w2c_memory, FIRST_PAGES, 65536);
        if (m->instance.w2c_memory.data == NULL) {
            *is_room = false;
            return NULL;
        }
        init_data(&m->instance);
        m->answer = w2c_hidreport_answer_room(&m->instance);
        m->is_there = true;
    }
    m->count = 0;
    return m;
}

/* Behind a call: what was taken of the module's memory for it is given back. */
static void ended(module *m)
{
    while (m->count > 0)
        w2c_rattle_dealloc(&m->instance, m->taken[--m->count]);
    if (m->instance.w2c_memory.size > MOST_KEPT) {
        wasm_rt_free_memory(&m->instance.w2c_memory);
        m->is_there = false;
    }
}

/* (The low byte comes first, here and there.) */
static inline void put_number(module *m, u64 at, unsigned size, u64 number)
{
    memcpy(m->instance.w2c_memory.data + at, &number, size);
}

static inline u64 take_number(module *m, u64 at, unsigned size)
{
    u64 number = 0;

    memcpy(&number, m->instance.w2c_memory.data + at, size);
    return number;
}

/* A place in the module for so many of so many bytes; where there is none, that is noted. */
static u64 room_for(module *m, u64 count, u64 size, bool *is_room)
{
    u64 start = 0;

    if (*is_room && count <= UINT32_MAX / size && m->count < MOST_TAKEN) {
        w2c_rattle_alloc(&m->instance, m->answer, count * size, 8);
        start = take_number(m, m->answer + 8, 8);
        if (take_number(m, m->answer, 8) != 0) {
            m->taken[m->count++] = start;
            return start;
        }
    }
    *is_room = false;
    return start;
}

static inline void put_bytes(module *m, u64 at, const uint8_t *bytes, size_t count)
{
    if (count > 0)
        memcpy(m->instance.w2c_memory.data + at, bytes, count);
}

static inline void take_bytes(module *m, u64 at, uint8_t *bytes, size_t count)
{
    if (count > 0)
        memcpy(bytes, m->instance.w2c_memory.data + at, count);
}
