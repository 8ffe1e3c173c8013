/* What the functions of hid-core.c that build.sh cuts out expect of the kernel around them, for a
 * program of its own. It is ours: nothing of the kernel's source stands here. */
#ifndef HID_CORE_SHIM_H
#define HID_CORE_SHIM_H

#include <errno.h>
#include <stdbool.h>
#include <stddef.h>
#include <stdint.h>
#include <stdlib.h>
#include <string.h>

typedef uint8_t u8, __u8;
typedef int8_t s8, __s8;
typedef uint16_t u16, __u16, __le16;
typedef int16_t s16, __s16;
typedef uint32_t u32, __u32, __le32;
typedef int32_t s32, __s32;
typedef uint64_t u64, __u64;
typedef unsigned int gfp_t;
typedef int spinlock_t, wait_queue_head_t, pm_message_t;

struct work_struct { void (*call)(struct work_struct *); };
struct semaphore { int none; };
struct mutex { int none; };
struct kref { int none; };
struct module;
struct dentry;
struct device {
    const char *name;
    /* For the input devices of hid_input. */
    struct device *parent;
    const void *type, *class;
    void *data;
    unsigned int number;
    int kobj;
};
struct device_driver { const char *name; };
struct hid_device_id;
struct list_head { struct list_head *next, *prev; };

#define BIT(n) (1UL << (n))
#define GFP_KERNEL 0
#define EXPORT_SYMBOL_GPL(name) extern int shim_exports_##name
#define WARN_ON(condition) (condition)
#define likely(condition) (condition)
#define unlikely(condition) (condition)
#define max_t(type, a, b) ((type)(a) > (type)(b) ? (type)(a) : (type)(b))
#define container_of(at, type, member) ((type *)((char *)(at) - offsetof(type, member)))

static inline void INIT_LIST_HEAD(struct list_head *list)
{
    list->next = list->prev = list;
}

static inline void list_add_tail(struct list_head *entry, struct list_head *list)
{
    entry->next = list;
    entry->prev = list->prev;
    list->prev->next = entry;
    list->prev = entry;
}

static inline bool list_empty(const struct list_head *list)
{
    return list->next == list;
}

#define list_for_each_entry(at, list, member)                                    \
    for (at = container_of((list)->next, typeof(*at), member); &at->member != (list); \
         at = container_of(at->member.next, typeof(*at), member))

/* Memory: the program ends where there is none, since that is no answer about a descriptor. */
void *shim_memory(void *old, size_t size);
void *shim_zeros(size_t count, size_t size);
#define kmalloc(size, flags) shim_memory(NULL, size)
#define krealloc(old, size, flags) shim_memory(old, size)
#define kzalloc(size, flags) shim_zeros(1, size)
#define kvzalloc(size, flags) shim_zeros(1, size)
#define kcalloc(count, size, flags) shim_zeros(count, size)
#define vzalloc(size) shim_zeros(1, size)
#define array3_size(a, b, c) ((size_t)(a) * (b) * (c))
#define kfree(memory) free((void *)(memory))
#define kvfree(memory) free((void *)(memory))
#define vfree(memory) free((void *)(memory))

static inline void *kmemdup(const void *bytes, size_t size, gfp_t flags)
{
    (void)flags;
    return memcpy(shim_memory(NULL, size), bytes, size);
}

/* As without hid-bpf. */
#define call_hid_bpf_rdesc_fixup(device, bytes, size) ((u8 *)kmemdup(bytes, *(size), GFP_KERNEL))

static inline u16 get_unaligned_le16(const void *bytes)
{
    const u8 *b = bytes;
    return (u16)(b[0] | b[1] << 8);
}

static inline u32 get_unaligned_le32(const void *bytes)
{
    const u8 *b = bytes;
    return b[0] | (u32)b[1] << 8 | (u32)b[2] << 16 | (u32)b[3] << 24;
}

/* The number whose sign is the bit `sign`. */
static inline s32 sign_extend32(u32 value, int sign)
{
    return (s32)(value << (31 - sign)) >> (31 - sign);
}

/* What hid-core says: each message is kept with its kind, in order (shim.c). */
enum said_kind { SAID_DEBUG, SAID_WARNING, SAID_ERROR };
void shim_say(enum said_kind kind, const char *format, ...)
    __attribute__((format(printf, 2, 3)));
#define dbg_hid(...) shim_say(SAID_DEBUG, __VA_ARGS__)
#define hid_warn(device, ...) ((void)(device), shim_say(SAID_WARNING, __VA_ARGS__))
#define hid_warn_ratelimited hid_warn
#define hid_err(device, ...) ((void)(device), shim_say(SAID_ERROR, __VA_ARGS__))
#define dev_name(device) ((device)->name)

#define hid_warn_once hid_warn

/* What stands around a report that comes in: no lock is taken, no hid-bpf, hidraw or hiddev is there, and no
 * hid-input either but with hid_input's shim; then the events go to the driver, which is ask.c. */
struct shim_task { const char *comm; };
#define current (&(struct shim_task){"ask"})
#define HID_ANY_ID (~0U)
#define down_trylock(lock) ((void)(lock), 0)
#define up(lock) ((void)(lock))
#define dispatch_hid_bpf_device_event(device, type, data, bufsize, size, ...) (data)
#define IS_ERR(pointer) ((void)(pointer), false)
#define PTR_ERR(pointer) ((void)(pointer), 0)
#define hid_dump_input(...) ((void)0)
#define hid_dump_report(...) ((void)0)
#ifndef SHIM_WITH_INPUT
#define hidinput_hid_event(...) ((void)0)
#define hidinput_report_event(...) ((void)0)
#endif
#define hidraw_report_event(...) 0

/* fetch_item is called through a hook, which counts the items begun, and keeps the last one's offset
 * (build.sh). */
extern unsigned int shim_items, shim_offset;
void shim_begin_item(const u8 *start);

#endif
