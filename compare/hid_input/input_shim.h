/* What hid-input.c and the functions of input.c that build.sh cuts out expect of the kernel around them,
 * beside what stands in hid_core/shim.h. It is ours: nothing of the kernel's source stands here. */
#ifndef HID_INPUT_SHIM_H
#define HID_INPUT_SHIM_H

#define SHIM_WITH_INPUT
#include "shim.h"
#include <stdio.h>
#include <sys/time.h>

#define __rcu
#define __user
#define __must_check
#define __counted_by(count)
#define fallthrough __attribute__((__fallthrough__))
#define EXPORT_SYMBOL(name) EXPORT_SYMBOL_GPL(name)
#define ARRAY_SIZE(array) (sizeof(array) / sizeof((array)[0]))
#define DIV_ROUND_UP(number, by) (((number) + (by) - 1) / (by))
/* Of numbers above 0 alone, as hidinput_calc_abs_res has them; no event hangs on it. */
#define DIV_ROUND_CLOSEST(number, by) (((number) + (by) / 2) / (by))
#define clamp(value, low, high) ((value) > (high) ? (high) : (value) < (low) ? (low) : (value))
#define swap(a, b) do { typeof(a) shim_old = (a); (a) = (b); (b) = shim_old; } while (0)
/* As in the kernel, the number for which none is positive stays negative. */
#undef abs
#define abs(value) ({ int shim_value = (value); shim_value < 0 ? -shim_value : shim_value; })

/* Bits. */
#define BITS_PER_LONG (8 * (unsigned int)sizeof(long))
#define BITS_TO_LONGS(count) DIV_ROUND_UP(count, 8 * sizeof(long))

static inline bool test_bit(unsigned int bit, const unsigned long *bits)
{
    return bits[bit / BITS_PER_LONG] >> bit % BITS_PER_LONG & 1;
}

static inline void set_bit(unsigned int bit, unsigned long *bits)
{
    bits[bit / BITS_PER_LONG] |= 1UL << bit % BITS_PER_LONG;
}

static inline void clear_bit(unsigned int bit, unsigned long *bits)
{
    bits[bit / BITS_PER_LONG] &= ~(1UL << bit % BITS_PER_LONG);
}

static inline void __change_bit(unsigned int bit, unsigned long *bits)
{
    bits[bit / BITS_PER_LONG] ^= 1UL << bit % BITS_PER_LONG;
}

static inline bool test_and_set_bit(unsigned int bit, unsigned long *bits)
{
    bool was = test_bit(bit, bits);
    set_bit(bit, bits);
    return was;
}

#define __set_bit set_bit
#define __clear_bit clear_bit

/* The first bit from `bit` on that is `wanted`, or `count`. */
static inline unsigned int shim_find(const unsigned long *bits, unsigned int count, unsigned int bit,
                                     bool wanted)
{
    while (bit < count && test_bit(bit, bits) != wanted)
        bit++;
    return bit;
}

#define find_next_zero_bit(bits, count, bit) shim_find(bits, count, bit, false)
#define for_each_set_bit(bit, bits, count)                                \
    for ((bit) = shim_find(bits, count, 0, true); (unsigned int)(bit) < (count); \
         (bit) = shim_find(bits, count, (bit) + 1, true))

static inline unsigned int bitmap_weight(const unsigned long *bits, unsigned int count)
{
    unsigned int bit, set = 0;
    for (bit = 0; bit < count; bit++)
        set += test_bit(bit, bits);
    return set;
}

/* Lists. */
#define LIST_HEAD(name) struct list_head name = { &name, &name }
#define list_for_each_entry_safe(at, following, list, member)                          \
    for (at = container_of((list)->next, typeof(*at), member),                         \
         following = container_of(at->member.next, typeof(*at), member);               \
         &at->member != (list);                                                        \
         at = following, following = container_of(following->member.next, typeof(*at), member))

static inline void list_del(struct list_head *entry)
{
    entry->next->prev = entry->prev;
    entry->prev->next = entry->next;
}

/* Locks, time and chance do nothing. A key never repeats by itself. Work that is scheduled waits. */
extern struct work_struct *shim_work;
typedef int64_t ktime_t;
typedef int atomic_t;
struct timer_list { int none; };
#define ktime_set(seconds, nanoseconds) 0
#define DEFINE_MUTEX(name) int name
#define mutex_init(lock) ((void)(lock))
#define mutex_lock_interruptible(lock) ((void)(lock), 0)
#define mutex_unlock(lock) ((void)(lock))
#define spin_lock_init(lock) ((void)(lock))
#define spin_lock_irq(lock) ((void)(lock))
#define spin_unlock_irq(lock) ((void)(lock))
#define spin_lock_irqsave(lock, flags) ((void)(lock))
#define spin_unlock_irqrestore(lock, flags) ((void)(lock))
#define lockdep_assert_held(lock) ((void)(lock))
#define add_input_randomness(type, code, value) ((void)0)
#define timer_setup(timer, call, flags) ((void)(timer))
#define input_enable_softrepeat(device, delay, period) ((void)(device))
#define INIT_WORK(work, function) ((work)->call = (function))
#define schedule_work(work) (shim_work = (work))
#define cancel_work_sync(work) ((void)(work))
#define input_ff_event(device, type, code, value) 0

/* The devices of the driver model: input devices get numbers, as they are made; nothing listens to them. */
extern unsigned int shim_inputs;
#define ATOMIC_INIT(number) number
#define atomic_inc_return(at) ++*(at)
#define THIS_MODULE NULL
#define __module_get(module) ((void)(module))
static const int input_dev_type, input_class;
#define device_initialize(device) ((void)(device))
#define dev_set_name(device, format, count) ((void)(count), (device)->number = shim_inputs++)
#define dev_get_drvdata(device) ((device)->data)
#define dev_set_drvdata(device, value) ((void)((device)->data = (value)))
#define device_add(device) ((void)(device), 0)
#define device_del(device) ((void)(device))
#define device_create_file(device, attribute) 0
#define device_remove_file(device, attribute) ((void)(device))
#define kobject_get_path(object, flags) ((const char *)NULL)
#define devres_alloc(...) NULL
#define devres_add(...) ((void)0)
#define devres_free(resource) ((void)(resource))
#define devres_destroy(...) 0
#define input_put_device(device) shim_free_input(device)
#define input_unregister_device(device) shim_free_input(device)
#define input_default_getkeycode NULL
#define input_default_setkeycode NULL
#define input_dev_poller_finalize(poller) ((void)(poller))
#define input_attach_handler(device, handler) ((void)0)
#define input_wakeup_procfs_readers() ((void)0)
struct input_device_id;
struct file;

/* What connects beside hid-input: hidraw, always, and nothing else. */
struct hiddev { int minor; };
struct hidraw { unsigned int minor; };
extern struct hidraw shim_hidraw;
#define hid_bpf_connect_device(device) 0
#define hid_bpf_disconnect_device(device) ((void)(device))
#define hid_hiddev(device) false
#define hidraw_connect(device) ((device)->hidraw = &shim_hidraw, 0)
#define hidraw_disconnect(device) ((void)(device))

/* The device takes what is set, and answers nothing that is asked of it. */
#define hid_hw_raw_request(device, id, bytes, size, type, request) \
    ((void)(bytes), (request) == HID_REQ_SET_REPORT ? (int)(size) : -EIO)
int shim_write(const unsigned char *bytes, unsigned int size);
#define hid_hw_output_report(device, bytes, size) shim_write(bytes, size)
#define hid_hw_open(device) 0
#define hid_hw_close(device) ((void)(device))

/* Messages. */
#define dev_err(device, ...) ((void)0)
#define dev_dbg(device, ...) ((void)0)
#define pr_info(...) ((void)0)
#define pr_warn_ratelimited(...) ((void)0)
#define hid_info(device, ...) ((void)0)
#define hid_dbg(device, ...) ((void)0)
char *kasprintf(gfp_t flags, const char *format, ...) __attribute__((format(printf, 2, 3)));

#endif
