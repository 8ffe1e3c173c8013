/* What hid-multitouch.c, input-mt.c and the functions of hid-sensor-hub.c expect of the kernel around them,
 * beside what stands in hid_input/input_shim.h. It is ours: nothing of the kernel's source stands here. */
#ifndef HID_MULTITOUCH_SHIM_H
#define HID_MULTITOUCH_SHIM_H

#include <sys/types.h>

#define PAGE_SIZE 4096
typedef unsigned long kernel_ulong_t;
#define __aligned(bytes)
#define min(a, b) ((a) < (b) ? (a) : (b))
#define max(a, b) ((a) > (b) ? (a) : (b))
#define min_t(type, a, b) min((type)(a), (type)(b))
#define struct_size(at, member, count) (sizeof(*(at)) + sizeof(*(at)->member) * (count))

static inline bool bitmap_empty(const unsigned long *bits, unsigned int count)
{
    return bitmap_weight(bits, count) == 0;
}

#define test_and_set_bit_lock test_and_set_bit
#define clear_bit_unlock clear_bit
#define list_is_singular(list) (!list_empty(list) && (list)->next == (list)->prev)
#define list_last_entry(list, type, member) container_of((list)->prev, type, member)

/* Memory of a device stays: the program ends with the last question. */
#define devm_kzalloc(device, size, flags) shim_zeros(1, size)
#define devm_kcalloc(device, count, size, flags) shim_zeros(count, size)
#define devm_kfree(device, memory) ((void)(memory))
#define devm_kasprintf(device, flags, ...) kasprintf(flags, __VA_ARGS__)

/* Time stands still, and no attribute of sysfs is asked. */
static const unsigned long jiffies;
#define msecs_to_jiffies(count) (count)
#define jiffies_to_usecs(count) ((unsigned long)(count))
#define mod_timer(timer, when) ((void)(timer))
#define del_timer(timer) ((void)(timer))
#define timer_shutdown_sync(timer) ((void)(timer))
#define from_timer(at, timer, member) container_of(timer, typeof(*at), member)
struct attribute { const char *name; };
struct device_attribute { struct attribute attr; void *show, *store; };
struct attribute_group { struct attribute **attrs; };
#define S_IWUSR 0
#define S_IRUGO 0
#define DEVICE_ATTR(name, mode, get, set) \
    struct device_attribute dev_attr_##name = {{#name}, (void *)(get), (void *)(set)}
#define sysfs_create_group(object, group) ((void)(group), 0)
#define sysfs_remove_group(object, group) ((void)(group))
#define kstrtoul(text, base, at) (*(at) = strtoul(text, NULL, base), 0)
#define dev_warn(device, ...) ((void)0)
#define dev_info(device, ...) ((void)0)
#define pr_err(...) ((void)0)
#define dump_stack() ((void)0)
#undef HID_ANY_ID
#define MODULE_AUTHOR(text)
#define MODULE_DESCRIPTION(text)
#define MODULE_LICENSE(text)
#define MODULE_DEVICE_TABLE(kind, table)
#define module_hid_driver(driver) struct hid_driver *const shim_multitouch = &driver
#define pm_ptr(call) (call)
#define to_hid_device(device) container_of(device, struct hid_device, dev)
#define hid_hw_may_wakeup(device) false
#define hid_hw_idle(device, report, idle, type) ((void)(device))
#define hid_hw_stop(device) ((void)(device))

/* What a sensor hub makes beside its input devices. */
struct completion { int none; };
struct platform_device;
struct hid_sensor_hub_callbacks;
struct mfd_cell { const char *name; void *platform_data; size_t pdata_size; };
#define mfd_add_hotplug_devices(device, cells, count) ((void)(cells), 0)

extern struct hid_driver *const shim_multitouch;
int shim_probe_sensors(struct hid_device *device);

int input_mt_init_slots(struct input_dev *, unsigned int, unsigned int);
bool input_mt_report_slot_state(struct input_dev *, unsigned int, bool);
void input_mt_sync_frame(struct input_dev *);
void input_mt_drop_unused(struct input_dev *);
int input_mt_get_slot_by_key(struct input_dev *, int);
void input_set_capability(struct input_dev *, unsigned int, unsigned int);
int hid_hw_start(struct hid_device *, unsigned int);
__s32 hidinput_calc_abs_res(const struct hid_field *, __u16);

/* What the driver gives the usage that it maps, as it goes: ask_multitouch.c keeps it. */
void shim_note(unsigned int type, unsigned int code);

#endif
