/* What the kernel's functions call before it stands there; build.sh puts it behind the structures. */
void shim_free_input(struct input_dev *device);
int shim_probe(struct hid_device *device);
void input_pass_values(struct input_dev *device, struct input_value *values, unsigned int count);

void input_event(struct input_dev *, unsigned int, unsigned int, int);
void input_alloc_absinfo(struct input_dev *);
void input_set_abs_params(struct input_dev *, unsigned int, int, int, int, int);
int input_scancode_to_scalar(const struct input_keymap_entry *, unsigned int *);
struct input_dev *input_allocate_device(void);
void input_free_device(struct input_dev *);
int input_register_device(struct input_dev *);
void hid_output_report(struct hid_report *, u8 *);
u8 *hid_alloc_report_buf(struct hid_report *, gfp_t);
int hid_set_field(struct hid_field *, unsigned, s32);
int __hid_request(struct hid_device *, struct hid_report *, enum hid_class_request);
void hid_hw_request(struct hid_device *, struct hid_report *, enum hid_class_request);
void hid_disconnect(struct hid_device *);
void hidinput_hid_event(struct hid_device *, struct hid_field *, struct hid_usage *, s32);
void hidinput_report_event(struct hid_device *, struct hid_report *);
int hidinput_connect(struct hid_device *, unsigned int);
void hidinput_disconnect(struct hid_device *);
