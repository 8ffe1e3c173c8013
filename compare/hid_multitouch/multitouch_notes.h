/* In hid-multitouch.c, what gives an input device a code is noted, and done. */
#define input_set_abs_params(device, code, ...) \
    (shim_note(EV_ABS, code), input_set_abs_params(device, code, __VA_ARGS__))
#define input_set_capability(device, type, code) \
    (shim_note(type, code), input_set_capability(device, type, code))
