// Prints the usages of a mouse's axes, from C++.
#include <hidreport.h>

#include <cstdio>
#include <vector>

int main()
{
    const std::vector<uint8_t> mouse = {0x05, 0x01, 0x15, 0x81, 0x25, 0x7f, 0x75, 0x08,
                                        0x95, 0x02, 0x09, 0x30, 0x09, 0x31, 0x81, 0x02};
    std::vector<hidreport_field> fields(2);
    hidreport_answer described =
        hidreport_describe(mouse.data(), mouse.size(), HIDREPORT_DEFAULTS, HIDREPORT_INPUT,
                           fields.data(), fields.size());
    if (described.status != HIDREPORT_ACCEPTED || described.count != fields.size())
        return 1;
    for (const hidreport_field &field : fields)
        std::printf("%08x\n", field.usages.first);
    return 0;
}
