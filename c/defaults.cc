// What the header's defaults ask for, from C++: each is tried beside what they should be.
#include <hidreport.h>

#include <cstdio>
#include <cstring>
#include <vector>

static bool are_same(hidreport_answer left, hidreport_answer right)
{
    return left.count == right.count && left.offset == right.offset && left.status == right.status;
}

// The usages of two fields, of which a Push that keeps locals leaves the first alone, and the usage
// of a data item behind one that hosts read otherwise than the standard.
static bool read_alike(hidreport_options left, hidreport_options right)
{
    const std::vector<uint8_t> descriptors[] = {
        {0x05, 0x01, 0x75, 0x08, 0x95, 0x02, 0x09, 0x30, 0xa4, 0x09, 0x31, 0xb4, 0x81, 0x02},
        {0x05, 0x01, 0x75, 0x08, 0x95, 0x02, 0x09, 0x30, 0x19, 0x31, 0x29, 0x31, 0x81, 0x02},
        std::vector<uint8_t>(65536, 0xc4),
        std::vector<uint8_t>(65537, 0xc4),
    };
    for (const std::vector<uint8_t> &bytes : descriptors) {
        std::vector<hidreport_field> fields(2), others(2);
        std::memset(fields.data(), 0, fields.size() * sizeof(hidreport_field));
        std::memset(others.data(), 0, others.size() * sizeof(hidreport_field));
        hidreport_answer one = hidreport_describe(bytes.data(), bytes.size(), left,
                                                  HIDREPORT_INPUT, fields.data(), fields.size());
        hidreport_answer other = hidreport_describe(bytes.data(), bytes.size(), right,
                                                    HIDREPORT_INPUT, others.data(), others.size());
        if (!are_same(one, other))
            return false;
        for (size_t i = 0; i < fields.size(); i++)
            if (fields[i].usages.first != others[i].usages.first)
                return false;
    }
    return true;
}

int main()
{
    const hidreport_options plain = {65536, HIDREPORT_PUSH_ALL, HIDREPORT_USAGES_STANDARD};
    const hidreport_options linux_way = {65536, HIDREPORT_PUSH_GLOBALS, HIDREPORT_USAGES_HOSTS};
    const hidreport_options as_linux = {65536, HIDREPORT_PUSH_GLOBALS, HIDREPORT_USAGES_LINUX};
    const hidreport_options no_limit = {HIDREPORT_NO_LIMIT, HIDREPORT_PUSH_ALL,
                                        HIDREPORT_USAGES_STANDARD};
    if (!read_alike(HIDREPORT_DEFAULTS, plain) ||
        !read_alike(HIDREPORT_REPAIR_DEFAULTS, linux_way) ||
        !read_alike(HIDREPORT_AS_LINUX, as_linux)) {
        std::printf("defaults: they ask for something else\n");
        return 1;
    }
    // What tells them apart does so.
    if (read_alike(plain, linux_way) || read_alike(plain, no_limit)) {
        std::printf("defaults: nothing tells them apart\n");
        return 1;
    }
    std::printf("defaults: as they should be\n");
    return 0;
}
