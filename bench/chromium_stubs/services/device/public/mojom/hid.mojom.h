// Stands for the header of this name that Chromium's build makes: the records of what a descriptor
// announces, as far as the parser makes them. The small one lies where it is held, as there, and
// the others are blocks of their own.
#pragma once

#include <cstdint>
#include <memory>
#include <vector>

namespace device::mojom {

constexpr uint16_t kPageUndefined = 0;

struct HidUsageAndPage;

/// A place for a usage, which may have none.
class HidUsageAndPagePtr;

struct HidUsageAndPage {
    uint16_t usage = 0;
    uint16_t usage_page = 0;

    HidUsageAndPage() = default;
    HidUsageAndPage(uint16_t usage, uint16_t usage_page) : usage(usage), usage_page(usage_page) {}

    static HidUsageAndPagePtr New(uint16_t usage, uint16_t usage_page);
};

class HidUsageAndPagePtr {
  public:
    HidUsageAndPagePtr() = default;
    explicit HidUsageAndPagePtr(HidUsageAndPage value) : value(value), is_there(true) {}

    HidUsageAndPage *operator->() { return &value; }
    const HidUsageAndPage *operator->() const { return &value; }
    explicit operator bool() const { return is_there; }

  private:
    HidUsageAndPage value;
    bool is_there = false;
};

inline HidUsageAndPagePtr HidUsageAndPage::New(uint16_t usage, uint16_t usage_page) {
    return HidUsageAndPagePtr(HidUsageAndPage(usage, usage_page));
}

struct HidReportItem {
    bool is_range = false;
    bool is_constant = false;
    bool is_variable = false;
    bool is_relative = false;
    bool wrap = false;
    bool is_non_linear = false;
    bool no_preferred_state = false;
    bool has_null_position = false;
    bool is_volatile = false;
    bool is_buffered_bytes = false;
    std::vector<HidUsageAndPagePtr> usages;
    HidUsageAndPagePtr usage_minimum;
    HidUsageAndPagePtr usage_maximum;
    uint32_t designator_minimum = 0;
    uint32_t designator_maximum = 0;
    uint32_t string_minimum = 0;
    uint32_t string_maximum = 0;
    int32_t logical_minimum = 0;
    int32_t logical_maximum = 0;
    int32_t physical_minimum = 0;
    int32_t physical_maximum = 0;
    uint32_t unit_exponent = 0;
    uint32_t unit = 0;
    uint32_t report_size = 0;
    uint32_t report_count = 0;

    static std::unique_ptr<HidReportItem> New() { return std::make_unique<HidReportItem>(); }
};
using HidReportItemPtr = std::unique_ptr<HidReportItem>;

struct HidReportDescription {
    uint8_t report_id = 0;
    std::vector<HidReportItemPtr> items;

    static std::unique_ptr<HidReportDescription> New() {
        return std::make_unique<HidReportDescription>();
    }
};
using HidReportDescriptionPtr = std::unique_ptr<HidReportDescription>;

struct HidCollectionInfo {
    HidUsageAndPagePtr usage;
    std::vector<uint8_t> report_ids;
    uint32_t collection_type = 0;
    std::vector<HidReportDescriptionPtr> input_reports;
    std::vector<HidReportDescriptionPtr> output_reports;
    std::vector<HidReportDescriptionPtr> feature_reports;
    std::vector<std::unique_ptr<HidCollectionInfo>> children;

    static std::unique_ptr<HidCollectionInfo> New() {
        return std::make_unique<HidCollectionInfo>();
    }
};
using HidCollectionInfoPtr = std::unique_ptr<HidCollectionInfo>;

}  // namespace device::mojom
