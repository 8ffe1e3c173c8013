// Chromium's parser of report descriptors behind three functions of C.
#include <algorithm>
#include <cstddef>
#include <cstdint>
#include <vector>

#include "services/device/public/cpp/hid/hid_report_descriptor.h"

using device::HidCollection;
using device::HidReportDescriptor;
using device::HidReportItem;
using Reports = std::unordered_map<uint8_t, HidCollection::HidReport>;

/// What can be compared: how many fields there are and bits in them, and the sum of the variable
/// fields' usages.
struct ChromiumFacts {
    uint64_t fields;
    uint64_t bits;
    uint64_t usages;
};

/// The usage of an item's field `index`, the last one where there are fewer.
static uint32_t usage_of(const HidReportItem &item, uint32_t index) {
    if (item.IsRange()) {
        // The face of an item has no page of a range; its record has.
        auto record = item.ToMojo();
        uint32_t page = record->usage_minimum->usage_page;
        uint32_t least = record->usage_minimum->usage;
        uint32_t greatest = record->usage_maximum->usage;
        return page << 16 | std::min(least + index, greatest);
    }
    const auto &usages = item.GetUsages();
    if (usages.empty())
        return 0;
    return usages[std::min<size_t>(index, usages.size() - 1)];
}

static void add_item(ChromiumFacts &facts, const HidReportItem &item) {
    uint32_t count = item.GetReportCount();
    facts.bits += uint64_t{count} * item.GetReportSize();
    if (item.IsArray() || item.GetReportInfo().data_or_constant) {
        facts.fields += 1;
        return;
    }
    facts.fields += count;
    for (uint32_t index = 0; index < count; ++index)
        facts.usages += usage_of(item, index);
}

static void add_reports(ChromiumFacts &facts, const Reports &reports) {
    for (const auto &report : reports)
        for (const auto &item : report.second)
            add_item(facts, *item);
}

extern "C" {

/// Parses and drops: how many collections have none around them.
size_t chromium_parse(const uint8_t *bytes, size_t length) {
    HidReportDescriptor descriptor({bytes, length});
    return descriptor.collections().size();
}

/// Parses, makes what Chromium's service hands out of the descriptor, and drops both: how many
/// bytes the longest report has that the device sends.
size_t chromium_details(const uint8_t *bytes, size_t length) {
    HidReportDescriptor descriptor({bytes, length});
    std::vector<device::mojom::HidCollectionInfoPtr> collections;
    bool has_report_id;
    size_t input, output, feature;
    descriptor.GetDetails(&collections, &has_report_id, &input, &output, &feature);
    return input;
}

ChromiumFacts chromium_facts(const uint8_t *bytes, size_t length) {
    ChromiumFacts facts = {};
    HidReportDescriptor descriptor({bytes, length});
    for (const auto &collection : descriptor.collections()) {
        add_reports(facts, collection->GetInputReports());
        add_reports(facts, collection->GetOutputReports());
        add_reports(facts, collection->GetFeatureReports());
    }
    return facts;
}

}  // extern "C"
