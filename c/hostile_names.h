/* Names that aren't there, aren't text or are long, and little room for one. */
#include "hostile_fields.h"

static int is_none(struct hidreport_usage u)
{
    return !u.is_meant && u.usage == 0;
}

static void ask_for_numbers(saying *say)
{
    static uint8_t name[65536];
    const uint8_t not_text[2] = {0xc3, 0x28};

    memset(name, 'B', sizeof name);
    say(is_none(hidreport_usage_by_name(NULL, 0)), "no name");
    say(is_none(hidreport_usage_on_page(9, NULL, 0)), "no name on a page");
    say(!hidreport_page_by_name(NULL, 0).is_there, "no name of a page");
    say(is_none(hidreport_usage_by_name(not_text, 2)), "a name that is no text");
    say(is_none(hidreport_usage_on_page(9, not_text, 2)), "a name on a page that is no text");
    say(!hidreport_page_by_name(not_text, 2).is_there, "a name of a page that is no text");
    say(is_none(hidreport_usage_by_name(name, sizeof name)), "a long name");
    say(is_none(hidreport_usage_on_page(9, name, sizeof name)), "a long name on a page");
    say(!hidreport_page_by_name(name, sizeof name).is_there, "a long name of a page");
}

/* Each name is counted where there is no room, and a letter less written where one is lacking. */
static void ask_for_texts(saying *say)
{
    const uint8_t item[2] = {0x81, 0x02};
    uint8_t text[8] = {7, 7, 7, 7, 7, 7, 7, 7};

    say(hidreport_usage_name(0x10002, NULL, 0).count == 5, "Mouse without room");
    say(hidreport_page_name(9, NULL, 0).count == 6, "Button without room");
    say(hidreport_item_name(item, 2, NULL, 0).count == 5, "Input without room");
    say(hidreport_flag_words(item, 2, NULL, 0).count == 19, "flags without room");
    say(hidreport_collection_name(1, NULL, 0).count == 11, "Application without room");
    say(hidreport_usage_name(0x10002, text, 4).count == 5 && memcmp(text, "Mous\7", 5) == 0,
        "Mouse with room for four");
    say(hidreport_page_name(9, text, 5).count == 6 && memcmp(text, "Butto\7", 6) == 0,
        "Button with room for five");
    say(hidreport_item_name(item, 2, text, 4).count == 5 && memcmp(text, "Inpuo\7", 6) == 0,
        "Input with room for four");
    say(hidreport_flag_words(item, 2, text, 6).count == 19 && memcmp(text, "Data,V\7", 7) == 0,
        "flags with room for six");
    say(hidreport_collection_name(1, text, 7).count == 11 && memcmp(text, "Applica\7", 8) == 0,
        "Application with room for seven");
    say(hidreport_item_name(NULL, 0, text, 8).count == 0, "the name of no item");
    say(hidreport_flag_words(NULL, 0, text, 8).count == 0, "the flags of no item");
    say(hidreport_usage_name(UINT32_MAX, text, 8).count == 17, "the last usage");
    say(hidreport_collection_name(UINT32_MAX, text, 8).count == 0, "the name of no kind");
}
