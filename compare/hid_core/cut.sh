# What hid_core/build.sh and hid_input/build.sh share, for them to source: finding the kernel's sources, and
# cutting constants, structures and functions out of them, unchanged and in their order. Nothing of the
# kernel's source is kept here.

# find_sources SOURCES|debian FOLDER FILE..: sets `sources` to a folder that has these files. With `debian` it
# is FOLDER/sources, of Debian's package linux-source-6.12, which apt-get fetches.
find_sources() {
    local word=$1 folder=$2 package=linux-source-6.12 file
    shift 2
    if [ "$word" = debian ]; then
        sources=$folder/sources
        mkdir -p "$folder/package" "$sources"
        (cd "$folder/package" && apt-get download "$package")
        dpkg-deb -x "$folder/package/$package"_*.deb "$folder/package"
        tar -xJf "$folder/package/usr/src/$package.tar.xz" -C "$sources" --strip-components=1 \
            "${@/#/$package/}"
        rm -r "$folder/package"
    else
        sources=$(cd "$word" && pwd)
    fi
    for file; do
        [ -r "$sources/$file" ] || { echo "build.sh: no $file in $sources" >&2; exit 2; }
    done
}

# cut_structures FILE CONSTANTS NAMES: the constants of one line whose names match CONSTANTS, the structures
# with these names, all enums, and the names of structures that stand alone.
cut_structures() {
    awk -v constants="^($2)\$" -v names="$3" '
        BEGIN { split(names, list, /[ \n]+/); for (i in list) wanted[list[i]] = 1 }
        /^#define[ \t]+[A-Za-z0-9_]+[ \t]/ && !/\\$/ && $2 ~ constants { print; next }
        /^struct [a-z_]+ [{]/ && ($2 in wanted) { inside = 1; found[$2] = 1 }
        /^(struct [a-z_]+;|enum [a-z_]+ [{])/ { if ($1 == "enum") inside = 1; else print }
        inside { print }
        /^};?/ { inside = 0 }
        END {
            for (name in wanted) if (!(name in found)) { print "no struct " name > "/dev/stderr"; exit 1 }
        }' "$1"
}

# cut_macros FILE NAMES: the macros with these names, of however many lines.
cut_macros() {
    awk -v names="$2" '
        BEGIN { split(names, list, /[ \n]+/); for (i in list) wanted[list[i]] = 1 }
        /^#define / && !inside {
            name = $2
            sub(/\(.*/, "", name)
            inside = name in wanted
            if (inside) found[name] = 1
        }
        inside { print }
        !/\\$/ { inside = 0 }
        END {
            for (name in wanted) if (!(name in found)) { print "no macro " name > "/dev/stderr"; exit 1 }
        }' "$1"
}

# cut_functions FILE NAMES: the functions with these names. Behind fetch_item its name is made that of a hook,
# which counts the items and calls it.
cut_functions() {
    awk -v names="$2" '
        BEGIN { split(names, list, /[ \n]+/); for (i in list) wanted[list[i]] = 1 }
        # The first line of a function stands at the margin and has its name before the parenthesis.
        /^[a-z].*\(/ && !/;$/ && !inside {
            name = $0
            sub(/\(.*/, "", name)
            sub(/.*[ *]/, "", name)
            inside = name in wanted
            if (inside) found[name] = 1
        }
        inside { print }
        /^}/ && inside {
            inside = 0
            print ""
            if (name == "fetch_item") print hook
        }
        END {
            for (name in wanted) if (!(name in found)) { print "no function " name > "/dev/stderr"; exit 1 }
        }' hook='static const u8 *shim_fetch_item(const u8 *start, const u8 *end, struct hid_item *item)
{
	shim_begin_item(start);
	return fetch_item(start, end, item);
}
#define fetch_item shim_fetch_item
' "$1"
}

# What both need of hid-core: the files, the structures of hid.h, and the functions of hid-core.c.
core_files=(drivers/hid/hid-core.c drivers/hid/hid-ids.h include/linux/hid.h include/uapi/linux/hid.h)
core_structures='hid_item hid_global hid_local hid_collection hid_usage hid_field hid_field_entry hid_report
    hid_report_enum hid_device hid_parser hid_report_id hid_usage_id hid_driver hid_ll_driver'
core_functions='snto32 hid_register_report hid_register_field open_collection close_collection
    hid_lookup_collection complete_usage hid_add_usage hid_add_field item_udata item_sdata
    hid_parser_global hid_parser_local hid_concatenate_last_usage_page hid_parser_main
    hid_parser_reserved hid_free_report hid_close_report fetch_item hid_scan_input_usage
    hid_scan_feature_usage hid_scan_collection hid_scan_main hid_scan_report hid_parse_report
    hid_calculate_multiplier hid_apply_multiplier_to_field hid_apply_multiplier
    hid_setup_resolution_multiplier hid_open_report __extract hid_field_extract search hid_match_report
    hid_match_usage hid_process_event hid_array_value_is_valid hid_input_fetch_field
    hid_input_var_field hid_input_array_field hid_process_report hid_compute_report_size hid_get_report
    hid_report_raw_event __hid_input_report hid_input_report'

# What asking.c and our other parts call: its declarations, and what stands behind the kernel's functions.
core_declarations='int hid_parse_report(struct hid_device *, const u8 *, unsigned);
int hid_open_report(struct hid_device *);
int hid_input_report(struct hid_device *, enum hid_report_type, u8 *, u32, int);
u32 hid_field_extract(const struct hid_device *, u8 *, unsigned, unsigned);
int hid_report_raw_event(struct hid_device *, enum hid_report_type, u8 *, size_t, u32, int);
int shim_scan(struct hid_device *);
void shim_close(struct hid_device *);'
core_calls='int shim_scan(struct hid_device *device) { return hid_scan_report(device); }
void shim_close(struct hid_device *device) { hid_close_report(device); }'

# compile_kernel FOLDER INCLUDES..: kernel.c of the folder. The kernel is compiled with these two options, so
# numbers wrap.
compile_kernel() {
    local folder=$1
    shift
    "${CC:-cc}" -std=gnu11 -O2 -w -fno-strict-overflow -fno-strict-aliasing "$@" \
        -c -o "$folder/kernel.o" "$folder/kernel.c"
}
