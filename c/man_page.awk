# The page of man, section 3, from include/hidreport.h: its first comment, each function with the
# comment above it. `version` is the library's.
BEGIN {
    print ".TH HIDREPORT 3 \"\" \"hidreport " version "\""
    print ".SH NAME\nhidreport \\- HID report descriptors read, " \
        "values taken from reports and written to them"
    print ".SH SYNOPSIS\n.nf\n.B #include <hidreport.h>\n.PP"
}

# A text as man takes it.
function plain(text) {
    gsub(/\\/, "\\\\", text)
    gsub(/-/, "\\-", text)
    sub(/^[.']/, "\\\\\\&&", text)
    return text
}

/^ *\/\*/ { comment = ""; is_in = 1 }
is_in {
    is_in = !/\*\//
    sub(/^ *\/?\*+ ?/, "")
    sub(/ *\*\/ *$/, "")
    comment = comment plain($0) "\n"
    if (!is_in && !above) above = comment
    next
}
/^[a-z].*[ *]hidreport_[a-z_]*\(/ { is_function = 1; declared = ""; said = comment }
is_function {
    declared = declared plain($0) "\n"
    if (!/;$/) next
    is_function = 0
    match(declared, /hidreport_[a-z_]*\(/)
    synopsis = synopsis declared
    functions = functions ".TP\n.B " substr(declared, RSTART, RLENGTH - 1) "\n" said
}

END {
    printf "%s.fi\n.PP\nLink with \\-lhidreport.\n", synopsis
    sub(/^[^\n]*\n[^\n]*\n\n/, "", above)
    printf ".SH DESCRIPTION\n%s", above
    print "The header says what its structures and their numbers are."
    printf ".SH FUNCTIONS\n%s", functions
    print ".SH SEE ALSO\n.BR hid (1),\n.BR hidreport (1)"
}
