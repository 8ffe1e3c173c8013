#!/bin/bash
# What can be seen without a build, in seconds: the tree's rules (tree/rules.sh), that the tables of names
# and codes are those of their texts (tree/usage_tables.sh, bpf_names.sh), that the page that
# `hid page` writes is that of crates/hid_page/page (tree/page.sh), that the header declares what its
# soname promises (tree/soname.sh), that no module uses one that uses it (tree/circles.py, where there is
# Python), and that what a crate of `hid` offers is used (tree/surfaces.py). Its status is 0 where all hold.
set -eu
export LC_ALL=C
cd "$(dirname "$0")/tree"
bash rules.sh
bash usage_tables.sh --check
bash bpf_names.sh --check
bash page.sh --check
bash soname.sh --check
! command -v python3 > /dev/null || {
    python3 circles.py
    python3 surfaces.py
}
