#!/bin/bash
# try.sh CRATE [EDIT..], from the root: tries the must-fail edits of one crate (rt must-fail, which tries again only what changed), and prints what became of these; the status is that of the whole crate
c=$1; shift
[ $# -gt 0 ] || exec rt must-fail "$c"
names=$(IFS='|'; echo "${*%.edit}")
rt must-fail "$c" | grep -E "/($names)\.edit"
exit "${PIPESTATUS[0]}"
