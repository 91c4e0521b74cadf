#!/bin/sh
# The tool's manual page, from what the tool tells of itself: man.sh TOOL >yordzepa.1
set -eu
tool=$1

# Text that is shown as it stands.
as_it_stands() {
    echo .nf
    sed -e 's/\\/\\e/g' -e 's/-/\\-/g' -e "s/^\\([.']\\)/\\\\\\&\\1/"
    echo .fi
}

echo ".TH YORDZEPA 1 \"\" \"$("$tool" --version)\" \"User Commands\""
echo .SH NAME
echo "yordzepa \\- the operator's tool of a triparty collateral desk"
echo .SH SYNOPSIS
"$tool" --help | as_it_stands
for command in $("$tool" --help | sed -n 's/^  \([a-z]*\) .*/\1/p'); do
    echo ".SH $command" | tr a-z A-Z
    "$tool" "$command" --help | as_it_stands
done
