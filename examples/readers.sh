# SPDX-License-Identifier: MIT
# What the run scripts read a machine's memory with, for `.`, with the folder of the script in $here: $view and $pack are
# $ACPI_VIEW and $ACPI_PACK, or the programs that the kit proves (scripts/built). Without the kit $pack is empty,
# and $view is acpi_dump as make makes it, by which the tables alone are compared; it is empty too where make makes
# none.
top=$(cd "$here/../.." && pwd)
if [ -n "$ACPI_VIEW$ACPI_PACK" ] || { command -v rt >/dev/null && [ -e "$top/scripts/built" ]; }; then
    view=${ACPI_VIEW:-$("$top/scripts/built" acpi_view | head -n 1)}
    pack=${ACPI_PACK:-$("$top/scripts/built" acpi_pack | head -n 1)}
else
    pack='' view=$top/out/acpi_dump
    if make -s -C "$top" acpi_dump OUT=out >&2; then echo "without the kit: compared with the tables that acpi_dump lists"
    else view='' && echo "skipped: what reads the memory again, since make makes no acpi_dump here"; fi
fi
