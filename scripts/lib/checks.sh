# SPDX-License-Identifier: MIT
# What the checks of this folder share: they count what they try, and run callers over the sample images beside
# acpi_view. It is read by `.` at the top of the repository, with a folder in $made, and what looks at images also with
# $ACPI_VIEW.
passed=0
failed=0

good() { echo "ok: $1"; passed=$((passed + 1)); }
bad() { echo "FAILED: $1"; failed=$((failed + 1)); }

# Runs a command, and counts it under a name. What it prints is shown if it fails.
try() {
    name=$1
    shift
    if "$@" >"$made/said" 2>&1; then good "$name"; else
        bad "$name"
        sed 's/^/    /' "$made/said"
    fi
}

counted() { # adds the counts of a command's last line
    "$@" >"$made/part" 2>&1
    status=$?
    cat "$made/part"
    counts=$(tail -n 1 "$made/part" | sed -n 's/^\([0-9]*\) passed, \([0-9]*\) failed$/\1 \2/p')
    [ -n "$counts" ] || counts="0 1"
    passed=$((passed + ${counts% *}))
    failed=$((failed + ${counts#* }))
    [ $status = 0 ] || [ "${counts#* }" != 0 ] || failed=$((failed + 1))
}

# Whether Rust is there, and as new as the bindings want it.
has_rust() {
    wanted=$(sed -n 's/^rust-version = "\(.*\)"/\1/p' bindings/rust/Cargo.toml)
    command -v cargo >/dev/null && command -v rustc >/dev/null || { echo "skipped: no cargo or no rustc"; return 1; }
    oldest=$({ echo "$wanted"; rustc --version | awk '{ print $2 }'; } | sort -t . -k 1,1n -k 2,2n | head -n 1)
    [ "$oldest" = "$wanted" ] || { echo "skipped: rustc $oldest is older than $wanted"; return 1; }
}

# Has cargo take the crates of others from Debian's packages (scripts/lib/crates), if they are there. Of a Debian with
# other versions than Cargo.lock has, copies of the tree below $made lose that.
crates_of_debian() {
    scripts/lib/crates "$made/crates"
    case $? in
        0) registry=$made/crates/registry ;;
        2) registry= && rm -f "$made"/*/Cargo.lock ;;
        *) return 1 ;;
    esac
    export CARGO_HOME="$made/cargo-home"
    mkdir -p "$CARGO_HOME" && cp "$made/crates/config.toml" "$CARGO_HOME/"
}

# What acpi_view says for every sample image, by each of its starts: a start of which it is known whether it opens
# tables prints lines, or else a refusal.
views() {
    mkdir "$made/views" && : >"$made/compared" && grep -v '^#' scripts/lib/sample_starts.txt >"$made/starts" || return 1
    while read -r outcome image start; do
        view="$made/views/$image $start"
        "$ACPI_VIEW" "$(image_file "$image")" $start >"$view.out" 2>"$view.errors"
        status=$?
        echo $status >"$view.status"
        case $outcome in
            opens) [ $status = 0 ] && grep -q '^revision ' "$view.out" ;;
            refuses) [ $status = 1 ] && [ ! -s "$view.out" ] && grep -q '^refused: ' "$view.errors" ;;
        esac || { echo "$image $start: status $status, though it $outcome"; return 1; }
        cat "$view.out" "$view.errors" >>"$made/compared"
    done <"$made/starts"
    every_kind
}
image_file() { find crates/*/data tools/*/data examples/c/data -name "$1" | sort | head -n 1; }

# Runs a caller from a start, and compares status, lines and errors with acpi_view's.
same_start() { # IMAGE START COMMAND...
    view="$made/views/$1 $2"
    shift 2
    "$@" >"$made/mine" 2>"$made/my_errors"
    mine=$?
    [ $mine = "$(cat "$view.status")" ] || { echo "status $mine and acpi_view's $(cat "$view.status")"; return 1; }
    diff "$made/mine" "$view.out" && diff "$made/my_errors" "$view.errors"
}

# The kinds of lines that acpi_view prints, each with content. All of them occur in the sample images.
kinds() {
    cat <<'END'
^revision 0$
^revision 1$
^revision 2$
^revision 255$
^table [A-Z0-9]+ length [0-9]+ revision [0-9]+$
^dsdt 0x[0-9a-f]+ length [0-9]+$
^dsdt: (TableMissing FACP|InvalidDsdtAddress|MapFailed|SdtInvalid.* DSDT)$
^ssdt 0x[0-9a-f]+ length [0-9]+$
^platform profile [1-9]$
^platform: (TableMissing FACP|InvalidGenericAddress|InvalidMadt .*)$
^model apic 0x[0-9a-f]+ pics yes$
^model apic 0x[0-9a-f]+ pics no$
^model unknown$
^ioapic [0-9]+ 0x[0-9a-f]+ [0-9]+$
^override [0-9]+ [0-9]+ high (edge|level)$
^override [0-9]+ [0-9]+ low (edge|level)$
^override [0-9]+ [0-9]+ bus bus$
^nmi [0-9]+ (high|low) (edge|level)$
^line all lint[01]$
^line [0-9]+ lint[01]$
^processor [0-9]+ [0-9]+ disabled$
^processor [0-9]+ [0-9]+ waiting$
^processor [0-9]+ [0-9]+ running$
^timer 0x[0-9a-f]+ bits 24$
^timer 0x[0-9a-f]+ bits 32$
^timer none$
^hpet 0x[0-9a-f]+ number [0-9]+ tick [0-9]+$
^hpet: TableMissing HPET$
^pci [0-9]+ [0-9]+ [0-9]+ 0x[0-9a-f]+$
^pci: TableMissing MCFG$
^bgrt displayed yes angle [0-9]+ offset [0-9]+ [0-9]+$
^bgrt displayed no angle [0-9]+ offset [0-9]+ [0-9]+$
^bgrt: TableMissing BGRT$
^spcr baud [0-9]+ irq [0-9]+ gsi [0-9]+$
^spcr baud [0-9]+ irq [0-9]+ gsi none$
^spcr: TableMissing SPCR$
^skipped [A-Z]+ 0x[0-9a-f]+: MapFailed$
^skipped [A-Z]+ 0x[0-9a-f]+: SdtInvalid[A-Za-z]+ [A-Z]+$
^refused: (Truncated|Overlap|EndTooLarge)$
^refused: (MapFailed|NoValidRsdp|RsdpInvalid[A-Za-z]+|RsdpIncorrectSignature)$
^refused: SdtInvalid[A-Za-z]+ [RX]SDT$
END
}
every_kind() {
    kinds | while IFS= read -r kind; do grep -qE "$kind" "$made/compared" || echo "never compared: $kind"; done >"$made/missing"
    cat "$made/missing"
    [ ! -s "$made/missing" ]
}

# A caller over every sample image, by each of its starts.
over_images() { # COMMAND...
    while read -r _ image start; do
        same_start "$image" "$start" "$@" "$(image_file "$image")" $start || { echo "at $image $start"; return 1; }
    done <"$made/starts"
}
same_lines() { # NAME COMMAND...
    name="$1: the lines of acpi_view, $(wc -l <"$made/compared") over $(wc -l <"$made/starts") starts"
    shift
    try "$name" over_images "$@"
}
# Each sample image has starts that are run, and one that is refused; copies of one name are the same.
all_started() {
    find crates/*/data tools/*/data examples/c/data -name '*.image' | sort >"$made/images"
    while read -r file; do
        grep -q "^refuses $(basename "$file") " scripts/lib/sample_starts.txt || { echo "$file has no start that is refused"; return 1; }
        cmp "$file" "$(grep "/$(basename "$file")\$" "$made/images" | head -n 1)" || return 1
    done <"$made/images"
}
