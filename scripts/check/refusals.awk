# SPDX-License-Identifier: MIT
# Compares the numbers of errors, and fails if they differ: those of enum zacpi_status_code in include/zacpi.h with
# those that acpi_c_lib's refusal/codes.rt gives out, and with the names that zacpi_status_name shows, which are the
# header's. These two files are what it reads, in this order. The others are compared in the manner of Rust, those of the MADT's errors with `Madt`
# before them, and those of the SRAT's and of the IOMMUs' without what says that they are.
function complain(what) { print what; differ = 1 }
function has(number, name) {
    if ((file, number) in name_of) complain(FILENAME ": two names of " number)
    name_of[file, number] = name
    if (number + 0 > most) most = number + 0
    found[file]++
}
function rust_name(name,    words, i, text) {
    for (i = 1; i <= split(tolower(name), words, "_"); i++) text = text toupper(substr(words[i], 1, 1)) substr(words[i], 2)
    return text
}
FNR == 1 { file++ }
file == 1 && /^enum zacpi_status_code/ { inside = 1 }
file == 1 && /^};/ { inside = 0 }
file == 1 && inside && match($0, /^    ZACPI_[A-Z_]+ = [0-9]+/) {
    split(substr($0, 11, RLENGTH - 10), parts, " = ")
    declared[parts[2]] = "ZACPI_" parts[1]
    count++
    sub(/^(NUMA|IOMMU)_/, "", parts[1])
    if (parts[2] != 0) has(parts[2], rust_name(parts[1]))
}
file == 1 && /zacpi_status_name\(/ { shown = 1 }
file == 1 && shown && /^}/ { shown = 0 }
# The names that the header shows, each after its number.
file == 1 && shown {
    text = $0
    while (match(text, /"[0-9]+:[A-Z_]+/)) {
        split(substr(text, RSTART + 1, RLENGTH - 1), parts, ":")
        if (parts[1] in shown_name) complain("the header shows two names of " parts[1])
        shown_name[parts[1]] = parts[2]
        number++
        text = substr(text, RSTART + RLENGTH)
    }
}
file == 2 && match($0, /(Refusal|AcpiError|MadtError|WriterError)::[A-Za-z]+(\(_\))? => [0-9]+/) {
    text = substr($0, RSTART, RLENGTH)
    sub(/Invalid(Srat|Iommu)/, "Invalid", text); sub(/^MadtError::/, "Madt", text)
    sub(/^.*::/, "", text); sub(/\(_\)/, "", text)
    split(text, parts, " => ")
    if (parts[2] != 0 && parts[2] != 99) has(parts[2], parts[1])
}
END {
    for (i = 1; i <= most; i++) {
        here = name_of[1, i]
        if (declared[i] != shown_name[i]) complain(i ": the header has " declared[i] ", and shows " shown_name[i])
        if (here != name_of[2, i]) complain(i ": the header has '" here "', and codes.rt '" name_of[2, i] "'")
    }
    if (number != count) complain("the header shows " number " names of " count " numbers")
    if (file != 2 || !found[1] || !found[2]) complain("numbers of one of the two files aren't found")
    exit differ
}
