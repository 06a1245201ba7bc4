# SPDX-License-Identifier: MIT
"""What LLVM's passes and compilers of the C are told of functions by name. Each row has to match a function: a name
that is gone is an error."""
import re
import sys

# Small functions stay functions, so that a reader meets each rule once (scripts/dist names LLVM's limit), but for what
# is told here, to what functions, by their whole names. To LLVM's passes:
# - always, a part of each caller: it is called at one place of each, or its result goes through memory otherwise;
# - hot, what is rather a part of its callers: the paths of the calls that docs/SPEED.md counts;
# - apart, a function of its own: it is in each call, and is rarely come to, or is long;
# - small, made short rather than fast.
# To compilers of the C:
# - cold, made small rather than fast: what a machine needs once, and what only errors need;
# - inlined, made a part of its callers;
# - started, what chooses by a source's start: there ZACPI_NO_SEARCH makes those of searches unknown ones.
NAMES = [
    ('always', r'acpi_c_lib\.opening\.find_rsdp'),
    ('always', r'acpi\.rsdp\.(?:map_rsdp|check_mapped)'),
    ('always', r'acpi_base\.tables\.madt\.entry\.MadtEntry\.read'),

    # Opening tables, and finding one.
    ('hot', r'acpi\.rsdp\.(?:map_accepted_rsdp|check_whole|read_accepted)'),
    ('hot', r'acpi_base\.memory\.claim\.Claim\.(?:request|widen)'),
    ('hot', r'acpi_base\.memory\.mapping\.PhysicalMapping\.map'),
    ('hot', r'acpi_bytes\.header\.SdtHeader\.validate_ids'),
    ('hot', r'acpi_c_lib\.opening\.(?:find_fadt|first|open)'),
    ('hot', r'acpi_c_lib\.regions\.(?:spot|rest_at)'),
    # What calls return.
    ('hot', r'acpi_c_lib\.(?:answer\.answer|tables\.aml_at|lists\.fill(?:_from|_part)?)'),
    ('hot', r'acpi_bytes\.codes\..*try_from'),
    ('hot', r'acpi_c_devices\.devices\.hpet_shown'),
    ('hot', r'acpi_c_interrupts\.apics\.(?:processor_in|.*said)'),
    ('hot', r'acpi_c_interrupts\.routes\.wirings\.Wirings\.isa'),
    # How long a field is, which is known of most.
    ('hot', r'acpi_table_writer\.(?:fields|spelled)\..*measure'),

    # What a call returns for an error, and whether regions are in order.
    ('apart', r'acpi_c_lib\.(?:refusal\.Refusal\.code|answer\.name|regions\.check)'),
    ('apart', r'acpi\.rsdp\.Rsdp\.summed_length'),
    # A text that isn't ASCII is rare: its loops aren't unrolled.
    ('small', r'acpi_bytes\.bytes\.is_other_text'),

    ('cold', r'acpi\.platform\.timer\..*'),
    ('cold', r'acpi\.rsdp\.(?:bios\.|Rsdp\.search_).*'),
    ('cold', r'acpi_bytes\.bytes\.(?:is_other_text|rest_of)\b.*'),
    ('cold', r'acpi_c_lib\.faults\..*'),
    ('cold', r'acpi_c_lib\.(?:refusal\.|answer\.name).*'),
    ('cold', r'acpi_c_devices\.(?:devices\.optional_register|fixed\.|power\.).*'),
    ('cold', r'acpi_sleep\..*'),
    ('cold', r'acpi_(?:table_)?writer\..*'),
    ('cold', r'zacpi_\d+_get_\w+_plan'),
    ('cold', r'zacpi_\d+_get_(?:fixed_hardware|pm_timer|sleep_types)'),
    ('cold', r'zacpi_\d+_list_(?:faults|missing_ranges|ranges)'),
    ('cold', r'zacpi_\d+_list_\w+_faults'),
    ('cold', r'zacpi_\d+_write_.*'),

    # Each call looks tables up by these.
    ('inlined', r'acpi\.rsdp\.Rsdp\.summed_length'),
    ('inlined', r'acpi\.tables\.AcpiTables\.own_sdt_at'),
    ('inlined', r'acpi_bytes\.header\.SdtHeader\.table_length'),
    ('inlined', r'acpi_base\.table\.lookup\.claim_by'),
    ('inlined', r'acpi_c_lib\.opening\.root_pointer'),

    ('started', r'acpi_c_lib\.opening\.root_pointer'),
    ('started', r'zacpi_\d+_get_rsdp'),
]
TO_PASSES = {'always': 'alwaysinline', 'hot': 'inlinehint', 'apart': 'noinline', 'small': 'optsize'}


def path_of(name):
    """A function's name without the numbers of one of several copies."""
    return re.sub(r'(?:\.\d+)+$', '', name)


def said_of(name, what):
    """Whether a function is told this."""
    return any(said == what and re.fullmatch(pattern, path_of(name)) for said, pattern in NAMES)


def matching(names, *told):
    """Stops unless each row that tells one of these is about a function of these names."""
    for what, pattern in NAMES:
        if what in told and not any(re.fullmatch(pattern, path_of(name)) for name in names):
            sys.exit(f'no function has a name as {pattern}, of which names.py says {what}')


def marked(module):
    """The text of a module with what LLVM's passes are told of its functions: before their groups of attributes."""
    matching(re.findall(r'(?m)^define .*?@([\w.]+)\(', module), *TO_PASSES)

    def head(found):
        said = [word for what, word in TO_PASSES.items() if said_of(found[1], what)]
        return re.sub(r'( #\d+)', rf' {" ".join(said)}\1', found[0], count=1) if said else found[0]
    return re.sub(r'(?m)^define .*?@([\w.]+)\(.*$', head, module)
