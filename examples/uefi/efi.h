/* What the applications use of UEFI (version 2.10). EFI_ABI is how the firmware is called. */
#ifndef EFI_H
#define EFI_H
#include <stdint.h>

#if defined __x86_64__
#define EFI_ABI __attribute__((ms_abi))
#else
#define EFI_ABI
#endif

struct guid {
    uint32_t a;
    uint16_t b, c;
    uint8_t d[8];
};
/* EFI_MEMORY_DESCRIPTOR (section 7.2.3). Pages have 4 KiB. */
struct memory_descriptor {
    uint32_t type, padding;
    uint64_t start, virtual_start, pages, attributes;
};
enum {
    RESERVED_MEMORY = 0,
    BOOT_SERVICES_DATA = 4,
    RUNTIME_SERVICES_CODE = 5,
    RUNTIME_SERVICES_DATA = 6,
    ACPI_RECLAIM_MEMORY = 9,
    ACPI_MEMORY_NVS = 10
};
struct table_header {
    uint64_t signature;
    uint32_t revision, size, crc, reserved;
};

/* The first fields of EFI_BOOT_SERVICES (section 4.4). */
struct boot_services {
    struct table_header header;
    void *raise_tpl, *restore_tpl, *allocate_pages, *free_pages;
    uint64_t(EFI_ABI *get_memory_map)(uint64_t *size, void *map, uint64_t *key, uint64_t *each, uint32_t *version);
    void *allocate_pool, *free_pool;
    uint64_t(EFI_ABI *create_event)(uint32_t type, uint64_t level, void *notify, void *context, void **event);
    uint64_t(EFI_ABI *set_timer)(void *event, uint32_t type, uint64_t time); /* in units of 100 ns */
    uint64_t(EFI_ABI *wait_for_event)(uint64_t count, void **events, uint64_t *index);
    void *signal_event;
    uint64_t(EFI_ABI *close_event)(void *event);
    void *check_event, *install_interface, *reinstall_interface, *uninstall_interface;
    uint64_t(EFI_ABI *handle_protocol)(void *handle, const struct guid *protocol, void **interface);
    void *reserved, *register_notify, *locate_handle, *locate_path, *install_table, *load_image, *start_image, *exit,
        *unload_image, *exit_boot_services, *get_count, *stall;
    uint64_t(EFI_ABI *set_watchdog)(uint64_t seconds, uint64_t code, uint64_t size, const uint16_t *data);
};
enum { LEVEL_APPLICATION = 4, TIMER_RELATIVE = 2 };
#define EVENT_TIMER 0x80000000u
/* The first fields of EFI_RUNTIME_SERVICES (section 4.5). */
struct runtime_services {
    struct table_header header;
    void *get_time, *set_time, *get_wakeup_time, *set_wakeup_time, *set_map, *convert_pointer, *get_variable,
        *next_variable, *set_variable, *next_count;
    void(EFI_ABI *reset_system)(uint32_t type, uint64_t status, uint64_t size, const void *data);
};
enum { RESET_SHUTDOWN = 2 };
struct configuration_table {
    struct guid guid;
    void *table;
};
/* EFI_SIMPLE_TEXT_INPUT_PROTOCOL (section 12.3). */
struct key {
    uint16_t scan_code, character;
};
struct keyboard {
    void *reset;
    uint64_t(EFI_ABI *read_key)(struct keyboard *self, struct key *key);
    void *key_event;
};
/* EFI_SIMPLE_TEXT_OUTPUT_PROTOCOL (section 12.4). A text is of UCS-2, and ends with 0. */
struct console_mode {
    int32_t modes, mode, attribute, column, row;
};
struct console {
    void *reset;
    uint64_t(EFI_ABI *output_string)(struct console *self, const uint16_t *text);
    void *test_string;
    uint64_t(EFI_ABI *query_mode)(struct console *self, uint64_t mode, uint64_t *columns, uint64_t *rows);
    void *set_mode, *set_attribute;
    uint64_t(EFI_ABI *clear_screen)(struct console *self);
    void *set_cursor, *enable_cursor;
    struct console_mode *mode;
};
/* EFI_SYSTEM_TABLE (section 4.3). */
struct system_table {
    struct table_header header;
    const uint16_t *vendor;
    uint32_t revision, padding;
    void *console_in_handle;
    struct keyboard *console_in;
    void *console_out_handle;
    struct console *console;
    void *error_handle, *error;
    struct runtime_services *runtime;
    struct boot_services *boot;
    uint64_t tables_count;
    struct configuration_table *tables;
};
/* The first fields of EFI_LOADED_IMAGE_PROTOCOL (section 9.1). */
struct loaded_image {
    uint32_t revision, padding;
    void *parent;
    struct system_table *system;
    void *device;
};
/* EFI_FILE_PROTOCOL (section 13.5), of a folder or a file, and EFI_SIMPLE_FILE_SYSTEM_PROTOCOL (section 13.4). */
struct file {
    uint64_t revision;
    uint64_t(EFI_ABI *open)(struct file *self, struct file **file, const uint16_t *name, uint64_t mode,
                            uint64_t attributes);
    uint64_t(EFI_ABI *close)(struct file *self);
    uint64_t(EFI_ABI *remove)(struct file *self);
    void *read;
    uint64_t(EFI_ABI *write)(struct file *self, uint64_t *size, const void *bytes);
};
#define FILE_READ_WRITE ((uint64_t)3)
#define FILE_CREATE ((uint64_t)1 << 63)
struct file_system {
    uint64_t revision;
    uint64_t(EFI_ABI *open_volume)(struct file_system *self, struct file **root);
};

/* The address of the configuration table of a GUID (section 4.6); 0 if there is none. */
static inline uint64_t configured(const struct system_table *system, const struct guid *guid) {
    for (uint64_t i = 0; i < system->tables_count; i++) {
        const uint8_t *a = (const uint8_t *)&system->tables[i].guid, *b = (const uint8_t *)guid;
        uint32_t same = 0;
        while (same < sizeof *guid && a[same] == b[same]) same++;
        if (same == sizeof *guid) return (uint64_t)system->tables[i].table;
    }
    return 0;
}
/* The RSDP: under EFI_ACPI_20_TABLE_GUID, or else, of ACPI 1.0, under ACPI_TABLE_GUID; 0 if there is none. */
static inline uint64_t rsdp_of(const struct system_table *system) {
    static const struct guid acpi = {0x8868e871, 0xe4f1, 0x11d3, {0xbc, 0x22, 0, 0x80, 0xc7, 0x3c, 0x88, 0x81}};
    static const struct guid acpi_1 = {0xeb9d2d30, 0x2d88, 0x11d3, {0x9a, 0x16, 0, 0x90, 0x27, 0x3f, 0xc1, 0x4d}};
    const uint64_t address = configured(system, &acpi);
    return address ? address : configured(system, &acpi_1);
}
#endif
