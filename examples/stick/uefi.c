/* SPDX-License-Identifier: MIT */
/* The program by UEFI's boot services, on x86-64 and AArch64. They have the screen, the keys and the file, so nothing
 * of a machine is known here. */
#include "efi.h"
#include "stick.h"

static void *image;
static struct system_table *system;
static struct file *root, *file;

const char *firmware_name(void) {
#if defined __aarch64__
    return "UEFI on AArch64";
#else
    return "UEFI on x86-64";
#endif
}

/* What the firmware keeps for itself. What it may free, and this program, which changes while calls run, isn't looked
 * at. Devices aren't either. */
static int is_kept(uint32_t type) {
    return type == RESERVED_MEMORY || (type >= BOOT_SERVICES_DATA && type <= RUNTIME_SERVICES_DATA) ||
           type == ACPI_RECLAIM_MEMORY || type == ACPI_MEMORY_NVS;
}
size_t firmware_memory(struct zacpi_range *out, size_t capacity) {
    static uint8_t map[1 << 17] __attribute__((aligned(8)));
    uint64_t size = sizeof map, key, each;
    uint32_t version;
    size_t n = 0;
    if (system->boot->get_memory_map(&size, map, &key, &each, &version)) return 0;
    for (uint64_t at = 0; at + each <= size && n < capacity; at += each) {
        const struct memory_descriptor *const m = (const void *)(map + at);
        if (is_kept(m->type)) out[n++] = (struct zacpi_range){m->start, m->pages << 12};
    }
    return n;
}

uint32_t rows_of_screen(void) {
    struct console *const console = system->console;
    uint64_t columns, rows;
    if (console->query_mode(console, (uint64_t)console->mode->mode, &columns, &rows) || rows < 25) return 25;
    return (uint32_t)rows;
}
void clear_screen(void) { system->console->clear_screen(system->console); }
void show_text(const char *text, size_t length) {
    uint16_t wide[128];
    size_t n = 0;
    while (length--) {
        if (*text == '\n') wide[n++] = '\r';
        wide[n++] = (uint8_t)*text++;
        if (length && n < 125) continue;
        wide[n] = 0, n = 0;
        system->console->output_string(system->console, wide);
    }
}

int wait_for_key(uint32_t seconds) {
    struct keyboard *const keyboard = system->console_in;
    void *events[2] = {keyboard->key_event, 0};
    struct key key;
    uint64_t which = 1;
    if (system->boot->create_event(EVENT_TIMER, LEVEL_APPLICATION, 0, 0, events + 1)) return 0;
    if (!system->boot->set_timer(events[1], TIMER_RELATIVE, seconds * (uint64_t)10000000))
        system->boot->wait_for_event(2, events, &which);
    system->boot->close_event(events[1]);
    while (!keyboard->read_key(keyboard, &key)) which = 0;
    return which == 0;
}

const char *file_name(void) { return "UEFI.TXT"; }
/* A new file in place of the one that is there. */
const char *open_file(size_t length) {
    static const struct guid loaded_guid = {0x5b1b31a1, 0x9562, 0x11d2, {0x8e, 0x3f, 0, 0xa0, 0xc9, 0x69, 0x72, 0x3b}};
    static const struct guid volume_guid = {0x964e5b22, 0x6459, 0x11d2, {0x8e, 0x39, 0, 0xa0, 0xc9, 0x69, 0x72, 0x3b}};
    static const uint16_t name[] = {'U', 'E', 'F', 'I', '.', 'T', 'X', 'T', 0};
    struct loaded_image *loaded;
    struct file_system *volume;
    (void)length;
    if (system->boot->handle_protocol(image, &loaded_guid, (void **)&loaded)) return "the stick isn't known";
    if (system->boot->handle_protocol(loaded->device, &volume_guid, (void **)&volume)) return "it has no file system";
    if (volume->open_volume(volume, &root)) return "the stick can't be opened";
    if (!root->open(root, &file, name, FILE_READ_WRITE, 0) && file->remove(file)) return "the old one can't be removed";
    if (root->open(root, &file, name, FILE_READ_WRITE | FILE_CREATE, 0)) return "the file can't be made";
    return 0;
}
const char *write_block(uint8_t *block, size_t length) {
    uint64_t size = length;
    return file->write(file, &size, block) || size != length ? "the stick is full, or can't be written" : 0;
}
const char *close_file(uint8_t *block) {
    (void)block;
    return file->close(file) | root->close(root) ? "the file can't be closed" : 0;
}

void power_off(const struct zacpi_source *source) {
    (void)source;
    system->runtime->reset_system(RESET_SHUTDOWN, 0, 0, 0);
}

uint64_t efi_main(void *own_image, struct system_table *own_system);
uint64_t efi_main(void *own_image, struct system_table *own_system) {
    image = own_image, system = own_system;
    system->boot->set_watchdog(0, 0, 0, 0); /* it resets the machine after five minutes else */
    stick(ZACPI_START_RSDP, rsdp_of(system));
    return 0;
}
