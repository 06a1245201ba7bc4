/* The fields of a record: where each is, and its bytes. rows_fields.h and answers_fields.h list them. */
#ifndef FIELDS_H
#define FIELDS_H

struct field {
    size_t at, size; /* size 0: the end */
    int is_reserved;
};
#define F(type, name) \
    { offsetof(type, name), sizeof((type *)0)->name, 0 }
#define ZERO(type, name) \
    { offsetof(type, name), sizeof((type *)0)->name, 1 }
#define END \
    { 0, 0, 0 }
#define FIELDS(name, ...) static const struct field name[] = {__VA_ARGS__, END}

static inline uint64_t number_at(const uint8_t *bytes, size_t size) {
    uint64_t number = 0;
    while (size--) number = number << 8 | bytes[size];
    return number;
}
#endif
