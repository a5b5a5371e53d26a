/* The entries of the proved library, libunderhill_mem.a; docs/ABI.md says what each buffer and reply word means.
   A run is passed as its address and its length, in words or in bytes. No two runs may overlap. */
#ifndef UNDERHILL_MEM_H
#define UNDERHILL_MEM_H

#include <stddef.h>
#include <stdint.h>

#define REGISTRAR_STATE_WORDS 108

struct registrar_reply {
    uint64_t number;  /* 0, or the number of document 01 that refuses or ends the call */
    uint64_t asked;   /* 1: the operation Register start..end is asked for */
    uint64_t count;   /* of a finished call: how many operations it asked for */
    uint64_t start;
    uint64_t end;
    uint64_t address; /* 23 */
    uint64_t span_start; /* 22, from here on */
    uint64_t span_end;
    uint64_t edge_start;
    uint64_t edge_end;
    uint64_t vnode;
    uint64_t node_start;
    uint64_t node_end;
    uint64_t alignment;
};

struct registrar_reply registrar_build(const uint64_t *ram, size_t ram_words, uint64_t offset, uint64_t granularity,
                                       uint64_t *state, size_t state_words, uint64_t *registered, size_t registered_words,
                                       uint64_t *failed, size_t failed_words);
struct registrar_reply registrar_register(uint64_t *state, size_t state_words, uint64_t *registered, size_t registered_words,
                                          uint64_t *failed, size_t failed_words, uint64_t address, uint64_t len);
struct registrar_reply registrar_register_all_aligned(uint64_t *state, size_t state_words, uint64_t *registered,
                                                      size_t registered_words, uint64_t *failed, size_t failed_words,
                                                      uint64_t alignment, uint64_t ignore_unaligned_ranges);
struct registrar_reply registrar_answer_done(uint64_t *state, size_t state_words, uint64_t *registered,
                                             size_t registered_words, uint64_t *failed, size_t failed_words);
struct registrar_reply registrar_answer_failed(uint64_t *state, size_t state_words, uint64_t *registered,
                                               size_t registered_words, uint64_t *failed, size_t failed_words);

#define PROTECTOR_STATE_WORDS 128
#define PROTECTOR_PAGES_WORDS 1024
#define PROTECTOR_TABLES_WORDS 3460

struct protector_reply {
    uint64_t number;    /* 0, or the number of document 01 that refuses or ends the call */
    uint64_t code;      /* the error code of a number that has one */
    uint64_t index;     /* the place in the list of a number that has one */
    uint64_t count;     /* of a finished call: how many operations it asked for */
    uint64_t operation; /* what is asked for: 0 nothing, 1 Wait, 2 FlushAll, 3 Protect, 4 Invalidate, 5 Release,
                           6 Modify, 7 Accept, 8 Zero, 9 Flush, 10 TlbWait */
    uint64_t vtl;       /* Protect, Flush, TlbWait */
    uint64_t flags;     /* Protect */
    uint64_t operand;   /* Protect on SNP */
    uint64_t first;     /* the first page of the run */
    uint64_t pages;     /* how many pages */
    uint64_t shared;    /* Modify: 1 to shared, 0 to private */
};

struct protector_value {
    uint64_t number; /* 0, or the number of document 01 that refuses the call */
    uint64_t value;
};

struct protector_reply protector_build(const uint64_t *ram, size_t ram_words, uint64_t isolation, uint64_t tracked,
    uint64_t release, uint8_t *private_, size_t private_bytes, uint8_t *shared, size_t shared_bytes,
    uint8_t *read, size_t read_bytes, uint8_t *write, size_t write_bytes, uint8_t *kernel, size_t kernel_bytes,
    uint8_t *user, size_t user_bytes, uint64_t *state, size_t state_words, uint64_t *pages, size_t pages_words,
    uint64_t *tables, size_t tables_words);
struct protector_reply protector_change_host_visibility(uint8_t *private_, size_t private_bytes, uint8_t *shared, size_t shared_bytes,
    uint8_t *read, size_t read_bytes, uint8_t *write, size_t write_bytes, uint8_t *kernel, size_t kernel_bytes,
    uint8_t *user, size_t user_bytes, uint64_t *state, size_t state_words, uint64_t *pages, size_t pages_words,
    const uint64_t *tables, size_t tables_words, uint64_t vtl, uint64_t visibility,
    const uint8_t *list, size_t list_bytes);
struct protector_reply protector_answer_done(uint8_t *private_, size_t private_bytes, uint8_t *shared, size_t shared_bytes,
    uint8_t *read, size_t read_bytes, uint8_t *write, size_t write_bytes, uint8_t *kernel, size_t kernel_bytes,
    uint8_t *user, size_t user_bytes, uint64_t *state, size_t state_words, uint64_t *pages, size_t pages_words,
    uint64_t *tables, size_t tables_words);
struct protector_reply protector_answer_failed(uint8_t *private_, size_t private_bytes, uint8_t *shared, size_t shared_bytes,
    uint8_t *read, size_t read_bytes, uint8_t *write, size_t write_bytes, uint8_t *kernel, size_t kernel_bytes,
    uint8_t *user, size_t user_bytes, uint64_t *state, size_t state_words, uint64_t *pages, size_t pages_words,
    uint64_t *tables, size_t tables_words, uint16_t code, uint64_t processed);
struct protector_reply protector_query_host_visibility(const uint64_t *state, size_t state_words,
    const uint8_t *shared, size_t shared_bytes, const uint8_t *list, size_t list_bytes, uint8_t *out, size_t out_bytes);
struct protector_value protector_page_fault(const uint8_t *private_, size_t private_bytes, const uint8_t *shared, size_t shared_bytes,
    const uint8_t *read, size_t read_bytes, const uint8_t *write, size_t write_bytes,
    const uint8_t *kernel, size_t kernel_bytes, const uint8_t *user, size_t user_bytes,
    const uint64_t *state, size_t state_words,
    uint64_t mapping, uint64_t view, uint64_t address, uint64_t writes, uint64_t failure);
struct protector_value protector_query_lower_vtl_permissions(const uint8_t *private_, size_t private_bytes, const uint8_t *shared, size_t shared_bytes,
    const uint8_t *read, size_t read_bytes, const uint8_t *write, size_t write_bytes,
    const uint8_t *kernel, size_t kernel_bytes, const uint8_t *user, size_t user_bytes,
    const uint64_t *state, size_t state_words,
    uint64_t vtl, uint64_t gpn);
struct protector_value protector_query_access_permission(const uint8_t *private_, size_t private_bytes, const uint8_t *shared, size_t shared_bytes,
    const uint8_t *read, size_t read_bytes, const uint8_t *write, size_t write_bytes,
    const uint8_t *kernel, size_t kernel_bytes, const uint8_t *user, size_t user_bytes,
    const uint64_t *state, size_t state_words,
    uint64_t gpn);

/* Protections and defaults */
struct protector_reply protector_change_vtl_protections(const uint8_t *private_, size_t private_bytes, const uint8_t *shared, size_t shared_bytes,
    uint8_t *read, size_t read_bytes, uint8_t *write, size_t write_bytes, uint8_t *kernel, size_t kernel_bytes,
    uint8_t *user, size_t user_bytes, uint64_t *state, size_t state_words, uint64_t *pages, size_t pages_words,
    const uint64_t *tables, size_t tables_words, uint64_t vtl, uint64_t flags, const uint8_t *list, size_t list_bytes);
struct protector_reply protector_change_default_vtl_protections(const uint8_t *private_, size_t private_bytes, const uint8_t *shared, size_t shared_bytes,
    uint8_t *read, size_t read_bytes, uint8_t *write, size_t write_bytes, uint8_t *kernel, size_t kernel_bytes,
    uint8_t *user, size_t user_bytes, uint64_t *state, size_t state_words,
    const uint64_t *pages, size_t pages_words, uint64_t *tables, size_t tables_words, uint64_t vtl, uint64_t flags);

/* The setter and what is set */
struct protector_reply protector_set_vtl1_protections_enabled(uint64_t *state, size_t state_words);
struct protector_value protector_vtl1_protections_enabled(const uint64_t *state, size_t state_words);
struct protector_value protector_default_vtl0_protections(const uint64_t *state, size_t state_words);

/* Overlays */
#define PROTECTOR_NO_FLAGS 16 /* in the place of new_: none are given */

struct protector_reply protector_register_overlay_page(const uint8_t *private_, size_t private_bytes, const uint8_t *shared, size_t shared_bytes,
    uint8_t *read, size_t read_bytes, uint8_t *write, size_t write_bytes, uint8_t *kernel, size_t kernel_bytes,
    uint8_t *user, size_t user_bytes, uint64_t *state, size_t state_words,
    const uint64_t *pages, size_t pages_words, uint64_t *tables, size_t tables_words,
    uint64_t vtl, uint64_t gpn, uint64_t source, uint64_t checked, uint64_t new_);
struct protector_reply protector_unregister_overlay_page(const uint8_t *private_, size_t private_bytes, const uint8_t *shared, size_t shared_bytes,
    uint8_t *read, size_t read_bytes, uint8_t *write, size_t write_bytes, uint8_t *kernel, size_t kernel_bytes,
    uint8_t *user, size_t user_bytes, uint64_t *state, size_t state_words,
    const uint64_t *pages, size_t pages_words, uint64_t *tables, size_t tables_words, uint64_t vtl, uint64_t gpn);
struct protector_value protector_is_overlay_page(const uint64_t *state, size_t state_words,
    const uint64_t *tables, size_t tables_words, uint64_t vtl, uint64_t gpn);

/* Locks */
struct protector_reply protector_lock_gpns(const uint64_t *state, size_t state_words,
    uint64_t *tables, size_t tables_words, uint64_t vtl, const uint8_t *list, size_t list_bytes);
struct protector_reply protector_unlock_gpns(const uint64_t *state, size_t state_words,
    uint64_t *tables, size_t tables_words, uint64_t vtl, const uint8_t *list, size_t list_bytes);

#endif
