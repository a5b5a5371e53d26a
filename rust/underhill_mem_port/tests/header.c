/* Calls an entry of each family through the header, and checks what it gives. */
#include "underhill_mem.h"

#include <stdio.h>

#define CHECK(what)                                                   \
    do {                                                              \
        if (!(what)) {                                                \
            printf("line %d: not so: %s\n", __LINE__, #what);         \
            return 0;                                                 \
        }                                                             \
    } while (0)

/* Pages 0 to 15. */
static const uint64_t ram[3] = {0, 65536, 7};

/* A protector's memory: two bytes a map. */
static uint8_t private_[2], shared[2], rd[2], wr[2], kernel[2], user[2];
static uint64_t state[PROTECTOR_STATE_WORDS], pages[PROTECTOR_PAGES_WORDS], tables[PROTECTOR_TABLES_WORDS];

#define MAPS private_, 2, shared, 2, rd, 2, wr, 2, kernel, 2, user, 2
#define STATE state, PROTECTOR_STATE_WORDS
#define PAGES pages, PROTECTOR_PAGES_WORDS
#define TABLES tables, PROTECTOR_TABLES_WORDS
#define ALL MAPS, STATE, PAGES, TABLES

/* Answers with done until the call has ended. */
static struct protector_reply driven(struct protector_reply reply)
{
    while (reply.operation != 0)
        reply = protector_answer_done(ALL);
    return reply;
}

/* A list of one page, as the bytes that cross. */
static const uint8_t *list(uint8_t page)
{
    static uint8_t bytes[8];
    bytes[0] = page;
    return bytes;
}

static int visibility(void)
{
    struct protector_reply reply = protector_build(ram, 3, 2, 1, 0, ALL);
    CHECK(reply.number == 0);
    CHECK(private_[0] == 0xff && private_[1] == 0xff && shared[0] == 0);
    reply = protector_change_host_visibility(ALL, 0, 1, list(3), 8);
    CHECK(reply.number == 0 && reply.operation == 1);
    reply = protector_answer_done(ALL);
    CHECK(reply.operation == 2);
    reply = protector_answer_done(ALL);
    CHECK(reply.operation == 3 && reply.vtl == 0 && reply.operand == 2 && reply.first == 3 && reply.pages == 1);
    reply = driven(reply);
    CHECK(reply.number == 0 && reply.count == 6);
    CHECK(private_[0] == 0xf7 && shared[0] == 0x08);
    return 1;
}

/* Page 3 is to come back, and the hypervisor does not do it. */
static int answers(void)
{
    struct protector_reply reply = protector_change_host_visibility(ALL, 0, 0, list(3), 8);
    CHECK(reply.number == 0);
    while (reply.operation != 6)
        reply = protector_answer_done(ALL);
    CHECK(reply.shared == 0 && reply.pages == 1 && pages[0] == 3);
    reply = driven(protector_answer_failed(ALL, 0x1234, 0));
    CHECK(reply.number == 16 && reply.code == 0x1234 && reply.index == 0);
    CHECK(shared[0] == 0x08);
    CHECK(protector_answer_done(ALL).number == 21);
    return 1;
}

static int queries(void)
{
    uint8_t out[1] = {0xa5};
    struct protector_value value;
    CHECK(protector_query_host_visibility(STATE, shared, 2, list(3), 8, out, 1).number == 0 && out[0] == 1);
    value = protector_page_fault(MAPS, STATE, 0, 0, 3 * 4096, 0, 1);
    CHECK(value.number == 0 && value.value == 3);
    value = protector_query_lower_vtl_permissions(MAPS, STATE, 1, 9);
    CHECK(value.number == 0 && value.value == 15);
    /* Past the maps no page is marked, and none has flags there. */
    value = protector_page_fault(MAPS, STATE, 1, 0, UINT64_MAX, 0, 1);
    CHECK(value.number == 0 && value.value == 2);
    value = protector_query_lower_vtl_permissions(MAPS, STATE, 0, 16);
    CHECK(value.number == 0 && value.value == 0);
    value = protector_query_access_permission(MAPS, STATE, 16);
    CHECK(value.number == 0 && value.value == 0);
    return 1;
}

static int protections(void)
{
    struct protector_reply reply = protector_change_vtl_protections(ALL, 0, 5, list(4), 8);
    CHECK(reply.operation == 3 && reply.flags == 5 && reply.first == 4);
    reply = driven(reply);
    CHECK(reply.number == 0 && reply.count == 4);
    CHECK(protector_query_access_permission(MAPS, STATE, 4).value == 5);
    reply = driven(protector_change_default_vtl_protections(ALL, 0, 7));
    CHECK(reply.number == 0);
    CHECK(protector_default_vtl0_protections(STATE).value == 7);
    CHECK(protector_query_access_permission(MAPS, STATE, 4).value == 7);
    return 1;
}

static int setter(void)
{
    CHECK(protector_vtl1_protections_enabled(STATE).value == 0);
    CHECK(protector_set_vtl1_protections_enabled(STATE).number == 0);
    CHECK(protector_vtl1_protections_enabled(STATE).value == 1);
    return 1;
}

static int overlays(void)
{
    struct protector_reply reply = protector_register_overlay_page(ALL, 1, 8, 0, 1, PROTECTOR_NO_FLAGS);
    CHECK(reply.operation == 1);
    reply = driven(reply);
    CHECK(reply.number == 0 && reply.count == 3);
    CHECK(protector_is_overlay_page(STATE, TABLES, 1, 8).value == 1);
    CHECK(protector_is_overlay_page(STATE, TABLES, 0, 8).value == 0);
    reply = driven(protector_unregister_overlay_page(ALL, 1, 8));
    CHECK(reply.number == 0 && reply.count == 4);
    CHECK(protector_unregister_overlay_page(ALL, 1, 8).number == 14);
    return 1;
}

static int locks(void)
{
    CHECK(protector_lock_gpns(STATE, TABLES, 0, list(6), 8).number == 0);
    CHECK(protector_change_vtl_protections(ALL, 0, 1, list(6), 8).number == 10);
    CHECK(protector_unlock_gpns(STATE, TABLES, 0, list(6), 8).number == 0);
    CHECK(protector_unlock_gpns(STATE, TABLES, 0, list(6), 8).number == 18);
    return 1;
}

static int registrar(void)
{
    uint64_t words[REGISTRAR_STATE_WORDS], registered[1], failed[1];
    struct registrar_reply reply =
        registrar_build(ram, 3, 4096, 32768, words, REGISTRAR_STATE_WORDS, registered, 1, failed, 1);
    CHECK(reply.number == 0);
    reply = registrar_register(words, REGISTRAR_STATE_WORDS, registered, 1, failed, 1, 4096, 1);
    CHECK(reply.asked == 1 && reply.start == 4096 && reply.end == 36864);
    reply = registrar_answer_done(words, REGISTRAR_STATE_WORDS, registered, 1, failed, 1);
    CHECK(reply.number == 0 && reply.asked == 0 && reply.count == 1 && registered[0] == 1);
    reply = registrar_register_all_aligned(words, REGISTRAR_STATE_WORDS, registered, 1, failed, 1, 131072, 0);
    CHECK(reply.number == 22 && reply.vnode == 7 && reply.edge_end == 65536 && reply.alignment == 131072);
    reply = registrar_register_all_aligned(words, REGISTRAR_STATE_WORDS, registered, 1, failed, 1, 32768, 0);
    CHECK(reply.asked == 1 && reply.start == 36864);
    reply = registrar_answer_failed(words, REGISTRAR_STATE_WORDS, registered, 1, failed, 1);
    CHECK(reply.number == 23 && reply.address == 32768 && failed[0] == 2);
    return 1;
}

int main(void)
{
    int well = visibility() && answers() && queries() && protections() && setter() && overlays() && locks() && registrar();
    if (well)
        puts("as it should");
    return !well;
}
