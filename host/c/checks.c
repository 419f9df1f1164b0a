/* Checks of link.h: each answer that an end gives, and frames taken apart and made. Ends in 'checks: N passed, M failed'.
 * The frames' words were worked out by hand from crates/words/specs/Words.antt, the answers from document 01. */
#include <stdio.h>
#include <string.h>

#include "link.h"

static int passed, failed;

static void check(int line, unsigned long long got, unsigned long long expected)
{
    if (got == expected) {
        passed++;
        return;
    }
    failed++;
    printf("line %d: %llu, expected %llu\n", line, got, expected);
}

#define CHECK(got, expected) check(__LINE__, (got), (expected))

/* One channel, and these units everywhere. */
static struct link_setup one_channel(uint16_t header, uint16_t data)
{
    struct link_setup setup = {{1}};
    for (unsigned i = 0; i < 6; i++)
        link_set_units(&setup, i / 3, 0, i % 3, header, data);
    return setup;
}

static struct link_end started(uint16_t header, uint16_t data, uint8_t which)
{
    struct link_setup setup = one_channel(header, data);
    struct link_end end;
    CHECK(link_start(&end, &setup, which), 0);
    return end;
}

static void check_frames(void)
{
    struct link_frame f = link_packet_frame(4095, (struct link_packet){1, 2, 3, 4});
    struct link_packet p = link_packet_in(f);
    CHECK(f.head, 0x3ffc);
    CHECK(f.rest, 0x0000000400030201);
    CHECK(link_kind(f), LINK_PACKET);
    CHECK(link_number(f), 4095);
    CHECK(p.kind == 1 && p.class == 2 && p.length == 3 && p.ident == 4, 1);
    f = link_ack_frame(5);
    CHECK(f.head, 0x15);
    CHECK(link_kind(f) == LINK_ACK && link_number(f) == 5 && f.rest == 0, 1);
    f = link_nak_frame(4095);
    CHECK(f.head, 0x3ffe);
    CHECK(link_kind(f) == LINK_NAK && link_number(f) == 4095 && f.rest == 0, 1);
}

static void check_updates(void)
{
    struct link_frame f = link_update_frame((struct link_update){1, LINK_NON_POSTED, 2, 3});
    struct link_update u = link_update_in(f);
    CHECK(f.head, 0x302407);
    CHECK(u.channel == 1 && u.category == 1 && u.header == 2 && u.data == 3, 1);
    f = link_update_frame((struct link_update){255, LINK_COMPLETION, 255, 65535});
    u = link_update_in(f);
    CHECK(f.head, 0xffffffbff);
    CHECK(link_kind(f) == LINK_UPDATE && f.rest == 0, 1);
    CHECK(u.channel == 255 && u.category == 2 && u.header == 255 && u.data == 65535, 1);
    f.head |= 1 << 10;
    CHECK(link_update_in(f).category, 2);
}

static void check_starts(void)
{
    struct link_setup setup = one_channel(1, 1);
    struct link_end end = {{0}};
    CHECK(link_start(&end, &setup, 2), 11);
    CHECK(end_start(end.words, LINK_END_WORDS - 1, setup.bytes, LINK_SETUP_BYTES, 0), 7);
    CHECK(end_start(end.words, LINK_END_WORDS, setup.bytes, LINK_SETUP_BYTES - 1, 0), 5);
    CHECK(link_shape(&end), 10);
    setup.bytes[0] = 5;
    CHECK(link_start(&end, &setup, 0), 5);
    setup = one_channel(16, 2047);
    CHECK(link_start(&end, &setup, 1), 0);
    CHECK(link_shape(&end), 0);
    CHECK(link_retrains(&end), 0);
    CHECK(end_shape(end.words, LINK_END_WORDS - 1), 10);
    CHECK(end_timer(end.words, LINK_END_WORDS - 1), 10);
}

static void check_submits(void)
{
    struct link_end end = started(1, 1, 0), before = end;
    CHECK(link_submit(&end, (struct link_packet){10, 0, 0, 1}), 12);
    CHECK(link_submit(&end, (struct link_packet){2, 1, 1, 1}), 13);
    CHECK(link_submit(&end, (struct link_packet){6, 0, 1, 1}), 14);
    CHECK(link_submit(&end, (struct link_packet){1, 0, 5, 1}), 15);
    CHECK(link_send(&end).answer, 18);
    CHECK(link_timer(&end), 23);
    CHECK(memcmp(&end, &before, sizeof end) == 0, 1);
    for (uint32_t ident = 0; ident < 8; ident++)
        CHECK(link_submit(&end, (struct link_packet){6, 0, 0, ident}), 0);
    CHECK(link_submit(&end, (struct link_packet){6, 0, 0, 8}), 16);
}

static void check_arrivals(void)
{
    struct link_end end = started(1, 1, 1);
    CHECK(link_arrive(&end, link_packet_frame(4096, (struct link_packet){6, 0, 0, 1})).answer, 27);
    CHECK(link_arrive(&end, link_ack_frame(0)).answer, 24);
    CHECK(link_arrive(&end, link_update_frame((struct link_update){0, LINK_POSTED, 129, 1})).answer, 25);
    CHECK(link_arrive(&end, link_packet_frame(0, (struct link_packet){1, 0, 5, 1})).answer, 26);
    CHECK(link_arrive(&end, link_packet_frame(1, (struct link_packet){6, 0, 0, 1})).detail, 3);
    struct link_sending sending = link_send(&end);
    CHECK(sending.detail, 1);
    CHECK(sending.frame.head, 0x3ffe);
    CHECK(link_damage(&end, link_ack_frame(65535)).detail, 4);
    CHECK(link_arrive(&end, link_packet_frame(0, (struct link_packet){6, 0, 0, 70000})).detail, 1);
    CHECK(link_arrive(&end, link_packet_frame(0, (struct link_packet){6, 0, 0, 70000})).detail, 2);
    CHECK(link_arrive(&end, link_packet_frame(1, (struct link_packet){2, 0, 1, 9})).detail, 1);
    CHECK(link_take(&end, 1, 0).answer, 20);
    CHECK(link_take(&end, 0, 2).answer, 21);
    CHECK(link_take(&end, 0, 1).answer, 22);
    CHECK(link_take(&end, 0, 0).detail, 70000);
    CHECK(link_take(&end, 0, 1).detail, 9);
    CHECK(link_send(&end).frame.head, 0x5);
    CHECK(link_refresh(&end), 0);
    sending = link_send(&end);
    CHECK(sending.detail, 3);
    CHECK(sending.frame.head, 0x102003);
}

int main(void)
{
    check_frames();
    check_updates();
    check_starts();
    check_submits();
    check_arrivals();
    printf("checks: %d passed, %d failed\n", passed, failed);
    return failed != 0;
}
