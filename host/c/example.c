/* Two ends in this program's memory exchange packets over lines that lose and damage frames by a fixed rule. Each frame and each packet
 * taken is printed, and at the end the counts. host/rust/examples/exchange.rs tells the same story in Rust.
 *
 * expected.txt was worked out from document 01 and not from this program. As an example its first turns: class 7 is on channel 1, the
 * highest, so 103 goes first, and 104 waits for that channel's one header unit; 101 is then the oldest on channel 0, and 102 waits behind
 * it. 101 is the third frame and lost, so packets 2 and 3 are out of order; the Nak is the sixth and damaged, the flag stays set, and no
 * second Nak goes out: the timers must start the replays. 105 and 106 each need the one non-posted unit of channel 0, and the update that
 * would let 106 go is lost, until the Refresh. An update carries what the setup gave and all that was taken since: 2 writes on channel 0,
 * of 8 and 32 words, make header 2 + 2 and data 8 + 2 + 8. */
#include <stdbool.h>
#include <stdio.h>

#include "link.h"

/* What the story counts. */
struct story {
    struct link_end ends[2];
    int accepted[2], taken[2];
    int frames, lost, damaged;
};

static const char *const SOURCES[] = {"", "Nak", "Ack", "update", "replay", "new"};
static const char *const ARRIVALS[] = {"link message", "accepted", "duplicate", "out of order", "damaged"};

struct submission {
    int end;
    struct link_packet packet;
};

/* kind, class, length, ident */
static const struct submission SUBMISSIONS[] = {
    {0, {1, 0, 8, 101}},  /* memory write */
    {0, {0, 0, 16, 102}}, /* memory read */
    {0, {6, 7, 0, 103}},  /* message */
    {0, {1, 7, 5, 104}},  /* memory write */
    {0, {3, 0, 1, 105}},  /* I/O write */
    {0, {5, 0, 1, 106}},  /* configuration write */
    {0, {7, 7, 4, 107}},  /* message with data */
    {0, {1, 0, 32, 108}}, /* memory write */
    {0, {1, 7, 64, 109}}, /* memory write, too large for channel 1 */
    {1, {9, 0, 16, 201}}, /* completion with data */
    {1, {9, 7, 4, 202}},  /* completion with data */
    {1, {8, 0, 0, 203}},  /* completion */
    {1, {2, 0, 1, 204}},  /* I/O read */
};

/* Two channels; classes 1 to 6 are on channel 0, class 7 on channel 1. Both ends have the same units, (header, data). */
static struct link_setup make_setup(void)
{
    static const uint8_t units[2][LINK_CATEGORIES][2] = {{{2, 8}, {1, 1}, {1, 4}}, {{1, 8}, {1, 1}, {1, 4}}};
    struct link_setup setup = {{0}};
    setup.bytes[0] = 2;
    setup.bytes[7] = 1;
    for (unsigned i = 0; i < 12; i++) {
        unsigned end = i / 6, channel = i / 3 % 2, category = i % 3;
        link_set_units(&setup, end, channel, category, units[channel][category][0], units[channel][category][1]);
    }
    return setup;
}

static void submit_all(struct story *s)
{
    for (size_t i = 0; i < sizeof SUBMISSIONS / sizeof *SUBMISSIONS; i++) {
        int end = SUBMISSIONS[i].end;
        struct link_packet packet = SUBMISSIONS[i].packet;
        uint8_t answer = link_submit(&s->ends[end], packet);
        printf("%d submits ident %u: %u\n", end, packet.ident, answer);
        if (answer == 0)
            s->accepted[end]++;
    }
}

static void print_frame(struct link_frame f, uint32_t source)
{
    struct link_update u = link_update_in(f);
    switch (link_kind(f)) {
    case LINK_PACKET:
        printf("packet %u ident %u %s", link_number(f), link_packet_in(f).ident, SOURCES[source]);
        break;
    case LINK_UPDATE:
        printf("update channel %u category %u header %u data %u", u.channel, u.category, u.header, u.data);
        break;
    default:
        printf("%s %u", SOURCES[source], link_number(f));
    }
}

/* One frame from an end to the other, if one applies. Of each seven frames the third is lost and the sixth damaged. */
static bool send_one(struct story *s, int from)
{
    struct link_sending sending = link_send(&s->ends[from]);
    if (sending.answer != 0)
        return false;
    int to = 1 - from, turn = ++s->frames % 7;
    printf("%d to %d: ", from, to);
    print_frame(sending.frame, sending.detail);
    if (turn == 3) {
        s->lost++;
        printf(": lost\n");
        return true;
    }
    struct link_said said = turn == 6 ? link_damage(&s->ends[to], sending.frame) : link_arrive(&s->ends[to], sending.frame);
    s->damaged += turn == 6;
    if (said.answer != 0)
        printf(": refused %u\n", said.answer);
    else
        printf(": %s\n", ARRIVALS[said.detail]);
    return true;
}

static void take_queue(struct story *s, int end, uint8_t channel, uint8_t category)
{
    struct link_said said;
    while ((said = link_take(&s->ends[end], channel, category)).answer == 0) {
        s->taken[end]++;
        printf("%d takes ident %u from channel %u category %u\n", end, said.detail, channel, category);
    }
}

/* All that waits at an end is taken. */
static void take_all(struct story *s, int end)
{
    for (int i = 0; i < 6; i++)
        take_queue(s, end, (uint8_t)(i / 3), (uint8_t)(i % 3));
}

/* No end has a frame to send: replays start, and where nothing is unacknowledged, all updates are marked. True once all is done. */
static bool wake(struct story *s)
{
    uint8_t first = link_timer(&s->ends[0]), second = link_timer(&s->ends[1]);
    printf("timers: %u %u\n", first, second);
    if (first == 0 || second == 0)
        return false;
    if (s->taken[1] == s->accepted[0] && s->taken[0] == s->accepted[1])
        return true;
    first = link_refresh(&s->ends[0]);
    second = link_refresh(&s->ends[1]);
    printf("refresh: %u %u\n", first, second);
    return false;
}

int main(void)
{
    struct link_setup setup = make_setup();
    struct story s = {0};
    for (uint8_t which = 0; which < 2; which++)
        if (link_start(&s.ends[which], &setup, which) != 0)
            return 1;
    submit_all(&s);
    for (;;) {
        bool first = send_one(&s, 0), second = send_one(&s, 1);
        take_all(&s, 0);
        take_all(&s, 1);
        if (!first && !second && wake(&s))
            break;
    }
    for (int end = 0; end < 2; end++)
        printf("end %d accepted %d taken %d retrains %u shape %u\n", end, s.accepted[end], s.taken[end], link_retrains(&s.ends[end]),
               link_shape(&s.ends[end]));
    printf("frames %d lost %d damaged %d\n", s.frames, s.lost, s.damaged);
    return 0;
}
