/* One end of a PCI Express link, kept in its host's memory and stepped there. Document 01 is the rule.
 *
 * Link with libends_export.a. Its functions are proved: for all values each does what its definition says (crates/memory/specs/Hosted.antt),
 * and ends. An answer of 0 is no refusal. A refusal leaves every word as it was, and its detail is 0:
 *
 *    5  setup out of range
 *    7  memory of another length, at the start
 *   10  state out of shape, or memory of another length
 *   11  end not 0 or 1
 *   12  kind over 9
 *   13  class over 7, or not 0 for kinds 2 to 5
 *   14  length out of the kind's range
 *   15  needs more data units than the other end's setup gives
 *   16  queue full: 8 of its category wait on its channel
 *   18  no frame applies
 *   20  channel not in use, or category over 2
 *   21  none waiting
 *   22  not posted, and a posted packet that arrived earlier waits on that channel
 *   23  nothing unacknowledged
 *   24  Ack or Nak number not accepted
 *   25  update not accepted
 *   26  packet in sequence but over the free header or data room
 *   27  a field of a frame out of range
 *
 * What the proofs assume of the host: a pointer leads to as many words or bytes as are handed over with it, and during the call nothing
 * else reads or writes them; the bytes of a setup lie outside the end. Every value there is taken. Assumes x86-64.
 * No proof covers this header: it hands over the lengths, and takes frames and setups apart.
 */
#ifndef LINK_H
#define LINK_H

#include <stddef.h>
#include <stdint.h>

enum { LINK_END_WORDS = 506, LINK_SETUP_BYTES = 104, LINK_CHANNELS = 4, LINK_CATEGORIES = 3 };

/* The categories. */
enum { LINK_POSTED = 0, LINK_NON_POSTED = 1, LINK_COMPLETION = 2 };

/* The kinds of a frame. */
enum { LINK_PACKET = 0, LINK_ACK = 1, LINK_NAK = 2, LINK_UPDATE = 3 };

/* An end: 474 words of its own (crates/words/specs/Memory.antt has their places), then 32 of its setup. It holds no pointer, so it may
 * be moved and kept. Only the functions below change it. */
struct link_end {
    uint64_t words[LINK_END_WORDS];
};

/* A setup in the script's form: channels in use; channels of classes 1 to 7; then header and data units. */
struct link_setup {
    uint8_t bytes[LINK_SETUP_BYTES];
};

/* A packet. The length is in words of 4 bytes; the ident stands for the contents. */
struct link_packet {
    uint8_t kind;
    uint8_t class;
    uint16_t length;
    uint32_t ident;
};

/* A credit update: what is allocated, header units modulo 256 and data units modulo 4,096. */
struct link_update {
    uint8_t channel;
    uint8_t category;
    uint8_t header;
    uint16_t data;
};

/* A frame as it goes over a line. Bits, the lowest first; those not named have no meaning, and are 0 where the library gives a frame:
 *
 *    head  0 to 1  kind
 *          2 to 17  packet, Ack, Nak: number
 *          2 to 9  update: channel;  10 to 11  category (3 is read as 2);  12 to 19  header units;  20 to 35  data units
 *    rest  packet: 0 to 7  kind;  8 to 15  class;  16 to 31  length;  32 to 63  ident
 */
struct link_frame {
    uint64_t head;
    uint64_t rest;
};

/* Answer and detail of a step. */
struct link_said {
    uint8_t answer;
    uint32_t detail;
};

/* What Send gives: the frame is all zeros where there is none. */
struct link_sending {
    uint8_t answer;
    uint32_t detail;
    struct link_frame frame;
};

/* ---- the layout that the library was compiled with */

#define LINK_AT(type, field, at) _Static_assert(offsetof(struct type, field) == (at), #type "." #field)
#define LINK_SIZE(type, size) _Static_assert(sizeof(struct type) == (size), #type)

LINK_SIZE(link_end, 8 * 506);
LINK_SIZE(link_setup, 104);
LINK_SIZE(link_frame, 16);
LINK_AT(link_frame, head, 0);
LINK_AT(link_frame, rest, 8);
LINK_SIZE(link_said, 8);
LINK_AT(link_said, answer, 0);
LINK_AT(link_said, detail, 4);
LINK_SIZE(link_sending, 24);
LINK_AT(link_sending, answer, 0);
LINK_AT(link_sending, detail, 4);
LINK_AT(link_sending, frame, 8);

/* ---- the library's functions: words are handed over as a pointer and how many there are */

uint8_t end_start(uint64_t *m, size_t words, const uint8_t *setup, size_t bytes, uint8_t which);
uint8_t end_submit(uint64_t *m, size_t words, uint8_t kind, uint8_t class, uint16_t length, uint32_t ident);
struct link_sending end_send(uint64_t *m, size_t words);
struct link_said end_arrive(uint64_t *m, size_t words, uint64_t head, uint64_t rest);
struct link_said end_damage(uint64_t *m, size_t words, uint64_t head, uint64_t rest);
struct link_said end_take(uint64_t *m, size_t words, uint8_t channel, uint8_t category);
uint8_t end_timer(uint64_t *m, size_t words);
uint8_t end_refresh(uint64_t *m, size_t words);
uint8_t end_shape(const uint64_t *m, size_t words);
uint16_t end_retrains(const uint64_t *m, size_t words);

/* ---- the same over an end */

/* Starts end 0 or 1 of a link; what stood in the memory before is no matter. Both ends get the same setup. Answers 5, 11. */
static inline uint8_t link_start(struct link_end *end, const struct link_setup *setup, uint8_t which)
{
    return end_start(end->words, LINK_END_WORDS, setup->bytes, LINK_SETUP_BYTES, which);
}

/* Submit: the packet joins its channel's send queue. Answers 12, 13, 14, 15, 16. */
static inline uint8_t link_submit(struct link_end *end, struct link_packet p)
{
    return end_submit(end->words, LINK_END_WORDS, p.kind, p.class, p.length, p.ident);
}

/* Send: gives the first frame that applies, which the host puts on its line. Details: 1 Nak, 2 Ack, 3 update, 4 replay, 5 new packet.
 * Answers 18. */
static inline struct link_sending link_send(struct link_end *end)
{
    return end_send(end->words, LINK_END_WORDS);
}

/* Arrive: the frame reaches the end whole. Details: 0 link message, 1 accepted, 2 duplicate, 3 out of order. Answers 27, 24, 25, 26. */
static inline struct link_said link_arrive(struct link_end *end, struct link_frame frame)
{
    return end_arrive(end->words, LINK_END_WORDS, frame.head, frame.rest);
}

/* Damage: the frame reaches the end damaged. Detail 4. It is never refused. */
static inline struct link_said link_damage(struct link_end *end, struct link_frame frame)
{
    return end_damage(end->words, LINK_END_WORDS, frame.head, frame.rest);
}

/* Take: hands out the oldest packet of the channel and category. Detail: its ident. Answers 20, 21, 22. */
static inline struct link_said link_take(struct link_end *end, uint8_t channel, uint8_t category)
{
    return end_take(end->words, LINK_END_WORDS, channel, category);
}

/* Timer: a replay starts at the oldest unacknowledged packet. Answers 23. */
static inline uint8_t link_timer(struct link_end *end)
{
    return end_timer(end->words, LINK_END_WORDS);
}

/* Refresh: marks all updates of channels in use. It is never refused. */
static inline uint8_t link_refresh(struct link_end *end)
{
    return end_refresh(end->words, LINK_END_WORDS);
}

/* 10 where the state is out of shape, else 0: for an end whose words come from outside. The steps above do not ask for it. An end from
 * link_start stays in shape, whatever the steps. */
static inline uint8_t link_shape(const struct link_end *end)
{
    return end_shape(end->words, LINK_END_WORDS);
}

/* How many times the link was trained again, modulo 65,536. */
static inline uint16_t link_retrains(const struct link_end *end)
{
    return end_retrains(end->words, LINK_END_WORDS);
}

/* ---- a frame, taken apart: what is asked of another kind of frame than it has no meaning */

static inline unsigned link_kind(struct link_frame f)
{
    return f.head & 3;
}

/* Of a packet, an Ack or a Nak. */
static inline uint16_t link_number(struct link_frame f)
{
    return (uint16_t)(f.head >> 2);
}

static inline struct link_packet link_packet_in(struct link_frame f)
{
    return (struct link_packet){(uint8_t)f.rest, (uint8_t)(f.rest >> 8), (uint16_t)(f.rest >> 16), (uint32_t)(f.rest >> 32)};
}

static inline struct link_update link_update_in(struct link_frame f)
{
    unsigned category = f.head >> 10 & 3;
    return (struct link_update){
        .channel = (uint8_t)(f.head >> 2),
        .category = category < 2 ? (uint8_t)category : LINK_COMPLETION,
        .header = (uint8_t)(f.head >> 12),
        .data = (uint16_t)(f.head >> 20),
    };
}

/* ---- a frame, made. A category over 2 makes a completion's update. */

static inline struct link_frame link_packet_frame(uint16_t number, struct link_packet p)
{
    uint64_t rest = p.kind | (uint64_t)p.class << 8 | (uint64_t)p.length << 16 | (uint64_t)p.ident << 32;
    return (struct link_frame){LINK_PACKET | (uint64_t)number << 2, rest};
}

static inline struct link_frame link_ack_frame(uint16_t number)
{
    return (struct link_frame){LINK_ACK | (uint64_t)number << 2, 0};
}

static inline struct link_frame link_nak_frame(uint16_t number)
{
    return (struct link_frame){LINK_NAK | (uint64_t)number << 2, 0};
}

static inline struct link_frame link_update_frame(struct link_update u)
{
    uint64_t category = u.category < 2 ? u.category : LINK_COMPLETION;
    uint64_t limits = (uint64_t)u.header << 12 | (uint64_t)u.data << 20;
    return (struct link_frame){LINK_UPDATE | (uint64_t)u.channel << 2 | category << 10 | limits, 0};
}

/* ---- a setup, made: first all bytes 0, then bytes[0] the channels in use, bytes[class] the channels of classes 1 to 7, and the units */

/* Gives an end header and data units for a category of a channel. What is no place of a setup changes nothing. */
static inline void link_set_units(struct link_setup *s, unsigned end, unsigned channel, unsigned category, uint16_t header, uint16_t data)
{
    if (end > 1 || channel >= LINK_CHANNELS || category >= LINK_CATEGORIES)
        return;
    uint8_t *at = s->bytes + 8 + 48 * end + 12 * channel + 4 * category;
    at[0] = (uint8_t)header;
    at[1] = (uint8_t)(header >> 8);
    at[2] = (uint8_t)data;
    at[3] = (uint8_t)(data >> 8);
}

#endif
