/*
 * Direct mode blocks of EN 300 396-3: reading, building, and a receiver of slot reports. SDS-TL
 * messages: reading, building, and an index of what was booked. Steps over lent bits.
 * The calls of the proved library, in plain C. Both peers have them.
 *
 * Bits are packed eight to a byte, first bit highest. Faults and outcomes are numbers:
 * 0 is no fault. A call that is refused gives 0 for everything else and writes nothing; a step gives
 * the position as it was.
 */
#ifndef PIERSTRAND_PLAIN_H
#define PIERSTRAND_PLAIN_H

#include <stddef.h>
#include <stdint.h>

/* Bytes of each block, and of the receiver's store. */
#define DM_SCH_S 8
#define DM_SCH_H 16
#define DM_SCH_F 34
#define DM_STORE 512

enum dm_fault {
	DM_LENGTH = 1,        /* a lent block has another length, or an output is too short */
	DM_PAD = 2,           /* a pad bit is set */
	DM_SYSTEM = 3,        /* system code not direct mode's (9.3.29) */
	DM_SYNC_TYPE = 4,     /* SYNC PDU type not DMAC-SYNC */
	DM_COMMUNICATION = 5, /* communication type not direct MS-MS */
	DM_ENCRYPTION = 6,    /* encryption not off */
	DM_FRAME = 7,         /* frame number not 1 to 18 */
	DM_ADDRESS_TYPE = 8,  /* a reserved address type */
	DM_MESSAGE = 9,       /* message type without entry, or a header above 124 bits */
	DM_COUNT = 10,        /* fragmented with slot count 0 */
	DM_FILL = 11,         /* fill told of, no 1 in the room */
	DM_PDU_TYPE = 12,     /* an SCH/F that is neither FRAG nor END */
	DM_RANGE = 13,        /* a number too large for its field, or an absent one not 0 */
	DM_BLOCKS = 14,       /* more than 15 continuation blocks */
	DM_REPORT_FRAME = 15, /* report: frame not 1 to 18 */
	DM_REPORT_SLOT = 16,  /* report: slot not 1 or 3 */
	DM_BUFFER = 17,       /* report: message buffer under 512 bytes */
	DM_PLACE = 18,        /* report: the block's frame or slot is not the report's */
	DM_NOT_TL = 21,       /* not an SDS-TL message, or too short to tell */
	DM_TOO_SHORT = 22     /* an SDS-TL message that is shorter than its fixed elements */
};

enum dm_outcome {
	DM_NOTHING = 0,
	DM_UNFRAGMENTED = 1, /* an unfragmented message is handed over */
	DM_JOINED = 2,       /* a joined message is handed over */
	DM_OPENED = 3,       /* an assembly was opened */
	DM_KEPT = 4,         /* a block was kept */
	DM_COPY = 5          /* a copy of an unfragmented message */
};

/* What a report brings. */
enum dm_kind {
	DM_KIND_NOTHING = 1,
	DM_KIND_HEADER = 2, /* SCH/S, then SCH/H: 24 bytes */
	DM_KIND_BLOCK = 3   /* SCH/F: 34 bytes */
};

/* The four SDS-TL messages. */
enum dm_tl {
	DM_TRANSFER = 1,
	DM_DELIVERY_REPORT = 2,
	DM_DELIVERY_ACK = 3,
	DM_SHORT_REPORT = 4
};

enum dm_mark {
	DM_NO_BOOKING = 0, /* refused, or no transfer */
	DM_BOOKED = 1,
	DM_AGAIN = 2       /* booked before */
};

/* SCH/S (table 21) but for its fixed elements. The slot is as coded: 0 is slot 1. */
struct dm_sync {
	uint8_t system;
	uint8_t usage;
	uint8_t slot;
	uint8_t frame;
};

/* Address type 2 has no address: 0 is read, and 0 must be built. */
struct dm_address {
	uint32_t ssi;
	uint8_t type;
};

/* What a message is known by. The elements are one run of bits, the first of them highest. */
struct dm_fields {
	struct dm_address dest;
	struct dm_address source;
	uint64_t elements;
	uint32_t mni;
	uint8_t message_type;
	uint8_t width;
};

struct dm_header {
	struct dm_sync sync;
	uint8_t fragmented;
	uint8_t count;     /* SCH/F slots to follow, 0 if not fragmented */
	uint8_t countdown;
	uint8_t first;     /* the DM-SDU's first bit in SCH/H */
	uint8_t bits;      /* its message bits */
	struct dm_fields fields;
};

struct dm_block {
	uint8_t last;  /* 1 for DMAC-END, 0 for DMAC-FRAG */
	uint8_t first; /* the DM-SDU's first bit in SCH/F */
	uint16_t bits; /* its message bits */
};

struct dm_report {
	uint8_t frame;
	uint8_t slot;
	uint8_t kind;
	const uint8_t *blocks;
	size_t length;
};

/* A DM-SDS DATA or DM-SDS ACK that was coming in and is lost. All 0 where there is none. */
struct dm_lost {
	uint32_t source; /* SSI, 0 where it is absent */
	uint16_t bits;   /* joined so far */
	uint8_t message_type;
};

struct dm_answer {
	uint8_t outcome;
	uint8_t dropped;
	uint8_t fault;
	uint16_t bits;
	struct dm_fields fields;
	struct dm_lost lost;
};

/* The most headers that can be repeated. A countdown is at most 3, so they are of the last four
   frames: before a report in slot 3, two of each of the three frames before and one of its own. */
#define DM_EARLIER 7

/* An unfragmented header, countdown cleared. A copy has one less than `left` as its countdown. */
struct dm_earlier {
	uint8_t left;
	uint8_t sch_h[DM_SCH_H];
};

struct dm_receiver {
	uint32_t individual;
	uint32_t group;
	uint32_t mni;

	/* The place of the last accepted report; frame 0 before the first. */
	uint8_t frame;
	uint8_t slot;

	/* The headers for this unit that can be repeated, each once, in the first of the places. */
	uint8_t earlier_count;
	struct dm_earlier earlier[DM_EARLIER];

	/* The open assembly. `due` is the frame of its next block, 0 when none is open. The
	   header is kept as those above. The store is zero beyond `bits`. */
	uint8_t due;
	uint8_t to_come;
	uint8_t head_left;
	uint8_t head[DM_SCH_H];
	uint16_t bits;
	struct dm_fields fields;
	uint8_t store[DM_STORE];
};

/* An SDS-TL message's elements; 0 where the message does not have one. */
struct dm_message {
	uint64_t address; /* forward address: SSI, or SSI * 2^24 + extension */
	uint32_t mni;     /* calling party */
	uint32_t ssi;
	uint8_t kind;
	uint8_t addressed; /* 1 with a calling party */
	uint8_t protocol;
	uint8_t request;
	uint8_t short_form;
	uint8_t required;
	uint8_t storage;
	uint8_t status; /* delivery status; a short report's type */
	uint8_t reference;
	uint8_t validity;
	uint8_t forward; /* forward address type */
};

struct dm_transport {
	struct dm_message message;
	uint16_t first; /* the user data's first bit in the DM-SDU */
	uint16_t bits;
};

/* The last DM_BOOKINGS booked, each as source * 256 + reference. `next` is where the next one
   goes: on the oldest, once all are used. */
#define DM_BOOKINGS 32

struct dm_bookings {
	uint8_t count;
	uint8_t next;
	uint32_t pairs[DM_BOOKINGS];
};

struct dm_booked {
	uint8_t mark;
	struct dm_transport transport;
};

/* A step over lent bits: their number, where they were taken, and the bit after them. */
struct dm_step {
	uint64_t value;
	size_t at;
};

/* A fresh receiver. Fault 13: a setting is 2^24 or more; the receiver's three are then 0. */
uint8_t dm_fresh(struct dm_receiver *r, uint32_t individual, uint32_t group, uint32_t mni);

/* Tells the receiver of one slot. The message goes to the buffer's start. */
void dm_hear(struct dm_receiver *r, const struct dm_report *report, uint8_t *message,
	     size_t room, struct dm_answer *answer);

/* Writes SCH/S, SCH/H and `*blocks` continuation blocks one after another. `message` has
   `lent` bytes, `n` bits of them to send; `out` has room for `room` bytes. */
uint8_t dm_build(const struct dm_sync *sync, uint8_t countdown, const struct dm_fields *fields,
		 uint32_t n, const uint8_t *message, size_t lent, uint8_t *out, size_t room,
		 uint8_t *blocks);

uint8_t dm_read_header(const uint8_t *sch_s, size_t s_length, const uint8_t *sch_h,
		       size_t h_length, struct dm_header *header);

uint8_t dm_read_continuation(const uint8_t *sch_f, size_t length, struct dm_block *block);

/* The frame of continuation block i, from 0, for a header in frame x with countdown f. */
uint8_t dm_layout(uint8_t x, uint8_t f, uint8_t i, uint8_t *frame);

/* Reads the first `n` bits of a DM-SDU of `length` bytes that came with these fields. */
uint8_t dm_read_transport(const struct dm_fields *fields, uint32_t n, const uint8_t *sdu,
			  size_t length, struct dm_transport *t);

/* Writes a DM-SDU of `*bits` bits, for a header with message type `carrier` and this FCS flag.
   `user` has `lent` bytes, `n` bits of them to send; `out` has room for `room` bytes. */
uint8_t dm_build_transport(uint8_t carrier, uint8_t fcs, const struct dm_message *m, uint32_t n,
			   const uint8_t *user, size_t lent, uint8_t *out, size_t room,
			   uint16_t *bits);

void dm_fresh_bookings(struct dm_bookings *b);

/* Reads a DM-SDU, and books it if it is a transfer that is not among the last booked. */
uint8_t dm_book(struct dm_bookings *b, const struct dm_fields *fields, uint32_t n,
		const uint8_t *sdu, size_t length, struct dm_booked *booked);

/* Takes the n bits, up to 56, from bit `at` on; goes past n bits; counts those that are left. */
uint8_t dm_take(const uint8_t *lent, size_t length, size_t at, size_t n, struct dm_step *step);
uint8_t dm_skip(const uint8_t *lent, size_t length, size_t at, size_t n, struct dm_step *step);
size_t dm_left(const uint8_t *lent, size_t length, size_t at);

#endif
