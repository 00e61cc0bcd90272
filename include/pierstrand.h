/*
 * Pierstrand: direct mode blocks of EN 300 396-3. Building and reading them, and a receiver that
 * joins what a unit hears, slot by slot. SDS-TL messages of its Annex E, in the message bits that the
 * receiver hands over: reading and building them, and an index by which each transfer is booked once.
 * Steps over lent bits, for what else a board reads in them.
 *
 * Link crates/board/out/libboard.a (`rt lib` in crates/board). It is for x86-64 with the System V
 * calling convention, as on Linux, and uses the SSE registers and the red zone. Of a C library it needs
 * memcpy, memmove, memset and memcmp at most. It keeps no state of its own and takes no memory: calls
 * that share nothing may run at the same time. examples/board.c is a slot handler over it.
 *
 * Every call takes every number and every lent byte, ends, and answers. A call that is refused
 * answers a fault's number (enum pierstrand_fault) and 0 for everything else, but a step over bits the
 * position that it was given; and it changes neither a field of the receiver or of the bookings nor a
 * byte of a lent buffer. That is proved of each call (docs/PROMISES.md); nobody has to check first.
 * What no proof can see is what C code hands over, so this is asked of it:
 *
 *   - A pointer is not null, is aligned for its type, and has behind it what the call says. That
 *     holds for a length of 0 too: pass any array then.
 *   - What a call writes (the receiver, the bookings, `message` of pierstrand_hear, `out`) shares no
 *     byte with anything else that it is lent, and no other thread or interrupt touches what is lent
 *     until the call is over.
 *   - A receiver comes from pierstrand_make_receiver, and then only pierstrand_hear writes to it. Bookings
 *     come from pierstrand_make_bookings, and then only pierstrand_book writes to them. Each may be
 *     copied as a whole, and each copy goes on from there. Their fields are shown so that their size
 *     is known: do not read them for a decision, and do not touch them.
 *   - A number fits its parameter. C cuts a larger one without a word: frame 257 arrives as frame 1.
 *
 * What is lent belongs to the caller again after the call: no pointer is kept.
 *
 * Structs have bytes between their fields, of which nothing is promised: compare fields, not bytes,
 * and do not hand a receiver's bytes, or those of bookings, to others, since left-overs of the stack may
 * stand there.
 *
 * Bits are packed eight to a byte, the first bit highest: bit 0 is the highest of the first byte.
 *
 * Names. Each begins with pierstrand_ or PIERSTRAND_, and no two are the same. A struct or an enum is
 * called after a thing, pierstrand_answer, and a function after what it does, pierstrand_hear: a verb,
 * and where that alone would not tell, on what. A number is called after what it is a number of, and
 * then what it stands for:
 *
 *   PIERSTRAND_BYTES_..    a size in bytes
 *   PIERSTRAND_FAULT_..    enum pierstrand_fault, a field `fault`
 *   PIERSTRAND_OUTCOME_..  enum pierstrand_outcome, what a report came to
 *   PIERSTRAND_KIND_..     enum pierstrand_kind, what a report brings
 *   PIERSTRAND_SDS_..      enum pierstrand_sds, which SDS-TL message it is
 *   PIERSTRAND_MARK_..     enum pierstrand_mark, what a booking came to
 */
#ifndef PIERSTRAND_H
#define PIERSTRAND_H

#include <stddef.h>
#include <stdint.h>

#ifdef __cplusplus
extern "C" {
#endif

/* Bytes of each block. The last four bits are pad bits, which are 0. */
#define PIERSTRAND_BYTES_SCH_S 8  /* 60 bits */
#define PIERSTRAND_BYTES_SCH_H 16 /* 124 bits */
#define PIERSTRAND_BYTES_SCH_F 34 /* 268 bits */

/* Bytes that a message buffer has at least: enough for every message that a receiver hands over. */
#define PIERSTRAND_BYTES_MESSAGE 512

/* Bytes of an output that is long enough for every message: SCH/S, SCH/H and fifteen SCH/F. */
#define PIERSTRAND_BYTES_BLOCKS (PIERSTRAND_BYTES_SCH_S + PIERSTRAND_BYTES_SCH_H + 15 * PIERSTRAND_BYTES_SCH_F)

/* Bytes of an output that is long enough for every DM-SDU: 2,147 bits, those of a transfer with a calling
   party, 2,047 bits of user defined data 4 and an FCS. */
#define PIERSTRAND_BYTES_SDU 269

/* Pairs that are kept of the last transfers that were booked. */
#define PIERSTRAND_PAIRS 32

/* Why a call was refused, or a block counts as nothing heard. 0: no fault. */
enum pierstrand_fault {
	PIERSTRAND_FAULT_LENGTH = 1,        /* a lent block has another length, or a build's output is too short;
					       report: no such kind, or another length for it; a step: fewer bits
					       are left */
	PIERSTRAND_FAULT_PAD = 2,           /* a pad bit is set */
	PIERSTRAND_FAULT_SYSTEM = 3,        /* system code not one of direct mode's (9.3.29) */
	PIERSTRAND_FAULT_SYNC_TYPE = 4,     /* SYNC PDU type not DMAC-SYNC */
	PIERSTRAND_FAULT_COMMUNICATION = 5, /* communication type not direct MS-MS */
	PIERSTRAND_FAULT_ENCRYPTION = 6,    /* encryption not off */
	PIERSTRAND_FAULT_FRAME = 7,         /* a block's frame number not 1 to 18 */
	PIERSTRAND_FAULT_ADDRESS_TYPE = 8,  /* a reserved address type */
	PIERSTRAND_FAULT_MESSAGE_TYPE = 9,  /* message type without entry, or a header above 124 bits */
	PIERSTRAND_FAULT_SLOT_COUNT = 10,   /* fragmented with slot count 0 */
	PIERSTRAND_FAULT_FILL = 11,         /* fill told of, no 1 in the DM-SDU's room */
	PIERSTRAND_FAULT_PDU_TYPE = 12,     /* an SCH/F that is neither DMAC-FRAG nor DMAC-END */
	PIERSTRAND_FAULT_RANGE = 13,        /* a number too large for its field, an absent one not 0, a width that is
					       not the elements', or n above the bits lent; user data that is not the
					       kind's, or too long; book: a source of 2^24 or more; take: more than
					       56 bits */
	PIERSTRAND_FAULT_TOO_LONG = 14,     /* more than fifteen continuation blocks */
	PIERSTRAND_FAULT_REPORT_FRAME = 15, /* report: frame not 1 to 18 */
	PIERSTRAND_FAULT_REPORT_SLOT = 16,  /* report: slot not 1 or 3 */
	PIERSTRAND_FAULT_BUFFER = 17,       /* report: message buffer under 512 bytes */
	PIERSTRAND_FAULT_PLACE = 18,        /* report: the block's frame or slot is not the report's */
	PIERSTRAND_FAULT_NOT_SDS_TL = 21,   /* not an SDS-TL message, or too short to tell; its FCS is wrong */
	PIERSTRAND_FAULT_TOO_SHORT = 22     /* an SDS-TL message that is shorter than its fixed elements */
};

/* What a report came to. */
enum pierstrand_outcome {
	PIERSTRAND_OUTCOME_NOTHING = 0,      /* nothing for this unit */
	PIERSTRAND_OUTCOME_UNFRAGMENTED = 1, /* an unfragmented message is handed over */
	PIERSTRAND_OUTCOME_JOINED = 2,       /* a joined message is handed over */
	PIERSTRAND_OUTCOME_OPENED = 3,       /* a fragmented header, or a repeat of it: an assembly is open */
	PIERSTRAND_OUTCOME_KEPT = 4,         /* a block in its due slot was kept */
	PIERSTRAND_OUTCOME_COPY = 5          /* a copy of an unfragmented message that was handed over before */
};

/* What a report brings. */
enum pierstrand_kind {
	PIERSTRAND_KIND_SILENCE = 1, /* nothing: 0 bytes */
	PIERSTRAND_KIND_HEADER = 2,  /* SCH/S, then SCH/H: 24 bytes */
	PIERSTRAND_KIND_BLOCK = 3    /* SCH/F: 34 bytes */
};

/* The four SDS-TL messages. */
enum pierstrand_sds {
	PIERSTRAND_SDS_TRANSFER = 1,
	PIERSTRAND_SDS_REPORT = 2,
	PIERSTRAND_SDS_ACK = 3,
	PIERSTRAND_SDS_SHORT_REPORT = 4
};

/* What a booking came to. */
enum pierstrand_mark {
	PIERSTRAND_MARK_NONE = 0,   /* nothing to book: refused, or no transfer */
	PIERSTRAND_MARK_BOOKED = 1, /* a transfer, and it is booked */
	PIERSTRAND_MARK_AGAIN = 2   /* a transfer whose pair is among the last 32 booked: it is not booked again */
};

/* SCH/S but for its fixed elements. */
struct pierstrand_sync {
	uint8_t system; /* system code, 10 to 15 (9.3.29) */
	uint8_t usage;  /* A/B channel usage, 0 to 3 */
	uint8_t slot;   /* as coded, 0 to 3 (9.3.25): one less than its number, so 0 is slot 1 and 2 is slot 3 */
	uint8_t frame;  /* 1 to 18 */
};

/* An address. */
struct pierstrand_address {
	uint8_t kind; /* its type: 0 true, 1 pseudo, 2 absent; 3 is reserved (9.3.5) */
	uint32_t ssi; /* 24 bits; 0 where it is absent */
};

/* What a message's header says of it. */
struct pierstrand_fields {
	struct pierstrand_address destination;
	struct pierstrand_address source;
	uint32_t mni;         /* 24 bits */
	uint8_t message_type; /* 5 bits (9.3.19) */
	uint8_t width;        /* bits of its dependent elements, by 9.4 and 9.5: 8 for DM-SDS DATA, message type 23.
				 Where an element hangs on a flag, the flag in `elements` says whether it is counted */
	uint64_t elements;    /* the elements as one run of `width` bits, the first of them highest */
};

/* A header that was read. */
struct pierstrand_header {
	uint8_t fault;      /* enum pierstrand_fault */
	struct pierstrand_sync sync;
	uint8_t fragmented; /* 1 where SCH/F blocks follow */
	uint8_t count;      /* how many, 0 where none do */
	uint8_t countdown;  /* frames that still repeat it, 0 to 3 */
	struct pierstrand_fields fields;
	size_t first;       /* the first bit of the DM-SDU in SCH/H */
	size_t bits;        /* how many of the message's bits stand there; fill is not counted */
};

/* A continuation block that was read. */
struct pierstrand_continuation {
	uint8_t fault; /* enum pierstrand_fault */
	uint8_t last;  /* 1 for DMAC-END, 0 for DMAC-FRAG */
	size_t first;  /* the first bit of the DM-SDU in SCH/F */
	size_t bits;   /* how many of the message's bits stand there; fill is not counted */
};

/* What a build of blocks answers. */
struct pierstrand_block_count {
	uint8_t fault;  /* enum pierstrand_fault */
	uint8_t blocks; /* continuation blocks that were written, 0 to 15 */
};

/* A block's frame. */
struct pierstrand_due_frame {
	uint8_t fault; /* enum pierstrand_fault */
	uint8_t frame; /* 1 to 17; 0 where it was refused */
};

/* A message of DM-SDS DATA or DM-SDS ACK that was coming in and is lost. All 0 where there is none. */
struct pierstrand_loss {
	uint32_t source;      /* the SSI of its source address, 0 where that is absent */
	uint8_t message_type; /* 23 DM-SDS DATA, 24 DM-SDS ACK. This shows a loss: source and bits may well be 0 */
	size_t bits;          /* joined so far: those of the header and of the blocks kept */
};

/* What a report came to. */
struct pierstrand_answer {
	uint8_t outcome; /* enum pierstrand_outcome */
	uint8_t dropped; /* 1 where an open assembly ended here without being handed over */
	uint8_t fault;   /* enum pierstrand_fault: of the report, or of the block that it brought; outcome 0 then */
	size_t bits;     /* of the message that is handed over, outcome 1 or 2; otherwise 0 */
	struct pierstrand_fields fields; /* of its header; otherwise 0 */
	struct pierstrand_loss lost;     /* what ended here without being handed over, if it was of those two types */
};

/* The receiver. Not to be touched: see above. What is not there is 0. */
struct pierstrand_receiver {
	struct {
		uint32_t individual;
		uint32_t group;
		uint32_t mni;
	} settings;
	struct {
		uint8_t frame;
		uint8_t slot;
	} place;
	struct {
		size_t count;
		uint64_t places[21]; /* seven headers, three numbers each */
	} near;
	struct {
		struct {
			struct pierstrand_fields fields;
			struct {
				uint64_t high;
				uint64_t low;
			} raw;
			uint8_t held;
			uint8_t again;
			uint8_t more;
			uint8_t frame;
			uint8_t countdown;
			uint8_t kept;
		} run;
		size_t bits;
		uint8_t store[PIERSTRAND_BYTES_MESSAGE];
	} assembly;
};

/* A receiver that has heard nothing. */
struct pierstrand_fresh_receiver {
	uint8_t fault; /* enum pierstrand_fault */
	struct pierstrand_receiver receiver;
};

/* An SDS-TL message's elements (EN 300 392-2, 29.4.2), but for its user data. One that it does not have is 0. */
struct pierstrand_message {
	uint8_t kind;       /* enum pierstrand_sds; 0 where it was refused */
	uint8_t addressed;  /* 1 with a calling party; never in a DM-SDS ACK */
	uint32_t mni;       /* the calling party's, 24 bits */
	uint32_t ssi;       /* 24 bits */
	uint8_t protocol;   /* protocol identifier, 128 or more; not in a short report */
	uint8_t request;    /* transfer: delivery report request, 2 bits */
	uint8_t short_form; /* transfer: short form report, 1 bit */
	uint8_t required;   /* report: acknowledgement required, 1 bit */
	uint8_t storage;    /* transfer and report: 1 where validity, forward and address are there */
	uint8_t status;     /* report and ack: delivery status, 8 bits; short report: its type, 2 bits */
	uint8_t reference;  /* message reference, 8 bits */
	uint8_t validity;   /* validity period, 5 bits */
	uint8_t forward;    /* forward address type, 3 bits: 1 SSI, 2 SSI and extension, 7 none */
	uint64_t address;   /* forward address: the SSI, or SSI * 2^24 + extension */
};

/* A DM-SDU that was read. */
struct pierstrand_transport {
	uint8_t fault; /* enum pierstrand_fault */
	struct pierstrand_message message;
	size_t first;  /* the first bit of the user data in the DM-SDU; 0 where the kind has none */
	size_t bits;   /* how many there are */
};

/* What a build of a DM-SDU answers. */
struct pierstrand_sdu {
	uint8_t fault; /* enum pierstrand_fault */
	size_t bits;   /* of the DM-SDU */
};

/* The last transfers that were booked, newest first. Not to be touched: see above. What is not there is 0. */
struct pierstrand_bookings {
	size_t count;
	uint32_t pairs[PIERSTRAND_PAIRS];
};

/* What a booking came to. */
struct pierstrand_booking {
	uint8_t mark; /* enum pierstrand_mark */
	struct pierstrand_transport transport; /* what was read, and the fault */
};

/* A step over lent bits. */
struct pierstrand_step {
	uint8_t fault;  /* enum pierstrand_fault */
	uint64_t value; /* the number of the bits that were taken, the first of them highest; otherwise 0 */
	size_t at;      /* the first bit after the step; where it was refused, the bit that was given */
};

/*
 * A receiver that has heard nothing, for a unit with these three settings, each below 2^24. A message is
 * for the unit if its MNI is `mni` and its destination is a true address, type 0, that equals
 * `individual` or `group`; these two may be equal.
 * Refused, 13: a setting is 2^24 or more. The receiver's three settings are 0 then; it may be used.
 */
struct pierstrand_fresh_receiver pierstrand_make_receiver(uint32_t individual, uint32_t group, uint32_t mni);

/*
 * Hears what one slot brought, and changes the receiver where it stands. Every slot 1 and slot 3 is to be
 * reported, in their order, one that brought nothing too: slot 3 of a frame after its slot 1, then
 * slot 1 of the next frame, frame 1 after frame 18. The first report may be any. One that does not
 * follow the last accepted one is a break: it drops an open assembly, and nothing is a copy over it.
 * With no break between, a repeat of an unfragmented message is a copy whatever else came between.
 *
 * Where an open assembly ends without being handed over, however that comes, `dropped` is 1; and if it was
 * of a DM-SDS DATA or a DM-SDS ACK, `lost` says from whom, of which type and with how many bits. A repeat of
 * its own header loses nothing. What was told lost may still be joined later, from a repeat of its header.
 *
 * No assembly stays open: at the latest with the 38th report after its header's, refused ones not counted,
 * its message has been handed over, or it was dropped, however often its header was heard again.
 *
 *   frame    1 to 18
 *   slot     1 or 3: its number, not its code
 *   kind     enum pierstrand_kind; `length` is 0, 24 or 34 by it
 *   blocks   what was heard; it is only read
 *   message  `room` bytes, 512 or more: a message that is handed over goes to its start, the spare
 *            bits of its last byte 0. The bytes after it stay as they are; for outcomes other than
 *            1 and 2 all of them do
 *
 * Refused in this order: 15, 16, 1 (another kind, or another length for the kind), 17. The report
 * has not happened then: the outcome is 0, and the receiver and the buffer are as before.
 * Not refused, but heard as nothing, with its fault in the answer: a block with one of the faults 2
 * to 12 or 18 (18 between 7 and 10). The outcome is 0, and dropped is what it is at silence.
 */
struct pierstrand_answer pierstrand_hear(struct pierstrand_receiver *receiver, uint8_t frame, uint8_t slot,
					 uint8_t kind, const uint8_t *blocks, size_t length,
					 uint8_t *message, size_t room);

/*
 * Builds the blocks of a message, one header and up to fifteen continuation blocks, and writes SCH/S,
 * SCH/H and the SCH/F blocks one after another at the start of `out`, 24 + 34 * blocks bytes; the
 * bytes after them stay as they are.
 *
 * The header goes out in slots 1 and 3 of its frame and of `countdown` frames more. Each repeat is a
 * build of its own, with its own slot and frame and a countdown that is less by the frames gone by;
 * the continuation blocks are the same in each. Where they go: pierstrand_find_due_frame.
 *
 *   countdown  frames that still repeat the header, 0 to 3
 *   n          bits of the message, from the start of `message`
 *   message    `length` bytes, 8 * length bits at least n; it is only read
 *   out        `room` bytes; PIERSTRAND_BYTES_BLOCKS is enough for every message
 *
 * Refused in this order, with nothing written: 3, 7, 13, 8, 9, 14, 1.
 */
struct pierstrand_block_count pierstrand_build_blocks(struct pierstrand_sync sync, uint8_t countdown,
						      struct pierstrand_fields fields, size_t n,
						      const uint8_t *message, size_t length,
						      uint8_t *out, size_t room);

/*
 * Reads a header from its two blocks, of 8 and 16 bytes. Copies nothing: the message's bits stay where
 * they are, `bits` of them from bit `first` of SCH/H on.
 * Refused in this order: 1, 2 (both blocks), 3 to 7, 10, 8, 9, 11.
 */
struct pierstrand_header pierstrand_read_header(const uint8_t *sch_s, size_t s_length,
						const uint8_t *sch_h, size_t h_length);

/*
 * Reads a continuation block, of 34 bytes. Copies nothing, as above.
 * Refused in this order: 1, 2, 12, 11.
 */
struct pierstrand_continuation pierstrand_read_continuation(const uint8_t *sch_f, size_t length);

/*
 * The frame in whose slot 1 continuation block `block`, from 0, of a message goes, when a header of it
 * stands in `frame` with this countdown; each repeat gives the same. Frame 18 is never a block's.
 * Refused in this order: 7, 13 (countdown above 3), 14 (block above 14).
 */
struct pierstrand_due_frame pierstrand_find_due_frame(uint8_t frame, uint8_t countdown, uint8_t block);

/*
 * Reads an SDS-TL message from the first n bits of a DM-SDU: of the bits that pierstrand_hear handed over
 * (its answer's `bits` and `fields`), or of those of a header that was read alone. Copies nothing: the user
 * data stays where it is, `bits` of it from bit `first` of `sdu` on.
 *
 *   fields   of the header that it came with: `message_type`, 22 DM-SDS UDATA, 23 DM-SDS DATA or 24 DM-SDS
 *            ACK, and the last bit of `elements`, the FCS flag, are looked at
 *   n        bits of the DM-SDU, from the start of `sdu`
 *   sdu      `length` bytes, 8 * length bits at least n; it is only read
 *
 * Refused in this order: 13 (n above the bits lent), 21, 22. 21: another message type, or what can't be told
 * to be one of the four, by its acknowledgement type, additional address type, short data type, protocol
 * identifier, message type or status, or because n or the length indicator ends before these; a transfer in
 * a DM-SDS ACK; a forward address type that is not direct mode's; an FCS that is all there and wrong. 22: one
 * of the four that ends before the last element ahead of its user data, or has fewer bits than the length
 * indicator says, or an FCS that is not all there.
 */
struct pierstrand_transport pierstrand_read_transport(struct pierstrand_fields fields, size_t n,
						      const uint8_t *sdu, size_t length);

/*
 * Builds the DM-SDU of an SDS-TL message, for a header with this message type and this FCS flag, the last of
 * its elements: pierstrand_build_blocks takes it as its message, with `bits` for n. It goes to the start of `out`,
 * the spare bits of its last byte 0; the bytes after it stay as they are.
 *
 *   message_type  22 DM-SDS UDATA, 23 DM-SDS DATA, 24 DM-SDS ACK
 *   fcs           0, or 1: an FCS is written after the message
 *   n             bits of user data, from the start of `user`; 0 for an ack and a short report
 *   user          `length` bytes, 8 * length bits at least n; it is only read
 *   out           `room` bytes; PIERSTRAND_BYTES_SDU is enough for every DM-SDU
 *
 * Refused in this order, with nothing written: 21 (message type; kind; a transfer in a DM-SDS ACK; protocol
 * identifier below 128; a forward address type other than 1, 2 and 7 where storage is 1), 13 (a number too
 * large for its field, flags above 1 too; an element not 0 that the kind, a flag or the message type does not
 * have; n above the bits lent; user defined data 4, the user data and 24 to 88 bits before it, above 2,047
 * bits, in a DM-SDS ACK above 269, with FCS 237), 1 (`out` is too short).
 */
struct pierstrand_sdu pierstrand_build_transport(uint8_t message_type, uint8_t fcs,
						 struct pierstrand_message message, size_t n,
						 const uint8_t *user, size_t length,
						 uint8_t *out, size_t room);

/* Bookings in which there are none yet. */
struct pierstrand_bookings pierstrand_make_bookings(void);

/*
 * Reads a DM-SDU as pierstrand_read_transport does, and books it where it is a transfer whose pair, source
 * address and message reference, is not among the last 32 booked: the pair is entered, and of more than 32 the
 * oldest goes out. A transfer whose pair is there is marked again, and nothing moves: what goes out goes by
 * booking. Changes the bookings where they stand, and only where the mark is 1.
 *
 *   fields   of the header that it came with: `source.ssi`, 0 where it is absent, is looked at too
 *
 * Refused in this order: 13 (a source of 2^24 or more, n above the bits lent), 21, 22, as above. The mark is 0
 * then, as it is for a message that is no transfer, and the bookings are as before.
 */
struct pierstrand_booking pierstrand_book(struct pierstrand_bookings *bookings, struct pierstrand_fields fields,
					  size_t n, const uint8_t *sdu, size_t length);

/*
 * Steps over lent bits: a field after a field, each from the bit `at` where the last step ended. They are for
 * what no other call reads: the elements in user data that was handed over, which stand from bit `first` on,
 * `bits` of them, or a message that is not of SDS-TL. All bits that are lent can be read, of more than 2^32 the
 * first 2^32. Where user data ends is not known here: the last step is to end at `first` + `bits` or before it.
 *
 *   lent     `length` bytes; it is only read
 *   at       a bit's number from the start of `lent` on; any number, and past the end no bit is left
 *
 * pierstrand_take_bits takes the `n` bits from there on as a number. Refused in this order: 13 (n above 56), 1
 * (fewer are left). pierstrand_skip_bits goes past `n` bits, however many. Refused: 1 (fewer are left).
 * A refusal has value 0, and its position is the one that was given. pierstrand_count_left says how many bits
 * are left from there on; it is never refused.
 */
struct pierstrand_step pierstrand_take_bits(const uint8_t *lent, size_t length, size_t at, size_t n);
struct pierstrand_step pierstrand_skip_bits(const uint8_t *lent, size_t length, size_t at, size_t n);
size_t pierstrand_count_left(const uint8_t *lent, size_t length, size_t at);

#ifdef __cplusplus
}
#endif

#endif
