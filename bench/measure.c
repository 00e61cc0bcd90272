/*
 * measure check          every case, a line each: its name, the calls of a pass, the deepest stack
 *                        of a call, a sum over all answers and all written bytes, and of a log the
 *                        silent reports, the headers and the blocks. Ends with 1 where an answer is
 *                        not the expected one
 * measure count CASE N   N passes of a case, for a counter of instructions
 *
 * Compiled against the proved library and against each peer (calls.h). What the calls take is made
 * before the loop that is counted, with the implementation's own builds: equal sums tell that all
 * implementations were given, and gave, the same.
 */
#include "calls.h"

#include <inttypes.h>
#include <stdio.h>
#include <stdlib.h>
#include <string.h>

#define BLOCKS (SCH_S + SCH_H + 15 * SCH_F)
#define LONGEST_SDU 269
#define PAIRS 32

enum { SILENCE = 1, HEADER, BLOCK };
enum { NOTHING, UNFRAGMENTED, JOINED, OPENED, KEPT, COPY };
enum { TRANSFER = 1, DELIVERY_REPORT, DELIVERY_ACK, SHORT_REPORT };
enum { NOT_BOOKED, BOOKED, AGAIN };

#define FRAMES 18
#define SLOTS (2 * FRAMES)
#define MOST_REPORTS (4 * SLOTS)

/* Message bits in a header, in one that blocks follow, in a block, and in all together. */
#define SHORT 21
#define INSIDE 17
#define FULL 264
#define LARGEST (INSIDE + 15 * FULL)

#define INDIVIDUAL 0x4a1f03
#define GROUP 0x90c201
#define OTHER 0x33e410
#define SECOND 0x6b07e2
#define MNI 0x2a5b11

#define PAINT 0xa5
#define PAINTED 16384

/* What a report is to come to, the message that it is to hand over, and the bits of one that is
   lost: all are from OTHER. */
struct expected {
	uint8_t outcome;
	uint8_t dropped;
	uint8_t fault;
	unsigned bits;
	const uint8_t *message;
	unsigned lost;
};

/* A log of whole multiframes, so that a pass goes on where the one before it ended. */
static struct {
	unsigned count;
	Report reports[MOST_REPORTS];
	uint8_t blocks[MOST_REPORTS][SCH_F];
	struct expected wants[MOST_REPORTS];
} slots;

/* What a build takes, and the blocks that it is to write. */
static struct {
	Sync sync;
	uint8_t countdown;
	Fields fields;
	unsigned n;
	unsigned blocks;
} given;

/* What a read takes, and what it is to find. */
static struct {
	uint8_t bytes[SCH_F];
	uint8_t fault;
	unsigned bits;
} lent;

/* What a read of a DM-SDU takes, and what it is to find; what it was built of. */
static struct {
	Fields fields;
	uint8_t fcs;
	Message message;
	unsigned user; /* bits of user data */
	uint8_t bytes[ROOM]; /* as in a receiver's message buffer */
	size_t length;
	unsigned n;
	uint8_t fault;
} sdu;

/* What a booking takes, and the mark that it is to give. */
static struct {
	Bookings bookings;
	uint8_t mark;
} index_;

/* Steps over the first message, one after another: from which bit on, of how many bits each, how many,
   and the fault of each. */
static struct {
	size_t length;
	size_t first;
	size_t n;
	unsigned count;
	uint8_t fault;
} steps;

static uint8_t messages[8][ROOM]; /* the last is all 0 */
static uint64_t sum;
static size_t deepest;
static volatile uint64_t used;

static void fail(const char *what)
{
	fprintf(stderr, "measure: %s\n", what);
	exit(1);
}

/* ---- what the calls take */

static void make_messages(void)
{
	uint32_t v = 1;

	for (unsigned k = 0; k < 7; k++)
		for (unsigned i = 0; i < ROOM; i++) {
			v = v * 1664525 + 1013904223;
			messages[k][i] = v >> 24;
		}
}

/* DM-SDS DATA with both addresses. */
static Fields fields_to(uint32_t ssi)
{
	Fields f;

	memset(&f, 0, sizeof f);
	f.DESTINATION.ssi = ssi;
	f.source.ssi = OTHER;
	f.mni = MNI;
	f.message_type = 23;
	f.width = 8;
	f.elements = 0xc5;
	return f;
}

static Sync sync_at(unsigned frame, unsigned slot)
{
	Sync sync;

	memset(&sync, 0, sizeof sync);
	sync.system = 11;
	sync.usage = 1;
	sync.slot = slot - 1;
	sync.frame = frame;
	return sync;
}

/* The blocks of a message whose header is the one of place i; how many follow it. */
static unsigned blocks_of(uint8_t *out, unsigned i, unsigned countdown, const Fields *fields,
			  unsigned n, const uint8_t *message)
{
	Sync sync = sync_at(i / 2 % FRAMES + 1, i % 2 ? 3 : 1);
	Built built;

	BUILD(built, &sync, countdown, fields, n, message, ROOM, out, BLOCKS);
	if (built.fault)
		fail("a build for a log was refused");
	return built.blocks;
}

static unsigned blocks_at(uint8_t *out, unsigned i, unsigned countdown, uint32_t to, unsigned n,
			  const uint8_t *message)
{
	Fields fields = fields_to(to);

	return blocks_of(out, i, countdown, &fields, n, message);
}

/* Multiframes in which nothing is heard. */
static void silence(unsigned multiframes)
{
	slots.count = multiframes * SLOTS;
	for (unsigned i = 0; i < slots.count; i++) {
		Report report = {i / 2 % FRAMES + 1, i % 2 ? 3 : 1, SILENCE, slots.blocks[i], 0};

		slots.reports[i] = report;
	}
}

/* What is heard in place i, and what comes of it. */
static void bring(unsigned i, unsigned kind, const uint8_t *bytes, unsigned outcome)
{
	slots.reports[i].kind = kind;
	slots.reports[i].length = kind == HEADER ? SCH_S + SCH_H : SCH_F;
	memcpy(slots.blocks[i], bytes, slots.reports[i].length);
	slots.wants[i].outcome = outcome;
}

static void hand_over(unsigned i, unsigned outcome, unsigned n, const uint8_t *message)
{
	struct expected want = {outcome, 0, 0, n, message, 0};

	slots.wants[i] = want;
}

static void nothing_of(unsigned i, unsigned fault)
{
	struct expected want = {NOTHING, 0, fault, 0, NULL, 0};

	slots.wants[i] = want;
}

/* A message is lost in place i, with so many bits joined. */
static void lose(unsigned i, unsigned bits)
{
	slots.wants[i].dropped = 1;
	slots.wants[i].lost = bits;
}

/* The block that is due in place i is not heard. */
static void miss(unsigned i, unsigned bits)
{
	slots.reports[i].kind = SILENCE;
	slots.reports[i].length = 0;
	nothing_of(i, 0);
	lose(i, bits);
}

/* Changes byte `at` of what is heard in place i: nothing comes of it then but a fault. */
static void damage(unsigned i, unsigned at, uint8_t clear, uint8_t set, unsigned fault)
{
	slots.blocks[i][at] = (slots.blocks[i][at] & ~clear) | set;
	nothing_of(i, fault);
}

/* A message from the x-th frame on: its header in both slots of countdown + 1 frames, and each of
   its blocks in slot 1 of its frame. */
static void send(unsigned x, unsigned countdown, uint32_t to, unsigned n, const uint8_t *message)
{
	uint8_t out[BLOCKS];
	unsigned first = 2 * x, i, blocks = 0, ours = to != OTHER;

	for (i = first; i <= first + 2 * countdown + 1; i++) {
		blocks = blocks_at(out, i, countdown - (i - first) / 2, to, n, message);
		bring(i, HEADER, out, !ours ? NOTHING : blocks ? OPENED : COPY);
	}
	for (unsigned k = 0; k < blocks; k++, i += 2) {
		Due due;

		if (slots.reports[i].frame == FRAMES)
			i += 2;
		DUE(due, slots.reports[first].frame, countdown, k);
		if (due.fault || due.frame != slots.reports[i].frame)
			fail("a block is due in another frame");
		bring(i, BLOCK, out + SCH_S + SCH_H + k * SCH_F, ours ? KEPT : NOTHING);
	}
	if (ours && blocks)
		hand_over(i - 2, JOINED, n, message);
	else if (ours)
		hand_over(first, UNFRAGMENTED, n, message);
}

/* Two senders in turn from the x-th frame on: the header of the one in slot 1 of four frames, that
   of the other in slot 3. */
static void send_in_turn(unsigned x, unsigned n, const uint8_t *one, const uint8_t *other)
{
	uint8_t out[BLOCKS];
	Fields fields = fields_to(INDIVIDUAL);
	unsigned first = 2 * x;

	for (unsigned k = 0; k < 8; k++) {
		fields.source.ssi = k % 2 ? SECOND : OTHER;
		blocks_of(out, first + k, 3 - k / 2, &fields, n, k % 2 ? other : one);
		bring(first + k, HEADER, out, COPY);
	}
	hand_over(first, UNFRAGMENTED, n, one);
	hand_over(first + 1, UNFRAGMENTED, n, other);
}

/* Other short headers than the slot before had, one in each slot. */
static void short_headers(uint32_t to)
{
	uint8_t out[BLOCKS];

	silence(1);
	for (unsigned i = 0; i < slots.count; i++) {
		blocks_at(out, i, 0, to, 16, messages[i % 7]);
		bring(i, HEADER, out, NOTHING);
		if (to != OTHER)
			hand_over(i, UNFRAGMENTED, 16, messages[i % 7]);
	}
}

static void make_nothing(void)
{
	silence(1);
}

static void make_run(void)
{
	silence(1);
	send(0, 1, INDIVIDUAL, LARGEST, messages[0]);
}

/* Runs that do not come to their end: the header of each, in slot 3, follows the first block of the
   one before it. Of the last one no block is heard. */
static void make_lost(void)
{
	uint8_t out[BLOCKS];
	unsigned last = 2 * (FRAMES - 3) + 1; /* slot 3 of frame 16 */

	silence(1);
	for (unsigned i = 1; i <= last; i += 2) {
		blocks_at(out, i, 0, INDIVIDUAL, INSIDE + 2 * FULL, messages[i % 7]);
		bring(i, HEADER, out, OPENED);
		if (i > 1)
			lose(i, INSIDE + FULL);
		bring(i + 1, BLOCK, out + SCH_S + SCH_H, KEPT);
	}
	miss(last + 1, INSIDE);
}

static void make_short(void)
{
	short_headers(INDIVIDUAL);
}

static void make_others(void)
{
	short_headers(OTHER);
}

/* Four messages, eight headers each. */
static void make_copies(void)
{
	silence(1);
	for (unsigned k = 0; k < 4; k++)
		send(4 * k + k / 2, 3, k % 2 ? GROUP : INDIVIDUAL, 16 + k, messages[k]);
}

/* Four times two senders in turn, four headers each. */
static void make_between(void)
{
	silence(1);
	for (unsigned k = 0; k < 4; k++)
		send_in_turn(4 * k + k / 2, 16 + k, messages[k], messages[k + 3]);
}

/* In each slot a header or a block for this unit with one fault, every fault in turn. */
static void make_faults(void)
{
	static const struct {
		uint8_t kind, at, clear, set, fault;
	} faults[] = {
		{HEADER, 7, 0, 0x01, 2},          /* pad bit of SCH/S */
		{HEADER, SCH_S + 15, 0, 0x01, 2}, /* pad bit of SCH/H */
		{HEADER, 0, 0xf0, 0x90, 3},       /* system code 9 */
		{HEADER, 0, 0, 0x04, 4},          /* SYNC PDU type 1 */
		{HEADER, 0, 0, 0x01, 5},          /* communication type 1 */
		{HEADER, 2, 0, 0x08, 6},          /* encryption state 1 */
		{HEADER, 1, 0, 0x03, 7},          /* frame 24 or more */
		{HEADER, SCH_S + 1, 0, 0x03, 8},  /* address type 3 */
		{HEADER, SCH_S + 11, 0, 0x10, 9}, /* message type 31 */
		{HEADER, SCH_S + 1, 0, 0x10, 10}, /* fragmented, slot count 0 */
		{HEADER, SCH_S + 1, 0, 0x20, 11}, /* fill told of, the room is 0 */
		{HEADER, 1, 0x0c, 0x04, 18},      /* slot 2 */
		{BLOCK, 33, 0, 0x01, 2},          /* pad bit of SCH/F */
		{BLOCK, 0, 0xc0, 0x80, 12},       /* PDU type 2 */
		{BLOCK, 0, 0, 0x10, 11},          /* fill told of, the room is 0 */
	};
	uint8_t out[BLOCKS];

	silence(1);
	for (unsigned i = 0; i < slots.count; i++) {
		unsigned k = i % (sizeof faults / sizeof faults[0]);
		unsigned block = faults[k].kind == BLOCK;

		blocks_at(out, i, 0, INDIVIDUAL, block ? INSIDE + FULL : SHORT, messages[7]);
		bring(i, faults[k].kind, block ? out + SCH_S + SCH_H : out, NOTHING);
		damage(i, faults[k].at, faults[k].clear, faults[k].set, faults[k].fault);
	}
}

/* Reports that are refused. */
static void make_refused(void)
{
	static const struct {
		uint8_t frame, slot, kind, length, fault;
	} refused[] = {
		{0, 1, SILENCE, 0, 15}, {19, 1, HEADER, 24, 15}, {1, 2, BLOCK, 34, 16},
		{1, 1, HEADER, 23, 1},  {1, 1, BLOCK, 35, 1},    {1, 1, 4, 0, 1},
	};

	for (unsigned i = 0; i < sizeof refused / sizeof refused[0]; i++) {
		Report report = {refused[i].frame, refused[i].slot, refused[i].kind,
				 slots.blocks[i], refused[i].length};

		slots.reports[i] = report;
		nothing_of(i, refused[i].fault);
		slots.count = i + 1;
	}
}

/* Four multiframes of a unit that others talk beside. */
static void make_mixed(void)
{
	unsigned second = FRAMES, third = 2 * FRAMES, fourth = 3 * FRAMES, lost;

	silence(4);
	/* A short message and its copies, then one of three blocks, then two senders in turn. */
	send(0, 3, INDIVIDUAL, SHORT, messages[0]);
	send(5, 1, INDIVIDUAL, INSIDE + 2 * FULL + 100, messages[1]);
	send_in_turn(12, 16, messages[2], messages[3]);

	/* Two of others. A header of which slot 3 alone came through, and a damaged block. */
	send(second, 3, OTHER, 16, messages[2]);
	send(second + 5, 1, OTHER, INSIDE + 5 * FULL, messages[3]);
	send(second + 13, 0, INDIVIDUAL, 17, messages[4]);
	damage(2 * (second + 13), SCH_S + 15, 0, 0x02, 2);
	hand_over(2 * (second + 13) + 1, UNFRAGMENTED, 17, messages[4]);
	bring(2 * (second + 15), BLOCK, slots.blocks[2 * (second + 9)], NOTHING);
	damage(2 * (second + 15), 0, 0xc0, 0, 12);

	/* Eight blocks to the group, of which the fifth is not heard: the message is dropped. */
	send(third, 3, GROUP, INSIDE + 8 * FULL - 50, messages[5]);
	lost = 2 * (third + 8);
	miss(lost, INSIDE + 4 * FULL);
	for (unsigned k = 1; k < 4; k++)
		nothing_of(lost + 2 * k, 0);

	/* Four blocks past frame 18, a short message, and one whose slot 1 names another frame. */
	send(third + 15, 0, INDIVIDUAL, INSIDE + 3 * FULL + 7, messages[6]);
	send(fourth + 6, 1, INDIVIDUAL, 8, messages[0]);
	send(fourth + 12, 0, INDIVIDUAL, 8, messages[1]);
	damage(2 * (fourth + 12), 2, 0x20, 0, 18);
	hand_over(2 * (fourth + 12) + 1, UNFRAGMENTED, 8, messages[1]);
}

static void make_build(unsigned n, unsigned blocks)
{
	given.sync = sync_at(7, 1);
	given.countdown = 1;
	given.fields = fields_to(INDIVIDUAL);
	given.n = n;
	given.blocks = blocks;
}

static void make_build_0(void)
{
	make_build(16, 0);
}

static void make_build_5(void)
{
	make_build(INSIDE + 4 * FULL + 120, 5);
}

static void make_build_15(void)
{
	make_build(LARGEST, 15);
}

/* A part of what a message of n bits builds to, from byte `from` on, and what is found in it. */
static void make_part(unsigned n, unsigned from, unsigned length, unsigned bits)
{
	uint8_t out[BLOCKS];

	blocks_at(out, 0, 1, INDIVIDUAL, n, messages[0]);
	memcpy(lent.bytes, out + from, length);
	lent.fault = 0;
	lent.bits = bits;
}

static void make_header_fill(void)
{
	make_part(8, 0, SCH_S + SCH_H, 8);
}

static void make_header_fragmented(void)
{
	make_part(LARGEST, 0, SCH_S + SCH_H, INSIDE);
}

static void make_header_refused(void)
{
	make_part(SHORT, 0, SCH_S + SCH_H, 0);
	lent.bytes[2] |= 0x10; /* encryption */
	lent.fault = 6;
}

static void make_block_full(void)
{
	make_part(INSIDE + FULL, SCH_S + SCH_H, SCH_F, FULL);
}

static void make_block_fill(void)
{
	make_part(INSIDE + 10, SCH_S + SCH_H, SCH_F, 10);
}

/* A DM-SDU with this message, as it is built and read. */
static void make_sdu(uint8_t carrier, uint8_t fcs, unsigned user)
{
	Sdu built;

	sdu.fields = fields_to(INDIVIDUAL);
	sdu.fields.message_type = carrier;
	sdu.fields.elements = fcs;
	sdu.fcs = fcs;
	sdu.user = user;
	sdu.fault = 0;
	memset(sdu.bytes, 0, sizeof sdu.bytes);
	BUILD_TRANSPORT(built, carrier, fcs, &sdu.message, user, messages[0], ROOM, sdu.bytes,
			sizeof sdu.bytes);
	if (built.fault)
		fail("a build of a DM-SDU was refused");
	sdu.n = built.bits;
	sdu.length = ROOM;
}

static void plain_transfer(void)
{
	memset(&sdu.message, 0, sizeof sdu.message);
	sdu.message.kind = TRANSFER;
	sdu.message.protocol = 130;
	sdu.message.request = 1;
	sdu.message.reference = 77;
}

/* With a calling party and a forward address. */
static void stored_transfer(void)
{
	plain_transfer();
	sdu.message.addressed = 1;
	sdu.message.mni = MNI;
	sdu.message.ssi = OTHER;
	sdu.message.storage = 1;
	sdu.message.validity = 9;
	sdu.message.forward = 2;
	sdu.message.address = (uint64_t)GROUP << 24 | MNI;
}

static void make_transfer(void)
{
	plain_transfer();
	make_sdu(23, 0, 128);
}

static void make_transfer_stored(void)
{
	stored_transfer();
	make_sdu(23, 0, 128);
}

static void make_transfer_fcs(void)
{
	stored_transfer();
	make_sdu(23, 1, 128);
}

static void make_short_report(void)
{
	memset(&sdu.message, 0, sizeof sdu.message);
	sdu.message.kind = SHORT_REPORT;
	sdu.message.status = 2;
	sdu.message.reference = 77;
	make_sdu(24, 0, 0);
}

/* The same in three bytes. */
static void make_short_few(void)
{
	make_short_report();
	sdu.length = 3;
}

/* A forward address type that is not direct mode's: it stands in bits 97 to 99. */
static void make_not_told(void)
{
	make_transfer_stored();
	sdu.bytes[12] ^= 0x20;
	sdu.fault = 21;
}

/* An FCS that is wrong. */
static void make_wrong_fcs(void)
{
	make_transfer_fcs();
	sdu.bytes[sdu.n / 8 - 1] ^= 0x80;
	sdu.fault = 21;
}

static void make_long_fcs(void)
{
	plain_transfer();
	make_sdu(23, 1, 2000);
}

/* An index of so many pairs, all of other references; the newest `again` of them is the transfer's. */
static void make_index(unsigned count, unsigned again)
{
	FRESH_BOOKINGS(index_.bookings);
	for (unsigned i = 0; i < count; i++) {
		Booked booked;

		plain_transfer();
		if (i != count - again)
			sdu.message.reference = 100 + i;
		make_sdu(23, 0, 128);
		BOOK(booked, index_.bookings, &sdu.fields, sdu.n, sdu.bytes, sdu.length);
		if (FAULT_OF(booked) || MARK_OF(booked) != BOOKED)
			fail("a booking for an index was refused");
	}
	index_.mark = again ? AGAIN : BOOKED;
	make_transfer();
}

static void make_few_booked(void)
{
	make_index(4, 0);
}

static void make_full_index(void)
{
	make_index(PAIRS, 0);
}

static void make_again(void)
{
	make_index(PAIRS, PAIRS / 2);
}

static void make_book_report(void)
{
	make_index(PAIRS, 0);
	make_short_report();
	index_.mark = NOT_BOOKED;
}

static void make_none(void)
{
}

/* As many steps as go into what is lent. */
static void make_steps(size_t length, size_t first, size_t n)
{
	steps.length = length;
	steps.first = first;
	steps.n = n;
	steps.count = (8 * length - first) / n;
	steps.fault = 0;
}

static void make_steps_8(void)
{
	make_steps(32, 5, 8);
}

static void make_steps_56(void)
{
	make_steps(ROOM, 5, 56);
}

static void make_steps_few(void)
{
	make_steps(3, 0, 5);
}

/* The last bits of what is lent, and one more. */
static void make_steps_refused(void)
{
	make_steps(32, 8 * 32 - 13, 14);
	steps.count = 1;
	steps.fault = 1;
}

/* ---- the loops that are counted */

static void count_hear(unsigned passes)
{
	static uint8_t message[ROOM];
	static Fresh unit;

	FRESH(unit, INDIVIDUAL, GROUP, MNI);
	while (passes--)
		for (unsigned i = 0; i < slots.count; i++) {
			Answer answer;

			HEAR(answer, unit, &slots.reports[i], message, ROOM);
			used += answer.outcome;
		}
}

static void count_build(unsigned passes)
{
	static uint8_t out[BLOCKS];

	while (passes--) {
		Built built;

		BUILD(built, &given.sync, given.countdown, &given.fields, given.n, messages[0],
		      ROOM, out, BLOCKS);
		used += built.blocks;
	}
}

static void count_header(unsigned passes)
{
	while (passes--) {
		Header header;

		READ_HEADER(header, lent.bytes, SCH_S, lent.bytes + SCH_S, SCH_H);
		used += HEADER_OF(header).bits;
	}
}

static void count_block(unsigned passes)
{
	while (passes--) {
		Block block;

		READ_BLOCK(block, lent.bytes, SCH_F);
		used += BLOCK_OF(block).bits;
	}
}

static void count_due(unsigned passes)
{
	while (passes--)
		for (unsigned x = 1; x <= FRAMES; x++)
			for (unsigned i = 0; i < 15; i++) {
				Due due;

				DUE(due, x, i % 4, i);
				used += due.frame;
			}
}

static void count_fresh(unsigned passes)
{
	while (passes--) {
		Fresh unit;

		FRESH(unit, INDIVIDUAL, GROUP, MNI);
		used += unit.fault;
	}
}

static void count_transport(unsigned passes)
{
	while (passes--) {
		Transport found;

		READ_TRANSPORT(found, &sdu.fields, sdu.n, sdu.bytes, sdu.length);
		used += TRANSPORT_OF(found).bits;
	}
}

static void count_sdu(unsigned passes)
{
	static uint8_t out[LONGEST_SDU];

	while (passes--) {
		Sdu built;

		BUILD_TRANSPORT(built, sdu.fields.message_type, sdu.fcs, &sdu.message, sdu.user,
				messages[0], ROOM, out, LONGEST_SDU);
		used += built.bits;
	}
}

/* Each pass has a copy of the index. */
static void count_book(unsigned passes)
{
	while (passes--) {
		Bookings bookings = index_.bookings;
		Booked booked;

		BOOK(booked, bookings, &sdu.fields, sdu.n, sdu.bytes, sdu.length);
		used += MARK_OF(booked);
	}
}

static void count_fresh_bookings(unsigned passes)
{
	while (passes--) {
		Bookings bookings;

		FRESH_BOOKINGS(bookings);
		used += bookings.count;
	}
}

static void count_take(unsigned passes)
{
	while (passes--) {
		size_t at = steps.first;

		for (unsigned i = 0; i < steps.count; i++) {
			Step step;

			TAKE(step, messages[0], steps.length, at, steps.n);
			used += STEP_OF(step).value;
			at = STEP_OF(step).at;
		}
	}
}

static void count_skip(unsigned passes)
{
	while (passes--) {
		size_t at = steps.first;

		for (unsigned i = 0; i < steps.count; i++) {
			Step step;

			SKIP(step, messages[0], steps.length, at, steps.n);
			at = STEP_OF(step).at;
			used += at;
		}
	}
}

static void count_left(unsigned passes)
{
	while (passes--)
		for (unsigned i = 0; i < steps.count; i++)
			used += LEFT(messages[0], steps.length, steps.first + i * steps.n);
}

/* ---- the same calls, with every answer looked at and every call on a painted stack */

static inline uint8_t *stack_pointer(void)
{
	uint8_t *at;

	__asm__ volatile("mov %%rsp, %0" : "=r"(at));
	return at;
}

/* Paints the stack below a call, makes it, and notes how deep the paint was touched: by what the
   call pushes, by its return address, and by all that it does. */
#define ON_PAINT(call)                                                                          \
	do {                                                                                    \
		uint8_t *top_ = stack_pointer();                                                \
		volatile uint8_t *at_ = top_ - PAINTED;                                         \
                                                                                                \
		while (at_ < top_)                                                              \
			*at_++ = PAINT;                                                         \
		call;                                                                           \
		for (at_ = top_ - PAINTED; at_ < top_ && *at_ == PAINT;)                        \
			at_++;                                                                  \
		if ((size_t)(top_ - at_) > deepest)                                             \
			deepest = top_ - at_;                                                   \
	} while (0)

/* FNV-1a. */
static void add_byte(uint8_t byte)
{
	sum = (sum ^ byte) * UINT64_C(0x100000001b3);
}

static void add(uint64_t number)
{
	for (int i = 0; i < 8; i++)
		add_byte(number >> 8 * i & 0xff);
}

static void add_bytes(const uint8_t *bytes, size_t length)
{
	add(length);
	for (size_t i = 0; i < length; i++)
		add_byte(bytes[i]);
}

static void add_fields(const Fields *f)
{
	add(f->DESTINATION.ADDRESS_TYPE);
	add(f->DESTINATION.ssi);
	add(f->source.ADDRESS_TYPE);
	add(f->source.ssi);
	add(f->mni);
	add(f->message_type);
	add(f->width);
	add(f->elements);
}

/* The message is the expected one, its spare bits are 0, and nothing after it was written. */
static int handed_over(const uint8_t *message, const struct expected *want)
{
	unsigned whole = want->bits / 8, spare = (8 - want->bits % 8) % 8, i = whole;

	if (whole && memcmp(message, want->message, whole))
		return 0;
	if (spare && message[i++] != (want->message[whole] & 0xff << spare))
		return 0;
	while (i < ROOM)
		if (message[i++] != PAINT)
			return 0;
	return 1;
}

static unsigned check_hear(void)
{
	static uint8_t message[ROOM];
	static Fresh unit;

	FRESH(unit, INDIVIDUAL, GROUP, MNI);
	for (unsigned pass = 0; pass < 3; pass++)
		for (unsigned i = 0; i < slots.count; i++) {
			const struct expected *want = &slots.wants[i];
			Answer answer;

			memset(message, PAINT, sizeof message);
			ON_PAINT(HEAR(answer, unit, &slots.reports[i], message, ROOM));
			if (answer.outcome != want->outcome || answer.dropped != want->dropped ||
			    answer.fault != want->fault || answer.bits != want->bits)
				fail("a report came to something else than expected");
			if (answer.lost.source != (want->lost ? OTHER : 0) ||
			    answer.lost.message_type != (want->lost ? 23 : 0) ||
			    answer.lost.bits != want->lost)
				fail("another loss than expected was told of");
			if (!handed_over(message, want))
				fail("another message than expected was handed over");
			add(answer.outcome);
			add(answer.dropped);
			add(answer.fault);
			add(answer.bits);
			add_fields(&answer.fields);
			add(answer.lost.source);
			add(answer.lost.message_type);
			add(answer.lost.bits);
			add_bytes(slots.reports[i].blocks, slots.reports[i].length);
			add_bytes(message, ROOM);
		}
	return slots.count;
}

static unsigned check_build(void)
{
	static uint8_t out[BLOCKS];
	Built built;

	memset(out, PAINT, sizeof out);
	ON_PAINT(BUILD(built, &given.sync, given.countdown, &given.fields, given.n, messages[0],
		       ROOM, out, BLOCKS));
	if (built.fault || built.blocks != given.blocks)
		fail("a build answered something else than expected");
	add(built.blocks);
	add_bytes(out, BLOCKS);
	return 1;
}

static unsigned check_header(void)
{
	Header header;

	ON_PAINT(READ_HEADER(header, lent.bytes, SCH_S, lent.bytes + SCH_S, SCH_H));
	if (header.fault != lent.fault || HEADER_OF(header).bits != lent.bits)
		fail("a header was read otherwise than expected");
	add(header.fault);
	add(HEADER_OF(header).sync.system);
	add(HEADER_OF(header).sync.usage);
	add(HEADER_OF(header).sync.slot);
	add(HEADER_OF(header).sync.frame);
	add(HEADER_OF(header).fragmented);
	add(HEADER_OF(header).count);
	add(HEADER_OF(header).countdown);
	add_fields(&HEADER_OF(header).fields);
	add(HEADER_OF(header).first);
	add(HEADER_OF(header).bits);
	return 1;
}

static unsigned check_block(void)
{
	Block block;

	ON_PAINT(READ_BLOCK(block, lent.bytes, SCH_F));
	if (block.fault != lent.fault || BLOCK_OF(block).bits != lent.bits)
		fail("a block was read otherwise than expected");
	add(BLOCK_OF(block).last);
	add(BLOCK_OF(block).first);
	add(BLOCK_OF(block).bits);
	return 1;
}

static unsigned check_due(void)
{
	unsigned calls = 0;

	for (unsigned x = 1; x <= FRAMES; x++)
		for (unsigned i = 0; i < 15; i++, calls++) {
			Due due;

			ON_PAINT(DUE(due, x, i % 4, i));
			if (due.fault || due.frame < 1 || due.frame >= FRAMES)
				fail("a frame is no block's");
			add(due.frame);
		}
	return calls;
}

static unsigned check_fresh(void)
{
	Fresh unit;

	ON_PAINT(FRESH(unit, INDIVIDUAL, GROUP, MNI));
	if (unit.fault)
		fail("a fresh receiver was refused");
	return 1;
}

static void add_message(const Message *m)
{
	add(m->kind);
	add(m->addressed);
	add(m->mni);
	add(m->ssi);
	add(m->protocol);
	add(m->request);
	add(m->short_form);
	add(m->required);
	add(m->storage);
	add(m->status);
	add(m->reference);
	add(m->validity);
	add(m->forward);
	add(m->address);
}

static unsigned check_transport(void)
{
	Transport found;

	ON_PAINT(READ_TRANSPORT(found, &sdu.fields, sdu.n, sdu.bytes, sdu.length));
	if (found.fault != sdu.fault ||
	    TRANSPORT_OF(found).bits != (found.fault ? 0 : sdu.user) ||
	    TRANSPORT_OF(found).message.reference != (found.fault ? 0 : 77))
		fail("a DM-SDU was read otherwise than expected");
	add(found.fault);
	add_message(&TRANSPORT_OF(found).message);
	add(TRANSPORT_OF(found).first);
	add(TRANSPORT_OF(found).bits);
	return 1;
}

static unsigned check_sdu(void)
{
	static uint8_t out[LONGEST_SDU];
	Sdu built;

	memset(out, PAINT, sizeof out);
	ON_PAINT(BUILD_TRANSPORT(built, sdu.fields.message_type, sdu.fcs, &sdu.message, sdu.user,
				 messages[0], ROOM, out, LONGEST_SDU));
	if (built.fault || built.bits != sdu.n || memcmp(out, sdu.bytes, (sdu.n + 7) / 8))
		fail("a DM-SDU was built otherwise than expected");
	add(built.bits);
	add_bytes(out, sizeof out);
	return 1;
}

/* The same message once more is marked again. */
static unsigned check_book(void)
{
	Bookings bookings = index_.bookings;
	Booked booked;

	ON_PAINT(BOOK(booked, bookings, &sdu.fields, sdu.n, sdu.bytes, sdu.length));
	if (FAULT_OF(booked) || MARK_OF(booked) != index_.mark)
		fail("a booking came to something else than expected");
	add(MARK_OF(booked));
	add_message(&BOOKED_OF(booked).message);
	add(BOOKED_OF(booked).first);
	add(BOOKED_OF(booked).bits);
	BOOK(booked, bookings, &sdu.fields, sdu.n, sdu.bytes, sdu.length);
	if (MARK_OF(booked) != (index_.mark ? AGAIN : NOT_BOOKED))
		fail("a second booking came to something else than expected");
	return 1;
}

static unsigned check_fresh_bookings(void)
{
	Bookings bookings;

	ON_PAINT(FRESH_BOOKINGS(bookings));
	if (bookings.count)
		fail("a fresh index is not empty");
	return 1;
}

/* The number of some bits, bit by bit. */
static uint64_t bits_of(const uint8_t *bytes, size_t at, size_t n)
{
	uint64_t v = 0;

	for (size_t i = at; i < at + n; i++)
		v = v << 1 | (bytes[i / 8] >> (7 - i % 8) & 1);
	return v;
}

static void add_step(const Step *step, size_t at, uint64_t value)
{
	if (step->fault != steps.fault || STEP_OF(*step).value != (steps.fault ? 0 : value) ||
	    STEP_OF(*step).at != (steps.fault ? at : at + steps.n))
		fail("a step over bits came to something else than expected");
	add(step->fault);
	add(STEP_OF(*step).value);
	add(STEP_OF(*step).at);
}

static unsigned check_take(void)
{
	size_t at = steps.first;

	for (unsigned i = 0; i < steps.count; i++) {
		Step step;

		ON_PAINT(TAKE(step, messages[0], steps.length, at, steps.n));
		add_step(&step, at, steps.fault ? 0 : bits_of(messages[0], at, steps.n));
		at = STEP_OF(step).at;
	}
	return steps.count;
}

static unsigned check_skip(void)
{
	size_t at = steps.first;

	for (unsigned i = 0; i < steps.count; i++) {
		Step step;

		ON_PAINT(SKIP(step, messages[0], steps.length, at, steps.n));
		add_step(&step, at, 0);
		at = STEP_OF(step).at;
	}
	return steps.count;
}

static unsigned check_left(void)
{
	for (unsigned i = 0; i < steps.count; i++) {
		size_t at = steps.first + i * steps.n, left;

		ON_PAINT(left = LEFT(messages[0], steps.length, at));
		if (left != 8 * steps.length - at)
			fail("other bits are left than expected");
		add(left);
	}
	return steps.count;
}

static const struct measured {
	const char *name;
	void (*make)(void);
	void (*count)(unsigned passes);
	unsigned (*check)(void);
} cases[] = {
	{"hear-mixed", make_mixed, count_hear, check_hear},
	{"hear-nothing", make_nothing, count_hear, check_hear},
	{"hear-run", make_run, count_hear, check_hear},
	{"hear-lost", make_lost, count_hear, check_hear},
	{"hear-short", make_short, count_hear, check_hear},
	{"hear-copies", make_copies, count_hear, check_hear},
	{"hear-between", make_between, count_hear, check_hear},
	{"hear-others", make_others, count_hear, check_hear},
	{"hear-faults", make_faults, count_hear, check_hear},
	{"hear-refused", make_refused, count_hear, check_hear},
	{"build-0", make_build_0, count_build, check_build},
	{"build-5", make_build_5, count_build, check_build},
	{"build-15", make_build_15, count_build, check_build},
	{"header-fill", make_header_fill, count_header, check_header},
	{"header-fragmented", make_header_fragmented, count_header, check_header},
	{"header-refused", make_header_refused, count_header, check_header},
	{"block-full", make_block_full, count_block, check_block},
	{"block-fill", make_block_fill, count_block, check_block},
	{"due-frame", make_none, count_due, check_due},
	{"fresh", make_none, count_fresh, check_fresh},
	{"tl-transfer", make_transfer, count_transport, check_transport},
	{"tl-stored", make_transfer_stored, count_transport, check_transport},
	{"tl-fcs", make_transfer_fcs, count_transport, check_transport},
	{"tl-short", make_short_report, count_transport, check_transport},
	{"tl-few", make_short_few, count_transport, check_transport},
	{"tl-refused", make_not_told, count_transport, check_transport},
	{"tl-wrong", make_wrong_fcs, count_transport, check_transport},
	{"sdu-short", make_short_report, count_sdu, check_sdu},
	{"sdu-transfer", make_transfer, count_sdu, check_sdu},
	{"sdu-stored", make_transfer_stored, count_sdu, check_sdu},
	{"sdu-2000", make_long_fcs, count_sdu, check_sdu},
	{"book-booked", make_few_booked, count_book, check_book},
	{"book-again", make_again, count_book, check_book},
	{"book-full", make_full_index, count_book, check_book},
	{"book-report", make_book_report, count_book, check_book},
	{"fresh-bookings", make_none, count_fresh_bookings, check_fresh_bookings},
	{"take-8", make_steps_8, count_take, check_take},
	{"take-56", make_steps_56, count_take, check_take},
	{"take-few", make_steps_few, count_take, check_take},
	{"take-refused", make_steps_refused, count_take, check_take},
	{"skip", make_steps_8, count_skip, check_skip},
	{"left", make_steps_8, count_left, check_left},
};

#define CASES (sizeof cases / sizeof cases[0])

static void check(const struct measured *c)
{
	unsigned calls, kinds[BLOCK + 1] = {0};

	memset(&slots, 0, sizeof slots);
	sum = UINT64_C(0xcbf29ce484222325);
	deepest = 0;
	used = 0;
	c->make();
	calls = c->check();
	c->count(3);
	add(used);
	for (unsigned i = 0; i < slots.count; i++)
		if (slots.reports[i].kind <= BLOCK)
			kinds[slots.reports[i].kind]++;
	printf("%s %u %zu %016" PRIx64 " %u %u %u\n", c->name, calls, deepest, sum,
	       kinds[SILENCE], kinds[HEADER], kinds[BLOCK]);
}

int main(int argc, char **argv)
{
	make_messages();
	if (argc == 2 && !strcmp(argv[1], "check")) {
		for (size_t k = 0; k < CASES; k++)
			check(&cases[k]);
		return 0;
	}
	if (argc == 4 && !strcmp(argv[1], "count"))
		for (size_t k = 0; k < CASES; k++)
			if (!strcmp(argv[2], cases[k].name)) {
				cases[k].make();
				cases[k].count(strtoul(argv[3], NULL, 10));
				return 0;
			}
	fprintf(stderr, "usage: %s check | count CASE PASSES\n", argv[0]);
	return 2;
}
