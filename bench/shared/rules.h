/*
 * What both peers know of the documents that takes no bit out of a block and puts none in:
 * the table of widths, the layout over slots, and what a build is refused for. The one source
 * file of each peer includes it.
 */
#ifndef RULES_H
#define RULES_H

#include "../plain/pierstrand_plain.h"

#define HEADER_BITS 124 /* SCH/H */
#define ROOM_BITS 264   /* the DM-SDU's room in SCH/F */
#define ROOM_FIRST 4
#define FIXED_BITS 47   /* SCH/H without addresses, slot count, elements and DM-SDU */
#define ADDRESS_BITS 24
#define COUNT_BITS 4
#define MOST_BLOCKS 15
#define FIRST_SYSTEM 10 /* system codes 10 to 15 are direct mode's (9.3.29) */
#define FRAMES 18
#define MOST_TAKEN 56   /* bits in one step */

#define ABSENT 2 /* address types (9.3.5, 9.3.27) */
#define RESERVED 3

#define DM_SDS_UDATA 22 /* the message types that carry short data (9.3.19) */
#define DM_SDS_DATA 23
#define DM_SDS_ACK 24

#define NO_ENTRY 255
#define WIDEST 33 /* DM-TX CEASED with both cases */

/* Width of the message dependent elements, and up to two flags with the bits that hang on
   each. A second flag's place is counted without what the first adds. */
struct widths {
	uint8_t width;
	uint8_t flag, adds;
	uint8_t flag2, adds2;
};

static const struct widths widths[32] = {
	{18, 8, 8, 0, 0},        /*  0 DM-RESERVED (9.4.1): requests flag */
	{7, 0, 0, 0, 0},         /*  1 DM-SDS OCCUPIED (9.4.2) */
	{12, 0, 0, 0, 0},        /*  2 DM-TIMING REQUEST (9.4.3) */
	{2, 1, 12, 0, 0},        /*  3 DM-TIMING ACK (9.4.4): timing change announced */
	{NO_ENTRY, 0, 0, 0, 0},  /*  4 reserved */
	{NO_ENTRY, 0, 0, 0, 0},  /*  5 reserved */
	{NO_ENTRY, 0, 0, 0, 0},  /*  6 reserved */
	{NO_ENTRY, 0, 0, 0, 0},  /*  7 reserved */
	{21, 0, 0, 0, 0},        /*  8 DM-SETUP (9.5.1) */
	{21, 0, 0, 0, 0},        /*  9 DM-SETUP PRES (9.5.2) */
	{8, 0, 0, 0, 0},         /* 10 DM-CONNECT (9.5.3) */
	{0, 0, 0, 0, 0},         /* 11 DM-DISCONNECT (9.5.4) */
	{21, 0, 0, 0, 0},        /* 12 DM-CONNECT ACK (9.5.5) */
	{21, 0, 0, 0, 0},        /* 13 DM-OCCUPIED (9.5.6) */
	{0, 0, 0, 0, 0},         /* 14 DM-RELEASE (9.5.7) */
	{13, 7, 8, 10, 12},      /* 15 DM-TX CEASED (9.5.8): requests flag, timing change announced */
	{3, 0, 12, 0, 0},        /* 16 DM-TX REQUEST (9.5.9): timing change required */
	{1, 0, 12, 0, 0},        /* 17 DM-TX ACCEPT (9.5.10): timing change announced */
	{10, 2, 12, 0, 0},       /* 18 DM-PREEMPT (9.5.11): timing change required */
	{6, 0, 12, 0, 0},        /* 19 DM-PRE ACCEPT (9.5.12): timing change announced */
	{0, 0, 0, 0, 0},         /* 20 DM-REJECT (9.5.13) */
	{0, 0, 0, 0, 0},         /* 21 DM-INFO (9.5.14) */
	{8, 0, 0, 0, 0},         /* 22 DM-SDS UDATA (9.5.15) */
	{8, 0, 0, 0, 0},         /* 23 DM-SDS DATA (9.5.16) */
	{1, 0, 0, 0, 0},         /* 24 DM-SDS ACK (9.5.17) */
	{NO_ENTRY, 0, 0, 0, 0},  /* 25 gateways' */
	{NO_ENTRY, 0, 0, 0, 0},  /* 26 reserved */
	{NO_ENTRY, 0, 0, 0, 0},  /* 27 reserved */
	{NO_ENTRY, 0, 0, 0, 0},  /* 28 reserved */
	{NO_ENTRY, 0, 0, 0, 0},  /* 29 reserved */
	{NO_ENTRY, 0, 0, 0, 0},  /* 30 proprietary */
	{NO_ENTRY, 0, 0, 0, 0},  /* 31 proprietary */
};

/* The frame of the first continuation block (8.5.6.2 f). */
static inline unsigned first_due(unsigned x, unsigned f)
{
	unsigned y = (x + f) % FRAMES + 1;

	return y == FRAMES ? 1 : y;
}

/* Frame 18 carries no continuation block. */
static inline unsigned next_due(unsigned frame)
{
	return frame % (FRAMES - 1) + 1;
}

uint8_t dm_layout(uint8_t x, uint8_t f, uint8_t i, uint8_t *frame)
{
	*frame = 0;
	if (x < 1 || x > FRAMES)
		return DM_FRAME;
	if (f > 3)
		return DM_RANGE;
	if (i >= MOST_BLOCKS)
		return DM_BLOCKS;
	*frame = (first_due(x, f) - 1 + i) % (FRAMES - 1) + 1;
	return 0;
}

/* Whether bit `flag` of a run of elements is set; a run too short for it has it not set. */
static inline int element_set(const struct dm_fields *f, unsigned flag)
{
	return flag < f->width && (f->elements >> (f->width - 1 - flag) & 1);
}

/* The stated width is the table's for the run's own flags, and the number fits it. */
static int elements_fit(const struct dm_fields *f)
{
	const struct widths *t = &widths[f->message_type];
	unsigned more = 0;

	if (t->width == NO_ENTRY)
		return 1;
	if (f->width > WIDEST || f->elements >> f->width)
		return 0;
	if (t->adds && element_set(f, t->flag))
		more = t->adds;
	if (t->adds2 && element_set(f, t->flag2 + more))
		more += t->adds2;
	return f->width == t->width + more;
}

static int address_fits(const struct dm_address *a)
{
	return a->type <= 3 && a->ssi < 1u << 24 && (a->type != ABSENT || a->ssi == 0);
}

static inline unsigned address_bits(unsigned type)
{
	return type == ABSENT ? 0 : ADDRESS_BITS;
}

/* How a message is cut: bits in the header, and continuation blocks. */
struct cut {
	unsigned inside;
	unsigned blocks;
};

static uint8_t plan(const struct dm_sync *sync, unsigned countdown, const struct dm_fields *f,
		    uint32_t n, size_t lent, size_t room, struct cut *cut)
{
	unsigned bits;

	if (sync->system < FIRST_SYSTEM || sync->system > 15)
		return DM_SYSTEM;
	if (sync->frame < 1 || sync->frame > FRAMES)
		return DM_FRAME;
	if (sync->usage > 3 || sync->slot > 3 || countdown > 3 || !address_fits(&f->dest) ||
	    !address_fits(&f->source) || f->mni >= 1u << 24 || f->message_type > 31 ||
	    !elements_fit(f) || n / 8 + (n % 8 != 0) > lent)
		return DM_RANGE;
	if (f->dest.type == RESERVED || f->source.type == RESERVED)
		return DM_ADDRESS_TYPE;
	if (widths[f->message_type].width == NO_ENTRY)
		return DM_MESSAGE;

	bits = FIXED_BITS + address_bits(f->dest.type) + address_bits(f->source.type) + f->width;
	cut->inside = n;
	cut->blocks = 0;
	if (n > HEADER_BITS || bits + n > HEADER_BITS) {
		if (bits + COUNT_BITS > HEADER_BITS)
			return DM_MESSAGE;
		cut->inside = HEADER_BITS - COUNT_BITS - bits;
		if (n - cut->inside > MOST_BLOCKS * ROOM_BITS)
			return DM_BLOCKS;
		cut->blocks = (n - cut->inside + ROOM_BITS - 1) / ROOM_BITS;
	}
	if (room < DM_SCH_S + DM_SCH_H + cut->blocks * DM_SCH_F)
		return DM_LENGTH;
	return 0;
}

#endif
