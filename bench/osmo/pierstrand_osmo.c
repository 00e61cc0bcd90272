/*
 * The same calls over libosmocore's bit vectors, as open TETRA software has them: a vector
 * over a block's packed bytes, and a cursor that takes one field after another.
 */
#include "../plain/pierstrand_plain.h"
#include "../shared/rules.h"

#include <osmocom/core/bitvec.h>
#include <string.h>

static struct bitvec over(const uint8_t *bytes, unsigned length)
{
	struct bitvec bv = {.cur_bit = 0, .data_len = length, .data = (uint8_t *)bytes};

	return bv;
}

static void skip(struct bitvec *bv, unsigned bits)
{
	bv->cur_bit += bits;
}

/* Moves n bits from one cursor to the other: whole bytes at once, then the rest. */
static void move(struct bitvec *dst, struct bitvec *src, unsigned n)
{
	uint8_t bytes[DM_SCH_F];

	while (n >= 8) {
		unsigned count = n / 8 < sizeof bytes ? n / 8 : sizeof bytes;

		bitvec_get_bytes(src, bytes, count);
		bitvec_set_bytes(dst, bytes, count);
		n -= 8 * count;
	}
	if (n)
		bitvec_set_uint(dst, bitvec_get_uint(src, n), n);
}

/* Joins n bits of src, from bit `from` on, to dst at bit `to`. */
static void join(uint8_t *dst, unsigned to, const uint8_t *src, unsigned from, unsigned n)
{
	struct bitvec d = over(dst, (to + n + 7) / 8);
	struct bitvec s = over(src, (from + n + 7) / 8);

	skip(&d, to);
	skip(&s, from);
	move(&d, &s, n);
}

/* The message bits from the cursor up to bit `to`, without fill (8.5.5.2); -1 if fill is told
   of and there is no 1. */
static int sdu_bits(const struct bitvec *bv, unsigned to, int fill)
{
	unsigned at = to;

	if (!fill)
		return to - bv->cur_bit;
	while (at > bv->cur_bit)
		if (bitvec_get_bit_pos(bv, --at) == ONE)
			return at - bv->cur_bit;
	return -1;
}

static int pad_set(const uint8_t *bytes, unsigned length)
{
	struct bitvec bv = over(bytes, length);

	skip(&bv, 8 * length - 4);
	return bitvec_get_uint(&bv, 4) != 0;
}

/* SCH/S (table 21). */
static uint8_t read_sync(const uint8_t *s, const uint8_t *h, struct dm_sync *sync)
{
	struct bitvec bv = over(s, DM_SCH_S);

	if (pad_set(s, DM_SCH_S) || pad_set(h, DM_SCH_H))
		return DM_PAD;
	sync->system = bitvec_get_uint(&bv, 4);
	if (sync->system < FIRST_SYSTEM)
		return DM_SYSTEM;
	if (bitvec_get_uint(&bv, 2) != 0)
		return DM_SYNC_TYPE;
	if (bitvec_get_uint(&bv, 2) != 0)
		return DM_COMMUNICATION;
	skip(&bv, 2);
	sync->usage = bitvec_get_uint(&bv, 2);
	sync->slot = bitvec_get_uint(&bv, 2);
	sync->frame = bitvec_get_uint(&bv, 5);
	if (bitvec_get_uint(&bv, 2) != 0)
		return DM_ENCRYPTION;
	if (sync->frame < 1 || sync->frame > FRAMES)
		return DM_FRAME;
	return 0;
}

static void get_address(struct bitvec *bv, struct dm_address *a)
{
	a->type = bitvec_get_uint(bv, 2);
	a->ssi = a->type == ABSENT ? 0 : bitvec_get_uint(bv, ADDRESS_BITS);
}

/* The width of the elements at the cursor, by the table and their flags. */
static unsigned width_at(const struct widths *t, const struct bitvec *bv)
{
	unsigned more = 0;

	if (t->adds && bitvec_get_bit_pos(bv, bv->cur_bit + t->flag) == ONE)
		more = t->adds;
	if (t->adds2 && bitvec_get_bit_pos(bv, bv->cur_bit + t->flag2 + more) == ONE)
		more += t->adds2;
	return t->width + more;
}

/* SCH/H (table 22). */
static uint8_t read_sch_h(const uint8_t *h, struct dm_header *header)
{
	struct bitvec bv = over(h, DM_SCH_H);
	struct dm_fields *f = &header->fields;
	const struct widths *t;
	unsigned at;
	int fill, bits;

	skip(&bv, 10);
	fill = bitvec_get_uint(&bv, 1);
	header->fragmented = bitvec_get_uint(&bv, 1);
	header->count = 0;
	if (header->fragmented) {
		header->count = bitvec_get_uint(&bv, COUNT_BITS);
		if (header->count == 0)
			return DM_COUNT;
	}
	header->countdown = bitvec_get_uint(&bv, 2);
	get_address(&bv, &f->dest);
	if (f->dest.type == RESERVED)
		return DM_ADDRESS_TYPE;
	get_address(&bv, &f->source);
	if (f->source.type == RESERVED)
		return DM_ADDRESS_TYPE;
	f->mni = bitvec_get_uint(&bv, 24);
	f->message_type = bitvec_get_uint(&bv, 5);

	t = &widths[f->message_type];
	if (t->width == NO_ENTRY)
		return DM_MESSAGE;
	f->width = width_at(t, &bv);
	if (bv.cur_bit + f->width > HEADER_BITS)
		return DM_MESSAGE;
	at = bv.cur_bit;
	f->elements = bitvec_read_field(&bv, &at, f->width);

	bits = sdu_bits(&bv, HEADER_BITS, fill);
	if (bits < 0)
		return DM_FILL;
	header->first = bv.cur_bit;
	header->bits = bits;
	return 0;
}

static uint8_t read_header(const uint8_t *s, const uint8_t *h, unsigned frame, unsigned slot,
			   struct dm_header *header)
{
	uint8_t fault = read_sync(s, h, &header->sync);

	if (fault)
		return fault;
	if (header->sync.frame != frame || header->sync.slot + 1u != slot)
		return DM_PLACE;
	return read_sch_h(h, header);
}

uint8_t dm_read_header(const uint8_t *sch_s, size_t s_length, const uint8_t *sch_h,
		       size_t h_length, struct dm_header *header)
{
	uint8_t fault = DM_LENGTH;

	if (s_length == DM_SCH_S && h_length == DM_SCH_H)
		fault = read_sync(sch_s, sch_h, &header->sync);
	if (!fault)
		fault = read_sch_h(sch_h, header);
	if (fault)
		memset(header, 0, sizeof *header);
	return fault;
}

/* SCH/F (tables 24 and 25). */
static uint8_t read_block(const uint8_t *f, struct dm_block *block)
{
	struct bitvec bv = over(f, DM_SCH_F);
	int fill, bits;

	if (pad_set(f, DM_SCH_F))
		return DM_PAD;
	if (bitvec_get_uint(&bv, 2) != 1)
		return DM_PDU_TYPE;
	block->last = bitvec_get_uint(&bv, 1);
	fill = bitvec_get_uint(&bv, 1);
	block->first = bv.cur_bit;
	bits = sdu_bits(&bv, ROOM_FIRST + ROOM_BITS, fill);
	if (bits < 0)
		return DM_FILL;
	block->bits = bits;
	return 0;
}

uint8_t dm_read_continuation(const uint8_t *sch_f, size_t length, struct dm_block *block)
{
	uint8_t fault = length == DM_SCH_F ? read_block(sch_f, block) : DM_LENGTH;

	if (fault)
		memset(block, 0, sizeof *block);
	return fault;
}

static void set_address(struct bitvec *bv, const struct dm_address *a)
{
	bitvec_set_uint(bv, a->type, 2);
	if (a->type != ABSENT)
		bitvec_set_uint(bv, a->ssi, ADDRESS_BITS);
}

/* Moves n message bits into the room up to bit `to` and fills what is left (8.5.5.1). */
static void set_room(struct bitvec *bv, struct bitvec *message, unsigned n, unsigned to)
{
	move(bv, message, n);
	if (bv->cur_bit < to)
		bitvec_set_bit(bv, ONE);
}

static void set_sync(uint8_t *s, const struct dm_sync *sync)
{
	struct bitvec bv = over(s, DM_SCH_S);

	bitvec_zero(&bv);
	bitvec_set_uint(&bv, sync->system, 4);
	skip(&bv, 2 + 2 + 2);
	bitvec_set_uint(&bv, sync->usage, 2);
	bitvec_set_uint(&bv, sync->slot, 2);
	bitvec_set_uint(&bv, sync->frame, 5);
}

static void set_header(uint8_t *h, const struct cut *cut, unsigned countdown,
		       const struct dm_fields *f, struct bitvec *message)
{
	struct bitvec bv = over(h, DM_SCH_H);
	unsigned bits = FIXED_BITS + address_bits(f->dest.type) + address_bits(f->source.type) +
			f->width + cut->inside + (cut->blocks ? COUNT_BITS : 0);

	bitvec_zero(&bv);
	skip(&bv, 10);
	bitvec_set_uint(&bv, bits < HEADER_BITS, 1);
	bitvec_set_uint(&bv, cut->blocks > 0, 1);
	if (cut->blocks)
		bitvec_set_uint(&bv, cut->blocks, COUNT_BITS);
	bitvec_set_uint(&bv, countdown, 2);
	set_address(&bv, &f->dest);
	set_address(&bv, &f->source);
	bitvec_set_uint(&bv, f->mni, 24);
	bitvec_set_uint(&bv, f->message_type, 5);
	bitvec_set_u64(&bv, f->elements, f->width, false);
	set_room(&bv, message, cut->inside, HEADER_BITS);
}

static void set_block(uint8_t *f, unsigned last, struct bitvec *message, unsigned n)
{
	struct bitvec bv = over(f, DM_SCH_F);

	bitvec_zero(&bv);
	bitvec_set_uint(&bv, 1, 2);
	bitvec_set_uint(&bv, last, 1);
	bitvec_set_uint(&bv, n < ROOM_BITS, 1);
	set_room(&bv, message, n, ROOM_FIRST + ROOM_BITS);
}

uint8_t dm_build(const struct dm_sync *sync, uint8_t countdown, const struct dm_fields *fields,
		 uint32_t n, const uint8_t *message, size_t lent, uint8_t *out, size_t room,
		 uint8_t *blocks)
{
	struct bitvec bv = over(message, lent);
	struct cut cut;
	uint8_t fault;

	*blocks = 0;
	fault = plan(sync, countdown, fields, n, lent, room, &cut);
	if (fault)
		return fault;
	*blocks = cut.blocks;
	set_sync(out, sync);
	out += DM_SCH_S;
	set_header(out, &cut, countdown, fields, &bv);
	out += DM_SCH_H;
	for (unsigned i = 1; i <= cut.blocks; i++, out += DM_SCH_F) {
		unsigned left = n - bv.cur_bit;

		set_block(out, i == cut.blocks, &bv, left < ROOM_BITS ? left : ROOM_BITS);
	}
	return 0;
}

/* The countdown stands at bit 12, or after the slot count at bit 16. */
static void clear_countdown(uint8_t *h, int fragmented)
{
	struct bitvec bv = over(h, DM_SCH_H);

	skip(&bv, fragmented ? 16 : 12);
	bitvec_set_uint(&bv, 0, 2);
}

uint8_t dm_take(const uint8_t *lent, size_t length, size_t at, size_t n, struct dm_step *step)
{
	struct bitvec bv = over(lent, length);
	unsigned high = n > 32 ? n - 32 : 0;

	step->value = 0;
	step->at = at;
	if (n > MOST_TAKEN)
		return DM_RANGE;
	if (dm_left(lent, length, at) < n)
		return DM_LENGTH;
	skip(&bv, at);
	if (high)
		step->value = (uint64_t)bitvec_get_uint(&bv, high) << 32;
	step->value |= (uint32_t)bitvec_get_uint(&bv, n - high);
	step->at = at + n;
	return 0;
}

#include "../shared/receiver.h"
#include "../shared/steps.h"
#include "transport.h"
