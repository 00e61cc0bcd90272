/*
 * Direct mode blocks in plain C99: fields by shifts over bytes, no allocation.
 */
#include "pierstrand_plain.h"
#include "../shared/rules.h"

#include <string.h>

/* The w bits, 1 to 25, from bit `at` on. */
static uint32_t get(const uint8_t *s, unsigned at, unsigned w)
{
	unsigned last = at + w - 1;
	uint32_t v = 0;

	for (unsigned i = at / 8; i <= last / 8; i++)
		v = v << 8 | s[i];
	return v >> (7 - last % 8) & ((UINT32_C(1) << w) - 1);
}

/* Puts v, of w bits, 1 to 25, at bit `at`, where zeros are. */
static void put(uint8_t *s, unsigned at, unsigned w, uint32_t v)
{
	unsigned last = at + w - 1;

	v <<= 7 - last % 8;
	for (uint8_t *p = s + last / 8; v; v >>= 8)
		*p-- |= v;
}

/* Joins n bits of src, from bit `from` on, to dst at bit `to`. dst is zero from there on. */
static void join(uint8_t *dst, unsigned to, const uint8_t *src, unsigned from, unsigned n)
{
	const uint8_t *end = src + (from + n + 7) / 8;
	unsigned shift = (to - from) % 8;
	unsigned left = to % 8 + n; /* counted from the first bit of *dst */
	uint32_t v;

	if (n == 0)
		return;
	src += from / 8;
	dst += to / 8;
	v = *src++ & 0xffu >> from % 8;
	if (from % 8 > to % 8)
		v = v << 8 | (src < end ? *src++ : 0u);
	for (; left > 8; left -= 8) {
		*dst++ |= v >> shift;
		v = v << 8 | (src < end ? *src++ : 0u);
	}
	*dst |= v >> shift & 0xff00u >> left;
}

/* The message bits of a room from bit `from` up to bit `to`: without fill all of them, with
   fill those before its last 1 (8.5.5.2); negative if it has none. The bits after `to` are 0. */
static int sdu_bits(const uint8_t *s, unsigned from, unsigned to, int fill)
{
	unsigned i = (to - 1) / 8;

	if (!fill)
		return to - from;
	while (i > from / 8 && s[i] == 0)
		i--;
	if (s[i] == 0)
		return -1;
	return (int)(8 * i) + 7 - __builtin_ctz(s[i]) - (int)from;
}

/* The width of the elements at bit `at`, by the table and their flags. */
static unsigned width_at(const struct widths *t, const uint8_t *s, unsigned at)
{
	unsigned more = 0;

	if (t->adds && get(s, at + t->flag, 1))
		more = t->adds;
	if (t->adds2 && get(s, at + t->flag2 + more, 1))
		more += t->adds2;
	return t->width + more;
}

static uint8_t read_sync(const uint8_t *s, const uint8_t *h, struct dm_sync *sync)
{
	if ((s[7] | h[15]) & 0x0f)
		return DM_PAD;
	sync->system = s[0] >> 4;
	if (sync->system < FIRST_SYSTEM)
		return DM_SYSTEM;
	if (s[0] & 0x0c)
		return DM_SYNC_TYPE;
	if (s[0] & 0x03)
		return DM_COMMUNICATION;
	if (s[2] & 0x18)
		return DM_ENCRYPTION;
	sync->usage = s[1] >> 4 & 3;
	sync->slot = s[1] >> 2 & 3;
	sync->frame = (s[1] & 3) << 3 | s[2] >> 5;
	if (sync->frame < 1 || sync->frame > FRAMES)
		return DM_FRAME;
	return 0;
}

/* An address and its type at bit `at`; the bit after them. */
static unsigned read_address(const uint8_t *h, unsigned at, struct dm_address *a)
{
	a->type = get(h, at, 2);
	a->ssi = 0;
	at += 2;
	if (a->type == ABSENT)
		return at;
	a->ssi = get(h, at, ADDRESS_BITS);
	return at + ADDRESS_BITS;
}

/* SCH/H (table 22) after its ten reserved bits. */
static uint8_t read_sch_h(const uint8_t *h, struct dm_header *header)
{
	struct dm_fields *f = &header->fields;
	const struct widths *t;
	unsigned at = 12;
	int bits;

	header->fragmented = h[1] >> 4 & 1;
	header->count = 0;
	if (header->fragmented) {
		header->count = h[1] & 15;
		if (header->count == 0)
			return DM_COUNT;
		at += COUNT_BITS;
	}
	header->countdown = get(h, at, 2);
	at = read_address(h, at + 2, &f->dest);
	if (f->dest.type == RESERVED)
		return DM_ADDRESS_TYPE;
	at = read_address(h, at, &f->source);
	if (f->source.type == RESERVED)
		return DM_ADDRESS_TYPE;
	f->mni = get(h, at, 24);
	f->message_type = get(h, at + 24, 5);
	at += 24 + 5;

	t = &widths[f->message_type];
	if (t->width == NO_ENTRY)
		return DM_MESSAGE;
	f->width = width_at(t, h, at);
	if (at + f->width > HEADER_BITS)
		return DM_MESSAGE;
	f->elements = 0;
	if (f->width > 24) {
		f->elements = (uint64_t)get(h, at, f->width - 24) << 24;
		f->elements |= get(h, at + f->width - 24, 24);
	} else if (f->width) {
		f->elements = get(h, at, f->width);
	}
	at += f->width;

	bits = sdu_bits(h, at, HEADER_BITS, h[1] & 0x20);
	if (bits < 0)
		return DM_FILL;
	header->first = at;
	header->bits = bits;
	return 0;
}

static uint8_t read_header(const uint8_t *s, const uint8_t *h, unsigned frame, unsigned slot,
			   struct dm_header *header)
{
	uint8_t fault = read_sync(s, h, &header->sync);

	if (fault)
		return fault;
	if (header->sync.frame != frame || header->sync.slot + 1u != slot)
		return DM_PLACE;
	return read_sch_h(h, header);
}

uint8_t dm_read_header(const uint8_t *sch_s, size_t s_length, const uint8_t *sch_h,
		       size_t h_length, struct dm_header *header)
{
	uint8_t fault = DM_LENGTH;

	if (s_length == DM_SCH_S && h_length == DM_SCH_H)
		fault = read_sync(sch_s, sch_h, &header->sync);
	if (!fault)
		fault = read_sch_h(sch_h, header);
	if (fault)
		memset(header, 0, sizeof *header);
	return fault;
}

/* SCH/F (tables 24 and 25): PDU type 01, subtype, fill indication. */
static uint8_t read_block(const uint8_t *f, struct dm_block *block)
{
	int bits;

	if (f[33] & 0x0f)
		return DM_PAD;
	if (f[0] >> 6 != 1)
		return DM_PDU_TYPE;
	bits = sdu_bits(f, ROOM_FIRST, ROOM_FIRST + ROOM_BITS, f[0] & 0x10);
	if (bits < 0)
		return DM_FILL;
	block->last = f[0] >> 5 & 1;
	block->first = ROOM_FIRST;
	block->bits = bits;
	return 0;
}

uint8_t dm_read_continuation(const uint8_t *sch_f, size_t length, struct dm_block *block)
{
	uint8_t fault = length == DM_SCH_F ? read_block(sch_f, block) : DM_LENGTH;

	if (fault)
		memset(block, 0, sizeof *block);
	return fault;
}

static unsigned put_address(uint8_t *h, unsigned at, const struct dm_address *a)
{
	put(h, at, 2, a->type);
	at += 2;
	if (a->type == ABSENT)
		return at;
	put(h, at, ADDRESS_BITS, a->ssi);
	return at + ADDRESS_BITS;
}

/* SCH/H up to the DM-SDU, but for the fill indication; the DM-SDU's first bit. */
static unsigned put_sch_h(uint8_t *h, unsigned count, unsigned countdown,
			  const struct dm_fields *f)
{
	unsigned at = 12;

	if (count) {
		h[1] = 0x10 | count;
		at += COUNT_BITS;
	}
	put(h, at, 2, countdown);
	at = put_address(h, at + 2, &f->dest);
	at = put_address(h, at, &f->source);
	put(h, at, 24, f->mni);
	put(h, at + 24, 5, f->message_type);
	at += 24 + 5;
	if (f->width > 24) {
		put(h, at, f->width - 24, f->elements >> 24);
		put(h, at + f->width - 24, 24, f->elements & 0xffffff);
	} else if (f->width) {
		put(h, at, f->width, f->elements);
	}
	return at + f->width;
}

uint8_t dm_build(const struct dm_sync *sync, uint8_t countdown, const struct dm_fields *fields,
		 uint32_t n, const uint8_t *message, size_t lent, uint8_t *out, size_t room,
		 uint8_t *blocks)
{
	uint8_t fault, *h, *f;
	struct cut cut;
	unsigned at, sent;

	*blocks = 0;
	fault = plan(sync, countdown, fields, n, lent, room, &cut);
	if (fault)
		return fault;
	*blocks = cut.blocks;
	h = out + DM_SCH_S;
	f = h + DM_SCH_H;
	memset(out, 0, DM_SCH_S + DM_SCH_H + cut.blocks * DM_SCH_F);

	out[0] = sync->system << 4;
	out[1] = sync->usage << 4 | sync->slot << 2 | sync->frame >> 3;
	out[2] = sync->frame << 5;

	at = put_sch_h(h, cut.blocks, countdown, fields);
	join(h, at, message, 0, cut.inside);
	at += cut.inside;
	if (at < HEADER_BITS) {
		h[1] |= 0x20;
		h[at / 8] |= 0x80 >> at % 8;
	}

	for (sent = cut.inside; n - sent > ROOM_BITS; sent += ROOM_BITS, f += DM_SCH_F) {
		f[0] = 0x40;
		join(f, ROOM_FIRST, message, sent, ROOM_BITS);
	}
	if (cut.blocks) {
		f[0] = 0x60;
		join(f, ROOM_FIRST, message, sent, n - sent);
		at = ROOM_FIRST + n - sent;
		if (at < ROOM_FIRST + ROOM_BITS) {
			f[0] |= 0x10;
			f[at / 8] |= 0x80 >> at % 8;
		}
	}
	return 0;
}

/* The countdown stands at bit 12, or after the slot count at bit 16. */
static void clear_countdown(uint8_t *h, int fragmented)
{
	if (fragmented)
		h[2] &= 0x3f;
	else
		h[1] &= 0xf3;
}

uint8_t dm_take(const uint8_t *lent, size_t length, size_t at, size_t n, struct dm_step *step)
{
	size_t last = at + n - 1;
	uint64_t v = 0;

	step->value = 0;
	step->at = at;
	if (n > MOST_TAKEN)
		return DM_RANGE;
	if (dm_left(lent, length, at) < n)
		return DM_LENGTH;
	if (n == 0)
		return 0;
	for (size_t i = at / 8; i <= last / 8; i++)
		v = v << 8 | lent[i];
	step->value = v >> (7 - last % 8) & ((UINT64_C(1) << n) - 1);
	step->at = at + n;
	return 0;
}

#include "../shared/receiver.h"
#include "../shared/steps.h"
#include "transport.h"
