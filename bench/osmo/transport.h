/*
 * SDS-TL messages over libosmocore's bit vectors: pierstrand_osmo.c includes this after its way
 * with bits. libosmocore's CRC takes one bit to a byte. Its osmo_crc32gen masks the register to
 * nothing where it has all 32 bits, so the 64-bit one is used.
 */
#ifndef OSMO_TRANSPORT_H
#define OSMO_TRANSPORT_H

#include "../shared/transport.h"

#include <osmocom/core/bits.h>
#include <osmocom/core/crc64gen.h>

/* Bits before the FCS: addressing, short data type, length indicator, user defined data 4. */
#define MOST_BITS (1 + 4 + 2 * ADDRESS_BITS + 4 + LENGTH_BITS + MOST_DATA)

/* The FCS of the first n bits (Annex B), at least one. */
static uint32_t fcs_of(const uint8_t *s, unsigned n)
{
	const struct osmo_crc64gen_code code = {
		.bits = FCS_BITS,
		.poly = 0x04c11db7,
		.init = n < 32 ? ~(UINT32_MAX >> n) : UINT32_MAX,
		.remainder = UINT32_MAX,
	};
	ubit_t bits[MOST_BITS];

	osmo_pbit2ubit(bits, s, n);
	return osmo_crc64gen_compute_bits(&code, bits, n);
}

/* What stands before user defined data 4 or the status, and what tells the kind. The cursor is
   then after this, and `*start` and `*end` are the data's. */
static uint8_t tell(unsigned carrier, struct bitvec *bv, unsigned n, struct dm_message *m,
		    unsigned *start, unsigned *end)
{
	unsigned length;

	switch (carrier) {
	case DM_SDS_ACK:
		if (n < 4 || bitvec_get_uint(bv, 4) != WITH_DATA)
			return DM_NOT_TL;
		break;
	case DM_SDS_UDATA:
	case DM_SDS_DATA:
		if (n < 1)
			return DM_NOT_TL;
		m->addressed = bitvec_get_uint(bv, 1);
		if (!m->addressed)
			break;
		if (n < bv->cur_bit + 4 + 2 * ADDRESS_BITS ||
		    bitvec_get_uint(bv, 4) != CALLING_PARTY)
			return DM_NOT_TL;
		m->mni = bitvec_get_uint(bv, ADDRESS_BITS);
		m->ssi = bitvec_get_uint(bv, ADDRESS_BITS);
		break;
	default:
		return DM_NOT_TL;
	}

	if (n < bv->cur_bit + 4)
		return DM_NOT_TL;
	switch (bitvec_get_uint(bv, 4)) {
	case USER_DEFINED_4:
		if (n < bv->cur_bit + LENGTH_BITS + TELLING_BITS)
			return DM_NOT_TL;
		length = bitvec_get_uint(bv, LENGTH_BITS);
		*start = bv->cur_bit;
		m->protocol = bitvec_get_uint(bv, 8);
		m->kind = DM_TRANSFER + bitvec_get_uint(bv, 4);
		if (length < TELLING_BITS || m->protocol < FIRST_PROTOCOL ||
		    m->kind > DM_DELIVERY_ACK ||
		    (m->kind == DM_TRANSFER && carrier == DM_SDS_ACK))
			return DM_NOT_TL;
		break;
	case STATUS:
		*start = bv->cur_bit;
		if (n < bv->cur_bit + 6 || bitvec_get_uint(bv, 6) != STATUS_START)
			return DM_NOT_TL;
		m->kind = DM_SHORT_REPORT;
		length = STATUS_BITS;
		break;
	default:
		return DM_NOT_TL;
	}
	*end = *start + length;
	return 0;
}

/* The elements after those that tell, up to the message reference. */
static void get_fixed(struct bitvec *bv, struct dm_message *m)
{
	switch (m->kind) {
	case DM_TRANSFER:
		m->request = bitvec_get_uint(bv, 2);
		m->short_form = bitvec_get_uint(bv, 1);
		m->storage = bitvec_get_uint(bv, 1);
		break;
	case DM_DELIVERY_REPORT:
		m->required = bitvec_get_uint(bv, 1);
		skip(bv, 2);
		m->storage = bitvec_get_uint(bv, 1);
		m->status = bitvec_get_uint(bv, 8);
		break;
	case DM_DELIVERY_ACK:
		skip(bv, 4);
		m->status = bitvec_get_uint(bv, 8);
		break;
	default:
		m->status = bitvec_get_uint(bv, 2);
	}
	m->reference = bitvec_get_uint(bv, 8);
}

static uint8_t read_sdu(unsigned carrier, unsigned flag, const uint8_t *s, unsigned n,
			struct dm_transport *t)
{
	struct bitvec bv = over(s, (n + 7) / 8);
	struct dm_message *m = &t->message;
	unsigned start, end, there, at;
	uint8_t fault = tell(carrier, &bv, n, m, &start, &end);

	if (fault)
		return fault;
	there = n < end ? n : end;
	at = start + fixed_bits[m->kind];
	if (there >= at)
		get_fixed(&bv, m);
	if (m->storage) {
		at += STORED_BITS;
		if (there >= at) {
			int width;

			m->validity = bitvec_get_uint(&bv, 5);
			m->forward = bitvec_get_uint(&bv, 3);
			width = forward_bits(m->forward);
			if (width < 0)
				return DM_NOT_TL;
			if (there >= at + width) {
				unsigned from = at;

				m->address = bitvec_read_field(&bv, &from, width);
			}
			at += width;
		}
	}
	if (flag && n >= end + FCS_BITS) {
		unsigned from = end;

		if (bitvec_read_field(&bv, &from, FCS_BITS) != fcs_of(s, end))
			return DM_NOT_TL;
	}
	if (there < at || n < end + FCS_BITS * flag)
		return DM_TOO_SHORT;
	if (has_user_data(m)) {
		t->first = at;
		t->bits = end - at;
	}
	return 0;
}

uint8_t dm_read_transport(const struct dm_fields *fields, uint32_t n, const uint8_t *sdu,
			  size_t length, struct dm_transport *t)
{
	uint8_t fault = DM_RANGE;

	memset(t, 0, sizeof *t);
	if (n / 8 + (n % 8 != 0) <= length)
		fault = read_sdu(fields->message_type, fields->elements & 1, sdu, n, t);
	if (fault)
		memset(t, 0, sizeof *t);
	return fault;
}

static void set_front(struct bitvec *bv, unsigned carrier, const struct dm_message *m,
		      unsigned length)
{
	if (carrier == DM_SDS_ACK)
		bitvec_set_uint(bv, WITH_DATA, 4);
	else
		bitvec_set_uint(bv, m->addressed, 1);
	if (m->addressed) {
		bitvec_set_uint(bv, CALLING_PARTY, 4);
		bitvec_set_uint(bv, m->mni, ADDRESS_BITS);
		bitvec_set_uint(bv, m->ssi, ADDRESS_BITS);
	}
	if (m->kind == DM_SHORT_REPORT) {
		bitvec_set_uint(bv, STATUS, 4);
		return;
	}
	bitvec_set_uint(bv, USER_DEFINED_4, 4);
	bitvec_set_uint(bv, length, LENGTH_BITS);
}

static void set_message(struct bitvec *bv, const struct dm_message *m)
{
	if (m->kind == DM_SHORT_REPORT) {
		bitvec_set_uint(bv, STATUS_START, 6);
		bitvec_set_uint(bv, m->status, 2);
		bitvec_set_uint(bv, m->reference, 8);
		return;
	}
	bitvec_set_uint(bv, m->protocol, 8);
	bitvec_set_uint(bv, m->kind - DM_TRANSFER, 4);
	switch (m->kind) {
	case DM_TRANSFER:
		bitvec_set_uint(bv, m->request, 2);
		bitvec_set_uint(bv, m->short_form, 1);
		bitvec_set_uint(bv, m->storage, 1);
		break;
	case DM_DELIVERY_REPORT:
		bitvec_set_uint(bv, m->required, 1);
		bitvec_set_uint(bv, 0, 2);
		bitvec_set_uint(bv, m->storage, 1);
		bitvec_set_uint(bv, m->status, 8);
		break;
	default:
		bitvec_set_uint(bv, 0, 4);
		bitvec_set_uint(bv, m->status, 8);
	}
	bitvec_set_uint(bv, m->reference, 8);
	if (stored(m)) {
		bitvec_set_uint(bv, m->validity, 5);
		bitvec_set_uint(bv, m->forward, 3);
		bitvec_set_u64(bv, m->address, forward_bits(m->forward), false);
	}
}

uint8_t dm_build_transport(uint8_t carrier, uint8_t fcs, const struct dm_message *m, uint32_t n,
			   const uint8_t *user, size_t lent, uint8_t *out, size_t room,
			   uint16_t *bits)
{
	struct bitvec src = over(user, lent), bv;
	struct sizes sizes;
	uint8_t fault = plan_sdu(carrier, fcs, m, n, lent, room, &sizes);

	*bits = 0;
	if (fault)
		return fault;
	*bits = sizes.all;
	bv = over(out, (sizes.all + 7) / 8);
	bitvec_zero(&bv);
	set_front(&bv, carrier, m, sizes.data);
	set_message(&bv, m);
	move(&bv, &src, n);
	if (fcs)
		bitvec_set_u64(&bv, fcs_of(out, bv.cur_bit), FCS_BITS, false);
	return 0;
}

#endif
