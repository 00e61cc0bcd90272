/*
 * SDS-TL messages in plain C99: pierstrand_plain.c includes this after its way with bits.
 */
#ifndef PLAIN_TRANSPORT_H
#define PLAIN_TRANSPORT_H

#include "../shared/transport.h"

#define GENERATOR UINT32_C(0x04c11db7)

/* The FCS of the first n bits (Annex B), at least one. */
static uint32_t fcs_of(const uint8_t *s, unsigned n)
{
	uint32_t c = n < 32 ? ~(UINT32_MAX >> n) : UINT32_MAX;

	for (; n > 0; s++) {
		unsigned k = n < 8 ? n : 8;

		n -= k;
		c ^= (uint32_t)(*s & 0xff00u >> k) << 24;
		while (k--)
			c = c << 1 ^ (c >> 31 ? GENERATOR : 0);
	}
	return ~c;
}

/* What stands before user defined data 4 or the status, and what tells the kind. `*at` is then
   the first bit of these, `*end` the first bit after them. */
static uint8_t tell(unsigned carrier, const uint8_t *s, unsigned n, struct dm_message *m,
		    unsigned *at, unsigned *end)
{
	unsigned i = 4, length, telling;

	switch (carrier) {
	case DM_SDS_ACK:
		if (n < 4 || s[0] >> 4 != WITH_DATA)
			return DM_NOT_TL;
		break;
	case DM_SDS_UDATA:
	case DM_SDS_DATA:
		if (n < 1)
			return DM_NOT_TL;
		i = 1;
		m->addressed = s[0] >> 7;
		if (!m->addressed)
			break;
		i += 4 + 2 * ADDRESS_BITS;
		if (n < i || get(s, 1, 4) != CALLING_PARTY)
			return DM_NOT_TL;
		m->mni = get(s, 5, ADDRESS_BITS);
		m->ssi = get(s, 5 + ADDRESS_BITS, ADDRESS_BITS);
		break;
	default:
		return DM_NOT_TL;
	}

	if (n < i + 4)
		return DM_NOT_TL;
	switch (get(s, i, 4)) {
	case USER_DEFINED_4:
		i += 4 + LENGTH_BITS;
		if (n < i + TELLING_BITS)
			return DM_NOT_TL;
		length = get(s, i - LENGTH_BITS, LENGTH_BITS);
		telling = get(s, i, TELLING_BITS);
		m->protocol = telling >> 4;
		m->kind = DM_TRANSFER + (telling & 15);
		if (length < TELLING_BITS || m->protocol < FIRST_PROTOCOL ||
		    m->kind > DM_DELIVERY_ACK ||
		    (m->kind == DM_TRANSFER && carrier == DM_SDS_ACK))
			return DM_NOT_TL;
		break;
	case STATUS:
		i += 4;
		if (n < i + 6 || get(s, i, 6) != STATUS_START)
			return DM_NOT_TL;
		m->kind = DM_SHORT_REPORT;
		length = STATUS_BITS;
		break;
	default:
		return DM_NOT_TL;
	}
	*at = i;
	*end = i + length;
	return 0;
}

/* The elements from bit `at` on that are told by the kind alone. */
static void read_fixed(const uint8_t *s, unsigned at, struct dm_message *m)
{
	unsigned flags;

	switch (m->kind) {
	case DM_TRANSFER:
		flags = get(s, at + TELLING_BITS, 4);
		m->request = flags >> 2;
		m->short_form = flags >> 1 & 1;
		m->storage = flags & 1;
		break;
	case DM_DELIVERY_REPORT:
		flags = get(s, at + TELLING_BITS, 4);
		m->required = flags >> 3;
		m->storage = flags & 1;
		/* fall through */
	case DM_DELIVERY_ACK:
		m->status = get(s, at + 16, 8);
		break;
	default:
		m->status = get(s, at + 6, 2);
	}
	m->reference = get(s, at + fixed_bits[m->kind] - 8, 8);
}

static uint8_t read_sdu(unsigned carrier, unsigned flag, const uint8_t *s, unsigned n,
			struct dm_transport *t)
{
	struct dm_message *m = &t->message;
	unsigned at, end, there;
	uint8_t fault = tell(carrier, s, n, m, &at, &end);

	if (fault)
		return fault;
	there = n < end ? n : end;
	if (there >= at + fixed_bits[m->kind])
		read_fixed(s, at, m);
	at += fixed_bits[m->kind];
	if (m->storage) {
		at += STORED_BITS;
		if (there >= at) {
			int width;

			m->validity = get(s, at - STORED_BITS, 5);
			m->forward = get(s, at - 3, 3);
			width = forward_bits(m->forward);
			if (width < 0)
				return DM_NOT_TL;
			at += width;
			if (there >= at && width)
				m->address = get(s, at - ADDRESS_BITS, ADDRESS_BITS);
			if (there >= at && width > ADDRESS_BITS)
				m->address |= (uint64_t)get(s, at - width, ADDRESS_BITS)
					      << ADDRESS_BITS;
		}
	}
	if (flag && n >= end + FCS_BITS) {
		uint32_t fcs = get(s, end, 16) << 16 | get(s, end + 16, 16);

		if (fcs != fcs_of(s, end))
			return DM_NOT_TL;
	}
	if (there < at || n < end + FCS_BITS * flag)
		return DM_TOO_SHORT;
	if (has_user_data(m)) {
		t->first = at;
		t->bits = end - at;
	}
	return 0;
}

uint8_t dm_read_transport(const struct dm_fields *fields, uint32_t n, const uint8_t *sdu,
			  size_t length, struct dm_transport *t)
{
	uint8_t fault = DM_RANGE;

	memset(t, 0, sizeof *t);
	if (n / 8 + (n % 8 != 0) <= length)
		fault = read_sdu(fields->message_type, fields->elements & 1, sdu, n, t);
	if (fault)
		memset(t, 0, sizeof *t);
	return fault;
}

/* What stands before user defined data 4 or the status; the bit after it. */
static unsigned put_front(uint8_t *s, unsigned carrier, const struct dm_message *m,
			  unsigned length)
{
	unsigned at = 1;

	if (carrier == DM_SDS_ACK) {
		put(s, 0, 4, WITH_DATA);
		at = 4;
	} else if (m->addressed) {
		put(s, 0, 5, 1 << 4 | CALLING_PARTY);
		put(s, 5, ADDRESS_BITS, m->mni);
		put(s, 5 + ADDRESS_BITS, ADDRESS_BITS, m->ssi);
		at = 5 + 2 * ADDRESS_BITS;
	}
	if (m->kind == DM_SHORT_REPORT) {
		put(s, at, 4, STATUS);
		return at + 4;
	}
	put(s, at, 4 + LENGTH_BITS, USER_DEFINED_4 << LENGTH_BITS | length);
	return at + 4 + LENGTH_BITS;
}

/* The elements up to the user data; the bit after them. */
static unsigned put_message(uint8_t *s, unsigned at, const struct dm_message *m)
{
	unsigned telling = m->protocol << 4 | (m->kind - DM_TRANSFER);

	switch (m->kind) {
	case DM_TRANSFER:
		put(s, at, 16, telling << 4 | m->request << 2 | m->short_form << 1 | m->storage);
		break;
	case DM_DELIVERY_REPORT:
		put(s, at, 16, telling << 4 | m->required << 3 | m->storage);
		put(s, at + 16, 8, m->status);
		break;
	case DM_DELIVERY_ACK:
		put(s, at, 16, telling << 4);
		put(s, at + 16, 8, m->status);
		break;
	default:
		put(s, at, 8, STATUS_START << 2 | m->status);
	}
	at += fixed_bits[m->kind];
	put(s, at - 8, 8, m->reference);
	if (stored(m)) {
		put(s, at, STORED_BITS, m->validity << 3 | m->forward);
		at += STORED_BITS + forward_bits(m->forward);
		put(s, at - ADDRESS_BITS, ADDRESS_BITS, m->address & 0xffffff);
		put(s, at - 2 * ADDRESS_BITS, ADDRESS_BITS, m->address >> ADDRESS_BITS);
	}
	return at;
}

uint8_t dm_build_transport(uint8_t carrier, uint8_t fcs, const struct dm_message *m, uint32_t n,
			   const uint8_t *user, size_t lent, uint8_t *out, size_t room,
			   uint16_t *bits)
{
	struct sizes sizes;
	uint8_t fault = plan_sdu(carrier, fcs, m, n, lent, room, &sizes);
	unsigned at;

	*bits = 0;
	if (fault)
		return fault;
	*bits = sizes.all;
	memset(out, 0, (sizes.all + 7) / 8);
	at = put_front(out, carrier, m, sizes.data);
	at = put_message(out, at, m);
	join(out, at, user, 0, n);
	at += n;
	if (fcs) {
		uint32_t c = fcs_of(out, at);

		put(out, at, 16, c >> 16);
		put(out, at + 16, 16, c & 0xffff);
	}
	return 0;
}

#endif
