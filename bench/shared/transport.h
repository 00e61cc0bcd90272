/*
 * What both peers know of SDS-TL that takes no bit out of a DM-SDU and puts none in: the widths,
 * what a build is refused for, and the index of what was booked. The one source file of each peer
 * includes it.
 */
#ifndef TRANSPORT_H
#define TRANSPORT_H

#include "../plain/pierstrand_plain.h"

#include <string.h>

#define WITH_DATA 1      /* acknowledgement type (9.7.1) */
#define CALLING_PARTY 1  /* additional address type (9.7.3) */
#define USER_DEFINED_4 3 /* short data type identifiers (9.7.16) */
#define STATUS 4
#define STATUS_START 0x1f /* the first six bits of a short report's status */
#define FIRST_PROTOCOL 128

#define STATUS_BITS 16
#define LENGTH_BITS 11
#define TELLING_BITS 12 /* protocol identifier and message type */
#define STORED_BITS 8   /* validity period and forward address type */
#define FCS_BITS 32
#define MOST_DATA 2047
#define MOST_ACK_DATA 269

/* Bits of each kind up to its user data, without what storage adds. */
static const uint8_t fixed_bits[] = {0, 24, 32, 32, STATUS_BITS};

/* The bits of a forward address; negative if its type is not direct mode's. */
static inline int forward_bits(unsigned type)
{
	switch (type) {
	case 1:
		return ADDRESS_BITS;
	case 2:
		return 2 * ADDRESS_BITS;
	case 7:
		return 0;
	default:
		return -1;
	}
}

static inline int has_user_data(const struct dm_message *m)
{
	return m->kind <= DM_DELIVERY_REPORT;
}

static inline int stored(const struct dm_message *m)
{
	return has_user_data(m) && m->storage == 1;
}

/* Every number fits its element, and those that the message does not have are 0. `width` is
   the forward address's. */
static int message_fits(const struct dm_message *m, int ack, int width)
{
	int transfer = m->kind == DM_TRANSFER, report = m->kind == DM_DELIVERY_REPORT;

	if (m->addressed > !ack || (m->mni | m->ssi) >> (m->addressed ? ADDRESS_BITS : 0))
		return 0;
	if (m->kind == DM_SHORT_REPORT ? m->protocol || m->status > 3 : transfer && m->status)
		return 0;
	if (m->request > (transfer ? 3 : 0) || m->short_form > transfer || m->required > report ||
	    m->storage > (transfer | report))
		return 0;
	if (!stored(m))
		return !m->validity && !m->forward && !m->address;
	return m->validity < 32 && !(m->address >> width);
}

/* How long a DM-SDU is: bits of user defined data 4 or of the status, and bits of all of it. */
struct sizes {
	unsigned data;
	unsigned all;
};

static uint8_t plan_sdu(unsigned carrier, unsigned fcs, const struct dm_message *m, uint32_t n,
			size_t lent, size_t room, struct sizes *sizes)
{
	int ack = carrier == DM_SDS_ACK, width = 0;

	if (carrier < DM_SDS_UDATA || carrier > DM_SDS_ACK || m->kind < DM_TRANSFER + ack ||
	    m->kind > DM_SHORT_REPORT)
		return DM_NOT_TL;
	if (m->kind != DM_SHORT_REPORT && m->protocol < FIRST_PROTOCOL)
		return DM_NOT_TL;
	if (stored(m)) {
		width = forward_bits(m->forward);
		if (width < 0)
			return DM_NOT_TL;
	}

	if (fcs > 1 || !message_fits(m, ack, width))
		return DM_RANGE;
	if (n > (has_user_data(m) ? MOST_DATA : 0) || (n + 7) / 8 > lent)
		return DM_RANGE;
	sizes->data = fixed_bits[m->kind] + n;
	if (stored(m))
		sizes->data += STORED_BITS + width;
	if (sizes->data > (ack ? MOST_ACK_DATA - FCS_BITS * fcs : MOST_DATA))
		return DM_RANGE;

	sizes->all = (ack ? 4 : 1) + 4 + sizes->data + FCS_BITS * fcs;
	if (m->addressed)
		sizes->all += 4 + 2 * ADDRESS_BITS;
	if (m->kind != DM_SHORT_REPORT)
		sizes->all += LENGTH_BITS;
	return (sizes->all + 7) / 8 > room ? DM_LENGTH : 0;
}

void dm_fresh_bookings(struct dm_bookings *b)
{
	memset(b, 0, sizeof *b);
}

uint8_t dm_book(struct dm_bookings *b, const struct dm_fields *fields, uint32_t n,
		const uint8_t *sdu, size_t length, struct dm_booked *booked)
{
	uint32_t pair;
	uint8_t fault;

	booked->mark = DM_NO_BOOKING;
	if (fields->source.ssi >> ADDRESS_BITS) {
		memset(&booked->transport, 0, sizeof booked->transport);
		return DM_RANGE;
	}
	fault = dm_read_transport(fields, n, sdu, length, &booked->transport);
	if (fault || booked->transport.message.kind != DM_TRANSFER)
		return fault;

	pair = fields->source.ssi << 8 | booked->transport.message.reference;
	for (unsigned i = 0; i < b->count; i++)
		if (b->pairs[i] == pair) {
			booked->mark = DM_AGAIN;
			return 0;
		}
	b->pairs[b->next] = pair;
	b->next = (b->next + 1) % DM_BOOKINGS;
	if (b->count < DM_BOOKINGS)
		b->count++;
	booked->mark = DM_BOOKED;
	return 0;
}

#endif
