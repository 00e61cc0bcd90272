/*
 * One set of names for the calls of the proved library (-DLIBRARY) and of the peers. Each macro
 * is the call as its own header has it, and leaves the answer where that header leaves it.
 */
#ifndef CALLS_H
#define CALLS_H

#define SCH_S 8
#define SCH_H 16
#define SCH_F 34
#define ROOM 512

#ifdef LIBRARY

#include "pierstrand.h"

typedef struct {
	uint8_t frame;
	uint8_t slot;
	uint8_t kind;
	const uint8_t *blocks;
	size_t length;
} Report;

typedef struct pierstrand_sync Sync;
typedef struct pierstrand_fields Fields;
typedef struct pierstrand_fresh_receiver Fresh;
typedef struct pierstrand_answer Answer;
typedef struct pierstrand_block_count Built;
typedef struct pierstrand_header Header;
typedef struct pierstrand_continuation Block;
typedef struct pierstrand_due_frame Due;
typedef struct pierstrand_message Message;
typedef struct pierstrand_transport Transport;
typedef struct pierstrand_sdu Sdu;
typedef struct pierstrand_bookings Bookings;
typedef struct pierstrand_booking Booked;
typedef struct pierstrand_step Step;

#define DESTINATION destination
#define ADDRESS_TYPE kind
#define HEADER_OF(header) (header)
#define BLOCK_OF(block) (block)
#define TRANSPORT_OF(transport) (transport)
#define MARK_OF(booked) ((booked).mark)
#define FAULT_OF(booked) ((booked).transport.fault)
#define BOOKED_OF(booked) ((booked).transport)
#define STEP_OF(step) (step)

#define FRESH(unit, individual, group, mni) ((unit) = pierstrand_make_receiver(individual, group, mni))
#define HEAR(answer, unit, report, message, room)                                               \
	((answer) = pierstrand_hear(&(unit).receiver, (report)->frame, (report)->slot,          \
				    (report)->kind, (report)->blocks, (report)->length,         \
				    message, room))
#define BUILD(built, sync, countdown, fields, n, message, length, out, room)                    \
	((built) = pierstrand_build_blocks(*(sync), countdown, *(fields), n, message, length, out, room))
#define READ_HEADER(header, sch_s, s_length, sch_h, h_length)                                   \
	((header) = pierstrand_read_header(sch_s, s_length, sch_h, h_length))
#define READ_BLOCK(block, sch_f, length) ((block) = pierstrand_read_continuation(sch_f, length))
#define DUE(due, frame, countdown, block)                                                       \
	((due) = pierstrand_find_due_frame(frame, countdown, block))
#define READ_TRANSPORT(transport, fields, n, sdu, length)                                       \
	((transport) = pierstrand_read_transport(*(fields), n, sdu, length))
#define BUILD_TRANSPORT(sdu, carrier, fcs, message, n, user, length, out, room)                 \
	((sdu) = pierstrand_build_transport(carrier, fcs, *(message), n, user, length, out, room))
#define FRESH_BOOKINGS(bookings) ((bookings) = pierstrand_make_bookings())
#define BOOK(booked, bookings, fields, n, sdu, length)                                          \
	((booked) = pierstrand_book(&(bookings), *(fields), n, sdu, length))
#define TAKE(step, lent, length, at, n) ((step) = pierstrand_take_bits(lent, length, at, n))
#define SKIP(step, lent, length, at, n) ((step) = pierstrand_skip_bits(lent, length, at, n))
#define LEFT(lent, length, at) pierstrand_count_left(lent, length, at)

#else

#include "plain/pierstrand_plain.h"

typedef struct dm_report Report;
typedef struct dm_sync Sync;
typedef struct dm_fields Fields;
typedef struct dm_answer Answer;
typedef struct dm_message Message;
typedef struct dm_bookings Bookings;

typedef struct {
	uint8_t fault;
	struct dm_receiver receiver;
} Fresh;

typedef struct {
	uint8_t fault;
	uint8_t blocks;
} Built;

typedef struct {
	uint8_t fault;
	struct dm_header header;
} Header;

typedef struct {
	uint8_t fault;
	struct dm_block block;
} Block;

typedef struct {
	uint8_t fault;
	uint8_t frame;
} Due;

typedef struct {
	uint8_t fault;
	struct dm_transport transport;
} Transport;

typedef struct {
	uint8_t fault;
	uint16_t bits;
} Sdu;

typedef struct {
	uint8_t fault;
	struct dm_booked booked;
} Booked;

typedef struct {
	uint8_t fault;
	struct dm_step step;
} Step;

#define DESTINATION dest
#define ADDRESS_TYPE type
#define HEADER_OF(found) ((found).header)
#define BLOCK_OF(found) ((found).block)
#define TRANSPORT_OF(found) ((found).transport)
#define MARK_OF(found) ((found).booked.mark)
#define FAULT_OF(found) ((found).fault)
#define BOOKED_OF(found) ((found).booked.transport)
#define STEP_OF(found) ((found).step)

#define FRESH(unit, individual, group, mni)                                                     \
	((unit).fault = dm_fresh(&(unit).receiver, individual, group, mni))
#define HEAR(answer, unit, report, message, room)                                               \
	dm_hear(&(unit).receiver, report, message, room, &(answer))
#define BUILD(built, sync, countdown, fields, n, message, length, out, room)                    \
	((built).fault = dm_build(sync, countdown, fields, n, message, length, out, room,       \
				  &(built).blocks))
#define READ_HEADER(found, sch_s, s_length, sch_h, h_length)                                    \
	((found).fault = dm_read_header(sch_s, s_length, sch_h, h_length, &(found).header))
#define READ_BLOCK(found, sch_f, length)                                                        \
	((found).fault = dm_read_continuation(sch_f, length, &(found).block))
#define DUE(due, x, countdown, i) ((due).fault = dm_layout(x, countdown, i, &(due).frame))
#define READ_TRANSPORT(found, fields, n, sdu, length)                                           \
	((found).fault = dm_read_transport(fields, n, sdu, length, &(found).transport))
#define BUILD_TRANSPORT(sdu, carrier, fcs, message, n, user, length, out, room)                 \
	((sdu).fault = dm_build_transport(carrier, fcs, message, n, user, length, out, room,    \
					  &(sdu).bits))
#define FRESH_BOOKINGS(bookings) dm_fresh_bookings(&(bookings))
#define BOOK(found, bookings, fields, n, sdu, length)                                           \
	((found).fault = dm_book(&(bookings), fields, n, sdu, length, &(found).booked))
#define TAKE(found, lent, length, at, n)                                                        \
	((found).fault = dm_take(lent, length, at, n, &(found).step))
#define SKIP(found, lent, length, at, n)                                                        \
	((found).fault = dm_skip(lent, length, at, n, &(found).step))
#define LEFT(lent, length, at) dm_left(lent, length, at)

#endif

#endif
