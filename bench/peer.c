/*
 * peer print: a slot log on standard input, a line for each report.
 * peer probe: call records on standard input, each call's whole answer.
 *
 * Compiled against the proved library and against each peer (calls.h).
 */
#include "calls.h"

#include <inttypes.h>
#include <stdio.h>
#include <stdlib.h>
#include <string.h>

#define LARGEST_BODY 4096
#define LARGEST_BUFFER 1024
#define SETTINGS 12
#define BEFORE 0x5a /* what every lent output is filled with */

/* What is left to read. */
struct input {
	const uint8_t *at;
	size_t left;
};

struct record {
	unsigned kind;
	struct input body;
};

static uint64_t number(const uint8_t *bytes, unsigned length)
{
	uint64_t v = 0;

	while (length)
		v = v << 8 | bytes[--length];
	return v;
}

static const uint8_t *take(struct input *in, size_t length)
{
	const uint8_t *part = in->at;

	in->at += length;
	in->left -= length;
	return part;
}

static uint64_t take_number(struct input *in, unsigned length)
{
	return number(take(in, length), length);
}

/* The next record; 0 if it is cut off or its length is below 2. */
static int next_record(struct input *in, struct record *record)
{
	size_t length;

	if (in->left < 2)
		return 0;
	length = take_number(in, 2);
	if (length < 2 || length > in->left)
		return 0;
	record->kind = take_number(in, 2);
	record->body.left = length - 2;
	record->body.at = take(in, length - 2);
	return 1;
}

static uint8_t settings(Fresh *unit, const uint8_t *body)
{
	FRESH(*unit, number(body, 4), number(body + 4, 4), number(body + 8, 4));
	return unit->fault;
}

static void print_report(Fresh *unit, const struct record *record)
{
	const uint8_t *body = record->body.at;
	Report report = {body[0], body[1], record->kind, body + 2, record->body.left - 2};
	Answer answer;
	uint8_t message[ROOM];

	HEAR(answer, *unit, &report, message, sizeof message);
	printf("%d %d %d %d %d %u\n", report.frame, report.slot, answer.outcome, answer.dropped,
	       answer.fault, (unsigned)answer.bits);
}

static void print(struct input in)
{
	static const uint8_t lengths[] = {SETTINGS, 2, 2 + SCH_S + SCH_H, 2 + SCH_F};
	static Fresh unit;
	struct record record;

	if (!next_record(&in, &record) || record.kind != 0 || record.body.left != SETTINGS ||
	    settings(&unit, record.body.at)) {
		puts("unit");
		return;
	}
	while (in.left) {
		if (!next_record(&in, &record) ||
		    (record.kind < sizeof lengths && record.body.left < lengths[record.kind])) {
			puts("cut");
			return;
		}
		if (record.kind == 0 || record.kind >= sizeof lengths ||
		    record.body.left > lengths[record.kind])
			puts("kind");
		else
			print_report(&unit, &record);
	}
}

/* HEX and REST of an output whose first bytes were written. */
static void print_output(const uint8_t *out, size_t written, size_t length)
{
	size_t i;

	putchar(' ');
	if (!written)
		putchar('-');
	for (i = 0; i < written; i++)
		printf("%02x", out[i]);
	while (i < length && out[i] == BEFORE)
		i++;
	printf(" %d", i == length);
}

static void print_fields(const Fields *f)
{
	printf(" %d %" PRIu32 " %d %" PRIu32 " %" PRIu32 " %d %d %" PRIu64,
	       f->DESTINATION.ADDRESS_TYPE, f->DESTINATION.ssi, f->source.ADDRESS_TYPE,
	       f->source.ssi, f->mni, f->message_type, f->width, f->elements);
}

static void probe_report(Fresh *unit, struct input body)
{
	uint8_t message[LARGEST_BUFFER];
	Report report;
	Answer answer;
	size_t room;

	report.frame = take_number(&body, 1);
	report.slot = take_number(&body, 1);
	report.kind = take_number(&body, 1);
	room = take_number(&body, 2);
	report.blocks = body.at;
	report.length = body.left;
	if (room > sizeof message) {
		puts("kind");
		return;
	}
	memset(message, BEFORE, sizeof message);
	HEAR(answer, *unit, &report, message, room);
	printf("report %d %d %d %u", answer.outcome, answer.dropped, answer.fault,
	       (unsigned)answer.bits);
	print_fields(&answer.fields);
	print_output(message, (answer.bits + 7) / 8, room);
	printf(" %" PRIu32 " %d %u\n", answer.lost.source, answer.lost.message_type,
	       (unsigned)answer.lost.bits);
}

static void probe_build(struct input body)
{
	uint8_t out[LARGEST_BUFFER], countdown;
	Sync sync;
	Fields f;
	Built built;
	uint32_t n;
	size_t room;

	sync.system = take_number(&body, 1);
	sync.usage = take_number(&body, 1);
	sync.slot = take_number(&body, 1);
	sync.frame = take_number(&body, 1);
	countdown = take_number(&body, 1);
	f.DESTINATION.ADDRESS_TYPE = take_number(&body, 1);
	f.DESTINATION.ssi = take_number(&body, 4);
	f.source.ADDRESS_TYPE = take_number(&body, 1);
	f.source.ssi = take_number(&body, 4);
	f.mni = take_number(&body, 4);
	f.message_type = take_number(&body, 1);
	f.width = take_number(&body, 1);
	f.elements = take_number(&body, 8);
	n = take_number(&body, 4);
	room = take_number(&body, 2);
	if (room > sizeof out) {
		puts("kind");
		return;
	}
	memset(out, BEFORE, sizeof out);
	BUILD(built, &sync, countdown, &f, n, body.at, body.left, out, room);
	printf("build %d %d", built.fault, built.blocks);
	print_output(out, built.fault ? 0 : SCH_S + SCH_H + built.blocks * SCH_F, room);
	putchar('\n');
}

static void probe_header(struct input body, size_t s_length, size_t h_length)
{
	const uint8_t *s = take(&body, s_length), *h = take(&body, h_length);
	Header header;

	READ_HEADER(header, s, s_length, h, h_length);
	printf("header %d %d %d %d %d %d %d %d", header.fault, HEADER_OF(header).sync.system,
	       HEADER_OF(header).sync.usage, HEADER_OF(header).sync.slot,
	       HEADER_OF(header).sync.frame, HEADER_OF(header).fragmented,
	       HEADER_OF(header).count, HEADER_OF(header).countdown);
	print_fields(&HEADER_OF(header).fields);
	printf(" %u %u\n", (unsigned)HEADER_OF(header).first, (unsigned)HEADER_OF(header).bits);
}

static void probe_block(struct input body)
{
	Block block;

	READ_BLOCK(block, body.at, body.left);
	printf("block %d %d %u %u\n", block.fault, BLOCK_OF(block).last,
	       (unsigned)BLOCK_OF(block).first, (unsigned)BLOCK_OF(block).bits);
}

static void probe_layout(const uint8_t *body)
{
	Due due;

	DUE(due, body[0], body[1], body[2]);
	printf("frame %d %d\n", due.fault, due.frame);
}

static void print_message(const Message *m)
{
	printf(" %d %d %" PRIu32 " %" PRIu32 " %d %d %d %d %d %d %d %d %d %" PRIu64, m->kind,
	       m->addressed, m->mni, m->ssi, m->protocol, m->request, m->short_form, m->required,
	       m->storage, m->status, m->reference, m->validity, m->forward, m->address);
}

/* Message type, elements and n of a DM-SDU. Its FCS flag is the last of the elements. */
static uint32_t take_lent(struct input *body, Fields *f)
{
	f->message_type = take_number(body, 1);
	f->elements = take_number(body, 8);
	return take_number(body, 4);
}

static void probe_transport(struct input body)
{
	Fields f;
	Transport found;
	uint32_t n;

	memset(&f, 0, sizeof f);
	n = take_lent(&body, &f);
	READ_TRANSPORT(found, &f, n, body.at, body.left);
	printf("transport %d", found.fault);
	print_message(&TRANSPORT_OF(found).message);
	printf(" %u %u\n", (unsigned)TRANSPORT_OF(found).first,
	       (unsigned)TRANSPORT_OF(found).bits);
}

static void probe_sdu(struct input body)
{
	uint8_t out[LARGEST_BUFFER], carrier, fcs;
	Message m;
	Sdu sdu;
	uint32_t n;
	size_t room;

	carrier = take_number(&body, 1);
	fcs = take_number(&body, 1);
	m.addressed = take_number(&body, 1);
	m.mni = take_number(&body, 4);
	m.ssi = take_number(&body, 4);
	m.kind = take_number(&body, 1);
	m.protocol = take_number(&body, 1);
	m.request = take_number(&body, 1);
	m.short_form = take_number(&body, 1);
	m.required = take_number(&body, 1);
	m.storage = take_number(&body, 1);
	m.status = take_number(&body, 1);
	m.reference = take_number(&body, 1);
	m.validity = take_number(&body, 1);
	m.forward = take_number(&body, 1);
	m.address = take_number(&body, 8);
	n = take_number(&body, 4);
	room = take_number(&body, 2);
	if (room > sizeof out) {
		puts("kind");
		return;
	}
	memset(out, BEFORE, sizeof out);
	BUILD_TRANSPORT(sdu, carrier, fcs, &m, n, body.at, body.left, out, room);
	printf("sdu %d %u", sdu.fault, (unsigned)sdu.bits);
	print_output(out, (sdu.bits + 7) / 8, room);
	putchar('\n');
}

static void probe_book(Bookings *bookings, struct input body)
{
	Fields f;
	Booked booked;
	uint32_t n;

	memset(&f, 0, sizeof f);
	f.source.ssi = take_number(&body, 4);
	n = take_lent(&body, &f);
	BOOK(booked, *bookings, &f, n, body.at, body.left);
	printf("book %d %d %d %d\n", FAULT_OF(booked), MARK_OF(booked),
	       BOOKED_OF(booked).message.kind, BOOKED_OF(booked).message.reference);
}

/* Makes one call; 0 if its record is too short. */
static int call(Fresh *unit, Bookings *bookings, const struct record *record)
{
	static const uint8_t fixed[] = {SETTINGS, 0, 0, 0, 5, 35, 2, 0, 3, 13, 35, 0, 17};
	struct input body = record->body;

	if (body.left > LARGEST_BODY)
		return 0;
	if (record->kind < sizeof fixed && body.left < fixed[record->kind])
		return 0;
	switch (record->kind) {
	case 0:
		printf("unit %d\n", settings(unit, body.at));
		return 1;
	case 4:
		probe_report(unit, body);
		return 1;
	case 5:
		probe_build(body);
		return 1;
	case 6: {
		size_t s_length = take_number(&body, 1), h_length = take_number(&body, 1);

		if (body.left < s_length + h_length)
			return 0;
		probe_header(body, s_length, h_length);
		return 1;
	}
	case 7:
		probe_block(body);
		return 1;
	case 8:
		probe_layout(body.at);
		return 1;
	case 9:
		probe_transport(body);
		return 1;
	case 10:
		probe_sdu(body);
		return 1;
	case 11:
		FRESH_BOOKINGS(*bookings);
		puts("bookings");
		return 1;
	case 12:
		probe_book(bookings, body);
		return 1;
	default:
		puts("kind");
		return 1;
	}
}

static void probe(struct input in)
{
	static Fresh unit;
	static Bookings bookings;
	struct record record;

	FRESH(unit, 0, 0, 0);
	FRESH_BOOKINGS(bookings);
	while (in.left) {
		if (!next_record(&in, &record) || !call(&unit, &bookings, &record)) {
			puts("cut");
			return;
		}
	}
}

static uint8_t *read_all(size_t *length)
{
	size_t size = 1 << 16;
	uint8_t *bytes = NULL;

	*length = 0;
	for (;;) {
		uint8_t *more = realloc(bytes, size);

		if (!more)
			break;
		bytes = more;
		*length += fread(bytes + *length, 1, size - *length, stdin);
		if (*length < size)
			return bytes;
		size *= 2;
	}
	free(bytes);
	return NULL;
}

int main(int argc, char **argv)
{
	struct input in;
	uint8_t *bytes;

	if (argc != 2 || (strcmp(argv[1], "print") && strcmp(argv[1], "probe"))) {
		fprintf(stderr, "usage: %s print|probe <records\n", argv[0]);
		return 2;
	}
	bytes = read_all(&in.left);
	if (!bytes) {
		fprintf(stderr, "%s: no memory\n", argv[0]);
		return 1;
	}
	in.at = bytes;
	if (argv[1][1] == 'r' && argv[1][2] == 'i')
		print(in);
	else
		probe(in);
	free(bytes);
	return ferror(stdin) || fflush(stdout) ? 1 : 0;
}
