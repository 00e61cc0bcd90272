/*
 * Holds include/pierstrand.h to the library that is linked: sizes, places and numbers.
 *
 * It prints the size, the alignment and the fields of every struct as this compiler has them; board.py holds that to
 * the structs of the crates. Then it makes the calls, with a number of its own for every field, and looks for it at the
 * header's place in bytes that the library wrote. It says what is not so, and ends with 1 then.
 */
#include <stdio.h>
#include <string.h>

#include "pierstrand.h"

/* ---- The structs. */

struct field {
	const char *name;
	size_t at, size;
};

struct shape {
	const char *name;
	size_t size, align, count;
	const struct field *fields;
};

#define FIELD(type, name) \
	{#name, offsetof(struct pierstrand_##type, name), sizeof ((struct pierstrand_##type *)0)->name}
#define COUNT(type) (sizeof type##_fields / sizeof type##_fields[0])
#define SHAPE(type, ...) \
	struct type##_after_byte { char byte; struct pierstrand_##type it; }; \
	static const struct field type##_fields[] = {__VA_ARGS__}; \
	static const struct shape type = {#type, sizeof (struct pierstrand_##type), \
					  offsetof(struct type##_after_byte, it), COUNT(type), type##_fields}

/* Fields of a struct within another: `in` is the way there, with its dots. */
#define SYNC(type, in) FIELD(type, in system), FIELD(type, in usage), FIELD(type, in slot), FIELD(type, in frame)
#define ADDRESS(type, in) FIELD(type, in kind), FIELD(type, in ssi)
#define FIELDS(type, in) \
	ADDRESS(type, in destination.), ADDRESS(type, in source.), FIELD(type, in mni), FIELD(type, in message_type), \
	FIELD(type, in width), FIELD(type, in elements)
#define LOST(type, in) FIELD(type, in source), FIELD(type, in message_type), FIELD(type, in bits)
#define RECEIVER(type, in) \
	FIELD(type, in settings.individual), FIELD(type, in settings.group), FIELD(type, in settings.mni), \
	FIELD(type, in place.frame), FIELD(type, in place.slot), \
	FIELD(type, in near.count), FIELD(type, in near.places), \
	FIELDS(type, in assembly.run.fields.), \
	FIELD(type, in assembly.run.raw.high), FIELD(type, in assembly.run.raw.low), \
	FIELD(type, in assembly.run.held), FIELD(type, in assembly.run.again), FIELD(type, in assembly.run.more), \
	FIELD(type, in assembly.run.frame), FIELD(type, in assembly.run.countdown), FIELD(type, in assembly.run.kept), \
	FIELD(type, in assembly.bits), FIELD(type, in assembly.store)

#define MESSAGE(type, in) \
	FIELD(type, in kind), FIELD(type, in addressed), FIELD(type, in mni), FIELD(type, in ssi), \
	FIELD(type, in protocol), FIELD(type, in request), FIELD(type, in short_form), FIELD(type, in required), \
	FIELD(type, in storage), FIELD(type, in status), FIELD(type, in reference), FIELD(type, in validity), \
	FIELD(type, in forward), FIELD(type, in address)
#define TRANSPORT(type, in) \
	FIELD(type, in fault), MESSAGE(type, in message.), FIELD(type, in first), FIELD(type, in bits)

SHAPE(sync, SYNC(sync, ));
SHAPE(address, ADDRESS(address, ));
SHAPE(fields, FIELDS(fields, ));
SHAPE(header, FIELD(header, fault), SYNC(header, sync.), FIELD(header, fragmented), FIELD(header, count),
      FIELD(header, countdown), FIELDS(header, fields.), FIELD(header, first), FIELD(header, bits));
SHAPE(continuation, FIELD(continuation, fault), FIELD(continuation, last), FIELD(continuation, first),
      FIELD(continuation, bits));
SHAPE(block_count, FIELD(block_count, fault), FIELD(block_count, blocks));
SHAPE(due_frame, FIELD(due_frame, fault), FIELD(due_frame, frame));
SHAPE(loss, LOST(loss, ));
SHAPE(answer, FIELD(answer, outcome), FIELD(answer, dropped), FIELD(answer, fault), FIELD(answer, bits),
      FIELDS(answer, fields.), LOST(answer, lost.));
SHAPE(receiver, RECEIVER(receiver, ));
SHAPE(fresh_receiver, FIELD(fresh_receiver, fault), RECEIVER(fresh_receiver, receiver.));
SHAPE(message, MESSAGE(message, ));
SHAPE(transport, TRANSPORT(transport, ));
SHAPE(sdu, FIELD(sdu, fault), FIELD(sdu, bits));
SHAPE(bookings, FIELD(bookings, count), FIELD(bookings, pairs));
SHAPE(booking, FIELD(booking, mark), TRANSPORT(booking, transport.));
SHAPE(step, FIELD(step, fault), FIELD(step, value), FIELD(step, at));

/* Each struct set by position to 1, 2, 3 ..: with a field more or elsewhere, a number is under another name, or it does
   not compile. */
static const struct pierstrand_sync set_sync = {1, 2, 3, 4};
static const struct pierstrand_address set_address = {1, 2};
static const struct pierstrand_fields set_fields = {{1, 2}, {3, 4}, 5, 6, 7, 8};
static const struct pierstrand_header set_header = {
	1, {2, 3, 4, 5}, 6, 7, 8, {{9, 10}, {11, 12}, 13, 14, 15, 16}, 17, 18};
static const struct pierstrand_continuation set_continuation = {1, 2, 3, 4};
static const struct pierstrand_block_count set_block_count = {1, 2};
static const struct pierstrand_due_frame set_due_frame = {1, 2};
static const struct pierstrand_loss set_loss = {1, 2, 3};
static const struct pierstrand_answer set_answer = {1, 2, 3, 4, {{5, 6}, {7, 8}, 9, 10, 11, 12}, {13, 14, 15}};
static const struct pierstrand_receiver set_receiver = {
	{1, 2, 3}, {4, 5}, {6, {7}},
	{{{{8, 9}, {10, 11}, 12, 13, 14, 15}, {16, 17}, 18, 19, 20, 21, 22, 23}, 24, {25}}};
static const struct pierstrand_fresh_receiver set_fresh_receiver = {
	1, {{2, 3, 4}, {5, 6}, {7, {8}},
	    {{{{9, 10}, {11, 12}, 13, 14, 15, 16}, {17, 18}, 19, 20, 21, 22, 23, 24}, 25, {26}}}};

static const struct pierstrand_message set_message = {1, 2, 3, 4, 5, 6, 7, 8, 9, 10, 11, 12, 13, 14};
static const struct pierstrand_transport set_transport = {1, {2, 3, 4, 5, 6, 7, 8, 9, 10, 11, 12, 13, 14, 15}, 16, 17};
static const struct pierstrand_sdu set_sdu = {1, 2};
static const struct pierstrand_bookings set_bookings = {1, {2}};
static const struct pierstrand_booking set_booking = {
	1, {2, {3, 4, 5, 6, 7, 8, 9, 10, 11, 12, 13, 14, 15, 16}, 17, 18}};
static const struct pierstrand_step set_step = {1, 2, 3};

/* ---- What is held. */

static unsigned long held, wrong;

/* Without the spaces that FIELD has after its dots. */
static void print_name(const char *name)
{
	for (char last = 0; *name != 0; last = *name++)
		if (*name != ' ' || last != '.')
			putchar(*name);
}

static void hold(int right, const char *what, const char *name, uint64_t is, uint64_t should_be)
{
	held++;
	if (right)
		return;
	wrong++;
	printf("wrong: %s, ", what);
	print_name(name);
	printf(": %llu and should be %llu\n", (unsigned long long)is, (unsigned long long)should_be);
}

static void is(const char *what, uint64_t is, uint64_t should_be)
{
	hold(is == should_be, "here", what, is, should_be);
}

#define IS(a, b) is(#a, (uint64_t)(a), (uint64_t)(b))

/* The number in a field; of an array, in its first byte. */
static uint64_t number(const void *bytes, const struct field *f)
{
	uint64_t n = 0;

	for (size_t i = f->size > sizeof n ? 1 : f->size; i > 0; i--)
		n = n << 8 | ((const uint8_t *)bytes)[f->at + i - 1];
	return n;
}

static void print_shape(const struct shape *s, const void *set)
{
	printf("struct pierstrand_%s: %zu bytes, aligned to %zu\n", s->name, s->size, s->align);
	for (size_t i = 0; i < s->count; i++) {
		printf("%5zu %3zu  ", s->fields[i].at, s->fields[i].size);
		print_name(s->fields[i].name);
		putchar('\n');
		hold(number(set, &s->fields[i]) == i + 1, "by position", s->fields[i].name,
		     number(set, &s->fields[i]), i + 1);
	}
}

/* The numbers of all fields; those that HOLDS is not given, at the end, are 0. Arrays are left out. */
static void holds(const struct shape *s, const void *bytes, const uint64_t *numbers)
{
	for (size_t i = 0; i < s->count; i++)
		if (s->fields[i].size <= sizeof numbers[i])
			hold(number(bytes, &s->fields[i]) == numbers[i], s->name, s->fields[i].name,
			     number(bytes, &s->fields[i]), numbers[i]);
}

#define HOLDS(shape, bytes, ...) holds(&shape, bytes, (const uint64_t[COUNT(shape)]){__VA_ARGS__})

/* Two structs are the same, field by field, arrays too. */
static void same(const struct shape *s, const void *one, const void *other)
{
	for (size_t i = 0; i < s->count; i++) {
		const struct field *f = &s->fields[i];

		hold(memcmp((const uint8_t *)one + f->at, (const uint8_t *)other + f->at, f->size) == 0,
		     s->name, f->name, number(one, f), number(other, f));
	}
}

/* ---- Two messages for one unit. Their headers byte by byte, as the standard has them: frame 13, slot 1 and slot 3. */

#define INDIVIDUAL 0x123456
#define GROUP 0x2468AC
#define MNI 0xABCDEF
#define LONG_BITS (3 + 8 * 264 + 100)
#define LONG_FIELDS 0, INDIVIDUAL, 1, 0x654321, MNI, 18, 22, 0x2B3C5D
#define SHORT_BITS 13
#define SHORT_TO(ssi) 0, ssi, 2, 0, MNI, 15, 33, 0x1A2A55A5A
#define SHORT_FIELDS SHORT_TO(GROUP)
#define NO_FIELDS 0, 0, 0, 0, 0, 0, 0, 0
#define HEADER_BYTES (PIERSTRAND_BYTES_SCH_S + PIERSTRAND_BYTES_SCH_H)

static const uint8_t long_header[24] = {0xB0, 0x11, 0xA0, 0x00, 0x00, 0x00, 0x00, 0x00, 0x00, 0x19, 0xC1, 0x23,
					0x45, 0x65, 0x95, 0x0C, 0x86, 0xAF, 0x37, 0xBE, 0x55, 0x9E, 0x2E, 0x80};
static const uint8_t short_header[24] = {0xE0, 0x39, 0xA0, 0x00, 0x00, 0x00, 0x00, 0x00, 0x00, 0x28, 0x24, 0x68,
					 0xAC, 0xAA, 0xF3, 0x7B, 0xDF, 0xA2, 0xA5, 0x5A, 0x5A, 0x1B, 0x44, 0x00};
static const struct pierstrand_sync long_sync = {.system = 11, .usage = 1, .slot = 0, .frame = 13};
static const struct pierstrand_sync short_sync = {.system = 14, .usage = 3, .slot = 2, .frame = 13};
static const struct pierstrand_fields long_fields = {
	.destination = {.kind = 0, .ssi = INDIVIDUAL}, .source = {.kind = 1, .ssi = 0x654321},
	.mni = MNI, .message_type = 18, .width = 22, .elements = 0x2B3C5D};
static const struct pierstrand_fields short_fields = {
	.destination = {.kind = 0, .ssi = GROUP}, .source = {.kind = 2, .ssi = 0},
	.mni = MNI, .message_type = 15, .width = 33, .elements = 0x1A2A55A5A};

static uint8_t text[PIERSTRAND_BYTES_MESSAGE];      /* both messages are the start of it */
static uint8_t blocks[PIERSTRAND_BYTES_BLOCKS + 8]; /* the long one, built */
#define CONTINUATION(i) (blocks + HEADER_BYTES + PIERSTRAND_BYTES_SCH_F * (i))

/*
 * ---- The four SDS-TL messages, with a number of its own for every element, and their DM-SDUs byte by byte: a transfer
 * in a DM-SDS DATA with FCS, a report in a DM-SDS ACK, an ack in a DM-SDS UDATA, a short report in a DM-SDS ACK with
 * FCS. User data is the start of the text.
 */

#define TRANSFER_WITH(reference) \
	PIERSTRAND_SDS_TRANSFER, 1, 0xA1B2C3, 0xD4E5F6, 0x8B, 2, 1, 0, 1, 0, reference, 0x15, 2, 0x123456789ABC
#define TRANSFER_NUMBERS TRANSFER_WITH(0x9C)
#define REPORT_NUMBERS PIERSTRAND_SDS_REPORT, 0, 0, 0, 0xC5, 0, 0, 1, 1, 0x67, 0x9D, 0x0A, 1, 0x2468AC
#define ACK_NUMBERS PIERSTRAND_SDS_ACK, 0, 0, 0, 0xE1, 0, 0, 0, 0, 0x76, 0x9E, 0, 0, 0
#define SHORT_REPORT_NUMBERS PIERSTRAND_SDS_SHORT_REPORT, 0, 0, 0, 0, 0, 0, 0, 0, 2, 0x9F, 0, 0, 0
#define NO_MESSAGE 0, 0, 0, 0, 0, 0, 0, 0, 0, 0, 0, 0, 0, 0

static const struct tl {
	struct pierstrand_message message;
	uint8_t type, fcs;        /* the header's message type and its FCS flag */
	size_t user, first, bits; /* bits of user data; where they stand; bits of the DM-SDU */
	uint8_t bytes[25];
	uint64_t numbers[COUNT(message)];
} tls[] = {
	{{.kind = PIERSTRAND_SDS_TRANSFER, .addressed = 1, .mni = 0xA1B2C3, .ssi = 0xD4E5F6, .protocol = 0x8B,
	  .request = 2, .short_form = 1, .storage = 1, .reference = 0x9C, .validity = 0x15, .forward = 2,
	  .address = 0x123456789ABC},
	 23, 1, 13, 148, 193,
	 {0x8D, 0x0D, 0x96, 0x1E, 0xA7, 0x2F, 0xB1, 0x85, 0xD8, 0xB0, 0xB9, 0xCA, 0xA1,
	  0x23, 0x45, 0x67, 0x89, 0xAB, 0xC1, 0xB4, 0x38, 0xB4, 0x16, 0xEF, 0x00},
	 {TRANSFER_NUMBERS}},
	{{.kind = PIERSTRAND_SDS_REPORT, .protocol = 0xC5, .required = 1, .storage = 1, .status = 0x67,
	  .reference = 0x9D, .validity = 0x0A, .forward = 1, .address = 0x2468AC},
	 24, 0, 5, 83, 88,
	 {0x13, 0x08, 0xB8, 0xA3, 0x2C, 0xF3, 0xAA, 0x24, 0x8D, 0x15, 0x83},
	 {REPORT_NUMBERS}},
	{{.kind = PIERSTRAND_SDS_ACK, .protocol = 0xE1, .status = 0x76, .reference = 0x9E},
	 22, 0, 0, 0, 48,
	 {0x18, 0x20, 0xE1, 0x20, 0x76, 0x9E},
	 {ACK_NUMBERS}},
	{{.kind = PIERSTRAND_SDS_SHORT_REPORT, .status = 2, .reference = 0x9F},
	 24, 1, 0, 0, 56,
	 {0x14, 0x7E, 0x9F, 0xAE, 0x0B, 0x43, 0x3D},
	 {SHORT_REPORT_NUMBERS}},
};

/* The fields of a header that such a DM-SDU came with: only the source, the message type and the last bit of the
   elements are looked at. */
static struct pierstrand_fields fields_of(uint32_t source, const struct tl *tl)
{
	struct pierstrand_fields f = {
		.destination = {.kind = 3, .ssi = ~0u}, .source = {.kind = 3, .ssi = source}, .mni = ~0u,
		.message_type = tl->type, .width = 255, .elements = ~(uint64_t)1 | tl->fcs};

	return f;
}

/* ---- Calls into filled bytes. */

/*
 * On x86-64 a struct of more than 16 bytes is answered into bytes of the caller, whose address goes first. Called so,
 * the library writes into two areas that are filled differently, and a byte that is then the same in both was written.
 * What it writes to is aligned to 8 and not to 16.
 */
#define AREA 1024
typedef union {
	uint64_t aligned;
	struct pierstrand_receiver receiver;
	uint8_t bytes[AREA];
} area;

static area answers[2], receivers[2], plain;
static const uint8_t filling[2] = {0x5A, 0xA5};

static uint8_t *in(area *a)
{
	return a->bytes + 8 + ((size_t)a->bytes & 8);
}

static void fill(area *two)
{
	for (int k = 0; k < 2; k++)
		memset(two[k].bytes, filling[k], AREA);
}

/* Up to which byte the library wrote: the size of its struct. */
static void ends(const struct shape *s, area *two)
{
	size_t end = AREA - 16;

	while (end > 0 && in(&two[0])[end - 1] == filling[0] && in(&two[1])[end - 1] == filling[1])
		end--;
	hold(end == s->size, s->name, "last byte written", end, s->size);
}

typedef void any_call(void);
typedef void *fresh_call(void *, uint32_t, uint32_t, uint32_t);
typedef void *hear_call(void *, void *, uint8_t, uint8_t, uint8_t, const uint8_t *, size_t, uint8_t *, size_t);
typedef void *header_call(void *, const uint8_t *, size_t, const uint8_t *, size_t);
typedef void *continuation_call(void *, const uint8_t *, size_t);

typedef void *transport_call(void *, struct pierstrand_fields, size_t, const uint8_t *, size_t);
typedef void *fresh_bookings_call(void *);
typedef void *book_call(void *, void *, struct pierstrand_fields, size_t, const uint8_t *, size_t);
typedef void *step_call(void *, const uint8_t *, size_t, size_t, size_t);

static fresh_call *fresh_into = (fresh_call *)(any_call *)pierstrand_make_receiver;
static hear_call *hear_into = (hear_call *)(any_call *)pierstrand_hear;
static header_call *header_into = (header_call *)(any_call *)pierstrand_read_header;
static continuation_call *continuation_into = (continuation_call *)(any_call *)pierstrand_read_continuation;

static transport_call *transport_into = (transport_call *)(any_call *)pierstrand_read_transport;
static fresh_bookings_call *fresh_bookings_into = (fresh_bookings_call *)(any_call *)pierstrand_make_bookings;
static book_call *book_into = (book_call *)(any_call *)pierstrand_book;
static step_call *take_into = (step_call *)(any_call *)pierstrand_take_bits;
static step_call *skip_into = (step_call *)(any_call *)pierstrand_skip_bits;

/* Each of these calls into both areas, and then, if all was right so far, as C does. What was answered is in the first
   area. */
static const uint8_t *fresh_of(uint32_t individual, uint32_t group, uint32_t mni)
{
	fill(answers);
	for (int k = 0; k < 2; k++)
		IS(fresh_into(in(&answers[k]), individual, group, mni) == in(&answers[k]), 1);
	same(&fresh_receiver, in(&answers[0]), in(&answers[1]));
	ends(&fresh_receiver, answers);
	if (!wrong) {
		struct pierstrand_fresh_receiver it = pierstrand_make_receiver(individual, group, mni);
		same(&fresh_receiver, &it, in(&answers[0]));
	}
	return in(&answers[0]);
}

static const uint8_t *header_in(const uint8_t *both, size_t s_length, size_t h_length)
{
	static uint8_t apart[1 + PIERSTRAND_BYTES_SCH_S + 2 + PIERSTRAND_BYTES_SCH_H];
	uint8_t *s = apart + 1, *h = s + PIERSTRAND_BYTES_SCH_S + 2; /* lent at odd addresses, and not side by side */

	memcpy(s, both, PIERSTRAND_BYTES_SCH_S);
	memcpy(h, both + PIERSTRAND_BYTES_SCH_S, PIERSTRAND_BYTES_SCH_H);
	fill(answers);
	for (int k = 0; k < 2; k++)
		IS(header_into(in(&answers[k]), s, s_length, h, h_length) == in(&answers[k]), 1);
	same(&header, in(&answers[0]), in(&answers[1]));
	ends(&header, answers);
	if (!wrong) {
		struct pierstrand_header it = pierstrand_read_header(s, s_length, h, h_length);
		same(&header, &it, in(&answers[0]));
	}
	return in(&answers[0]);
}

#define READ(both) header_in(both, PIERSTRAND_BYTES_SCH_S, PIERSTRAND_BYTES_SCH_H)
#define NO_HEADER 0, 0, 0, 0, 0, 0, 0, NO_FIELDS, 0, 0

static const uint8_t *continuation_of(const uint8_t *block, size_t length)
{
	fill(answers);
	for (int k = 0; k < 2; k++)
		IS(continuation_into(in(&answers[k]), block, length) == in(&answers[k]), 1);
	same(&continuation, in(&answers[0]), in(&answers[1]));
	ends(&continuation, answers);
	if (!wrong) {
		struct pierstrand_continuation it = pierstrand_read_continuation(block, length);
		same(&continuation, &it, in(&answers[0]));
	}
	return in(&answers[0]);
}

static const uint8_t *transport_of(struct pierstrand_fields f, size_t n, const uint8_t *lent, size_t length)
{
	fill(answers);
	for (int k = 0; k < 2; k++)
		IS(transport_into(in(&answers[k]), f, n, lent, length) == in(&answers[k]), 1);
	same(&transport, in(&answers[0]), in(&answers[1]));
	ends(&transport, answers);
	if (!wrong) {
		struct pierstrand_transport it = pierstrand_read_transport(f, n, lent, length);
		same(&transport, &it, in(&answers[0]));
	}
	return in(&answers[0]);
}

static const uint8_t *fresh_bookings_of(void)
{
	fill(answers);
	for (int k = 0; k < 2; k++)
		IS(fresh_bookings_into(in(&answers[k])) == in(&answers[k]), 1);
	same(&bookings, in(&answers[0]), in(&answers[1]));
	ends(&bookings, answers);
	if (!wrong) {
		struct pierstrand_bookings it = pierstrand_make_bookings();
		same(&bookings, &it, in(&answers[0]));
	}
	return in(&answers[0]);
}

typedef struct pierstrand_step plain_step_call(const uint8_t *, size_t, size_t, size_t);

static const uint8_t *step_of(step_call *into, plain_step_call *call, size_t length, size_t at, size_t n)
{
	fill(answers);
	for (int k = 0; k < 2; k++)
		IS(into(in(&answers[k]), text, length, at, n) == in(&answers[k]), 1);
	same(&step, in(&answers[0]), in(&answers[1]));
	ends(&step, answers);
	if (!wrong) {
		struct pierstrand_step it = call(text, length, at, n);
		same(&step, &it, in(&answers[0]));
	}
	return in(&answers[0]);
}

#define TAKEN(length, at, n) step_of(take_into, pierstrand_take_bits, length, at, n)
#define SKIPPED(length, at, n) step_of(skip_into, pierstrand_skip_bits, length, at, n)

/* Three indexes book the same, two of them in filled areas. */
static area indexes[2];
static struct pierstrand_bookings plain_index;

static const uint8_t *booked_of(struct pierstrand_fields f, size_t n, const uint8_t *lent, size_t length)
{
	fill(answers);
	for (int k = 0; k < 2; k++)
		IS(book_into(in(&answers[k]), in(&indexes[k]), f, n, lent, length) == in(&answers[k]), 1);
	same(&booking, in(&answers[0]), in(&answers[1]));
	ends(&booking, answers);
	same(&bookings, in(&indexes[0]), in(&indexes[1]));
	ends(&bookings, indexes);
	if (!wrong) {
		struct pierstrand_booking it = pierstrand_book(&plain_index, f, n, lent, length);
		same(&booking, &it, in(&answers[0]));
		same(&bookings, &plain_index, in(&indexes[0]));
	}
	return in(&answers[0]);
}

/* Three receivers hear the same, two of them in filled areas. */
static const uint8_t *answer_of(uint8_t frame, uint8_t slot, uint8_t kind, const uint8_t *lent, size_t length,
				size_t room)
{
	static uint8_t messages[3][PIERSTRAND_BYTES_MESSAGE + 8];

	fill(answers);
	memset(messages, 0x5A, sizeof messages);
	for (int k = 0; k < 2; k++) {
		uint8_t *to = in(&answers[k]);

		IS(hear_into(to, in(&receivers[k]), frame, slot, kind, lent, length, messages[k], room) == to, 1);
	}
	same(&answer, in(&answers[0]), in(&answers[1]));
	ends(&answer, answers);
	same(&receiver, in(&receivers[0]), in(&receivers[1]));
	ends(&receiver, receivers);
	if (!wrong) {
		struct pierstrand_answer it =
			pierstrand_hear(&plain.receiver, frame, slot, kind, lent, length, messages[2], room);
		size_t whole = it.bits / 8, used = (it.bits + 7) / 8;

		same(&answer, &it, in(&answers[0]));
		same(&receiver, &plain, in(&receivers[0]));

		/* The message is the start of the text, and the buffer after it is as it was. */
		IS(memcmp(messages[0], messages[1], sizeof messages[0]), 0);
		IS(memcmp(messages[0], messages[2], sizeof messages[0]), 0);
		IS(memcmp(messages[0], text, whole), 0);
		if (used > whole)
			IS(messages[0][whole], text[whole] & (uint8_t)(0xFF00 >> it.bits % 8));
		for (size_t i = used; i < sizeof messages[0]; i++)
			IS(messages[0][i], 0x5A);
	}
	return in(&answers[0]);
}

#define HEARD(frame, slot, header) \
	answer_of(frame, slot, PIERSTRAND_KIND_HEADER, header, HEADER_BYTES, PIERSTRAND_BYTES_MESSAGE)
#define BLOCK(frame, block) \
	answer_of(frame, 1, PIERSTRAND_KIND_BLOCK, block, PIERSTRAND_BYTES_SCH_F, PIERSTRAND_BYTES_MESSAGE)
#define SILENT(frame, slot, length, room) answer_of(frame, slot, PIERSTRAND_KIND_SILENCE, text, length, room)
#define SILENCE(frame, slot) SILENT(frame, slot, 0, PIERSTRAND_BYTES_MESSAGE)

/* ---- The parts of a receiver. */

/* 64 bits of an SCH/H, from its byte `from` on. */
static uint64_t half(const uint8_t *both, size_t from)
{
	uint64_t it = 0;

	for (size_t i = 0; i < 8; i++)
		it = it << 8 | both[PIERSTRAND_BYTES_SCH_S + from + i];
	return it;
}

/* An SCH/H without its countdown, two bits at `bit`: two numbers of 64 bits. */
#define RAW(both, bit) half(both, 0) & ~((uint64_t)3 << (62 - (bit))), half(both, 8)
#define UNFRAGMENTED_RAW(both) RAW(both, 12)
#define SHORT_RAW UNFRAGMENTED_RAW(short_header)
#define LONG_RAW RAW(long_header, 16)

/*
 * Earlier headers: how many, and three numbers of each, its SCH/H without the countdown and the countdown of a copy
 * in the next slot; 0 after them.
 */
#define NEARS 7
#define PLACES (3 * NEARS)
#define NEAR(count, ...) count, ((const uint64_t[PLACES]){__VA_ARGS__})
#define NO_NEAR NEAR(0, 0)

/* The numbers of all places. */
static void places_have(const uint64_t *numbers)
{
	const uint8_t *places = in(&receivers[0]) + offsetof(struct pierstrand_receiver, near.places);

	for (size_t i = 0; i < PLACES; i++) {
		uint64_t place;

		memcpy(&place, places + i * sizeof place, sizeof place);
		IS(place, numbers[i]);
	}
}

/* The first `bits` of the text, and 0 after them. */
static void store_has(size_t bits)
{
	const uint8_t *store = in(&receivers[0]) + offsetof(struct pierstrand_receiver, assembly.store);

	for (size_t i = 0; i < PIERSTRAND_BYTES_MESSAGE; i++) {
		size_t left = bits < 8 * i ? 0 : bits - 8 * i;

		IS(store[i], left >= 8 ? text[i] : text[i] & (uint8_t)(0xFF00 >> left));
	}
}

/* ---- The pairs of an index: source 1, and references down from `newest`; 0 after them. */
static void index_has(size_t count, uint32_t newest)
{
	HOLDS(bookings, in(&indexes[0]), count, 0);
	for (size_t i = 0; i < PIERSTRAND_PAIRS; i++) {
		const uint8_t *pairs = in(&indexes[0]) + offsetof(struct pierstrand_bookings, pairs);
		uint32_t pair;

		memcpy(&pair, pairs + i * sizeof pair, sizeof pair);
		IS(pair, i < count ? 256 + newest - i : 0);
	}
}

/* ---- The calls. */

static void builds(void)
{
	struct pierstrand_block_count b;
	struct pierstrand_due_frame d;

	for (size_t i = 0; i < sizeof text; i++)
		text[i] = (uint8_t)(0x1B + 37 * i);
	memset(blocks, 0x5A, sizeof blocks);
	b = pierstrand_build_blocks(short_sync, 2, short_fields, SHORT_BITS, text, sizeof text, blocks, sizeof blocks);
	HOLDS(block_count, &b, 0, 0);
	IS(memcmp(blocks, short_header, sizeof short_header), 0);
	IS(blocks[HEADER_BYTES], 0x5A);
	b = pierstrand_build_blocks(long_sync, 3, long_fields, LONG_BITS, text, LONG_BITS / 8, blocks, sizeof blocks);
	HOLDS(block_count, &b, PIERSTRAND_FAULT_RANGE, 0);
	IS(memcmp(blocks, short_header, sizeof short_header), 0);
	b = pierstrand_build_blocks(long_sync, 3, long_fields, LONG_BITS, text, LONG_BITS / 8 + 1,
				    blocks, sizeof blocks);
	HOLDS(block_count, &b, 0, 9);
	IS(memcmp(blocks, long_header, sizeof long_header), 0);
	IS(*CONTINUATION(9), 0x5A);

	d = pierstrand_find_due_frame(13, 3, 8);
	HOLDS(due_frame, &d, 0, 8);
	d = pierstrand_find_due_frame(19, 3, 8);
	HOLDS(due_frame, &d, PIERSTRAND_FAULT_FRAME, 0);
}

static void reads(void)
{
	HOLDS(header, READ(long_header), 0, 11, 1, 0, 13, 1, 9, 3, LONG_FIELDS, 121, 3);
	HOLDS(header, READ(short_header), 0, 14, 3, 2, 13, 0, 0, 2, SHORT_FIELDS, 104, SHORT_BITS);
	HOLDS(continuation, continuation_of(CONTINUATION(0), PIERSTRAND_BYTES_SCH_F), 0, 0, 4, 264);
	HOLDS(continuation, continuation_of(CONTINUATION(8), PIERSTRAND_BYTES_SCH_F), 0, 1, 4, 100);
}

#define SETTINGS INDIVIDUAL, GROUP, MNI
#define NO_ASSEMBLY NO_FIELDS, 0, 0, 0, 0, 0, 0, 0, 0, 0, 0
#define LONG_OPEN(again, kept, bits) LONG_FIELDS, LONG_RAW, 1, again, 8, 13, 3, kept, bits, 0
#define RECEIVER_HOLDS(...) RECEIVER_HAS(__VA_ARGS__) /* so that NEAR is two of them */
#define RECEIVER_HAS(frame, slot, count, places, ...) do { \
	HOLDS(receiver, in(&receivers[0]), SETTINGS, frame, slot, count, 0, __VA_ARGS__); \
	places_have(places); \
} while (0)

/* The short message's header in another place, to this address, for the first `bits` of the text. */
static void put_header(uint8_t *both, uint8_t frame, uint8_t slot, uint8_t countdown, uint32_t to, size_t bits)
{
	struct pierstrand_sync s = short_sync;
	struct pierstrand_fields f = short_fields;

	s.frame = frame;
	s.slot = slot - 1;
	f.destination.ssi = to;
	IS(pierstrand_build_blocks(s, countdown, f, bits, text, sizeof text, both, HEADER_BYTES).fault, 0);
}

/* Two messages by turns: each one's copy comes after a header of the other. */
static void hears_two(void)
{
	uint8_t one[HEADER_BYTES], other[HEADER_BYTES];

	put_header(one, 13, 1, 1, GROUP, SHORT_BITS);
	put_header(other, 13, 3, 3, INDIVIDUAL, SHORT_BITS - 1);
	HOLDS(answer, HEARD(13, 1, one), PIERSTRAND_OUTCOME_UNFRAGMENTED, 0, 0, SHORT_BITS, SHORT_FIELDS);
	RECEIVER_HOLDS(13, 1, NEAR(1, SHORT_RAW, 1), NO_ASSEMBLY);
	HOLDS(answer, HEARD(13, 3, other), PIERSTRAND_OUTCOME_UNFRAGMENTED, 0, 0, SHORT_BITS - 1, SHORT_TO(INDIVIDUAL));
	RECEIVER_HOLDS(13, 3, NEAR(2, SHORT_RAW, 0, UNFRAGMENTED_RAW(other), 2), NO_ASSEMBLY);
	put_header(one, 14, 1, 0, GROUP, SHORT_BITS);
	put_header(other, 14, 3, 2, INDIVIDUAL, SHORT_BITS - 1);
	HOLDS(answer, HEARD(14, 1, one), PIERSTRAND_OUTCOME_COPY, 0, 0, 0, NO_FIELDS);
	RECEIVER_HOLDS(14, 1, NEAR(2, SHORT_RAW, 0, UNFRAGMENTED_RAW(other), 2), NO_ASSEMBLY);
	HOLDS(answer, HEARD(14, 3, other), PIERSTRAND_OUTCOME_COPY, 0, 0, 0, NO_FIELDS);
	RECEIVER_HOLDS(14, 3, NEAR(1, UNFRAGMENTED_RAW(other), 1), NO_ASSEMBLY);

	/* The first one can have no copy any more: it is a message again, and has none in a new frame. */
	put_header(one, 15, 3, 0, GROUP, SHORT_BITS);
	HOLDS(answer, SILENCE(15, 1), PIERSTRAND_OUTCOME_NOTHING, 0, 0, 0, NO_FIELDS);
	HOLDS(answer, HEARD(15, 3, one), PIERSTRAND_OUTCOME_UNFRAGMENTED, 0, 0, SHORT_BITS, SHORT_FIELDS);
	RECEIVER_HOLDS(15, 3, NEAR(1, UNFRAGMENTED_RAW(other), 0), NO_ASSEMBLY);
}

/* Seven messages in seven slots fill all places. A copy of the first; with its frame the first two go out. A break. */
static void hears_seven(void)
{
	uint8_t both[HEADER_BYTES];
	uint64_t places[PLACES + 2 * 3] = {0};

	for (uint8_t i = 0; i < NEARS; i++) {
		uint8_t frame = 13 + i / 2, slot = i % 2 ? 3 : 1;
		uint32_t to = i % 2 ? INDIVIDUAL : GROUP;

		put_header(both, frame, slot, 3, to, SHORT_BITS - i);
		memcpy(places + 3 * i, (const uint64_t[]){UNFRAGMENTED_RAW(both), 3}, 3 * sizeof places[0]);
		for (size_t k = 0; k <= i && slot == 3; k++)
			places[3 * k + 2]--;
		HOLDS(answer, HEARD(frame, slot, both), PIERSTRAND_OUTCOME_UNFRAGMENTED, 0, 0, SHORT_BITS - i,
		      SHORT_TO(to));
		RECEIVER_HOLDS(frame, slot, i + 1, places, NO_ASSEMBLY);
	}
	put_header(both, 16, 3, 0, GROUP, SHORT_BITS);
	HOLDS(answer, HEARD(16, 3, both), PIERSTRAND_OUTCOME_COPY, 0, 0, 0, NO_FIELDS);
	for (size_t k = 2; k < NEARS; k++)
		places[3 * k + 2]--;
	RECEIVER_HOLDS(16, 3, NEARS - 2, places + 2 * 3, NO_ASSEMBLY);
	HOLDS(answer, SILENCE(13, 1), PIERSTRAND_OUTCOME_NOTHING, 0, 0, 0, NO_FIELDS);
	RECEIVER_HOLDS(13, 1, NO_NEAR, NO_ASSEMBLY);
}

/*
 * Messages of three blocks that do not come to their end: 22 DM-SDS UDATA, 23 DM-SDS DATA, 24 DM-SDS ACK. Their
 * headers have room for 17, 17 and 24 bits of them, and for 24 more where the source is absent.
 */
#define LOST_BITS 600
#define DATA_SOURCE 0x654321
#define ACK_SOURCE 0xFEDCBA
#define NO_LOSS 0, 0, 0

static uint8_t sds[PIERSTRAND_BYTES_BLOCKS];
#define SDS_CONTINUATION(i) (sds + HEADER_BYTES + PIERSTRAND_BYTES_SCH_F * (i))

/* The blocks of one from this source; 0 is absent. */
static const uint8_t *put_sds(uint8_t frame, uint8_t slot, uint8_t type, uint32_t source)
{
	struct pierstrand_sync s = long_sync;
	struct pierstrand_fields f = {
		.destination = {.kind = 0, .ssi = GROUP}, .source = {.kind = source != 0 ? 1 : 2, .ssi = source},
		.mni = MNI, .message_type = type, .width = type == 24 ? 1 : 8, .elements = 1};
	struct pierstrand_block_count b;

	s.frame = frame;
	s.slot = slot - 1;
	b = pierstrand_build_blocks(s, 0, f, LOST_BITS, text, sizeof text, sds, sizeof sds);
	HOLDS(block_count, &b, 0, 3);
	return sds;
}

#define LOSES_NOTHING(it, outcome, fault) HOLDS(answer, it, outcome, 0, fault, 0, NO_FIELDS, NO_LOSS)
#define LOSES(it, outcome, ...) HOLDS(answer, it, outcome, 1, 0, 0, NO_FIELDS, __VA_ARGS__)

static void hears_lost(void)
{
	uint8_t both[HEADER_BYTES];

	/* A DM-SDS DATA. A repeat of its header loses nothing, nor does what is refused. The second block is missed. */
	LOSES_NOTHING(HEARD(3, 1, put_sds(3, 1, 23, DATA_SOURCE)), PIERSTRAND_OUTCOME_OPENED, 0);
	LOSES_NOTHING(HEARD(3, 3, put_sds(3, 3, 23, DATA_SOURCE)), PIERSTRAND_OUTCOME_OPENED, 0);
	LOSES_NOTHING(BLOCK(4, SDS_CONTINUATION(0)), PIERSTRAND_OUTCOME_KEPT, 0);
	LOSES_NOTHING(SILENCE(4, 3), PIERSTRAND_OUTCOME_NOTHING, 0);
	LOSES_NOTHING(SILENCE(19, 1), 0, PIERSTRAND_FAULT_REPORT_FRAME);
	LOSES_NOTHING(SILENCE(5, 2), 0, PIERSTRAND_FAULT_REPORT_SLOT);
	LOSES_NOTHING(SILENT(5, 1, 1, PIERSTRAND_BYTES_MESSAGE), 0, PIERSTRAND_FAULT_LENGTH);
	LOSES_NOTHING(SILENT(5, 1, 0, PIERSTRAND_BYTES_MESSAGE - 1), 0, PIERSTRAND_FAULT_BUFFER);
	store_has(17 + 264);
	LOSES(SILENCE(5, 1), PIERSTRAND_OUTCOME_NOTHING, DATA_SOURCE, 23, 17 + 264);
	store_has(0);
	LOSES_NOTHING(SILENCE(5, 3), PIERSTRAND_OUTCOME_NOTHING, 0);

	/* A DM-SDS ACK, and a break before its first block. */
	LOSES_NOTHING(HEARD(6, 1, put_sds(6, 1, 24, ACK_SOURCE)), PIERSTRAND_OUTCOME_OPENED, 0);
	LOSES(SILENCE(11, 3), PIERSTRAND_OUTCOME_NOTHING, ACK_SOURCE, 24, 24);

	/* One without a source, and the short message where its second block is due: both are told of. */
	LOSES_NOTHING(HEARD(11, 1, put_sds(11, 1, 24, 0)), PIERSTRAND_OUTCOME_OPENED, 0);
	LOSES_NOTHING(SILENCE(11, 3), PIERSTRAND_OUTCOME_NOTHING, 0);
	LOSES_NOTHING(BLOCK(12, SDS_CONTINUATION(0)), PIERSTRAND_OUTCOME_KEPT, 0);
	LOSES_NOTHING(SILENCE(12, 3), PIERSTRAND_OUTCOME_NOTHING, 0);
	put_header(both, 13, 1, 2, GROUP, SHORT_BITS);
	HOLDS(answer, HEARD(13, 1, both), PIERSTRAND_OUTCOME_UNFRAGMENTED, 1, 0, SHORT_BITS, SHORT_FIELDS,
	      0, 24, 48 + 264);

	/* A DM-SDS DATA that ends at the header of a DM-SDS UDATA. Of that one nothing is told when it is lost. */
	LOSES_NOTHING(HEARD(13, 3, put_sds(13, 3, 23, DATA_SOURCE)), PIERSTRAND_OUTCOME_OPENED, 0);
	LOSES(HEARD(14, 1, put_sds(14, 1, 22, ACK_SOURCE)), PIERSTRAND_OUTCOME_OPENED, DATA_SOURCE, 23, 17);
	LOSES_NOTHING(SILENCE(14, 3), PIERSTRAND_OUTCOME_NOTHING, 0);
	LOSES(SILENCE(15, 1), PIERSTRAND_OUTCOME_NOTHING, NO_LOSS);
	RECEIVER_HOLDS(15, 1, NEAR(1, SHORT_RAW, 0), NO_ASSEMBLY);
}

static void hears(void)
{
	uint8_t in_slot_1[sizeof short_header];
	const uint8_t *it;

	HOLDS(fresh_receiver, fresh_of(1 << 24, 1, 2), PIERSTRAND_FAULT_RANGE, 0, 0, 0, 0, 0, 0, 0, NO_ASSEMBLY);
	it = fresh_of(SETTINGS);
	HOLDS(fresh_receiver, it, 0, SETTINGS, 0, 0, 0, 0, NO_ASSEMBLY);
	fill(receivers);
	for (int k = 0; k < 2; k++)
		memcpy(in(&receivers[k]), it + offsetof(struct pierstrand_fresh_receiver, receiver),
		       sizeof (struct pierstrand_receiver));
	RECEIVER_HOLDS(0, 0, NO_NEAR, NO_ASSEMBLY);
	store_has(0);
	if (wrong)
		return;
	plain.receiver = pierstrand_make_receiver(SETTINGS).receiver;

	/* The short message: its header is kept, and no assembly. Then a break. */
	HOLDS(answer, HEARD(13, 3, short_header), PIERSTRAND_OUTCOME_UNFRAGMENTED, 0, 0, SHORT_BITS, SHORT_FIELDS);
	RECEIVER_HOLDS(13, 3, NEAR(1, SHORT_RAW, 1), NO_ASSEMBLY);
	HOLDS(answer, SILENCE(12, 3), PIERSTRAND_OUTCOME_NOTHING, 0, 0, 0, NO_FIELDS);
	RECEIVER_HOLDS(12, 3, NO_NEAR, NO_ASSEMBLY);

	/* The long one begins, and the short one comes between. */
	HOLDS(answer, HEARD(13, 1, long_header), PIERSTRAND_OUTCOME_OPENED, 0, 0, 0, NO_FIELDS);
	RECEIVER_HOLDS(13, 1, NO_NEAR, LONG_OPEN(4, 0, 3));
	HOLDS(answer, HEARD(13, 3, short_header), PIERSTRAND_OUTCOME_UNFRAGMENTED, 0, 0, SHORT_BITS, SHORT_FIELDS);
	RECEIVER_HOLDS(13, 3, NEAR(1, SHORT_RAW, 1), LONG_OPEN(4, 0, 3));
	store_has(3);

	/* Refused: the receiver is as before. */
	HOLDS(answer, SILENCE(19, 1), 0, 0, PIERSTRAND_FAULT_REPORT_FRAME, 0, NO_FIELDS);
	HOLDS(answer, SILENCE(14, 2), 0, 0, PIERSTRAND_FAULT_REPORT_SLOT, 0, NO_FIELDS);
	HOLDS(answer, SILENT(14, 1, 1, PIERSTRAND_BYTES_MESSAGE), 0, 0, PIERSTRAND_FAULT_LENGTH, 0, NO_FIELDS);
	HOLDS(answer, SILENT(14, 1, 0, PIERSTRAND_BYTES_MESSAGE - 1), 0, 0, PIERSTRAND_FAULT_BUFFER, 0, NO_FIELDS);
	RECEIVER_HOLDS(13, 3, NEAR(1, SHORT_RAW, 1), LONG_OPEN(4, 0, 3));
	store_has(3);

	/* A header that names another frame; then nothing, up to the first due slot. */
	HOLDS(answer, HEARD(14, 1, long_header), PIERSTRAND_OUTCOME_NOTHING, 0, PIERSTRAND_FAULT_PLACE, 0, NO_FIELDS);
	RECEIVER_HOLDS(14, 1, NEAR(1, SHORT_RAW, 1), LONG_OPEN(3, 0, 3));
	SILENCE(14, 3);
	RECEIVER_HOLDS(14, 3, NEAR(1, SHORT_RAW, 0), LONG_OPEN(3, 0, 3));
	SILENCE(15, 1);
	RECEIVER_HOLDS(15, 1, NEAR(1, SHORT_RAW, 0), LONG_OPEN(2, 0, 3));
	SILENCE(15, 3);
	RECEIVER_HOLDS(15, 3, NO_NEAR, LONG_OPEN(2, 0, 3));
	SILENCE(16, 1);
	HOLDS(answer, SILENCE(16, 3), PIERSTRAND_OUTCOME_NOTHING, 0, 0, 0, NO_FIELDS);
	RECEIVER_HOLDS(16, 3, NO_NEAR, LONG_OPEN(1, 0, 3));

	/* Its blocks: frame 17, then 1 to 8. */
	for (uint8_t i = 0; i < 9; i++) {
		uint8_t frame = pierstrand_find_due_frame(13, 3, i).frame;

		IS(frame, i == 0 ? 17 : i);
		it = BLOCK(frame, CONTINUATION(i));
		if (i == 8)
			break;
		HOLDS(answer, it, PIERSTRAND_OUTCOME_KEPT, 0, 0, 0, NO_FIELDS);
		RECEIVER_HOLDS(frame, 1, NO_NEAR, LONG_OPEN(0, i + 1, 3 + 264 * (i + 1)));
		store_has(3 + 264 * ((size_t)i + 1));
		SILENCE(frame, 3);
		if (frame == 17) {
			SILENCE(18, 1);
			SILENCE(18, 3);
		}
	}
	HOLDS(answer, it, PIERSTRAND_OUTCOME_JOINED, 0, 0, LONG_BITS, LONG_FIELDS);
	RECEIVER_HOLDS(8, 1, NO_NEAR, NO_ASSEMBLY);
	store_has(0);

	/* After a break the short one in slot 1, and its copy in slot 3; then an assembly that a break drops. */
	memcpy(in_slot_1, short_header, sizeof in_slot_1);
	in_slot_1[1] ^= 8;
	HOLDS(answer, HEARD(13, 1, in_slot_1), PIERSTRAND_OUTCOME_UNFRAGMENTED, 0, 0, SHORT_BITS, SHORT_FIELDS);
	RECEIVER_HOLDS(13, 1, NEAR(1, SHORT_RAW, 2), NO_ASSEMBLY);
	HOLDS(answer, HEARD(13, 3, short_header), PIERSTRAND_OUTCOME_COPY, 0, 0, 0, NO_FIELDS);
	RECEIVER_HOLDS(13, 3, NEAR(1, SHORT_RAW, 1), NO_ASSEMBLY);
	HOLDS(answer, HEARD(13, 1, long_header), PIERSTRAND_OUTCOME_OPENED, 0, 0, 0, NO_FIELDS);
	RECEIVER_HOLDS(13, 1, NO_NEAR, LONG_OPEN(4, 0, 3));
	HOLDS(answer, SILENCE(14, 1), PIERSTRAND_OUTCOME_NOTHING, 1, 0, 0, NO_FIELDS, NO_LOSS);
	RECEIVER_HOLDS(14, 1, NO_NEAR, NO_ASSEMBLY);
	hears_two();
	hears_seven();
	hears_lost();
}

static void transports(void)
{
	static uint8_t out[PIERSTRAND_BYTES_SDU + 8];
	struct pierstrand_message longest = tls[0].message;
	struct pierstrand_sdu s;

	for (size_t i = 0; i < sizeof tls / sizeof tls[0]; i++) {
		const struct tl *tl = &tls[i];
		struct pierstrand_fields f = fields_of(~0u, tl);
		size_t length = (tl->bits + 7) / 8, user = (tl->user + 7) / 8;
		uint64_t read[COUNT(transport)] = {0};

		memset(out, 0x5A, sizeof out);
		s = pierstrand_build_transport(tl->type, tl->fcs, tl->message, tl->user, text, user, out, length - 1);
		HOLDS(sdu, &s, PIERSTRAND_FAULT_LENGTH, 0);
		s = pierstrand_build_transport(tl->type, tl->fcs, tl->message, 8 * user + 1, text, user,
					       out, sizeof out);
		HOLDS(sdu, &s, PIERSTRAND_FAULT_RANGE, 0);
		s = pierstrand_build_transport(21, tl->fcs, tl->message, tl->user, text, user, out, sizeof out);
		HOLDS(sdu, &s, PIERSTRAND_FAULT_NOT_SDS_TL, 0);
		IS(out[0], 0x5A);
		s = pierstrand_build_transport(tl->type, tl->fcs, tl->message, tl->user, text, user, out, length);
		HOLDS(sdu, &s, 0, tl->bits);
		IS(memcmp(out, tl->bytes, length), 0);
		for (size_t k = length; k < sizeof out; k++)
			IS(out[k], 0x5A);

		memcpy(read + 1, tl->numbers, sizeof tl->numbers);
		read[COUNT(transport) - 2] = tl->first;
		read[COUNT(transport) - 1] = tl->user;
		holds(&transport, transport_of(f, tl->bits, tl->bytes, length), read);
		HOLDS(transport, transport_of(f, 8 * length + 1, tl->bytes, length),
		      PIERSTRAND_FAULT_RANGE, NO_MESSAGE);
		HOLDS(transport, transport_of(f, 8, tl->bytes, length), PIERSTRAND_FAULT_NOT_SDS_TL, NO_MESSAGE);
		HOLDS(transport, transport_of(f, tl->bits - 1, tl->bytes, length),
		      PIERSTRAND_FAULT_TOO_SHORT, NO_MESSAGE);
	}

	/* The longest DM-SDU: user defined data 4 of 2,047 bits, and one more. */
	longest.storage = longest.validity = longest.forward = 0;
	longest.address = 0;
	memset(out, 0x5A, sizeof out);
	s = pierstrand_build_transport(23, 1, longest, 2047 - 24 + 1, text, sizeof text, out, sizeof out);
	HOLDS(sdu, &s, PIERSTRAND_FAULT_RANGE, 0);
	s = pierstrand_build_transport(23, 1, longest, 2047 - 24, text, sizeof text, out, PIERSTRAND_BYTES_SDU - 1);
	HOLDS(sdu, &s, PIERSTRAND_FAULT_LENGTH, 0);
	IS(out[0], 0x5A);
	s = pierstrand_build_transport(23, 1, longest, 2047 - 24, text, sizeof text, out, PIERSTRAND_BYTES_SDU);
	HOLDS(sdu, &s, 0, 2147);
	IS(out[PIERSTRAND_BYTES_SDU], 0x5A);
}

/* Transfers from source 1, of which only the reference changes: it stands in bits 84 to 91. */
static void books(void)
{
	struct tl tl = tls[0];
	const uint8_t *it = fresh_bookings_of();

	HOLDS(bookings, it, 0, 0);
	fill(indexes);
	for (int k = 0; k < 2; k++)
		memcpy(in(&indexes[k]), it, sizeof (struct pierstrand_bookings));
	index_has(0, 0);
	if (wrong)
		return;
	plain_index = pierstrand_make_bookings();

	tl.fcs = 0;
	for (uint32_t i = 1; i <= PIERSTRAND_PAIRS + 2; i++) {
		tl.bytes[10] = (uint8_t)(0xB0 | i >> 4);
		tl.bytes[11] = (uint8_t)(i << 4 | 0x0A);
		it = booked_of(fields_of(1, &tl), tl.bits - 32, tl.bytes, sizeof tl.bytes);
		HOLDS(booking, it, PIERSTRAND_MARK_BOOKED, 0, TRANSFER_WITH(i), 148, 13);
		index_has(i < PIERSTRAND_PAIRS ? i : PIERSTRAND_PAIRS, i);
	}

	/* The newest again; the short report and what is refused book nothing. */
	it = booked_of(fields_of(1, &tl), tl.bits - 32, tl.bytes, sizeof tl.bytes);
	HOLDS(booking, it, PIERSTRAND_MARK_AGAIN, 0, TRANSFER_WITH(PIERSTRAND_PAIRS + 2), 148, 13);
	it = booked_of(fields_of(1, &tls[3]), tls[3].bits, tls[3].bytes, sizeof tls[3].bytes);
	HOLDS(booking, it, PIERSTRAND_MARK_NONE, 0, SHORT_REPORT_NUMBERS, 0, 0);
	it = booked_of(fields_of(1 << 24, &tl), tl.bits - 32, tl.bytes, sizeof tl.bytes);
	HOLDS(booking, it, PIERSTRAND_MARK_NONE, PIERSTRAND_FAULT_RANGE, NO_MESSAGE, 0, 0);
	it = booked_of(fields_of(2, &tl), 0, tl.bytes, sizeof tl.bytes);
	HOLDS(booking, it, PIERSTRAND_MARK_NONE, PIERSTRAND_FAULT_NOT_SDS_TL, NO_MESSAGE, 0, 0);
	index_has(PIERSTRAND_PAIRS, PIERSTRAND_PAIRS + 2);
}

/*
 * Steps over the text's first bytes, 1B 40 65 8A AF D4 F9 1E 43. From bit 3 on: 11011 is 27, then 01000000 is 64,
 * then 011 is 3, and so on to the end of what is lent.
 */
static void steps(void)
{
	HOLDS(step, TAKEN(9, 3, 5), 0, 27, 8);
	HOLDS(step, TAKEN(9, 8, 8), 0, 0x40, 16);
	HOLDS(step, TAKEN(9, 16, 3), 0, 3, 19);
	HOLDS(step, TAKEN(9, 4, 56), 0, 0xB40658AAFD4F91, 60);
	HOLDS(step, TAKEN(9, 16, 56), 0, 0x658AAFD4F91E43, 72);
	HOLDS(step, TAKEN(9, 71, 1), 0, 1, 72);
	HOLDS(step, TAKEN(9, 72, 0), 0, 0, 72);
	HOLDS(step, TAKEN(9, 72, 1), PIERSTRAND_FAULT_LENGTH, 0, 72);
	HOLDS(step, TAKEN(9, 70, 3), PIERSTRAND_FAULT_LENGTH, 0, 70);
	HOLDS(step, TAKEN(9, 70, 57), PIERSTRAND_FAULT_RANGE, 0, 70);
	HOLDS(step, TAKEN(9, 3, ~(size_t)0), PIERSTRAND_FAULT_RANGE, 0, 3);
	HOLDS(step, TAKEN(9, ~(size_t)0, 0), 0, 0, ~(size_t)0);
	HOLDS(step, TAKEN(9, ~(size_t)0, 8), PIERSTRAND_FAULT_LENGTH, 0, ~(size_t)0);
	HOLDS(step, TAKEN(0, 0, 1), PIERSTRAND_FAULT_LENGTH, 0, 0);
	HOLDS(step, SKIPPED(9, 3, 5), 0, 0, 8);
	HOLDS(step, SKIPPED(9, 3, 69), 0, 0, 72);
	HOLDS(step, SKIPPED(9, 3, 70), PIERSTRAND_FAULT_LENGTH, 0, 3);
	HOLDS(step, SKIPPED(9, 80, 0), 0, 0, 80);
	HOLDS(step, SKIPPED(9, 0, ~(size_t)0), PIERSTRAND_FAULT_LENGTH, 0, 0);
	HOLDS(step, SKIPPED(sizeof text, 1, 4095), 0, 0, 4096);
	IS(pierstrand_count_left(text, 9, 0), 72);
	IS(pierstrand_count_left(text, 9, 71), 1);
	IS(pierstrand_count_left(text, 9, 72), 0);
	IS(pierstrand_count_left(text, 9, ~(size_t)0), 0);
	IS(pierstrand_count_left(text, 0, 0), 0);
	IS(pierstrand_count_left(text, sizeof text, 5), 4091);
}

/* The other faults: bits of the long header turned, other lengths, the longest message. */
static void faults(void)
{
	static const struct {
		uint8_t at, bits, fault;
	} turned[] = {
		{7, 0x01, PIERSTRAND_FAULT_PAD}, {0, 0x20, PIERSTRAND_FAULT_SYSTEM},
		{0, 0x04, PIERSTRAND_FAULT_SYNC_TYPE}, {0, 0x01, PIERSTRAND_FAULT_COMMUNICATION},
		{2, 0x08, PIERSTRAND_FAULT_ENCRYPTION}, {1, 0x02, PIERSTRAND_FAULT_FRAME},
		{10, 0x30, PIERSTRAND_FAULT_ADDRESS_TYPE}, {19, 0x01, PIERSTRAND_FAULT_MESSAGE_TYPE},
		{9, 0x09, PIERSTRAND_FAULT_SLOT_COUNT}, {9, 0x20, PIERSTRAND_FAULT_FILL},
	};
	struct pierstrand_fields least = {.destination = {.kind = 2}, .source = {.kind = 2}, .message_type = 21};
	size_t most = 120 - 47 + 15 * 264;
	uint8_t bytes[PIERSTRAND_BYTES_SCH_F];
	struct pierstrand_block_count b;

	for (size_t i = 0; i < sizeof turned / sizeof turned[0]; i++) {
		memcpy(bytes, long_header, sizeof long_header);
		bytes[turned[i].at] ^= turned[i].bits;
		HOLDS(header, READ(bytes), turned[i].fault, NO_HEADER);
	}
	memcpy(bytes, CONTINUATION(0), sizeof bytes);
	bytes[0] ^= 0x80;
	HOLDS(continuation, continuation_of(bytes, PIERSTRAND_BYTES_SCH_F), PIERSTRAND_FAULT_PDU_TYPE, 0, 0, 0);
	HOLDS(continuation, continuation_of(bytes, PIERSTRAND_BYTES_SCH_F - 1), PIERSTRAND_FAULT_LENGTH, 0, 0, 0);
	HOLDS(header, header_in(long_header, PIERSTRAND_BYTES_SCH_S - 1, PIERSTRAND_BYTES_SCH_H),
	      PIERSTRAND_FAULT_LENGTH, NO_HEADER);
	HOLDS(header, header_in(long_header, PIERSTRAND_BYTES_SCH_S, PIERSTRAND_BYTES_SCH_H - 1),
	      PIERSTRAND_FAULT_LENGTH, NO_HEADER);
	IS(pierstrand_find_due_frame(13, 4, 0).fault, PIERSTRAND_FAULT_RANGE);
	IS(pierstrand_find_due_frame(13, 3, 15).fault, PIERSTRAND_FAULT_TOO_LONG);

	memset(blocks, 0x5A, sizeof blocks);
	b = pierstrand_build_blocks(long_sync, 0, least, most, text, sizeof text, blocks, PIERSTRAND_BYTES_BLOCKS - 1);
	HOLDS(block_count, &b, PIERSTRAND_FAULT_LENGTH, 0);
	b = pierstrand_build_blocks(long_sync, 0, least, most + 1, text, sizeof text, blocks, sizeof blocks);
	HOLDS(block_count, &b, PIERSTRAND_FAULT_TOO_LONG, 0);
	IS(blocks[0], 0x5A);
	b = pierstrand_build_blocks(long_sync, 0, least, most, text, sizeof text, blocks, PIERSTRAND_BYTES_BLOCKS);
	HOLDS(block_count, &b, 0, 15);
	IS(blocks[PIERSTRAND_BYTES_BLOCKS - 1] & 0x0F, 0);
	IS(blocks[PIERSTRAND_BYTES_BLOCKS], 0x5A);
}

int main(void)
{
	print_shape(&sync, &set_sync);
	print_shape(&address, &set_address);
	print_shape(&fields, &set_fields);
	print_shape(&header, &set_header);
	print_shape(&continuation, &set_continuation);
	print_shape(&block_count, &set_block_count);
	print_shape(&due_frame, &set_due_frame);
	print_shape(&loss, &set_loss);
	print_shape(&answer, &set_answer);
	print_shape(&receiver, &set_receiver);
	print_shape(&fresh_receiver, &set_fresh_receiver);
	print_shape(&message, &set_message);
	print_shape(&transport, &set_transport);
	print_shape(&sdu, &set_sdu);
	print_shape(&bookings, &set_bookings);
	print_shape(&booking, &set_booking);
	print_shape(&step, &set_step);
	builds();
	reads();
	hears();
	faults();
	transports();
	books();
	steps();
	printf("%lu held, %lu wrong\n", held, wrong);
	return wrong != 0;
}
