/*
 * A unit's slot handler over Pierstrand, in plain C99. examples/run builds and runs it.
 *
 * slot_handler, hand_over, print_hire and tell_lost are the part to copy. The radio calls slot_handler once
 * for every slot 1 and every slot 3, in their order, heard or not. A message that comes out goes to hand_over,
 * which books it if it is a transfer of SDS-TL; what is booked goes to print_hire, which takes two numbers out
 * of its user data; one that is lost on the way goes to tell_lost. All else stands in for the radio: it lays
 * messages out over slots and reports these slots one by one.
 *
 * A line that starts with six numbers is one of a slot log, with some words after it: frame, slot,
 * outcome, dropped, fault, bits (docs/READING-THE-LOG.md).
 */
#include <stdio.h>
#include <string.h>

#include "pierstrand.h"

/* The unit: its own address, its group's, and its network. The sender is unit 7. */
#define INDIVIDUAL 5001
#define GROUP 8001
#define MNI 901

#define HEADER_BYTES (PIERSTRAND_BYTES_SCH_S + PIERSTRAND_BYTES_SCH_H)

static struct pierstrand_receiver receiver;
static struct pierstrand_bookings bookings;
static uint8_t message[PIERSTRAND_BYTES_MESSAGE];

static void print_line(uint8_t frame, uint8_t slot, struct pierstrand_answer a)
{
	int width = printf("%u %u %u %u %u %zu", frame, slot, a.outcome, a.dropped, a.fault, a.bits);

	printf("%*s", 16 - width, "");
}

/* The characters from any bit of the message on, up to the bit where its text ends. */
static void print_text(size_t at, size_t end)
{
	struct pierstrand_step step = pierstrand_take_bits(message, sizeof message, at, 8);

	for (; step.fault == 0 && step.at <= end; step = pierstrand_take_bits(message, sizeof message, step.at, 8))
		putchar((int)step.value);
}

/* What these units have in the user data of a transfer: a hire's number, a kit's number, and a text after them. */
#define HIRE_BITS 14
#define KIT_BITS 10

/* A field after a field, each from where the last one ended. */
static void print_hire(size_t first, size_t end)
{
	struct pierstrand_step hire = pierstrand_take_bits(message, sizeof message, first, HIRE_BITS);
	struct pierstrand_step kit = pierstrand_take_bits(message, sizeof message, hire.at, KIT_BITS);

	if (hire.fault != 0 || kit.fault != 0 || kit.at > end) {
		printf("too short for a hire");
		return;
	}
	printf("hire %u, kit %u, ", (unsigned)hire.value, (unsigned)kit.value);
	print_text(kit.at, end);
}

/* A whole message. A transfer is booked once, however often it is sent. */
static void hand_over(struct pierstrand_answer answer)
{
	struct pierstrand_booking booked =
		pierstrand_book(&bookings, answer.fields, answer.bits, message, sizeof message);
	const struct pierstrand_transport *it = &booked.transport;

	printf("from %u", answer.fields.source.ssi);
	switch (booked.mark) {
	case PIERSTRAND_MARK_BOOKED: /* here to act on it */
		printf(", reference %u, booked: ", it->message.reference);
		print_hire(it->first, it->first + it->bits);
		break;
	case PIERSTRAND_MARK_AGAIN:
		printf(", reference %u, again", it->message.reference);
		break;
	default: /* PIERSTRAND_MARK_NONE */
		if (it->fault == 0) {
			printf(", reference %u, an answer of kind %u", it->message.reference, it->message.kind);
		} else if (it->fault == PIERSTRAND_FAULT_NOT_SDS_TL) {
			printf(": "); /* not of SDS-TL: these units send plain texts too */
			print_text(0, answer.bits);
		} else {
			printf(", refused: fault %u", it->fault);
		}
	}
}

/*
 * A DM-SDS DATA or DM-SDS ACK that was coming in and is lost: here to ask for it again, or to tell who waits for it.
 * A repeat of its header may still bring it.
 */
static void tell_lost(struct pierstrand_loss lost)
{
	printf("; a message from %u is lost: type %u, %zu bits were there", lost.source, lost.message_type, lost.bits);
}

static void slot_handler(uint8_t frame, uint8_t slot, uint8_t kind, const uint8_t *blocks, size_t length)
{
	struct pierstrand_answer answer =
		pierstrand_hear(&receiver, frame, slot, kind, blocks, length, message, sizeof message);

	print_line(frame, slot, answer);
	switch (answer.outcome) {
	case PIERSTRAND_OUTCOME_UNFRAGMENTED:
	case PIERSTRAND_OUTCOME_JOINED: /* a whole message, in both cases */
		hand_over(answer);
		break;
	case PIERSTRAND_OUTCOME_OPENED:
		printf("a longer message begins");
		break;
	case PIERSTRAND_OUTCOME_KEPT:
		printf("a block of it, kept");
		break;
	case PIERSTRAND_OUTCOME_COPY:
		printf("a copy, not handed over again");
		break;
	default: /* PIERSTRAND_OUTCOME_NOTHING */
		printf("%s", answer.fault != 0 ? "a fault: nothing was taken" : "nothing for this unit");
	}
	if (answer.lost.message_type != 0)
		tell_lost(answer.lost);
	else if (answer.dropped != 0) /* one of another type */
		printf("; the message that was coming in is lost");
	printf("\n");
}

/* What is on the air, by frame and slot. Kind 0: nothing. */
static struct {
	uint8_t kind;
	uint8_t bytes[PIERSTRAND_BYTES_SCH_F];
} air[19][4];

static void put(uint8_t frame, uint8_t slot, uint8_t kind, const uint8_t *bytes, size_t length)
{
	air[frame][slot].kind = kind;
	memcpy(air[frame][slot].bytes, bytes, length);
}

/*
 * Lays `n` bits of a message out from `frame` on. Its header goes into slots 1 and 3 of this frame and of
 * `countdown` frames more, each a build of its own; each block goes into slot 1 of its due frame.
 */
static void lay_out(const uint8_t *sent, size_t n, uint8_t fcs, uint8_t frame, uint8_t countdown)
{
	/* To this unit from unit 7, as DM-SDS DATA (23), whose elements have 8 bits; the last is the FCS flag. */
	struct pierstrand_fields fields = {
		.destination = {.kind = 0, .ssi = INDIVIDUAL},
		.source = {.kind = 0, .ssi = 7},
		.mni = MNI,
		.message_type = 23,
		.width = 8,
		.elements = 0x92 | fcs,
	};
	static uint8_t out[PIERSTRAND_BYTES_BLOCKS];
	struct pierstrand_block_count built = {0, 0};

	printf(", header in");
	for (uint8_t gone = 0, at = frame; gone <= countdown; gone++, at = at % 18 + 1) {
		for (uint8_t slot = 1; slot <= 3; slot += 2) {
			struct pierstrand_sync sync = {
				.system = 13,
				.usage = 0,
				.slot = slot - 1, /* as coded: 0 is slot 1, 2 is slot 3 */
				.frame = at,
			};

			built = pierstrand_build_blocks(sync, countdown - gone, fields, n, sent, (n + 7) / 8,
							out, sizeof out);
			if (built.fault != 0) {
				printf(" refused, fault %u\n", built.fault);
				return;
			}
			put(at, slot, PIERSTRAND_KIND_HEADER, out, HEADER_BYTES);
			printf(" %u/%u", at, slot);
		}
	}
	for (uint8_t i = 0; i < built.blocks; i++) { /* the blocks are the same in each of these builds */
		struct pierstrand_due_frame due = pierstrand_find_due_frame(frame, countdown, i);

		put(due.frame, 1, PIERSTRAND_KIND_BLOCK, out + HEADER_BYTES + i * PIERSTRAND_BYTES_SCH_F,
		    PIERSTRAND_BYTES_SCH_F);
		printf("%s %u/1", i == 0 ? ", blocks in" : "", due.frame);
	}
	printf("\n");
}

/* A text as it is. */
static void send_text(const char *text, uint8_t frame, uint8_t countdown)
{
	printf("\n%zu characters", strlen(text));
	lay_out((const uint8_t *)text, 8 * strlen(text), 0, frame, countdown);
}

/* A hire, a kit and a text as the user data of a transfer, with an FCS. */
static void send_hire(unsigned hire, unsigned kit, const char *text, uint8_t reference, uint8_t frame)
{
	struct pierstrand_message transfer = {
		.kind = PIERSTRAND_SDS_TRANSFER,
		.protocol = 192,
		.request = 1,
		.reference = reference,
	};
	static uint8_t user[64], out[PIERSTRAND_BYTES_SDU];
	unsigned numbers = hire << KIT_BITS | kit; /* 24 bits: three bytes */
	size_t length = 3 + strlen(text);
	struct pierstrand_sdu sdu;

	if (length > sizeof user)
		return;
	user[0] = (uint8_t)(numbers >> 16);
	user[1] = (uint8_t)(numbers >> 8);
	user[2] = (uint8_t)numbers;
	memcpy(user + 3, text, length - 3);
	sdu = pierstrand_build_transport(23, 1, transfer, 8 * length, user, length, out, sizeof out);
	if (sdu.fault != 0) {
		printf("\na transfer is refused, fault %u\n", sdu.fault);
		return;
	}
	printf("\na transfer, reference %u, %zu bytes, %zu bits", reference, length, sdu.bits);
	lay_out(out, sdu.bits, 1, frame, 0);
}

/* Reports both slots of so many frames, from `frame` on; idle ones as silence. */
static void report(uint8_t frame, int frames)
{
	for (; frames > 0; frames--, frame = frame % 18 + 1) {
		for (uint8_t slot = 1; slot <= 3; slot += 2) {
			const uint8_t *bytes = air[frame][slot].bytes;

			if (air[frame][slot].kind == PIERSTRAND_KIND_HEADER)
				slot_handler(frame, slot, PIERSTRAND_KIND_HEADER, bytes, HEADER_BYTES);
			else if (air[frame][slot].kind == PIERSTRAND_KIND_BLOCK)
				slot_handler(frame, slot, PIERSTRAND_KIND_BLOCK, bytes, PIERSTRAND_BYTES_SCH_F);
			else
				slot_handler(frame, slot, PIERSTRAND_KIND_SILENCE, bytes, 0);
			air[frame][slot].kind = 0;
		}
	}
}

/* A report that is refused has not happened: what was coming in still comes, and the buffer is as before. */
static void refused(uint8_t frame, uint8_t slot, size_t room)
{
	static const uint8_t nothing[1];
	static uint8_t before[sizeof message];
	struct pierstrand_answer answer;
	int same;

	memcpy(before, message, sizeof before);
	answer = pierstrand_hear(&receiver, frame, slot, PIERSTRAND_KIND_SILENCE, nothing, 0, message, room);
	same = memcmp(before, message, sizeof before) == 0;
	print_line(frame, slot, answer);
	printf("refused, and the buffer %s\n", same ? "is as before" : "has changed");
}

/* Reading alone, with no receiver: the header in slot 1 of one frame, the block in slot 1 of another. */
static void read_blocks(uint8_t frame, uint8_t block_frame)
{
	const uint8_t *both = air[frame][1].bytes;
	const uint8_t *block = air[block_frame][1].bytes;
	struct pierstrand_header h = pierstrand_read_header(both, PIERSTRAND_BYTES_SCH_S,
							    both + PIERSTRAND_BYTES_SCH_S, PIERSTRAND_BYTES_SCH_H);
	struct pierstrand_continuation b = pierstrand_read_continuation(block, PIERSTRAND_BYTES_SCH_F);

	printf("header: fault %u, frame %u, slot %u, from %u to %u, blocks %u, countdown %u, bits %zu from %zu on\n",
	       h.fault, h.sync.frame, h.sync.slot + 1, h.fields.source.ssi, h.fields.destination.ssi, h.count,
	       h.countdown, h.bits, h.first);
	printf("block: fault %u, %s, bits %zu from %zu on\n",
	       b.fault, b.last ? "DMAC-END" : "DMAC-FRAG", b.bits, b.first);
}

int main(void)
{
	static const char answer[] = "Hire 4711: hammer kit 12 and drill kit 3, out 06:40, quarry 5, cage 2 ok";
	struct pierstrand_fresh_receiver fresh = pierstrand_make_receiver(INDIVIDUAL, GROUP, MNI);

	if (fresh.fault != 0) {
		printf("the unit's settings are refused: fault %u\n", fresh.fault);
		return 1;
	}
	receiver = fresh.receiver;
	bookings = pierstrand_make_bookings();
	printf("unit %d, group %d, network %d\n", INDIVIDUAL, GROUP, MNI);

	/* Frame 18 comes where the first block would be due. No block goes there: it is in frame 1. */
	send_text(answer, 16, 1);
	read_blocks(16, 3);
	report(16, 5);
	refused(3, 2, sizeof message);
	refused(3, 1, sizeof message - 1);
	report(3, 1);

	/* Short enough for the header alone, which goes out twice. */
	send_text("ok", 4, 0);
	report(4, 1);

	/* The second of its blocks, due in frame 7, is not heard: 17 bits and a block of 264 were there. */
	send_text(answer, 5, 0);
	air[7][1].kind = 0;
	report(5, 4);

	/* A hire, booked. Nobody acknowledged it, so it is sent again: another message, with the same reference. */
	send_hire(4712, 9, "with 2 blades", 47, 9);
	report(9, 2);
	send_hire(4712, 9, "with 2 blades", 47, 11);
	report(11, 2);
	return 0;
}
