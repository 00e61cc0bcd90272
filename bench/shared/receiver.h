/*
 * The receiver: what a report does once its blocks are read. Each peer includes this after
 * its own way with bits, of which it needs four functions:
 *
 *   read_header     SCH/S and SCH/H, held against a frame and a slot
 *   read_block      SCH/F
 *   join            bits of a block after those of a buffer that is zero from there on
 *   clear_countdown SCH/H but for its countdown
 */
#ifndef RECEIVER_H
#define RECEIVER_H

#include <string.h>

uint8_t dm_fresh(struct dm_receiver *r, uint32_t individual, uint32_t group, uint32_t mni)
{
	memset(r, 0, sizeof *r);
	if ((individual | group | mni) >> 24)
		return DM_RANGE;
	r->individual = individual;
	r->group = group;
	r->mni = mni;
	return 0;
}

static void close_assembly(struct dm_receiver *r)
{
	memset(r->store, 0, (r->bits + 7) / 8);
	r->bits = 0;
	r->due = 0;
	r->head_left = 0;
}

/* Ends an open assembly, if there is one, and tells of a DM-SDS DATA or DM-SDS ACK. */
static void drop(struct dm_receiver *r, struct dm_answer *answer)
{
	if (!r->due)
		return;
	answer->dropped = 1;
	if (r->fields.message_type == DM_SDS_DATA || r->fields.message_type == DM_SDS_ACK) {
		answer->lost.source = r->fields.source.ssi;
		answer->lost.message_type = r->fields.message_type;
		answer->lost.bits = r->bits;
	}
	close_assembly(r);
}

static uint8_t report_fault(const struct dm_report *report, size_t room)
{
	static const uint8_t lengths[] = {0, 0, DM_SCH_S + DM_SCH_H, DM_SCH_F};

	if (report->frame < 1 || report->frame > FRAMES)
		return DM_REPORT_FRAME;
	if (report->slot != 1 && report->slot != 3)
		return DM_REPORT_SLOT;
	if (report->kind < DM_KIND_NOTHING || report->kind > DM_KIND_BLOCK ||
	    report->length != lengths[report->kind])
		return DM_LENGTH;
	if (room < DM_STORE)
		return DM_BUFFER;
	return 0;
}

/* A frame goes by. The last header, counted already, takes the place of one that cannot be
   repeated any more. */
static void count_down(struct dm_receiver *r)
{
	for (unsigned i = r->earlier_count; i-- > 0;)
		if (--r->earlier[i].left == 0)
			r->earlier[i] = r->earlier[--r->earlier_count];
}

/* Goes on to the report's place. At a break an open assembly is dropped, and nothing heard
   before can be repeated. */
static void go_on(struct dm_receiver *r, unsigned frame, unsigned slot, struct dm_answer *answer)
{
	unsigned next = r->slot == 1 ? r->frame : r->frame % FRAMES + 1u;

	if (r->frame && (frame != next || slot == r->slot)) {
		r->earlier_count = 0;
		drop(r, answer);
	} else if (slot == 1) {
		count_down(r);
		r->head_left -= r->head_left > 0;
	}
	r->frame = frame;
	r->slot = slot;
}

static int for_unit(const struct dm_receiver *r, const struct dm_fields *f)
{
	return f->dest.type == 0 && f->mni == r->mni &&
	       (f->dest.ssi == r->individual || f->dest.ssi == r->group);
}

/* A fragmented header ends an open assembly, whoever it is for. One for this unit opens
   another; the same header once more is no drop. */
static void on_fragmented(struct dm_receiver *r, const struct dm_header *header,
			  const uint8_t *sch_h, struct dm_answer *answer)
{
	uint8_t head[DM_SCH_H];

	memcpy(head, sch_h, DM_SCH_H);
	clear_countdown(head, 1);
	if (r->head_left == header->countdown + 1 && !memcmp(head, r->head, DM_SCH_H))
		close_assembly(r);
	else
		drop(r, answer);
	if (!for_unit(r, &header->fields))
		return;

	r->due = first_due(r->frame, header->countdown);
	r->to_come = header->count;
	r->head_left = header->countdown + 1;
	memcpy(r->head, head, DM_SCH_H);
	r->bits = header->bits;
	r->fields = header->fields;
	join(r->store, 0, sch_h, header->first, header->bits);
	answer->outcome = DM_OPENED;
}

/* Whether a header repeats an earlier one; its countdown is cleared in `head`. */
static int is_copy(const struct dm_receiver *r, unsigned left, const uint8_t *head)
{
	const struct dm_earlier *e = r->earlier, *end = e + r->earlier_count;

	for (; e < end; e++)
		if (e->left == left && !memcmp(e->sch_h, head, DM_SCH_H))
			return 1;
	return 0;
}

/* Keeps a header that is no copy. With all places taken this is slot 3, and the two of three
   frames ago cannot be repeated after it: one of them gives way. */
static void keep(struct dm_receiver *r, unsigned left, const uint8_t *head)
{
	struct dm_earlier *e = r->earlier;

	if (r->earlier_count < DM_EARLIER)
		e += r->earlier_count++;
	else
		while (e->left > 1)
			e++;
	e->left = left;
	memcpy(e->sch_h, head, DM_SCH_H);
}

static void on_unfragmented(struct dm_receiver *r, const struct dm_header *header,
			    const uint8_t *sch_h, uint8_t *message, struct dm_answer *answer)
{
	uint8_t head[DM_SCH_H];
	unsigned left = header->countdown + 1;

	if (!for_unit(r, &header->fields))
		return;
	memcpy(head, sch_h, DM_SCH_H);
	clear_countdown(head, 0);
	if (is_copy(r, left, head)) {
		answer->outcome = DM_COPY;
		return;
	}
	keep(r, left, head);
	answer->outcome = DM_UNFRAGMENTED;
	answer->bits = header->bits;
	answer->fields = header->fields;
	memset(message, 0, (header->bits + 7) / 8);
	join(message, 0, sch_h, header->first, header->bits);
}

/* A block in a due slot: kept, handed over with the last, or of the wrong kind. */
static void on_due_block(struct dm_receiver *r, const struct dm_block *block,
			 const uint8_t *sch_f, uint8_t *message, struct dm_answer *answer)
{
	if (block->last != (r->to_come == 1)) {
		drop(r, answer);
		return;
	}
	join(r->store, r->bits, sch_f, block->first, block->bits);
	r->bits += block->bits;
	if (!block->last) {
		r->to_come--;
		r->due = next_due(r->due);
		answer->outcome = DM_KEPT;
		return;
	}
	answer->outcome = DM_JOINED;
	answer->bits = r->bits;
	answer->fields = r->fields;
	memcpy(message, r->store, (r->bits + 7) / 8);
	close_assembly(r);
}

/* What the blocks of an accepted report do. A block that reads with a fault is nothing heard. */
static void on_header(struct dm_receiver *r, const struct dm_report *report, int due,
		      uint8_t *message, struct dm_answer *answer)
{
	const uint8_t *sch_h = report->blocks + DM_SCH_S;
	struct dm_header header;

	answer->fault = read_header(report->blocks, sch_h, report->frame, report->slot, &header);
	if (!answer->fault && header.fragmented) {
		on_fragmented(r, &header, sch_h, answer);
		return;
	}
	if (due)
		drop(r, answer);
	if (!answer->fault)
		on_unfragmented(r, &header, sch_h, message, answer);
}

static void on_block(struct dm_receiver *r, const uint8_t *sch_f, int due, uint8_t *message,
		     struct dm_answer *answer)
{
	struct dm_block block;

	answer->fault = read_block(sch_f, &block);
	if (!due)
		return;
	if (answer->fault)
		drop(r, answer);
	else
		on_due_block(r, &block, sch_f, message, answer);
}

void dm_hear(struct dm_receiver *r, const struct dm_report *report, uint8_t *message,
	     size_t room, struct dm_answer *answer)
{
	int due;

	memset(answer, 0, sizeof *answer);
	answer->fault = report_fault(report, room);
	if (answer->fault)
		return;
	go_on(r, report->frame, report->slot, answer);
	due = report->slot == 1 && report->frame == r->due;

	switch (report->kind) {
	case DM_KIND_HEADER:
		on_header(r, report, due, message, answer);
		break;
	case DM_KIND_BLOCK:
		on_block(r, report->blocks, due, message, answer);
		break;
	default:
		if (due)
			drop(r, answer);
	}
}

#endif
