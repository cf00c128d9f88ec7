/* main HEX: what a section says, and whether it is what is written of its reading. Ends with 1 where a canonical section is not, with 2 where HEX is not pairs
 * of hexadecimal digits, with 3 where the section is refused. main relabel: one identifier of the incident's cue replaced, and every byte compared; ends with 1
 * where one is another. */
#include <inttypes.h>
#include <stdio.h>
#include <string.h>

#include "scte35.h"

static void print_time(struct scte35_time t)
{
    static const char *const words[] = {"none", "immediate", "unspecified", "at"};
    printf(" %s", words[t.kind]);
    if (t.kind == SCTE35_TIME_AT)
        printf(" %" PRIu64, t.ticks);
}

static void print_command(struct scte35_command c)
{
    printf("command %" PRIu64, c.splice_command_type);
    if (c.splice_command_type == SCTE35_COMMAND_TIME_SIGNAL)
        print_time(c.splice_time);
    if (c.splice_command_type == SCTE35_COMMAND_SPLICE_INSERT) {
        printf(" event %" PRIu64, c.insert.splice_event_id);
        if (c.insert.splice_event_cancel_indicator)
            printf(" cancelled");
        else if (c.insert.mode.program_splice_flag)
            print_time(c.insert.mode.splice_time);
        else
            printf(" components %" PRIu64, c.insert.mode.component_count);
        if (c.insert.break_duration.duration_flag)
            printf(" lasts %" PRIu64, c.insert.break_duration.duration);
    }
    printf("\n");
}

static void print_bytes(const char *before, const uint8_t *bytes, uint64_t n)
{
    for (uint64_t i = 0; i < n; i++)
        printf("%s%02x", i ? "" : before, bytes[i]);
}

static void print_item(const uint8_t *loop, struct scte35_step x)
{
    printf("item %" PRIu64, x.item.kind);
    if (x.item.kind == SCTE35_ITEM_REFUSED)
        printf(" refused %" PRIu64 " (%" PRIu64 ", %" PRIu64 ", %" PRIu64 "): %s", x.refusal, x.values[0], x.values[1], x.values[2], scte35_refusal_text(x.refusal));
    if (x.item.kind == SCTE35_ITEM_SEGMENTATION)
        printf(" event %" PRIu64 " type %" PRIu64 " UPID type %d", x.item.segmentation.segmentation_event_id, x.item.segmentation.segmentation_type_id,
               scte35_item_written_type(&x.item));
    print_bytes(" ", scte35_item_bytes(loop, &x.item), x.item.bytes.len);
    printf("\n");
}

/* The parts of a MID, at every level: the type and the bytes of each. */
static void print_parts(const uint8_t *loop, struct scte35_step x)
{
    if (x.item.segmentation.segmentation_upid_type != SCTE35_UPID_MID)
        return;
    const uint8_t *mid = scte35_item_bytes(loop, &x.item);
    struct scte35_upid u = scte35_read_upid(SCTE35_UPID_MID, mid, x.item.bytes.len, 0);
    for (uint64_t i = 0; i < u.count; i++) {
        const struct scte35_part *part = &u.parts[i];
        printf("%*spart of type %d", (int)(4 * part->level), "", scte35_part_written_type(part));
        print_bytes(" ", scte35_part_bytes(mid, part), part->len);
        printf("\n");
    }
}

/* Every item of the loop as its descriptor, one behind the other: their length, or 0 and the refusal of the first that is refused. */
static struct scte35_written write_loop(const uint8_t *loop, size_t n, uint8_t *target, size_t room)
{
    struct scte35_written all = {0, 0};
    for (uint64_t at = 0; at < n;) {
        struct scte35_step item = scte35_read_item(loop, n, at);
        struct scte35_segmentation_components beside = scte35_read_segmentation_components(loop, n, at);
        struct scte35_written one = scte35_write_descriptor(&item, &beside, loop, n, target + all.length, room - all.length);
        if (one.refusal)
            return one;
        all.length += one.length;
        at = item.next;
    }
    return all;
}

/* The section that is written of a reading: header, command and each item. */
static struct scte35_written write_back(const uint8_t *s, size_t n, const struct scte35_section *x, uint8_t *target, size_t room)
{
    static uint8_t loop[SCTE35_MAX_LOOP];
    struct scte35_written items = write_loop(scte35_loop_bytes(s, x), x->descriptors.len, loop, sizeof loop);
    if (items.refusal)
        return items;
    /* those of a command without components are not looked at */
    struct scte35_insert_components components = scte35_read_section_components(s, x);
    return scte35_write_section(&x->header, &x->command, &components, s, n, loop, items.length, target, room);
}

/* The bytes that pairs of hexadecimal digits say, as many as there is room for: their number; -1 where the text is something else. */
static long unhex(const char *text, uint8_t *bytes, size_t room)
{
    static const char digits[] = "0123456789abcdefABCDEF";
    size_t n = strlen(text);
    if (n % 2 || strspn(text, digits) != n)
        return -1;
    if (n / 2 < room)
        room = n / 2;
    for (size_t i = 0; i < room; i++)
        sscanf(text + 2 * i, "%2hhx", &bytes[i]);
    return (long)room;
}

/* The incident's cue: a MID of 8 and 12 bytes. The eight-byte part becomes twelve bytes long; the other part's twelve bytes are untouched. */
static int relabel_the_incident(void)
{
    static const char cue[] = "FC303F000000000000FFFFF00506FE0000000000290227435545490000002A7FBF0D18"
                              "08081122334455667788"
                              "030C414243443132333435363738100101A86A17BC";
    static const char expected[] = "FC3043000000000000FFFFF00506FE00000000002D022B435545490000002A7FBF0D1C"
                                   "030C4E4557533030303030303031"
                                   "030C414243443132333435363738100101CFE1DA2E";
    static uint8_t s[SCTE35_MAX_SECTION], wanted[SCTE35_MAX_SECTION], target[SCTE35_MAX_SECTION], back[SCTE35_MAX_SECTION];
    static const uint8_t old[] = {0x11, 0x22, 0x33, 0x44, 0x55, 0x66, 0x77, 0x88};
    size_t n = (size_t)unhex(cue, s, sizeof s), m = (size_t)unhex(expected, wanted, sizeof wanted);

    /* the item at offset 0 of the loop, part 1 of its MID */
    struct scte35_written w = scte35_relabel(s, n, 0, 1, SCTE35_UPID_AD_ID, (const uint8_t *)"NEWS00000001", 12, target, sizeof target);
    if (w.refusal)
        return printf("relabelling refused %" PRIu64 ": %s\n", w.refusal, scte35_refusal_text(w.refusal)), 1;
    for (size_t i = 0; i < m || i < w.length; i++)
        if (i >= m || i >= w.length || target[i] != wanted[i])
            return printf("relabelled: byte %zu is another\n", i), 1;
    print_bytes("relabelled: ", target, w.length);

    /* and back: the old cue, byte for byte */
    w = scte35_relabel(target, w.length, 0, 1, SCTE35_UPID_TI, old, sizeof old, back, sizeof back);
    if (w.refusal || w.length != n || memcmp(back, s, n))
        return printf("\nrelabelled back: another\n"), 1;
    /* no third part: refused, and no byte of the target is changed */
    w = scte35_relabel(s, n, 0, 3, SCTE35_UPID_TI, old, sizeof old, back, sizeof back);
    if (w.refusal != SCTE35_REFUSAL_NO_SUCH_IDENTIFIER || memcmp(back, s, n))
        return printf("\npart 3: not refused as it should be\n"), 1;
    printf("\nrelabelled back: the same; part 3: %s\n", scte35_refusal_text(w.refusal));
    return 0;
}

int main(int argc, char **argv)
{
    static uint8_t s[SCTE35_MAX_SECTION + 1]; /* one more than is read */
    if (argc == 2 && !strcmp(argv[1], "relabel"))
        return scte35_abi() != SCTE35_ABI || relabel_the_incident();
    long length = argc == 2 ? unhex(argv[1], s, sizeof s) : -1;
    if (length < 0) {
        fprintf(stderr, "one section, as pairs of hexadecimal digits\n");
        return 2;
    }
    if (scte35_abi() != SCTE35_ABI) {
        fprintf(stderr, "libscte35.a and scte35.h don't belong together\n");
        return 2;
    }
    size_t n = (size_t)length;
    struct scte35_section x = scte35_read_section(s, n, 0);
    if (x.refusal) {
        printf("refused %" PRIu64 " %s: %s\n", x.refusal, scte35_refusal_name(x.refusal), scte35_refusal_text(x.refusal));
        return 3;
    }
    print_command(x.command);
    const uint8_t *loop = scte35_loop_bytes(s, &x);
    for (uint64_t at = 0; at < x.descriptors.len;) {
        struct scte35_step item = scte35_read_item(loop, x.descriptors.len, at);
        print_item(loop, item);
        print_parts(loop, item);
        at = item.next;
    }
    static uint8_t target[SCTE35_MAX_SECTION];
    struct scte35_written w = write_back(s, n, &x, target, sizeof target);
    int same = !w.refusal && w.length == n && !memcmp(target, s, n);
    int canonical = scte35_is_canonical_section(s, n, 0);
    if (w.refusal)
        printf("writing refused %" PRIu64 ": %s\n", w.refusal, scte35_refusal_text(w.refusal));
    else
        printf("written back: %s; the section read is %scanonical\n", same ? "the same" : "another", canonical ? "" : "not ");
    return same != canonical;
}
