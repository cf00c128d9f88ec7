/*
 * Reading and writing SCTE 35 sections: the functions of libscte35.a (the crate scte35_c), for x86-64 Linux. C11 and C++11.
 *
 * Every function takes any bytes and any numbers, and returns. There are no globals and no allocation; nothing is kept between calls; any thread may
 * call any function at any time.
 *
 * A reader's pointer bears the name of what it points to (section, payload, descriptors, upid, ..; `s`: any bytes), and `n` is their number; they are only
 * read. Where a length is 0 its pointer may be NULL. A reader at a place reads from byte `at` to the last one, and nothing where `at` lies past the end; an
 * item's place in its loop is its `offset`.
 *
 * A reader answers a struct of 64-bit words. The first word, `refusal`, is 0 where it read; otherwise it is a number of enum scte35_refusal, `values` are
 * those named there, and every other word is 0 (but a step's `next` and its item's kind).
 *
 * Named numbers (types, algorithms, flags) are their numbers. What belongs to another kind of command or item is 0. A view names bytes by place: it
 * counts from byte `at`, those of a step from the loop's first byte. A kind that has no view has 0, 0 there; a view of no bytes keeps its place. Four bytes
 * that are an identifier stand as one number, the first byte highest.
 *
 * A writer takes the same structs, so that what was read is written back as it is; see "writing" below.
 *
 * "Stack" is the most that a call takes of it, with the answer's struct not counted; rounded up to a whole KB, measured of the compiled code
 * (host/c-interface/run measures it again, and fails where more is taken).
 *
 * Names: functions begin with a verb (scte35_read_section), those of a state that the caller keeps with its noun (scte35_board_open); structs are nouns
 * (struct scte35_section), and a constant bears its family's name (SCTE35_ITEM_END). New words of a struct go to its end; where that, or anything else, would
 * break a program that was built with this header, SCTE35_ABI grows.
 */
#ifndef SCTE35_H
#define SCTE35_H

#include <stdbool.h>
#include <stddef.h>
#include <stdint.h>

#ifdef __cplusplus
extern "C" {
#endif

#define SCTE35_VERSION "0.2.0"

/* ---- this header and the archive */

enum { SCTE35_ABI = 1 };

/* The SCTE35_ABI of the header that the archive belongs to. Where it differs from SCTE35_ABI here, call nothing else. Stack: 1 KB. */
uint32_t scte35_abi(void);

/* ---- refusals; docs/REFUSALS.md has more of each
 *
 * 1 to 11 are of a section; 5 of a header alone, too, 10 and 11 of a command alone, 2 of a loop or a UPID. 12 is of a number that should be a flag's. 21 to 25
 * are of an item or a UPID, never of the section around it. 31 to 36 are of a value that is to be written; 32 of a time or a section that is to be adjusted,
 * too, and of the adjustment; 36 of that section's target, of a line's, and of a board's words. 41 is of an identifier that is to be replaced. 51 and 52 are
 * of a line of a playlist that is read, 53 of one that is written. 61 to 63 are of a board, 71 to 75 of a transport packet.
 *
 * 1 to 12, 31 to 36, and 71 to 75 are looked at in order of number, and the first that applies is the answer; of a board 36, then 63, then 61 or 62; of an
 * identifier 1 to 11, then 41, then 32, 33, 34, 36; of a line that is read 52, 51, 36, of one that is written 1 to 11, 53, 36. Of 21 to 25 it is the first
 * fault in layout order.
 *
 * Values: of 21 the bytes expected and the actual ones; of 24 the type as written, and the text as a view: place and length; of 25 the type as written, the
 * length expected and the actual one.
 *
 * 33: no canonical payload, or no canonical section's header, reads as the value. One that is only too long for a section is 34. 33 also refuses words that
 * are no value's: those of a refusal or of a loop's end, or that no reader gives.
 */

/* each as X(constant, number, name, text), in order of number */
#define SCTE35_EACH_REFUSAL(X) \
    X(SECTION_TOO_SHORT, 1, "SectionTooShort", "section under 3 bytes") \
    X(INPUT_TOO_LONG, 2, "InputTooLong", "section over 4,096 bytes, loop over 4,076, or UPID over 255") \
    X(OTHER_TABLE, 3, "OtherTable", "the first byte is not 0xFC") \
    X(WRONG_CRC, 4, "WrongCrc", "the CRC over all bytes is not 0") \
    X(NO_HEADER, 5, "NoHeader", "section under 18 bytes, or a header alone under 11") \
    X(ENCRYPTED, 6, "Encrypted", "the encrypted bit is set") \
    X(COMMAND_TOO_LONG, 7, "CommandTooLong", "the command's length exceeds the bytes after the header, CRC excluded") \
    X(NO_LOOP_LENGTH, 8, "NoLoopLength", "fewer than 2 bytes follow the command") \
    X(LOOP_TOO_LONG, 9, "LoopTooLong", "the loop's length exceeds the bytes that follow it, CRC excluded") \
    X(UNKNOWN_COMMAND, 10, "UnknownCommand", "the command's type is none that is read") \
    X(MALFORMED_COMMAND, 11, "MalformedCommand", "the command's payload is malformed") \
    X(NOT_IN_FIELD, 12, "NotInField", "a flag over 1, or device restrictions over 3") \
    X(NOT_ENOUGH_DATA, 21, "NotEnoughData", "not enough data") \
    X(INVALID_DESCRIPTOR_LENGTH, 22, "InvalidDescriptorLength", "the descriptor's length is 255, and it fits") \
    X(UPID_LENGTH_TYPE_MISMATCH, 23, "UpidLengthTypeMismatch", "a part of type 0 inside a MID, or a nonempty UPID of type 0") \
    X(INVALID_UPID_CONTENT, 24, "InvalidUpidContent", "UPID text that is not UTF-8") \
    X(INVALID_UPID_LENGTH, 25, "InvalidUpidLength", "UPID of wrong length") \
    X(OUTSIDE_LENT, 31, "OutsideLent", "a view reaches outside the lent bytes") \
    X(TOO_LARGE, 32, "TooLarge", "a number or a count exceeds its field, or there are more than 7 DTMF characters or 255 bytes of a UPID") \
    X(UNWRITABLE, 33, "Unwritable", "a value that no canonical reading has") \
    X(RESULT_TOO_LONG, 34, "ResultTooLong", "a descriptor's length over 254, or a section over 4,096 bytes") \
    X(LOOP_NOT_CANONICAL, 35, "LoopNotCanonical", "the descriptor loop that is handed in is not canonical") \
    X(TARGET_TOO_SHORT, 36, "TargetTooShort", "the target is shorter than the result") \
    X(NO_SUCH_IDENTIFIER, 41, "NoSuchIdentifier", "no identifier stands there that can be replaced") \
    X(ATTRIBUTE_MISSING, 51, "AttributeMissing", "a line without ID, START-DATE or any of the three cue attributes") \
    X(MALFORMED_LINE, 52, "MalformedLine", "no EXT-X-DATERANGE line, or a repeated name, or a value of another kind than its name asks for") \
    X(UNQUOTABLE, 53, "Unquotable", "an ID or date that holds a double quote, CR or LF") \
    X(BOARD_FULL, 61, "BoardFull", "as many breaks are open as may be") \
    X(NOT_OPEN, 62, "NotOpen", "no open break has this event id") \
    X(NO_SUCH_CHANNEL, 63, "NoSuchChannel", "the channel is neither 0 nor 1") \
    X(NOT_A_PACKET, 71, "NotAPacket", "not a transport packet: not 188 bytes, or another sync byte than 0x47") \
    X(OTHER_PID, 72, "OtherPid", "a packet of another PID") \
    X(SCRAMBLED, 73, "Scrambled", "the packet is scrambled") \
    X(PAYLOAD_OUTSIDE, 74, "PayloadOutside", "the adaptation field or the pointer leaves no payload in the packet") \
    X(SECTION_LENGTH_TOO_LARGE, 75, "SectionLengthTooLarge", "a section_length over 4,093")

#define SCTE35_AS_CONSTANT(constant, number, name, text) SCTE35_REFUSAL_##constant = number,
enum scte35_refusal { SCTE35_REFUSAL_NONE = 0, SCTE35_EACH_REFUSAL(SCTE35_AS_CONSTANT) };
#undef SCTE35_AS_CONSTANT

/* The name of a refusal by its number, the same as in Rust and in the docs: "SectionTooShort". Of 0 it is "None", of a number that is none "Unknown". */
static inline const char *scte35_refusal_name(uint64_t refusal)
{
#define SCTE35_AS_NAME(constant, number, name, text) case number: return name;
    switch (refusal) {
    case 0: return "None";
    SCTE35_EACH_REFUSAL(SCTE35_AS_NAME)
    default: return "Unknown";
    }
#undef SCTE35_AS_NAME
}

/* What a refusal means, in words. */
static inline const char *scte35_refusal_text(uint64_t refusal)
{
#define SCTE35_AS_TEXT(constant, number, name, text) case number: return text;
    switch (refusal) {
    case 0: return "not refused";
    SCTE35_EACH_REFUSAL(SCTE35_AS_TEXT)
    default: return "no number of a refusal";
    }
#undef SCTE35_AS_TEXT
}

/* ---- limits: the longest that is read or written, and so a target's length that is always enough; the most places of an array */

enum {
    SCTE35_MAX_SECTION = 4096,
    SCTE35_MAX_LOOP = 4076,
    SCTE35_MAX_DESCRIPTOR = 256, /* tag, length, and the 254 that the length may be */
    SCTE35_MAX_UPID = 255,
    SCTE35_MAX_COMPONENTS = 255, /* of an insert, or of a segmentation descriptor */
    SCTE35_MAX_PARTS = 127 /* of a MID, at all levels together */
};

/* where a section's command begins: behind 3 bytes of common header and 11 of splice header */
enum { SCTE35_PLACE_COMMAND = 14 };

struct scte35_view {
    uint64_t at;
    uint64_t len;
};

enum scte35_time_kind { SCTE35_TIME_NONE = 0, SCTE35_TIME_IMMEDIATE = 1, SCTE35_TIME_UNSPECIFIED = 2, SCTE35_TIME_AT = 3 };

struct scte35_time {
    uint64_t kind; /* as above; a writer refuses one over 3 with 32 */
    uint64_t ticks; /* of 90 kHz, of kind SCTE35_TIME_AT */
};

/* ---- the splice header: 11 bytes */

enum scte35_algorithm {
    SCTE35_ALGORITHM_NONE = 0,
    SCTE35_ALGORITHM_DES_ECB = 1,
    SCTE35_ALGORITHM_DES_CBC = 2,
    SCTE35_ALGORITHM_TRIPLE_DES_EDE3_ECB = 3
};

struct scte35_header {
    uint64_t refusal;
    uint64_t protocol_version;
    uint64_t encrypted_packet;
    uint64_t encryption_algorithm; /* those above are named, 4 to 31 reserved, 32 to 63 private */
    uint64_t pts_adjustment; /* ticks of 90 kHz, 33 bits */
    uint64_t cw_index;
    uint64_t tier;
    uint64_t splice_command_length;
    uint64_t splice_command_type;
};

/*
 * The splice header alone.
 * Takes the 11 bytes from `at` on; others may follow. Refuses with 5. Stack: 1 KB.
 */
struct scte35_header scte35_read_header(const uint8_t *s, size_t n, size_t at);

/* ---- commands */

enum scte35_command_type {
    SCTE35_COMMAND_SPLICE_NULL = 0,
    SCTE35_COMMAND_SPLICE_SCHEDULE = 4, /* refused with 10 */
    SCTE35_COMMAND_SPLICE_INSERT = 5,
    SCTE35_COMMAND_TIME_SIGNAL = 6,
    SCTE35_COMMAND_BANDWIDTH_RESERVATION = 7,
    SCTE35_COMMAND_PRIVATE_COMMAND = 255
};

struct scte35_mode {
    uint64_t program_splice_flag;
    struct scte35_time splice_time; /* by program */
    uint64_t component_count; /* by components: see scte35_read_insert_components */
};

struct scte35_break {
    uint64_t duration_flag;
    uint64_t auto_return;
    uint64_t duration; /* ticks of 90 kHz, 33 bits */
};

struct scte35_insert {
    uint64_t splice_event_id;
    uint64_t splice_event_cancel_indicator; /* where set, all but id and reserved bits is 0 */
    uint64_t reserved; /* the seven bits after the cancel indicator */
    uint64_t out_of_network_indicator;
    struct scte35_mode mode;
    struct scte35_break break_duration;
    uint64_t unique_program_id;
    uint64_t avail_num;
    uint64_t avails_expected;
};

struct scte35_command {
    uint64_t refusal;
    uint64_t splice_command_type; /* enum scte35_command_type */
    struct scte35_insert insert; /* of an insert */
    struct scte35_time splice_time; /* of a time signal */
    uint64_t identifier; /* of a private command: four bytes as one number, the first highest */
    struct scte35_view private_bytes;
};

/*
 * A command alone.
 * Takes the command's type, and its payload from `at` to the end. Refuses with 10, 11. Stack: 1 KB.
 */
struct scte35_command scte35_read_command(uint8_t command_type, const uint8_t *payload, size_t n, size_t at);

struct scte35_insert_component {
    uint64_t component_tag;
    struct scte35_time splice_time;
};

struct scte35_insert_components {
    uint64_t refusal;
    uint64_t count; /* past it: tag 0, time unspecified */
    struct scte35_insert_component components[255];
};

/*
 * The components of an insert.
 * Takes the insert's payload from `at` to the end. Refuses with 11. Stack: 37 KB.
 * Of a section that was read, scte35_read_section_components calls it with the right places.
 */
struct scte35_insert_components scte35_read_insert_components(const uint8_t *payload, size_t n, size_t at);

/* ---- sections */

struct scte35_section {
    uint64_t refusal; /* those of the header and the command are 0 */
    struct scte35_header header;
    struct scte35_command command;
    struct scte35_view descriptors; /* the loop: see scte35_loop_bytes */
    struct scte35_view payload;     /* the command's: see scte35_read_section_components */
};

/*
 * A section.
 * Takes the bytes from `at` to the end: all of the section, from its table id to its CRC. Refuses with 1 to 11. Stack: 1 KB.
 */
struct scte35_section scte35_read_section(const uint8_t *section, size_t n, size_t at);

/* The first byte of the loop of a section that was read at place 0 of `section`; it has x->descriptors.len bytes. For scte35_read_item. */
static inline const uint8_t *scte35_loop_bytes(const uint8_t *section, const struct scte35_section *x)
{
    return x->descriptors.len ? section + x->descriptors.at : NULL;
}

/* The components of the insert of a section that was read at place 0 of `section`. Of another command the answer is refused (11) or says nothing. */
static inline struct scte35_insert_components scte35_read_section_components(const uint8_t *section, const struct scte35_section *x)
{
    return scte35_read_insert_components(section, x->payload.at + x->payload.len, x->payload.at);
}

/*
 * The CRC of ISO/IEC 13818-1, Annex A: of the bytes from `at` on; 0 for a whole section. Refuses nothing. Stack: 1 KB.
 */
uint32_t scte35_crc(const uint8_t *s, size_t n, size_t at);

/* ---- the items of a loop */

enum scte35_upid_type {
    SCTE35_UPID_NOT_USED = 0,
    SCTE35_UPID_USER_DEFINED_DEPRECATED = 1,
    SCTE35_UPID_ISCI_DEPRECATED = 2,
    SCTE35_UPID_AD_ID = 3,
    SCTE35_UPID_UMID = 4,
    SCTE35_UPID_ISAN_DEPRECATED = 5, /* 8 bytes; reported as 6 */
    SCTE35_UPID_ISAN = 6, /* 12 bytes */
    SCTE35_UPID_TID = 7,
    SCTE35_UPID_TI = 8,
    SCTE35_UPID_ADI = 9,
    SCTE35_UPID_EIDR = 10,
    SCTE35_UPID_ATSC = 11,
    SCTE35_UPID_MPU = 12,
    SCTE35_UPID_MID = 13,
    SCTE35_UPID_ADS = 14,
    SCTE35_UPID_URI = 15
};

enum scte35_segmentation_type {
    SCTE35_SEGMENTATION_NOT_INDICATED = 0x00,
    SCTE35_SEGMENTATION_CONTENT_IDENTIFICATION = 0x01,
    SCTE35_SEGMENTATION_PROGRAM_START = 0x10,
    SCTE35_SEGMENTATION_PROGRAM_END = 0x11,
    SCTE35_SEGMENTATION_PROGRAM_EARLY_TERMINATION = 0x12,
    SCTE35_SEGMENTATION_PROGRAM_BREAKAWAY = 0x13,
    SCTE35_SEGMENTATION_PROGRAM_RESUMPTION = 0x14,
    SCTE35_SEGMENTATION_PROGRAM_RUNOVER_PLANNED = 0x15,
    SCTE35_SEGMENTATION_PROGRAM_RUNOVER_UNPLANNED = 0x16,
    SCTE35_SEGMENTATION_PROGRAM_OVERLAP_START = 0x17,
    SCTE35_SEGMENTATION_PROGRAM_BLACKOUT_OVERRIDE = 0x18,
    SCTE35_SEGMENTATION_PROGRAM_START_IN_PROGRESS = 0x19,
    SCTE35_SEGMENTATION_CHAPTER_START = 0x20,
    SCTE35_SEGMENTATION_CHAPTER_END = 0x21,
    SCTE35_SEGMENTATION_BREAK_START = 0x22,
    SCTE35_SEGMENTATION_BREAK_END = 0x23,
    SCTE35_SEGMENTATION_PROVIDER_ADVERTISEMENT_START = 0x30,
    SCTE35_SEGMENTATION_PROVIDER_ADVERTISEMENT_END = 0x31,
    SCTE35_SEGMENTATION_DISTRIBUTOR_ADVERTISEMENT_START = 0x32,
    SCTE35_SEGMENTATION_DISTRIBUTOR_ADVERTISEMENT_END = 0x33,
    SCTE35_SEGMENTATION_PROVIDER_PLACEMENT_OPPORTUNITY_START = 0x34,
    SCTE35_SEGMENTATION_PROVIDER_PLACEMENT_OPPORTUNITY_END = 0x35,
    SCTE35_SEGMENTATION_DISTRIBUTOR_PLACEMENT_OPPORTUNITY_START = 0x36,
    SCTE35_SEGMENTATION_DISTRIBUTOR_PLACEMENT_OPPORTUNITY_END = 0x37,
    SCTE35_SEGMENTATION_UNSCHEDULED_EVENT_START = 0x40,
    SCTE35_SEGMENTATION_UNSCHEDULED_EVENT_END = 0x41,
    SCTE35_SEGMENTATION_NETWORK_START = 0x50,
    SCTE35_SEGMENTATION_NETWORK_END = 0x51
};

struct scte35_restrictions {
    uint64_t web_delivery_allowed_flag;
    uint64_t no_regional_blackout_flag;
    uint64_t archive_allowed_flag;
    uint64_t device_restrictions;
};

struct scte35_sub_segments {
    uint64_t present; /* 1 where the descriptor has the two fields */
    uint64_t sub_segment_num;
    uint64_t sub_segments_expected;
};

struct scte35_segmentation {
    uint64_t segmentation_event_id;
    uint64_t segmentation_event_cancel_indicator; /* where set, all but the id is 0 */
    uint64_t program_segmentation_flag;
    uint64_t segmentation_duration_flag;
    uint64_t delivery_not_restricted_flag;
    struct scte35_restrictions delivery_restrictions;
    uint64_t component_count; /* see scte35_read_segmentation_components */
    uint64_t segmentation_duration; /* ticks of 90 kHz, 40 bits */
    uint64_t segmentation_upid_type; /* as reported: 0 for none, 6 for both kinds of ISAN; see scte35_item_written_type */
    uint64_t segmentation_type_id; /* enum scte35_segmentation_type */
    uint64_t segment_num;
    uint64_t segments_expected;
    struct scte35_sub_segments sub_segments;
};

struct scte35_time_descriptor {
    uint64_t tai_seconds;
    uint64_t tai_nanoseconds;
    uint64_t utc_offset;
};

enum scte35_item_kind {
    SCTE35_ITEM_END = 0,
    SCTE35_ITEM_AVAIL = 1,
    SCTE35_ITEM_DTMF = 2,
    SCTE35_ITEM_CANCELLED_SEGMENTATION = 3,
    SCTE35_ITEM_SEGMENTATION = 4,
    SCTE35_ITEM_TIME = 5,
    SCTE35_ITEM_RESERVED = 6,
    SCTE35_ITEM_REFUSED = 7
};

struct scte35_item {
    uint64_t kind; /* as above */
    uint64_t provider_avail_id; /* of an avail */
    uint64_t preroll; /* of a DTMF descriptor */
    struct scte35_segmentation segmentation;
    struct scte35_time_descriptor time;
    uint64_t splice_descriptor_tag; /* of a reserved descriptor */
    struct scte35_view bytes; /* DTMF characters; a UPID (none and EIDR have no view); the bytes of a reserved descriptor: see scte35_item_bytes */
};

struct scte35_step {
    uint64_t refusal;
    uint64_t values[3];
    uint64_t next; /* the offset of the next item */
    uint64_t identifier; /* of a reserved descriptor: four bytes as one number, the first highest; that of the others is "CUEI" */
    struct scte35_item item;
};

/*
 * The item at an offset of a loop.
 * Takes all of the loop, and the offset. Answers the item and the offset of the next one; at the loop's end or past it SCTE35_ITEM_END. A refused item
 * ends the loop (`next` is its length) or is passed over. Refuses with 2, 21 to 25. Stack: 16 KB.
 */
struct scte35_step scte35_read_item(const uint8_t *descriptors, size_t n, size_t offset);

/* The bytes that an item's view names, in the loop that it was read from: item->bytes.len of them. NULL where there are none. */
static inline const uint8_t *scte35_item_bytes(const uint8_t *descriptors, const struct scte35_item *item)
{
    return item->bytes.len ? descriptors + item->bytes.at : NULL;
}

/* The type that stands before the bytes of a UPID or a part, by its reported type and its length: of an ISAN of 8 bytes 5, where 6 is reported. It is the
 * one to hand to scte35_read_upid. */
static inline uint8_t scte35_written_upid_type(uint64_t upid_type, uint64_t len)
{
    if (upid_type == SCTE35_UPID_ISAN && len == 8)
        return SCTE35_UPID_ISAN_DEPRECATED;
    return (uint8_t)upid_type;
}

/* The type that stands before the bytes of an item's UPID: of an ISAN of 8 bytes 5, of an empty UPID 0, whichever type stands there. */
static inline uint8_t scte35_item_written_type(const struct scte35_item *item)
{
    return scte35_written_upid_type(item->segmentation.segmentation_upid_type, item->bytes.len);
}

/* Where in the loop the UPID's bytes begin, of an item of kind SCTE35_ITEM_SEGMENTATION that was read at an offset of it; an EIDR's too, which has no view. */
static inline size_t scte35_item_upid_at(const struct scte35_item *item, size_t offset)
{
    const struct scte35_segmentation *s = &item->segmentation;
    /* tag, length, "CUEI"; event id, cancel bit, flags; count and components; duration; the UPID's type and length */
    size_t components = s->program_segmentation_flag ? 0 : 1 + 6 * (size_t)s->component_count;
    return offset + 6 + 6 + components + (s->segmentation_duration_flag ? 5 : 0) + 2;
}

struct scte35_segmentation_component {
    uint64_t component_tag;
    uint64_t pts_offset;
};

struct scte35_segmentation_components {
    uint64_t refusal;
    uint64_t values[3];
    uint64_t count; /* all zero past it */
    struct scte35_segmentation_component components[255];
    uint64_t eidr[12]; /* a byte in each; all zero where the UPID is no EIDR */
};

/*
 * What stands beside an item: the components and the EIDR of a segmentation descriptor; none of any other.
 * Takes all of the loop, and the item's offset. Refuses as scte35_read_item does. Stack: 33 KB.
 */
struct scte35_segmentation_components scte35_read_segmentation_components(const uint8_t *descriptors, size_t n, size_t offset);

/* ---- UPIDs */

struct scte35_part {
    uint64_t upid_type; /* as reported: see scte35_part_written_type */
    uint64_t level; /* 1 for the direct parts of the top MID */
    uint64_t start; /* of its payload in the top UPID: see scte35_part_bytes */
    uint64_t len;
};

struct scte35_upid {
    uint64_t refusal;
    uint64_t values[3];
    uint64_t upid_type; /* as reported */
    uint64_t eidr[12]; /* a byte in each; all zero where the UPID is no EIDR */
    uint64_t count; /* of a MID's parts, each before those inside it; all zero past it */
    struct scte35_part parts[127];
};

/*
 * A UPID, and the parts of a MID.
 * Takes the type as written, and the UPID's bytes from `at` to the end. Refuses with 2, 21, 23 to 25. Stack: 24 KB, for a MID 128 levels deep.
 */
struct scte35_upid scte35_read_upid(uint8_t upid_type, const uint8_t *upid, size_t n, size_t at);

/* The bytes of a part, in the UPID that was read: part->len of them. NULL where there are none. */
static inline const uint8_t *scte35_part_bytes(const uint8_t *upid, const struct scte35_part *part)
{
    return part->len ? upid + part->start : NULL;
}

/* The type that stands before the part's bytes: of an ISAN of 8 bytes 5, where 6 is reported. */
static inline uint8_t scte35_part_written_type(const struct scte35_part *part)
{
    return scte35_written_upid_type(part->upid_type, part->len);
}

/* ---- writing
 *
 * scte35_write_command, scte35_write_descriptor and scte35_write_section take the readers' structs. All that they do is to hand these on as words to
 * scte35_write_command_words, .., the functions of the library.
 *
 * A writer also takes the bytes that their views refer to (`lent`), and a target, which must not overlap anything else that is handed in. It writes
 * target[0] .. target[length - 1] and no other byte; where it refuses, no byte at all.
 *
 * What is written is canonical: every reserved bit is 1, no byte is spare, and all lengths, the command's type and the CRC are worked out.
 *
 * To write back a section that was read, x = scte35_read_section(s, n, 0), with its loop d = scte35_loop_bytes(s, &x) of k = x.descriptors.len bytes:
 *
 *   1. for each item, with the offset at which it stands,
 *          step = scte35_read_item(d, k, offset), beside = scte35_read_segmentation_components(d, k, offset),
 *          scte35_write_descriptor(&step, &beside, d, k, ..), each behind the one before, into `loop`
 *   2. components = scte35_read_section_components(s, &x), which are looked at only where the command counts some
 *   3. scte35_write_section(&x.header, &x.command, &components, s, n, loop, its length, ..)
 *
 * Of a canonical section the result is the section itself, byte for byte. host/c-example/main.c has this as a program.
 */

struct scte35_written {
    uint64_t refusal;
    uint64_t length; /* how many bytes were written */
};

/*
 * The writers over words: those of the structs, in their order. A word past the end of what is handed in counts as 0, and words past the struct's end
 * are not looked at. A struct's view must lie in what was lent, whatever the type of the command or the kind of the item (31); where these have none, it must
 * be blank (33).
 */

/*
 * A command's payload.
 * Takes the words of struct scte35_command and of struct scte35_insert_components (of these the places up to the insert's own count are looked at, no other),
 * the bytes that its view names, the target. Refuses with 31 to 33, 36. Stack: 31 KB.
 */
struct scte35_written scte35_write_command_words(const uint64_t *command, size_t command_words, const uint64_t *components, size_t components_words,
                                                 const uint8_t *lent, size_t lent_length, uint8_t *target, size_t target_length);

/*
 * An item's descriptor.
 * Takes the words of struct scte35_step (of these refusal, values and next are not looked at) and of struct scte35_segmentation_components (of these the places
 * up to the item's own count, and the EIDR), the bytes that its view names, the target. The words of components that it counts and of an EIDR that it has must
 * be there: else it is 33, and no zeros are written. Refuses with 31 to 34, 36. Stack: 37 KB.
 */
struct scte35_written scte35_write_descriptor_words(const uint64_t *step, size_t step_words, const uint64_t *beside, size_t beside_words,
                                                    const uint8_t *lent, size_t lent_length, uint8_t *target, size_t target_length);

/*
 * A section around a loop of canonical descriptors.
 * Takes the words of struct scte35_header (of these the command's length and type are not looked at) and those of scte35_write_command_words, the bytes that
 * the command's view names, the loop, the target. Refuses with 31 to 36. Stack: 38 KB.
 */
struct scte35_written scte35_write_section_words(const uint64_t *header, size_t header_words, const uint64_t *command, size_t command_words,
                                                 const uint64_t *components, size_t components_words, const uint8_t *lent, size_t lent_length,
                                                 const uint8_t *descriptors, size_t descriptors_length, uint8_t *target, size_t target_length);

/*
 * The writers over structs: each refuses with the numbers of the one over words, and needs its stack. NULL for a header, a command or a step is 33, behind 31
 * and 32 of all else that is handed in. `components` and `beside` may be NULL where none are counted and the UPID is no EIDR: else that, too, is 33.
 */

/* the words of a struct of this file */
#define SCTE35_ALL_WORDS(x) (const uint64_t *)(x), (x) ? sizeof *(x) / sizeof(uint64_t) : 0
/* the words of a struct, and of NULL the first word of one that was refused: a refusal that is not 0 is no value's */
#define SCTE35_OWN_WORDS(x) (x) ? (const uint64_t *)(x) : &no_value, (x) ? sizeof *(x) / sizeof(uint64_t) : 1

/* Writes a command's payload, as scte35_write_command_words does, of structs. */
static inline struct scte35_written scte35_write_command(const struct scte35_command *command, const struct scte35_insert_components *components,
                                                         const uint8_t *lent, size_t lent_length, uint8_t *target, size_t target_length)
{
    const uint64_t no_value = SCTE35_REFUSAL_UNWRITABLE;
    return scte35_write_command_words(SCTE35_OWN_WORDS(command), SCTE35_ALL_WORDS(components), lent, lent_length, target, target_length);
}

/* Writes an item's descriptor, as scte35_write_descriptor_words does, of structs. */
static inline struct scte35_written scte35_write_descriptor(const struct scte35_step *step, const struct scte35_segmentation_components *beside,
                                                            const uint8_t *lent, size_t lent_length, uint8_t *target, size_t target_length)
{
    /* of NULL the kind counts as 0, which no descriptor has */
    return scte35_write_descriptor_words(SCTE35_ALL_WORDS(step), SCTE35_ALL_WORDS(beside), lent, lent_length, target, target_length);
}

/* Writes a section, as scte35_write_section_words does, of structs. */
static inline struct scte35_written scte35_write_section(const struct scte35_header *header, const struct scte35_command *command,
                                                         const struct scte35_insert_components *components, const uint8_t *lent, size_t lent_length,
                                                         const uint8_t *descriptors, size_t descriptors_length, uint8_t *target, size_t target_length)
{
    const uint64_t no_value = SCTE35_REFUSAL_UNWRITABLE;
    return scte35_write_section_words(SCTE35_OWN_WORDS(header), SCTE35_OWN_WORDS(command), SCTE35_ALL_WORDS(components), lent, lent_length,
                                      descriptors, descriptors_length, target, target_length);
}

#undef SCTE35_ALL_WORDS
#undef SCTE35_OWN_WORDS

/*
 * Whether all bytes from `at` on are a canonical section, a loop of canonical descriptors (or of none), or one canonical descriptor. A loop of any
 * length may be canonical, though scte35_read_item refuses one over 4,076 bytes. Refuse nothing. Stack: 16 KB.
 */
bool scte35_is_canonical_section(const uint8_t *section, size_t n, size_t at);
bool scte35_is_canonical_loop(const uint8_t *descriptors, size_t n, size_t at);
bool scte35_is_canonical_descriptor(const uint8_t *descriptor, size_t n, size_t at);

/* ---- numbers */

struct scte35_adjusted_time {
    uint64_t refusal;
    uint64_t kind; /* SCTE35_TIME_NONE or SCTE35_TIME_AT; of scte35_move_time, that of the time */
    uint64_t ticks;
};

/*
 * A time with its section's adjustment.
 * Takes a time's kind and ticks, and a header's adjustment. Kind SCTE35_TIME_AT is a time, and its ticks plus the adjustment are answered, modulo 2^33 (the
 * carry out of 33 bits is ignored); any other kind has none. Refuses with 32, whatever the kind, where ticks or pts_adjustment have more than 33 bits.
 * Stack: 1 KB.
 */
struct scte35_adjusted_time scte35_adjust_time(uint64_t kind, uint64_t ticks, uint64_t pts_adjustment);

/* ---- adjustments in a chain: sums are taken modulo 2^33, as above */

struct scte35_adjustment {
    uint64_t refusal;
    uint64_t adjustment; /* 33 bits */
};

/*
 * A time moved by an adjustment.
 * Takes a time's kind and ticks, and the adjustment. Kind SCTE35_TIME_AT answers that kind and the ticks moved; any other kind answers itself and 0 ticks: a
 * time that is not specified stays so. Refuses with 32, whatever the kind, where ticks or adjustment have more than 33 bits. Stack: 1 KB.
 */
struct scte35_adjusted_time scte35_move_time(uint64_t kind, uint64_t ticks, uint64_t adjustment);

/*
 * The one adjustment that does what a and then b do (b and then a as well), and the one that takes a back.
 * Refuse with 32 where an adjustment has more than 33 bits. Stack: 1 KB.
 */
struct scte35_adjustment scte35_chain_adjustments(uint64_t a, uint64_t b);
struct scte35_adjustment scte35_undo_adjustment(uint64_t a);

/*
 * A section with its pts_adjustment moved, in place of a chain of splicers.
 * Writes the section in all bytes from `at` on to the target: its pts_adjustment is what scte35_chain_adjustments makes of the old one and this, its CRC
 * is mended, and no other byte is changed, whatever the section holds (spare bytes, refused items, reserved bits); so its length stays. Refuses with 1 to 11
 * for the section, 32 where the adjustment has more than 33 bits, and 36 where the target is shorter than the section, in this order; a refused write changes
 * no byte. Stack: 2 KB.
 */
struct scte35_written scte35_adjust_section(const uint8_t *section, size_t n, size_t at, uint64_t adjustment, uint8_t *target, size_t target_length);

/* ---- one identifier replaced, every other one kept */

/*
 * A section in which one identifier is replaced.
 * Takes the section, the offset of an item of its loop as scte35_read_item counts it, which identifier (part 0 is the item's UPID itself, part k the k-th of
 * its MID's parts as scte35_read_upid lists them, from 1 on, at any level), and the new one: its type as it is written, and its bytes. Writes the section with
 * that identifier's type, length and bytes replaced, and every length around it (each MID's around it, the UPID's, the descriptor's, the loop's,
 * section_length) and the CRC mended; no other byte is changed, whatever the section holds. Refuses with 1 to 11 for the section; 41 where no item of the loop
 * begins at the offset, or one that is refused, cancelled or no segmentation descriptor, or where its UPID is none or has no such part; 32 where the UPID would
 * have more than 255 bytes; 33 where its reader refuses the new identifier there, or it is an empty UPID; 34 where the descriptor's length would be over 254 or
 * the section over 4,096 bytes; and 36 where the target is shorter than the result, in this order; a refused write changes no byte. Stack: 24 KB, for a MID
 * 128 levels deep.
 */
struct scte35_written scte35_relabel(const uint8_t *section, size_t n, size_t offset, size_t part, uint8_t upid_type, const uint8_t *bytes, size_t bytes_length,
                                     uint8_t *target, size_t target_length);

/* ---- cues in streaming playlists: an EXT-X-DATERANGE line of RFC 8216, without its line end */

/* the three names of a cue's attribute */
enum scte35_cue_name { SCTE35_CUE_NAME_CMD = 1, SCTE35_CUE_NAME_OUT = 2, SCTE35_CUE_NAME_IN = 3 };

struct scte35_daterange {
    uint64_t refusal;
    struct scte35_view id; /* the value of ID without its quotes, counted from s[at] */
    struct scte35_view date; /* that of START-DATE */
    uint64_t name; /* enum scte35_cue_name: the one that was used */
    uint64_t length; /* how many bytes of the section stand in the target */
};

/*
 * The line of a section.
 * Takes the section, in all bytes from `at` on, an ID and a START-DATE, and the target. Writes #EXT-X-DATERANGE:ID="..",START-DATE="..",SCTE35-OUT=0x..
 * in this order, hexadecimal digits in capitals, no line end: 50 bytes, with ID and date, and two for each byte of the section; a byte less of SCTE35-IN. The
 * name is SCTE35-OUT for a splice insert, not cancelled, that leaves the network, SCTE35-IN for one that returns, SCTE35-CMD for all else. ID and date are not
 * looked at but for 53: whether the date is one is the caller's part. Refuses with 1 to 11 for the section, 53, and 36, in this order; a refused write changes
 * no byte. Stack: 2 KB.
 */
struct scte35_written scte35_write_daterange(const uint8_t *section, size_t n, size_t at, const uint8_t *id, size_t id_length, const uint8_t *date,
                                             size_t date_length, uint8_t *target, size_t target_length);

/*
 * What a line says.
 * Takes the line, all bytes from `at` on, and a target for the section; half the line's length is always enough. Attributes stand in any order, those
 * of other names are passed over, and of SCTE35-CMD, SCTE35-OUT and SCTE35-IN the first in the line is used. The section's bytes go into the target and are not
 * judged: hand them to scte35_read_section. Refuses with 52, 51, 36, in this order; then no byte of the target is changed. Stack: 1 KB.
 *
 * A line of a long cue that stands last costs at most 14 instructions a character. Each name is looked for among the attributes before it: every attribute
 * behind the cue costs some 6 more for each of the cue's characters, and a line of n characters in very many attributes at most 4 n * n in all (measured:
 * docs/COST.md). A caller who is sent hostile lines bounds their length.
 */
struct scte35_daterange scte35_read_daterange(const uint8_t *line, size_t n, size_t at, uint8_t *target, size_t target_length);

/* ---- named numbers */

enum scte35_class { SCTE35_CLASS_NAMED = 0, SCTE35_CLASS_RESERVED = 1, SCTE35_CLASS_PRIVATE = 2 };

struct scte35_number {
    uint64_t refusal;
    uint64_t class_; /* as above */
    uint64_t number;
};

/*
 * Whether a number has a name, is reserved or private.
 * Each takes the number. The last three refuse with 12; the others refuse nothing. Stack: 1 KB.
 */
struct scte35_number scte35_classify_algorithm(uint8_t n);
struct scte35_number scte35_classify_command_type(uint8_t n);
struct scte35_number scte35_classify_upid_type(uint8_t n);
struct scte35_number scte35_classify_segmentation_type(uint8_t n);
struct scte35_number scte35_classify_network_indicator(uint8_t n);
struct scte35_number scte35_classify_return_mode(uint8_t n);
struct scte35_number scte35_classify_device_restrictions(uint8_t n);

/* ---- sections from transport packets
 *
 * The assembler of ISO/IEC 13818-1 for one PID. It knows nothing of SCTE 35: each section that it gives, whatever its table, has the length that its own
 * section_length says (3 + that, at most 4,096 bytes), and its bytes are bytes of the payloads, in order.
 *
 * The caller lends SCTE35_PACKET_WORDS words of state, a buffer of SCTE35_MAX_SECTION bytes, and one packet at a time; none may overlap another. For each:
 *
 *     if (scte35_packet_feed(state, SCTE35_PACKET_WORDS, packet, 188, buffer, sizeof buffer) == 0)
 *         while ((n = scte35_packet_take(state, SCTE35_PACKET_WORDS, packet, 188, buffer, sizeof buffer)) != 0)
 *             .. buffer[0] .. buffer[n - 1] is a section, until the next call ..
 *
 * One that is not taken is lost with the next packet. A repeat (the last payload packet's counter) and a packet without payload add nothing; a gap in the
 * counter drops the section under way, and so does a start that cuts it short. A stream of several PIDs may be fed whole: the others are refused with 72.
 *
 * The state's words are the PID, the counter of the last packet with payload (16: none yet), how many bytes of a section the buffer holds, and the place in
 * the packet. Any words, any packet and any buffer are taken and answered: a word past the end counts as 0 and is not stored, words behind the four are left
 * alone, and what does not fit a shorter buffer is not stored in it (its length is told all the same: lend 4,096 bytes). No globals, no allocation.
 */

enum { SCTE35_PACKET_WORDS = 4, SCTE35_PACKET = 188 };

/*
 * The state before the first packet of a PID.
 * Takes the PID, one over 8,191 is no packet's, and the words of the state, which it sets. Stack: 1 KB.
 */
void scte35_packet_start(uint64_t pid, uint64_t *state, size_t state_words);

/*
 * Takes a packet in.
 * Answers 0. Refuses with 71 to 75, and then neither the state nor the buffer has changed. Stack: 1 KB.
 */
uint64_t scte35_packet_feed(uint64_t *state, size_t state_words, const uint8_t *packet, size_t packet_length, uint8_t *buffer, size_t buffer_length);

/*
 * The next section that the packet finishes.
 * Takes the packet that was fed last. Answers the section's length; it stands at the buffer's start. 0 where nothing is left of the packet. Stack: 1 KB.
 */
uint64_t scte35_packet_take(uint64_t *state, size_t state_words, const uint8_t *packet, size_t packet_length, uint8_t *buffer, size_t buffer_length);

/* ---- the open-break board of two channels: an event id for each provider id while its break is open
 *
 * A board is SCTE35_BOARD_WORDS words that the caller keeps; their contents are the library's. Fill them with scte35_board_empty before the first call. A
 * refused call changes no word, an accepted one changes no word past the board's. Any words are taken, whoever made them; a shorter run is refused (36).
 *
 * The two channels, 0 and 1, share the board's 32 places. Each has its own event ids, and may hold SCTE35_CHANNEL_BREAKS breaks. What one channel opens or
 * closes never changes what the other is told.
 */

enum { SCTE35_BOARD_WORDS = 66, SCTE35_CHANNEL_BREAKS = 16 };

struct scte35_board_answer {
    uint64_t refusal; /* 0, 36, or 61 to 63 */
    uint64_t id; /* to an opening the event id, to a closing the provider id */
};

/*
 * No break is open, and the next event id of either channel is 1.
 * Takes the words of a board, and sets them. Refuses with 36. Stack: 2 KB.
 */
struct scte35_board_answer scte35_board_empty(uint64_t *board, size_t board_words);

/*
 * Opens a break of a channel.
 * Takes a board, a channel, 0 or 1, and a provider id; these may repeat. Answers an event id: those of a channel count up, that after 4,294,967,295 is 0, and
 * one that it still has open is passed over. Refuses with 36, with 63 for another channel, and with 61 where the channel holds 16 breaks. Stack: 5 KB.
 */
struct scte35_board_answer scte35_board_open(uint64_t *board, size_t board_words, uint8_t channel, uint32_t provider_id);

/*
 * Closes a channel's break.
 * Takes a board, a channel and an event id. Answers the provider id that it was opened with. Refuses with 36, with 63 for another channel, and with 62 where
 * no open break of the channel has it. Stack: 3 KB.
 */
struct scte35_board_answer scte35_board_close(uint64_t *board, size_t board_words, uint8_t channel, uint32_t event_id);

#if defined(__cplusplus) && __cplusplus >= 201103L
#define SCTE35_WORDS(type, words) static_assert(sizeof(struct type) == 8 * (words), #type)
#else
#define SCTE35_WORDS(type, words) _Static_assert(sizeof(struct type) == 8 * (words), #type)
#endif

SCTE35_WORDS(scte35_header, 9);
SCTE35_WORDS(scte35_insert, 14);
SCTE35_WORDS(scte35_command, 21);
SCTE35_WORDS(scte35_insert_components, 2 + 255 * 3);
SCTE35_WORDS(scte35_section, 1 + 9 + 21 + 2 + 2);
SCTE35_WORDS(scte35_segmentation, 18);
SCTE35_WORDS(scte35_item, 27);
SCTE35_WORDS(scte35_step, 6 + 27);
SCTE35_WORDS(scte35_segmentation_components, 5 + 255 * 2 + 12);
SCTE35_WORDS(scte35_upid, 18 + 127 * 4);
SCTE35_WORDS(scte35_written, 2);
SCTE35_WORDS(scte35_adjusted_time, 3);
SCTE35_WORDS(scte35_adjustment, 2);
SCTE35_WORDS(scte35_daterange, 7);
SCTE35_WORDS(scte35_number, 3);
SCTE35_WORDS(scte35_board_answer, 2);

#undef SCTE35_WORDS

#ifdef __cplusplus
}
#endif

#endif
