/* The interface from C: the inline functions of scte35.h on worked cues, and how much stack each function of the library takes at its worst. Prints `NAME BYTES` for each;
 * host/c-interface/run compares these with what the header says. And every reader on a thread that has 64 KB of stack. For x86-64. */
#include <pthread.h>
#include <stdio.h>
#include <stdlib.h>
#include <string.h>

#include "scte35.h"

#define CHECK(truth) ((truth) ? (void)0 : (fprintf(stderr, "main.c:%d: not so: %s\n", __LINE__, #truth), exit(1)))

/* ---- cues */

static size_t unhex(const char *hex, uint8_t *out)
{
    size_t n = 0;
    for (int used; sscanf(hex, " %2hhx%n", &out[n], &used) == 1; hex += used)
        n++;
    return n;
}

/* Puts the lengths and the CRC into a section whose command and loop stand in it already: `command` bytes from byte 14 on, then 2 of loop length, then `loop` bytes. */
static size_t closed(uint8_t *s, uint8_t command_type, size_t command, size_t loop)
{
    static const uint8_t head[] = {0xFC, 0x30, 0, 0, 0, 0, 0, 0, 0, 0, 0xFF, 0xF0};
    size_t end = SCTE35_PLACE_COMMAND + command + 2 + loop;
    memcpy(s, head, sizeof head);
    s[1] = (uint8_t)(0x30 | (end + 1) >> 8);
    s[2] = (uint8_t)(end + 1);
    s[11] = (uint8_t)(0xF0 | command >> 8);
    s[12] = (uint8_t)command;
    s[13] = command_type;
    s[SCTE35_PLACE_COMMAND + command] = (uint8_t)(loop >> 8);
    s[SCTE35_PLACE_COMMAND + command + 1] = (uint8_t)loop;
    uint32_t crc = scte35_crc(s, end, 0);
    for (int i = 0; i < 4; i++)
        s[end + (size_t)i] = (uint8_t)(crc >> (24 - 8 * i));
    return end + 4;
}

/* A MID inside a MID inside .., as deep as n bytes go; n is even. */
static void nested(uint8_t *mid, size_t n)
{
    for (size_t i = 0; i < n; i += 2) {
        mid[i] = SCTE35_UPID_MID;
        mid[i + 1] = (uint8_t)(n - i - 2);
    }
}

/* ---- what the inline functions say */

static void refusals(void)
{
    static const struct { uint64_t number; const char *name; } some[] = {
        {0, "None"}, {SCTE35_REFUSAL_SECTION_TOO_SHORT, "SectionTooShort"}, {SCTE35_REFUSAL_NOT_IN_FIELD, "NotInField"}, {21, "NotEnoughData"}, {36, "TargetTooShort"},
        {13, "Unknown"}, {UINT64_MAX, "Unknown"}};
    for (size_t i = 0; i < sizeof some / sizeof *some; i++)
        CHECK(!strcmp(scte35_refusal_name(some[i].number), some[i].name));
    CHECK(!strcmp(scte35_refusal_text(SCTE35_REFUSAL_OTHER_TABLE), "the first byte is not 0xFC"));
    CHECK(!strcmp(scte35_refusal_text(0), "not refused"));
    CHECK(!strcmp(scte35_refusal_text(37 + 1000), "no number of a refusal"));
}

/* Each UPID lies where the inline functions say: behind its type as written and its length. */
static void places(void)
{
    uint8_t loop[SCTE35_MAX_LOOP];
    size_t n = unhex(
        "01 08 43554549 B1 5F 34 35 "
        "02 27 43554549 00000007 7F 55 01 09 FF 00000005 0000000063 0A 0C 0102030405060708090A0B0C 34 02 03 "
        "02 17 43554549 00000007 7F BF 05 08 0102030405060708 34 02 03 "
        "02 1B 43554549 00000007 7F BF 0D 0C 05 08 0102030405060708 09 00 34 02 03 "
        "09 06 41424344 07 08 "
        "02 0F 43554549 00000007 7F BF 03 00 34 02 03",
        loop);
    static const uint8_t written[] = {0, 10, 5, 13, 0, 0}, reported[] = {0, 10, 6, 13, 0, 0};
    size_t k = 0;
    for (uint64_t at = 0; at < n; k++) {
        struct scte35_step x = scte35_read_item(loop, n, at);
        CHECK(!x.refusal);
        CHECK(x.item.segmentation.segmentation_upid_type == reported[k] && scte35_item_written_type(&x.item) == written[k]);
        if (x.item.bytes.len)
            CHECK(scte35_item_bytes(loop, &x.item) == loop + x.item.bytes.at);
        else
            CHECK(!scte35_item_bytes(loop, &x.item));
        if (x.item.kind == SCTE35_ITEM_SEGMENTATION) {
            size_t upid = scte35_item_upid_at(&x.item, at);
            if (x.item.bytes.len)
                CHECK(upid == x.item.bytes.at && loop[upid - 2] == written[k] && loop[upid - 1] == x.item.bytes.len);
            if (written[k] == SCTE35_UPID_EIDR) {
                struct scte35_segmentation_components beside = scte35_read_segmentation_components(loop, n, at);
                for (size_t i = 0; i < 12; i++)
                    CHECK(loop[upid + i] == beside.eidr[i]);
            }
        }
        if (k == 3) {
            const uint8_t *mid = scte35_item_bytes(loop, &x.item);
            struct scte35_upid u = scte35_read_upid(scte35_item_written_type(&x.item), mid, x.item.bytes.len, 0);
            CHECK(u.count == 2 && u.parts[0].upid_type == SCTE35_UPID_ISAN && scte35_part_written_type(&u.parts[0]) == SCTE35_UPID_ISAN_DEPRECATED);
            CHECK(scte35_part_bytes(mid, &u.parts[0]) == mid + 2 && !scte35_part_bytes(mid, &u.parts[1]) && scte35_part_written_type(&u.parts[1]) == SCTE35_UPID_ADI);
            /* handed back, it reads as it did */
            struct scte35_upid again = scte35_read_upid(scte35_part_written_type(&u.parts[0]), scte35_part_bytes(mid, &u.parts[0]), u.parts[0].len, 0);
            CHECK(!again.refusal && again.upid_type == SCTE35_UPID_ISAN);
        }
        at = x.next;
    }
    CHECK(k == 6);
}

/* ---- the writers over structs, of what no reader answers */

static void handed(void)
{
    static const uint8_t lent[6];
    uint8_t target[64];
    struct scte35_command null = {0}, private = {.splice_command_type = SCTE35_COMMAND_PRIVATE_COMMAND};
    struct scte35_header header = {0};
    struct scte35_step avail = {.item = {.kind = SCTE35_ITEM_AVAIL}}, segmentation;
#define COMMAND(c, lent, n) scte35_write_command(c, NULL, lent, n, target, sizeof target).refusal
#define SECTION(h, c, lent, n) scte35_write_section(h, c, NULL, lent, n, NULL, 0, target, sizeof target).refusal
#define DESCRIPTOR(step, beside, lent, n) scte35_write_descriptor(step, beside, lent, n, target, sizeof target)

    /* 31 before 33 of a view that the kind leaves out */
    null.private_bytes = private.private_bytes = avail.item.bytes = (struct scte35_view){5, 1};
    CHECK(COMMAND(&null, NULL, 0) == 31 && COMMAND(&null, lent, 5) == 31 && COMMAND(&null, lent, 6) == 33);
    CHECK(SECTION(&header, &null, NULL, 0) == 31 && SECTION(&header, &null, lent, 6) == 33);
    CHECK(DESCRIPTOR(&avail, NULL, NULL, 0).refusal == 31 && DESCRIPTOR(&avail, NULL, lent, 6).refusal == 33);
    CHECK(COMMAND(&private, lent, 5) == 31 && COMMAND(&private, lent, 6) == 0);

    /* NULL for a struct is 33, and behind 31 of another */
    CHECK(COMMAND(NULL, NULL, 0) == 33 && SECTION(NULL, &private, lent, 6) == 33 && SECTION(&header, NULL, NULL, 0) == 33);
    CHECK(SECTION(NULL, &private, lent, 5) == 31 && DESCRIPTOR(NULL, NULL, NULL, 0).refusal == 33);

    /* components and an EIDR that are not handed in are not written as zeros */
    uint8_t loop[64];
    size_t n = unhex("02 22 43554549 00000007 7F 3F 01 09 FE 00000005 0A 0C 0102030405060708090A0B0C 34 02 03", loop);
    struct scte35_segmentation_components beside = scte35_read_segmentation_components(loop, n, 0);
    segmentation = scte35_read_item(loop, n, 0);
    CHECK(DESCRIPTOR(&segmentation, &beside, loop, n).length == n && !memcmp(target, loop, n));
    CHECK(DESCRIPTOR(&segmentation, NULL, loop, n).refusal == 33);
    segmentation.item.segmentation.segmentation_upid_type = 0; /* components alone, then an EIDR alone */
    memset(beside.eidr, 0, sizeof beside.eidr);
    CHECK(!DESCRIPTOR(&segmentation, &beside, loop, n).refusal && DESCRIPTOR(&segmentation, NULL, loop, n).refusal == 33);
    segmentation.item.segmentation.program_segmentation_flag = 1;
    segmentation.item.segmentation.component_count = 0;
    CHECK(!DESCRIPTOR(&segmentation, NULL, loop, n).refusal);
    segmentation.item.segmentation.segmentation_upid_type = SCTE35_UPID_EIDR;
    CHECK(DESCRIPTOR(&segmentation, NULL, loop, n).refusal == 33 && !DESCRIPTOR(&segmentation, &beside, loop, n).refusal);
}

/* ---- stack */

enum { painted = 400 * 1024, paint = 0xA5 };

/* Paints below the stack's end, calls, and looks how far down the paint has gone. In a function of its own, which calls nothing else. */
#define MEASURED(function, call)                                              \
    static __attribute__((noinline)) size_t taken_by_##function(void)         \
    {                                                                         \
        uint8_t *end, *p;                                                     \
        __asm__ volatile("mov %%rsp, %0" : "=r"(end));                        \
        for (p = end - painted; p < end; p++)                                 \
            *(volatile uint8_t *)p = paint;                                   \
        call;                                                                 \
        for (p = end - painted; *(volatile uint8_t *)p == paint; p++)         \
            ;                                                                 \
        return (size_t)(end - p);                                             \
    }

static uint8_t section[SCTE35_MAX_SECTION], loop[SCTE35_MAX_LOOP], mid[256], target[SCTE35_MAX_SECTION], gathered[SCTE35_MAX_SECTION];
static uint8_t line[2 * SCTE35_MAX_SECTION + 53];
static const uint8_t id_of_line[] = {'1'};
static size_t section_length, loop_length;
static struct scte35_header header;
static struct scte35_command command;
static struct scte35_insert_components components;
static struct scte35_section whole;
static struct scte35_step step;
static struct scte35_segmentation_components beside;
static struct scte35_upid upid;
static struct scte35_adjusted_time adjusted;
static struct scte35_adjustment adjustment;
static struct scte35_daterange daterange;
static uint64_t packets[SCTE35_PACKET_WORDS], board[SCTE35_BOARD_WORDS];
static struct scte35_board_answer answer;
/* of PID 500: a start, counter 0, pointer 0, a section of 5 bytes, then zeros, which are no stuffing */
static const uint8_t packet[SCTE35_PACKET] = {0x47, 0x41, 0xF4, 0x10, 0x00, 0xFC, 0x30, 0x02, 0xAA, 0xBB};
static struct scte35_number number;
static struct scte35_written written, lined;
static volatile uint32_t told;

MEASURED(scte35_abi, told = scte35_abi())
MEASURED(scte35_crc, told = scte35_crc(section, section_length, 0))
MEASURED(scte35_read_header, header = scte35_read_header(section, section_length, 3))
MEASURED(scte35_read_section, whole = scte35_read_section(section, section_length, 0))
MEASURED(scte35_read_command, command = scte35_read_command(section[13], section, section_length, SCTE35_PLACE_COMMAND))
MEASURED(scte35_read_insert_components, components = scte35_read_section_components(section, &whole))
MEASURED(scte35_read_item, step = scte35_read_item(loop, loop_length, 0))
MEASURED(scte35_read_segmentation_components, beside = scte35_read_segmentation_components(loop, loop_length, 0))
MEASURED(scte35_read_upid, upid = scte35_read_upid(SCTE35_UPID_MID, mid, 254, 0))
MEASURED(scte35_is_canonical_section, told = scte35_is_canonical_section(section, section_length, 0))
MEASURED(scte35_is_canonical_loop, told = scte35_is_canonical_loop(loop, loop_length, 0))
MEASURED(scte35_is_canonical_descriptor, told = scte35_is_canonical_descriptor(loop, loop_length, 0))
MEASURED(scte35_write_command_words, written = scte35_write_command(&command, &components, section, section_length, target, sizeof target))
MEASURED(scte35_write_descriptor_words, written = scte35_write_descriptor(&step, &beside, loop, loop_length, target, sizeof target))
MEASURED(scte35_write_section_words, written = scte35_write_section(&header, &command, &components, section, section_length, loop, loop_length, target, sizeof target))
MEASURED(scte35_adjust_time, adjusted = scte35_adjust_time(SCTE35_TIME_AT, 1, 1))
MEASURED(scte35_move_time, adjusted = scte35_move_time(SCTE35_TIME_AT, 1, 1))
MEASURED(scte35_chain_adjustments, adjustment = scte35_chain_adjustments(1, 1))
MEASURED(scte35_undo_adjustment, adjustment = scte35_undo_adjustment(1))
MEASURED(scte35_relabel, written = scte35_relabel(section, section_length, 0, 1, 8, section, 12, target, sizeof target))
MEASURED(scte35_adjust_section, written = scte35_adjust_section(section, section_length, 0, 1, target, sizeof target))
MEASURED(scte35_write_daterange, lined = scte35_write_daterange(section, section_length, 0, id_of_line, 1, id_of_line, 1, line, sizeof line))
MEASURED(scte35_read_daterange, daterange = scte35_read_daterange(line, lined.length, 0, gathered, sizeof gathered))
MEASURED(scte35_classify_algorithm, number = scte35_classify_algorithm(33))
MEASURED(scte35_classify_command_type, number = scte35_classify_command_type(8))
MEASURED(scte35_classify_upid_type, number = scte35_classify_upid_type(200))
MEASURED(scte35_classify_segmentation_type, number = scte35_classify_segmentation_type(0x35))
MEASURED(scte35_classify_network_indicator, number = scte35_classify_network_indicator(2))
MEASURED(scte35_classify_return_mode, number = scte35_classify_return_mode(1))
MEASURED(scte35_classify_device_restrictions, number = scte35_classify_device_restrictions(3))
MEASURED(scte35_board_empty, answer = scte35_board_empty(board, SCTE35_BOARD_WORDS))
MEASURED(scte35_board_open, answer = scte35_board_open(board, SCTE35_BOARD_WORDS, 1, 7))
MEASURED(scte35_board_close, answer = scte35_board_close(board, SCTE35_BOARD_WORDS, 1, 1))
MEASURED(scte35_packet_start, scte35_packet_start(500, packets, SCTE35_PACKET_WORDS))
MEASURED(scte35_packet_feed, told = scte35_packet_feed(packets, SCTE35_PACKET_WORDS, packet, sizeof packet, gathered, sizeof gathered))
MEASURED(scte35_packet_take, told = scte35_packet_take(packets, SCTE35_PACKET_WORDS, packet, sizeof packet, gathered, sizeof gathered))

#define EACH(X)                                                                                                                                              \
    X(abi) X(crc) X(read_header) X(read_section) X(read_command) X(read_insert_components) X(read_item) X(read_segmentation_components) X(read_upid)                 \
    X(is_canonical_section) X(is_canonical_loop) X(is_canonical_descriptor) X(adjust_section) X(relabel) X(write_command_words) X(write_descriptor_words)    \
    X(write_section_words) X(write_daterange) X(read_daterange) X(adjust_time) X(move_time) X(chain_adjustments) X(undo_adjustment)                          \
    X(classify_algorithm) X(classify_command_type) X(classify_upid_type) X(classify_segmentation_type) X(classify_network_indicator)                         \
    X(classify_return_mode) X(classify_device_restrictions) X(packet_start) X(packet_feed) X(packet_take) X(board_empty) X(board_open) X(board_close)

#define PLACE(name) size_t name;
static struct { EACH(PLACE) } most;
#define MEASURE(name)                                  \
    {                                                  \
        size_t t = taken_by_scte35_##name();           \
        if (t > most.name)                             \
            most.name = t;                             \
    }
#define SAY(name) printf("scte35_" #name " %zu\n", most.name);

/* a segmentation descriptor with n bytes of UPID, of a type, of the program or with components */
static size_t descriptor(uint8_t *d, uint8_t type, size_t n, size_t count)
{
    static const uint8_t head[] = {2, 0, 'C', 'U', 'E', 'I', 0, 0, 0, 7, 0x7F};
    size_t at = sizeof head;
    memcpy(d, head, at);
    d[at++] = count ? 0x3F : 0xBF;
    if (count)
        d[at++] = (uint8_t)count;
    for (size_t i = 0; i < count; i++, at += 6)
        memcpy(d + at, "\1\xFE\0\0\0\5", 6);
    d[at++] = type;
    d[at++] = (uint8_t)n;
    if (type == SCTE35_UPID_MID)
        nested(d + at, n);
    else
        memset(d + at, 'A', n);
    at += n;
    memcpy(d + at, "\x10\1\1", 3);
    d[1] = (uint8_t)(at + 1);
    return at + 3;
}

/* an insert of so many components; where there are none, of the program */
static size_t insert(uint8_t *c, size_t count)
{
    static const uint8_t head[] = {0, 0, 0, 1, 0x7F};
    size_t at = sizeof head;
    memcpy(c, head, at);
    c[at++] = count ? 0xAF : 0xEF;
    if (count)
        c[at++] = (uint8_t)count;
    for (size_t i = 0; i < (count ? count : 1); i++) {
        if (count)
            c[at++] = (uint8_t)i;
        memcpy(c + at, "\xFE\0\0\0\1", 5);
        at += 5;
    }
    memcpy(c + at, "\xFE\0\0\0\2\0\1\1\1", 9);
    return at + 9;
}

static void around(size_t count)
{
    size_t payload = insert(section + SCTE35_PLACE_COMMAND, count);
    memcpy(section + SCTE35_PLACE_COMMAND + payload + 2, loop, loop_length);
    section_length = closed(section, SCTE35_COMMAND_SPLICE_INSERT, payload, loop_length);
    EACH(MEASURE)
    CHECK(!whole.refusal && whole.command.insert.mode.component_count == count);
    CHECK(!step.refusal && !beside.refusal && !upid.refusal && upid.count == SCTE35_MAX_PARTS);
    CHECK(!lined.refusal && !daterange.refusal && daterange.length == section_length && daterange.id.len == 1 && line[daterange.id.at] == '1');
    /* what was measured is what writes: the command of the section itself */
    command = whole.command;
    header = whole.header;
    EACH(MEASURE)
    CHECK(!written.refusal && written.length == section_length && !memcmp(target, section, section_length));
}

/* Every reader at its deepest, on a thread of 64 KB: what stands in `section`, `loop` and `mid` is read there. */
static void *every_reader(void *unused)
{
    (void)unused;
    whole = scte35_read_section(section, section_length, 0);
    header = scte35_read_header(section, section_length, 3);
    command = scte35_read_command(section[13], section, section_length, SCTE35_PLACE_COMMAND);
    components = scte35_read_section_components(section, &whole);
    step = scte35_read_item(loop, loop_length, 0);
    beside = scte35_read_segmentation_components(loop, loop_length, 0);
    upid = scte35_read_upid(SCTE35_UPID_MID, mid, 254, 0);
    daterange = scte35_read_daterange(line, lined.length, 0, gathered, sizeof gathered);
    told = scte35_is_canonical_section(section, section_length, 0);
    return NULL;
}

static void small_stack(void)
{
    pthread_attr_t attributes;
    pthread_t thread;
    whole.refusal = header.refusal = command.refusal = components.refusal = step.refusal = beside.refusal = upid.refusal = daterange.refusal = 1;
    told = 0;
    CHECK(!pthread_attr_init(&attributes) && !pthread_attr_setstacksize(&attributes, 64 * 1024));
    CHECK(!pthread_create(&thread, &attributes, every_reader, NULL));
    CHECK(!pthread_join(thread, NULL) && !pthread_attr_destroy(&attributes));
    CHECK(!whole.refusal && !header.refusal && !command.refusal && !components.refusal && components.count == SCTE35_MAX_COMPONENTS);
    CHECK(!step.refusal && !beside.refusal && !upid.refusal && upid.count == SCTE35_MAX_PARTS && !daterange.refusal && told);
}

static void stacks(void)
{
    nested(mid, 254);
    loop_length = descriptor(loop, SCTE35_UPID_MID, 238, 0);
    around(255);
    small_stack();
    around(0);
    loop_length = descriptor(loop, SCTE35_UPID_AD_ID, 12, 36);
    around(255);
    loop_length = descriptor(loop, SCTE35_UPID_EIDR, 12, 1);
    around(1);
    for (loop_length = 0; loop_length + 21 < 2000;)
        loop_length += descriptor(loop + loop_length, SCTE35_UPID_TI, 8, 0);
    around(255);
    EACH(SAY)
}

int main(void)
{
    CHECK(scte35_abi() == SCTE35_ABI);
    refusals();
    places();
    handed();
    stacks();
    return 0;
}
