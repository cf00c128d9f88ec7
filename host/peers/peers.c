/*
 * The sections of a transport stream by two other assemblers, one to a line in hexadecimal:
 *
 *     peers dvbpsi|bitstream PID FILE [N]
 *
 * dvbpsi: libdvbpsi's dvbpsi_packet_push, with a decoder that takes sections of up to 4,096 bytes. bitstream: biTStream's psi_assemble_payload, called as its own
 * users call it. With N the stream goes through N times and only its packets, sections and nanoseconds are printed.
 */
#include <bitstream/mpeg/psi.h>
#include <bitstream/mpeg/ts.h>
#include <dvbpsi/dvbpsi.h>
#include <dvbpsi/psi.h>
#include <stdio.h>
#include <stdlib.h>
#include <string.h>
#include <time.h>

static int quiet;
static uint64_t sections;

static void given(const uint8_t *s, size_t n)
{
    sections++;
    if (quiet)
        return;
    for (size_t i = 0; i < n; i++)
        printf("%02X", s[i]);
    putchar('\n');
}

/* ---- libdvbpsi */

static dvbpsi_t *handle;

/* as the library's own tables do: what was found of a discontinuity is settled by a section. (Until then it takes a repeat for another.) */
static void gathered(dvbpsi_t *p, dvbpsi_psi_section_t *s)
{
    p->p_decoder->b_discontinuity = false;
    given(s->p_data, (size_t)s->i_length + 3);
    dvbpsi_DeletePSISections(s);
}

static void dvbpsi_start(void)
{
    handle = dvbpsi_new(NULL, DVBPSI_MSG_NONE);
    handle->p_decoder = (dvbpsi_decoder_t *)dvbpsi_decoder_new(gathered, 4096, false, sizeof(dvbpsi_decoder_t));
}

static void dvbpsi_end(void)
{
    dvbpsi_decoder_delete(handle->p_decoder);
    handle->p_decoder = NULL;
    dvbpsi_delete(handle);
}

static void dvbpsi_packet(uint8_t *p)
{
    dvbpsi_packet_push(handle, p);
}

/* ---- biTStream */

static uint8_t *buffer;
static uint16_t used;
static int last;

static void bitstream_start(void)
{
    psi_assemble_init(&buffer, &used);
    last = -1;
}

static void bitstream_end(void)
{
    psi_assemble_reset(&buffer, &used);
}

static void bitstream_section(uint8_t *s)
{
    if (s) {
        given(s, (size_t)psi_get_length(s) + PSI_HEADER_SIZE);
        free(s);
    }
}

static void bitstream_packet(uint8_t *p)
{
    int counter = ts_get_cc(p);
    if (!ts_has_payload(p) || ts_check_duplicate(counter, last))
        return;
    if (last != -1 && ts_check_discontinuity(counter, last))
        psi_assemble_reset(&buffer, &used);
    last = counter;
    const uint8_t *payload = ts_section(p);
    uint8_t length = (uint8_t)(p + TS_SIZE - payload);
    if (!psi_assemble_empty(&buffer, &used))
        bitstream_section(psi_assemble_payload(&buffer, &used, &payload, &length));
    payload = ts_next_section(p);
    length = (uint8_t)(p + TS_SIZE - payload);
    while (length)
        bitstream_section(psi_assemble_payload(&buffer, &used, &payload, &length));
}

int main(int argc, char **argv)
{
    int turns = argc > 4 ? atoi(argv[4]) : 1, dvbpsi = argc > 1 && !strcmp(argv[1], "dvbpsi");
    FILE *f = argc > 3 ? fopen(argv[3], "rb") : NULL;
    if (!f)
        return fprintf(stderr, "peers dvbpsi|bitstream PID FILE [N]\n"), 2;
    uint16_t pid = (uint16_t)atoi(argv[2]);
    quiet = argc > 4;
    fseek(f, 0, SEEK_END);
    size_t size = (size_t)ftell(f), at;
    rewind(f);
    uint8_t *stream = malloc(size ? size : 1);
    if (fread(stream, 1, size, f) != size)
        return 2;
    struct timespec a, b;
    clock_gettime(CLOCK_MONOTONIC, &a);
    while (turns--) {
        sections = 0;
        dvbpsi ? dvbpsi_start() : bitstream_start();
        for (at = 0; at + TS_SIZE <= size; at += TS_SIZE)
            if (ts_validate(stream + at) && ts_get_pid(stream + at) == pid)
                dvbpsi ? dvbpsi_packet(stream + at) : bitstream_packet(stream + at);
        dvbpsi ? dvbpsi_end() : bitstream_end();
    }
    clock_gettime(CLOCK_MONOTONIC, &b);
    if (quiet)
        printf("%zu %llu %lld\n", size / TS_SIZE, (unsigned long long)sections, (long long)(b.tv_sec - a.tv_sec) * 1000000000LL + (b.tv_nsec - a.tv_nsec));
    free(stream);
    return 0;
}
