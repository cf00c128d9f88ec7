/* Beside biTStream's header, which has names with the same prefix: neither hides or changes a name of the other. As C and as C++. */
#include "scte35.h"
#include <bitstream/scte/35.h>

/* the names of both, at once; a variable of a struct's type bears the answer of the function that fills it */
int both(const uint8_t *s, size_t n);
int both(const uint8_t *s, size_t n)
{
    struct scte35_header header = scte35_read_header(s, n, 3);
    return header.splice_command_type == SCTE35_COMMAND_PRIVATE_COMMAND && scte35_get_command_type(s) == SCTE35_PRIVATE_COMMAND && SCTE35_TABLE_ID == 0xFC;
}
