/* board-bench KIND OPEN TURNS: TURNS times a board with OPEN breaks open on each channel is copied, and one more is opened (KIND o), the last one
 * closed (c), or nothing done (n). */
#include <stdio.h>
#include <stdlib.h>
#include <string.h>
#include "scte35.h"

int main(int argc, char **argv) {
    uint64_t kept[SCTE35_BOARD_WORDS], board[SCTE35_BOARD_WORDS];
    if (argc != 4) return 2;
    uint32_t open = (uint32_t)atoi(argv[2]);
    scte35_board_empty(kept, SCTE35_BOARD_WORDS);
    for (uint32_t i = 0; i < 2 * open; i++) scte35_board_open(kept, SCTE35_BOARD_WORDS, i % 2, 7);
    uint64_t sum = 0;
    for (int i = atoi(argv[3]); i > 0; i--) {
        memcpy(board, kept, sizeof board);
        if (*argv[1] == 'o') sum += scte35_board_open(board, SCTE35_BOARD_WORDS, 1, 7).id;
        if (*argv[1] == 'c') sum += scte35_board_close(board, SCTE35_BOARD_WORDS, 1, open).id;
    }
    printf("%llu %llu\n", (unsigned long long)sum, (unsigned long long)board[0]);
    return 0;
}
