/* The sheet program in plain C: one line in, the sheet of that run out. */
#include <unistd.h>

#include "baseline.h"

enum {
    PIECE = 65536,
    INPUT = 64, /* the longest good input has one byte less */
};

static uint8_t buffer[PIECE];

static void write_all(size_t count)
{
    for (size_t done = 0; done < count;) {
        ssize_t written = write(1, buffer + done, count - done);
        if (written <= 0)
            _exit(1);
        done += (size_t)written;
    }
}

static size_t read_input(uint8_t *input)
{
    size_t count = 0;
    while (count < INPUT) {
        ssize_t got = read(0, input + count, INPUT - count);
        if (got <= 0)
            break;
        count += (size_t)got;
    }
    return count;
}

/* What is handed out is gathered until there is no room for another line. */
int main(void)
{
    uint8_t input[INPUT];
    size_t count = read_input(input), used = 0;
    spire_sheet sheet = c_sheet_open(input, count);
    while (!sheet.ended) {
        if (PIECE - used < SPIRE_LINE_ROOM) {
            write_all(used);
            used = 0;
        }
        spire_filled filled = c_sheet_fill(sheet, buffer + used, PIECE - used);
        used += filled.bytes;
        sheet = filled.sheet;
    }
    write_all(used);
}
