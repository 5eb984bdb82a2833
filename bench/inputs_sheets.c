/* Lines that ask for a sheet, and sheets half handed out, good and damaged. */
#include <inttypes.h>
#include <stdio.h>
#include <string.h>

#include "inputs.h"

enum { FIELD = 48 };

static uint64_t least(uint64_t a, uint64_t b)
{
    return a < b ? a : b;
}

static size_t join(char fields[3][FIELD], uint8_t *line)
{
    char text[3 * FIELD + 1];
    int length = snprintf(text, sizeof text, "%s %s %s\n", fields[0], fields[1], fields[2]);
    memcpy(line, text, (size_t)length);
    return (size_t)length;
}

size_t good_line(size_t n, uint8_t *line)
{
    uint64_t total = catalan(n), first = below(total + 1);
    switch (below(8)) {
    case 0: first = 0; break;
    case 1: first = total; break;
    case 2: first = total - below(least(total, 60) + 1); break;
    case 3: first = below(least(total, 1100) + 1); break;
    }
    uint64_t end = first + below(least(total - first, SHORT_RUN) + 1);
    char fields[3][FIELD];
    snprintf(fields[0], FIELD, "%zu", n);
    snprintf(fields[1], FIELD, "%" PRIu64, first);
    snprintf(fields[2], FIELD, "%" PRIu64, end);
    noise(line, MOST);
    return join(fields, line);
}

/* Some times 2^64 more, which 64 bits would take for the number itself. */
static void put_above(char *field, uint64_t number)
{
    const uint64_t half = 10000000000; /* 2^64 is 1844674407 times this, and 3709551616 */
    uint64_t times = 1 + below(20);
    uint64_t low = times * 3709551616 + number % half;
    uint64_t high = times * 1844674407 + number / half + low / half;
    snprintf(field, FIELD, "%" PRIu64 "%010" PRIu64, high, low % half);
}

/* Mostly the number's decimal, else what is none or is too large. */
static void put_field(char *field, uint64_t number)
{
    static const char *const formats[] = {"0%" PRIu64, "000%" PRIu64, "-%" PRIu64, "+%" PRIu64, " %" PRIu64, "%" PRIu64 " "};
    snprintf(field, FIELD, "%" PRIu64, number);
    switch (below(24)) {
    case 0: snprintf(field, FIELD, formats[below(sizeof formats / sizeof *formats)], number); break;
    case 1: put_above(field, number); break;
    case 2: put_above(field, 0); break;
    case 3: snprintf(field, FIELD, "%" PRIu64, UINT64_MAX); break;
    case 4: snprintf(field, FIELD, "%" PRIu64 "%020" PRIu64, 1 + below(9), draw()); break;
    case 5: field[0] = '\0'; break;
    }
}

static size_t drop(uint8_t *line, size_t count, size_t i)
{
    memmove(line + i, line + i + 1, count - i - 1);
    return count - 1;
}

static size_t insert(uint8_t *line, size_t count, size_t i, uint8_t byte)
{
    memmove(line + i + 1, line + i, count - i);
    line[i] = byte;
    return count + 1;
}

/* Some byte of the line is damaged, its end, or all of it. The bytes drawn are those that are nearly right. */
static size_t damage_line(uint8_t *line, size_t count)
{
    static const uint8_t near[] = {'0', '1', '9', ' ', '\n', '\r', '\t', '\0', '/', ':', '-', '+', ',', '.', 'x', 0xb0, 0xff};
    size_t i = below(count), j = below(count);
    uint8_t byte = line[i], other = near[below(sizeof near)];
    switch (below(11)) {
    case 0: line[i] = other; return count;
    case 1: line[i] ^= (uint8_t)(1 << below(8)); return count;
    case 2: line[i] = line[j], line[j] = byte; return count;
    case 3: return drop(line, count, i);
    case 4: return insert(line, count, i, byte);
    case 5: return insert(line, count, i, other);
    case 6: return count - 1;
    case 7: return insert(line, count, count, other);
    case 8: return i;
    case 9: memmove(line + count, line, least(count, MOST - count)); return count + least(count, MOST - count);
    default: noise(line, count); return count;
    }
}

size_t any_line(size_t n, uint8_t *line)
{
    if (below(3) == 0)
        return good_line(n, line);
    uint64_t first = any_number(n), end = below(4) == 0 ? any_number(n) : first + below(SHORT_RUN);
    char fields[3][FIELD];
    put_field(fields[0], any_size(n));
    put_field(fields[1], first);
    put_field(fields[2], end);
    noise(line, MOST);
    size_t count = below(2) == 0 ? join(fields, line) : good_line(n, line);
    return below(2) == 0 ? count : damage_line(line, count);
}

/* Half of the runs that are at no end come to theirs in a few shapes. */
static spire_sheet good_sheet(size_t n)
{
    spire_sheet sheet = {.opened = below(4) != 0, .run = good_run(n)};
    spire_run *run = &sheet.run;
    if (run->next < run->end && below(2) == 0)
        run->end = run->next + 1 + below(least(run->end - run->next, 16));
    sheet.first = run->next;
    if (sheet.opened)
        sheet.first -= below(below(2) == 0 ? run->next + 1 : least(run->next + 1, 1000));
    sheet.ended = run->next == run->end && below(3) == 0;
    if (below(12) == 0)
        sheet.refusal = 1 + below(11);
    return sheet;
}

static void damage_sheet(size_t n, spire_sheet *sheet)
{
    spire_run *run = &sheet->run;
    switch (below(12)) {
    case 0: sheet->refusal = 11 + below(3); break;
    case 1: sheet->refusal = below(12) + (UINT64_C(1) << (4 + below(60))); break;
    case 2: sheet->refusal = UINT64_MAX - below(3); break;
    case 3: sheet->first = run->next + 1 + below(3); break;
    case 4: sheet->first = any_number(n); break;
    case 5: sheet->opened = false, sheet->first = run->next - 1; break;
    case 6: sheet->opened = !sheet->opened; break;
    case 7: sheet->ended = true; break;
    case 8: run->figure = UINT64_MAX - below(600); break;
    default: damage_run(n, run);
    }
}

spire_sheet any_sheet(size_t n)
{
    spire_sheet sheet = good_sheet(n);
    if (below(2) == 0)
        damage_sheet(n, &sheet);
    return sheet;
}

size_t any_room(void)
{
    switch (below(24)) {
    case 0: return below(SPIRE_LINE_ROOM);
    case 1: return SPIRE_LINE_ROOM - 1;
    case 2: return SPIRE_LINE_ROOM;
    default: return good_room();
    }
}

size_t good_room(void)
{
    return SPIRE_LINE_ROOM + below(MOST_ROOM - SPIRE_LINE_ROOM + 1);
}
