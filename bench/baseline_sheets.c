/* Sheets: reading the line that asks for one, and putting its lines into a lent buffer. A state handed in is checked whole. */
#include "work_sheets.h"

/* A decimal up to the byte that ends it, with no leading zero and no more than 64 bits. Answers what is behind that byte, or null. */
static const uint8_t *parse(const uint8_t *at, const uint8_t *end, uint8_t stop, uint64_t *value)
{
    const uint8_t *start = at;
    *value = 0;
    for (; at < end && *at >= '0' && *at <= '9'; at++) {
        uint64_t digit = *at - (uint64_t)'0';
        if (*value > (UINT64_MAX - digit) / 10)
            return NULL;
        *value = 10 * *value + digit;
    }
    bool leading = at - start > 1 && *start == '0';
    return at == start || leading || at == end || *at != stop ? NULL : at + 1;
}

spire_sheet c_sheet_open(const uint8_t *input, size_t count)
{
    const uint8_t *end = input + count;
    uint64_t values[3] = {0};
    const uint8_t *at = parse(input, end, ' ', &values[0]);
    at = at ? parse(at, end, ' ', &values[1]) : NULL;
    at = at ? parse(at, end, '\n', &values[2]) : NULL;
    if (at != end)
        return (spire_sheet){.refusal = REFUSED_INPUT};
    spire_started started = c_run_start(values[0], values[1], values[2]);
    if (started.refusal)
        return (spire_sheet){.refusal = started.refusal};
    return (spire_sheet){.first = values[1], .run = started.run};
}

static bool belongs(const spire_sheet *sheet)
{
    const spire_run *run = &sheet->run;
    if (sheet->refusal)
        return sheet->refusal <= REFUSED_INPUT;
    if (c_run_step(*run).refusal)
        return false;
    bool began = sheet->opened ? sheet->first <= run->next : sheet->first == run->next;
    return began && (!sheet->ended || run->next == run->end);
}

/* The lines of the shapes that come next, as many as there is room for. Answers where they end. */
static uint8_t *put_shapes(uint8_t *at, size_t count, spire_run *run)
{
    const uint8_t *most = at + (count - SPIRE_LINE_ROOM);
    uint64_t change = pattern_change(run->size, run->places), figure = run->figure, next = run->next, end = run->end;
    struct carried carried;
    carry(&carried, run);
    while (at <= most && figure <= UINT64_MAX - change) {
        at = put_line(at, &carried, change);
        figure += change;
        if (++next == end)
            break;
        change = step(&carried);
        count_up(&carried);
    }
    run->next = next;
    run->figure = figure;
    if (next == end)
        memset(run->places, 0, ROOM);
    else
        memcpy(run->places, carried.places, ROOM);
    return at;
}

static uint8_t *put_word(uint8_t *at, const char *word)
{
    size_t length = strlen(word);
    memcpy(at, word, length);
    return at + length;
}

static uint8_t *put_field(uint8_t *at, uint8_t before, uint64_t number)
{
    *at = before;
    return put_number(at + 1, number);
}

static uint8_t *end_line(uint8_t *at)
{
    *at = '\n';
    return at + 1;
}

static uint8_t *put_run(uint8_t *at, const spire_sheet *sheet)
{
    at = put_field(put_word(at, "RUN"), ' ', sheet->run.size);
    at = put_field(at, ' ', sheet->first);
    return end_line(put_field(at, ' ', sheet->run.end));
}

static uint8_t *put_end(uint8_t *at, const spire_sheet *sheet)
{
    at = put_field(put_word(at, "END"), ' ', sheet->run.end - sheet->first);
    return end_line(put_field(at, ' ', sheet->run.figure));
}

/* The next piece, which moves the sheet on. Answers where it ends. */
static uint8_t *put_piece(uint8_t *at, size_t count, spire_sheet *sheet)
{
    if (sheet->ended)
        return at;
    if (sheet->refusal) {
        sheet->ended = true;
        return end_line(put_field(put_word(at, "NO"), ' ', sheet->refusal));
    }
    if (!sheet->opened) {
        sheet->opened = true;
        return put_run(at, sheet);
    }
    if (sheet->run.next == sheet->run.end) {
        sheet->ended = true;
        return put_end(at, sheet);
    }
    return put_shapes(at, count, &sheet->run);
}

spire_filled c_sheet_fill(spire_sheet sheet, uint8_t *buffer, size_t count)
{
    spire_filled filled = {.sheet = sheet};
    if (count < SPIRE_LINE_ROOM)
        filled.refusal = REFUSED_LENGTH;
    else if (!belongs(&sheet))
        filled.refusal = REFUSED_STATE;
    else
        filled.bytes = (uint64_t)(put_piece(buffer, count, &filled.sheet) - buffer);
    return filled;
}
