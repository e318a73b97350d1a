/* Calls that are refused leave the memory as it was, and memory that holds no console is refused by every call.
   Prints what each call answered; ends with status 0 where no refusal wrote to the memory, and new wrote to all of it and no further. */
#include "welzour.h"

int printf(const char *format, ...);

static int altered;

static void compare(const struct welzour_console *a, const struct welzour_console *b)
{
    const unsigned char *p = (const unsigned char *)a;
    const unsigned char *q = (const unsigned char *)b;
    for (unsigned long k = 0; k < sizeof *a; k++)
        if (p[k] != q[k])
            altered = 1;
}

/* every call but new, with its refusal */
static void all(const char *name, const struct welzour_console *before)
{
    unsigned refusals[6];
    struct welzour_console memory;
    for (int k = 0; k < 6; k++) {
        memory = *before;
        switch (k) {
        case 0: refusals[k] = welzour_command(&memory, 0x10); break;
        case 1: refusals[k] = welzour_parameter(&memory, 0x50); break;
        case 2: refusals[k] = welzour_status(&memory).refusal; break;
        case 3: refusals[k] = welzour_read(&memory).refusal; break;
        case 4: refusals[k] = welzour_stroke(&memory); break;
        default: refusals[k] = welzour_clock(&memory, 1, 0x41).refusal; break;
        }
        if (refusals[k] != 0)
            compare(before, &memory);
    }
    printf("%s: command %u parameter %u status %u read %u stroke %u clock %u\n", name,
           refusals[0], refusals[1], refusals[2], refusals[3], refusals[4], refusals[5]);
}

/* a new console has 0 in its first and its last byte */
static int fills(void)
{
    struct {
        unsigned char before;
        struct welzour_console console;
        unsigned char behind;
    } memory;
    unsigned char *bytes = (unsigned char *)&memory;
    for (unsigned long k = 0; k < sizeof memory; k++)
        bytes[k] = 0xFF;
    welzour_new(&memory.console);
    return memory.before == 0xFF && memory.console.layout.loaded == 0 && memory.console.pen.row == 0 && memory.behind == 0xFF;
}

int main(void)
{
    struct welzour_console fresh, broken;
    welzour_new(&fresh);
    all("new", &fresh);
    welzour_command(&fresh, 0x00);
    all("reset", &fresh);
    broken = fresh;
    broken.beam.blink = 32;
    all("blink 32", &broken);
    broken = fresh;
    broken.beam.row = 1;
    all("a row without a composition", &broken);
    broken = fresh;
    broken.layout.loaded = 1;
    all("a composition of no characters", &broken);
    broken = fresh;
    broken.fill.row.len = 81;
    all("81 columns to take", &broken);
    broken = fresh;
    broken.shown.pairs = 1;
    all("more field characters than columns", &broken);
    broken = fresh;
    broken.pen.row = 255;
    all("a light pen anywhere", &broken);
    return altered || !fills();
}
