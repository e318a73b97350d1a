/* Plays one frame of the page on standard input: 18 rows of 60 characters, bursts of eight bytes.
   Prints the word of every clock and then the status byte. */
#include "welzour.h"

/* of the C library, declared here so that no other header is needed */
int getchar(void);
int printf(const char *format, ...);

enum { CLOCKS = (60 + 20) * 10 * (18 + 2) };

static int programmed(struct welzour_console *console)
{
    static const unsigned char composition[4] = { 0x3B, 0x51, 0x79, 0x49 };
    welzour_new(console);
    if (welzour_command(console, 0x00) != 0)
        return 0;
    for (int k = 0; k < 4; k++)
        if (welzour_parameter(console, composition[k]) != 0)
            return 0;
    return welzour_command(console, 0x23) == 0;
}

int main(void)
{
    struct welzour_console console;
    if (!programmed(&console))
        return 1;
    int next = getchar();
    for (int k = 0; k < CLOCKS; k++) {
        struct welzour_clocked now = welzour_clock(&console, next >= 0, (unsigned char)next);
        if (now.refusal != 0)
            return 1;
        if (now.taken)
            next = getchar();
        printf("%08X\n", now.word);
    }
    struct welzour_said status = welzour_status(&console);
    printf("status %02X\n", (unsigned)status.byte);
    return status.refusal;
}
