/* The console for C; docs/c.md says what each call does. It needs no other header. */
#ifndef WELZOUR_H
#define WELZOUR_H

#ifdef __cplusplus
extern "C" {
#endif

/* What a console holds. The memory is the caller's; what is in it is for the calls alone to write. Every number is one byte, so there are
   no gaps, and a number that says yes or no is yes where it is not 0. */

struct welzour_place {
    unsigned char kind; /* 0 dark, 1 a character, 2 a graphic code, 3 a field character by its number */
    unsigned char byte;
    unsigned char field; /* the low six bits of a field code */
};

/* what a row shows */
struct welzour_row {
    struct welzour_place columns[80];
    unsigned char ring[16]; /* the field characters */
    unsigned char len;
    unsigned char pairs;
    unsigned char field;
    unsigned char ended;
    unsigned char below;
    unsigned char hidden;
};

/* the row that is being taken */
struct welzour_filling {
    unsigned char phase; /* 0 ready, 1 a field code waits, 2 one more byte is dropped, 3 done */
    unsigned char field;
    unsigned char room;
    unsigned char taken;
    unsigned char over;
    struct welzour_row row;
};

struct welzour_layout {
    unsigned char loaded;
    unsigned char columns;
    unsigned char retrace;
    unsigned char lines;
    unsigned char rows;
    unsigned char vretrace;
    unsigned char underline;
    unsigned char opaque;
    unsigned char offset;
    unsigned char spaced;
    unsigned char cursor; /* 0 blinking block, 1 blinking underline, 2 block, 3 underline */
};

struct welzour_waits {
    unsigned char kind; /* 0 nothing, 1 to 4 Reset, 5 and 6 Load Cursor, 7 and 8 Read Light Pen */
    unsigned char first;
    unsigned char second;
    unsigned char third;
};

struct welzour_bursts {
    unsigned char size; /* 0 to 3: 1, 2, 4 or 8 bytes */
    unsigned char space;
};

struct welzour_spot {
    unsigned char column;
    unsigned char row;
};

struct welzour_beam {
    unsigned char row;
    unsigned char line;
    unsigned char column;
    unsigned char blink;
    unsigned char armed;
    unsigned char dark;
    struct welzour_bursts bursts;
    unsigned char gap;
};

struct welzour_flags {
    unsigned char ir;
    unsigned char lp;
    unsigned char ic;
    unsigned char du;
    unsigned char fo;
};

struct welzour_console {
    struct welzour_layout layout;
    struct welzour_waits waits;
    unsigned char ve;
    unsigned char ie;
    struct welzour_bursts bursts;
    unsigned char placed; /* the cursor has a place */
    struct welzour_spot cursor;
    struct welzour_beam beam;
    struct welzour_filling fill;
    struct welzour_row shown;
    struct welzour_flags flags;
    struct welzour_spot pen;
};

/* Why a call was refused. What is refused leaves the memory as it was. */
enum {
    WELZOUR_NO_COMPOSITION = 1,
    WELZOUR_UNKNOWN_COMMAND = 2,
    WELZOUR_TOO_MANY_COLUMNS = 3,
    /* the memory holds no console */
    WELZOUR_NO_CONSOLE = 254
};

/* a byte, and 0 or why there is none */
struct welzour_said {
    unsigned char byte;
    unsigned char refusal;
};

/* the word of a clock, whether the byte that was offered is taken, and 0 or why there is no word */
struct welzour_clocked {
    unsigned int word;
    unsigned char taken;
    unsigned char refusal;
};

/* fills the memory with a console as it is switched on, whatever was there */
void welzour_new(struct welzour_console *console);

/* a byte to the command port, a byte to the parameter port, a stroke of the light pen: 0, or the refusal */
unsigned char welzour_command(struct welzour_console *console, unsigned char byte);
unsigned char welzour_parameter(struct welzour_console *console, unsigned char byte);
unsigned char welzour_stroke(struct welzour_console *console);

/* the status byte, and a byte from the parameter port */
struct welzour_said welzour_status(struct welzour_console *console);
struct welzour_said welzour_read(struct welzour_console *console);

/* one clock, at which `byte` is offered where `offers` is not 0 */
struct welzour_clocked welzour_clock(struct welzour_console *console, unsigned char offers, unsigned char byte);

#ifdef __cplusplus
}
#endif
#endif
