/* What superframe is asked, and how it ends where that can't be used. Of the library only the header is needed. */
#ifndef COMMAND_LINE_H
#define COMMAND_LINE_H

#include <stdint.h>

/* Statuses; the last is given by usable.c alone. */
enum { REFUSED = 1, UNUSABLE = 2, USABLE = 3 };

#ifdef __GNUC__
#define PRINTS(text, args) __attribute__((format(printf, text, args)))
#define ENDS __attribute__((noreturn))
#else
#define PRINTS(text, args)
#define ENDS
#endif

/* A file to be written. Its name is as given, NULL where none is asked for; its place is where that leads through links, NULL where it is no regular file: a device or a pipe is written as it stands. */
typedef struct {
    const char *name;
    char *place;
} output;

/* layout is a flag of the layout that was given, NULL where none was: not every picture takes one. */
typedef struct {
    uint32_t given;
    int32_t set[7];
    uint64_t pitch, x, y;
    int pitch_given;
    const char *in, *layout;
    output out, view;
} options;

options command_line(int argc, char **argv);

/* What printf would print, as a text of its own. */
PRINTS(1, 2) char *printed(const char *form, ...);

/* Says what can't be used, and ends the program. */
ENDS PRINTS(1, 2) void unusable(const char *text, ...);

/* Ends the program as done, if all that it printed went out. */
void finish(void);

#endif
