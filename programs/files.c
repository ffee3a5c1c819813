/* Puts superframe's files in their places. In order: what happens as the program ends; writing. */
#define _GNU_SOURCE /* mkstemp */
#include <errno.h>
#include <stdio.h>
#include <stdlib.h>
#include <string.h>
#include <sys/stat.h>
#include <unistd.h>

#include "files.h"

static const options *asked;
static char *unfinished;

static void withdraw(void) {
    const output *all[] = {&asked->out, &asked->view};
    if (unfinished) unlink(unfinished);
    for (int k = 0; k < 2; k++) {
        if (!all[k]->place || access(all[k]->place, F_OK)) continue;
        if (unlink(all[k]->place)) fprintf(stderr, "superframe: %s: this run made none, and an older one couldn't be removed: %s\n", all[k]->name, strerror(errno));
        else fprintf(stderr, "superframe: %s: this run made none, so an older one was removed\n", all[k]->name);
    }
}

void answer_for(const options *of) {
    asked = of;
    atexit(withdraw);
}

/* A new file beside a place, with the rights that fopen gives. */
static FILE *beside(const char *place) {
    unfinished = printed("%s.XXXXXX", place);
    int file = mkstemp(unfinished);
    if (file < 0) return NULL;
    mode_t kept = umask(0);
    umask(kept);
    fchmod(file, 0666 & ~kept);
    return fdopen(file, "wb");
}

void write_whole(output *to, const char *head, const uint8_t *bytes, size_t count) {
    FILE *f = to->place ? beside(to->place) : fopen(to->name, "wb");
    if (!f) unusable("%s: %s", to->name, strerror(errno));
    fputs(head, f);
    fwrite(bytes, 1, count, f);
    int bad = ferror(f);
    if (fclose(f) || bad || (unfinished && rename(unfinished, to->place))) unusable("%s: it couldn't be written whole", to->name);
    free(unfinished), free(to->place);
    unfinished = to->place = NULL;
}
