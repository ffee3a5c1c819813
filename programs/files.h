/* The files that superframe writes. Each is this run's, whole, or isn't there: it is made beside its place and put there when whole, and where the run ends before that, an older file goes, since it would pass for this run's. */
#ifndef FILES_H
#define FILES_H

#include <stddef.h>
#include <stdint.h>

#include "command_line.h"

/* From now on, as the program ends, older files go from the places that are still kept in `of`, which has to last as long. */
void answer_for(const options *of);

/* Puts a text and bytes after it in an output's place, which is then no longer kept. */
void write_whole(output *to, const char *head, const uint8_t *bytes, size_t count);

#endif
