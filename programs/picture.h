/* The picture that superframe is given: a PGM, which is one plane, or the first frame of a Y4M, which is three. */
#ifndef PICTURE_H
#define PICTURE_H

#include <stddef.h>
#include <stdint.h>
#include <stdio.h>

typedef struct {
    const char *name;
    FILE *file;
    int32_t width, height;
    int planes, interlaced;
    uint8_t *samples;
} picture;

/* A plane as it lies in the file. A Y4M rounds chroma's sides up, where a super frame rounds them down: of an odd side the last column or row of U and V isn't used. */
typedef struct {
    size_t width, height;
    const uint8_t *samples;
} source;

/* Both end the program where the file can't be used. Opening reads the header alone, so that a size can be refused before there is memory for it. */
picture opened(const char *name);
void read_samples(picture *p);

/* Plane 0 is Y or the PGM's own, 1 is U and 2 is V; its samples are there once they are read. */
source source_of(const picture *p, int plane);

/* Ends the program where there is no memory for so many bytes. */
uint8_t *zeros(size_t n);

#endif
