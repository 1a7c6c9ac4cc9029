/* image.h: the plain kernel's table as the port's byte image (docs/IMAGE.md), to compare the two. */
#ifndef IMAGE_H
#define IMAGE_H

#include "../include/nonthachak.h"
#include "plain.h"

/* The image of a sound table. */
void image_of(const struct plain *k, uint8_t image[NTK_IMAGE_SIZE]);

#endif
