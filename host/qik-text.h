/* Pictures as text: every point of it, or for a terminal as much as it has room for. */
#ifndef QIK_TEXT_H
#define QIK_TEXT_H

#include "qik-picture.h"

void draw_picture(const struct picture *picture, const char *name);

#endif
