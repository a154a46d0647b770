/* Damage to sheets, with and without regard to their lines. */
#ifndef DAMAGE_H
#define DAMAGE_H

#include "sheet.h"

/* One change to the sheet; `other` is a sheet to borrow from. */
void damage(struct sheet *sheet, const struct sheet *other);

#endif
