/* Locks of places that are to be written: a file beside the place, which a program has locked while it works there. */
#ifndef LOCK_H
#define LOCK_H

#include "place.h"

/* The ending of a lock's name. */
#define LOCK_ENDING ".ruschoep-lock"

/* Locks a place until the program ends or unlocks it, and removes what a program that was ended there has left; false
 * where another program has it locked. Fails where a file that no such program made is in the way. */
bool lock_place(struct place *place);

/* Whether a locked place is still locked by this program: the lock's file could be removed by a person. */
bool is_lock_there(const struct place *place);

void unlock_place(struct place *place);

#endif
