/* Records that are refused, and bytes that are no records. */
#ifndef SPOIL_H
#define SPOIL_H
#include "contend.h"

void wild(void);                                /* any kind with any numbers: often several faults at once */
void noise(void);                               /* a record that is refused, most likely */
void recovery_action(void);                     /* something during recovery */

/* Instead of a schedule: nothing, no setup, a bad one; garbage, with or without a setup. */
void damaged_start(void);
void garbage(void);

/* After a schedule: an unknown kind, a later 00 or a cut record. In it: cut at any byte; bytes altered. */
void damaged_end(void);
void cut_anywhere(void);
void alter(void);
#endif
