/* How long an instance lives. */

#ifndef J39_INSTANCE_H
#define J39_INSTANCE_H

#include "j39plan.h"

/* An order of an instance has ended. One that was freed meanwhile goes, where it has no session. */
void instance_rests(j39_instance *);
/* A session of an instance is begun; it is dropped. */
void instance_entered(j39_instance *);
void instance_left(j39_instance *);

#endif
