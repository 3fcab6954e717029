/* The paper's Fig. 4 on a net of type 1, for its count beside the least count. */
#ifndef FIG4_H
#define FIG4_H

#include "fast.h"

/* legal: inverters in these numbers can be set on the net's wires so that
   the placement is legal (RULES 2.16). found is false where the procedure ends at infinity. */
struct fig4 { bool found, legal; uint64_t count; };

/* Step 4 of the figure changes polarity where the number of inverters on an edge is even. That
   sets the sinks against each other as soon as an edge has none; `turned` takes it to mean odd. */
struct fig4 fig4_as_printed(const struct limits *limits, const struct columns *net, bool turned);

/* What the figure aims at, made to hold: for each polarity one label, the least count and the
   least load with it, pins apart from wires, C_b for what an inverter hands up, any number of
   children. It gives a legal placement's count; UINT64_MAX where it finds none. */
uint64_t one_label_count(const struct limits *limits, const struct columns *net);

#endif
