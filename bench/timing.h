/* Processor time, since other work may share the machine, and the middle one of some figures. */
#ifndef TIMING_H
#define TIMING_H

/* Rounds of each comparison, and how long a round of one version takes. */
enum { ROUNDS = 41, ROUND_MICROSECONDS = 12000 };

double microseconds(void);

/* The median of ROUNDS figures, which are put in order. */
double median(double *figures);

#endif
