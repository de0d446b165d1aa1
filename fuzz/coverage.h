/* Coverage of the proved code, which has no instrumentation of its own. */
#ifndef COVERAGE_H
#define COVERAGE_H

/* Puts a breakpoint at each block of the proved code; at exit the number of blocks reached is printed. */
void start_coverage(void);

#endif
