/* The tests of both sweeps. */
#ifndef SWEEPS_H
#define SWEEPS_H

void test_sweeps(void);
void test_sweep_order(void);
void test_most_seeds(void);
void test_swept_runs(void);
void test_swept_networks(void);
void test_sweep_no_trace(void);

#endif
