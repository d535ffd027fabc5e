/* The tests of packets: their writer, and the reader of what it writes. */
#ifndef PACKETS_H
#define PACKETS_H

void test_printed_texts(void);
void test_text_slices(void);
void test_text_rules(void);
void test_no_packets(void);
void test_all_terms(void);
void test_all_data(void);
void test_all_flags(void);
void test_run_packets(void);

#endif
