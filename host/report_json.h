/* What the controller prints as JSON, an object a line. */
#ifndef REPORT_JSON_H
#define REPORT_JSON_H

#include "report.h"

/* An object: begun with what it is about, filled with members, and ended with its line. */
void begin_object(const char *what);
void put_count(const char *key, uint64_t number);
void put_string(const char *key, const char *text, size_t length);
void put_truth(const char *key, bool truth);
void put_checksum(const char *key, uint32_t checksum);
void put_totals(const struct site *site); /* as "totals", arrays in arrays */
void put_answer(uint64_t answer);         /* its number and word, and its node or line where it names one */
void put_names(const struct names *names); /* as "names", an array for each level, where there are names */
void end_object(void);

void print_delivery_object(const struct form *form, const struct site *site, const struct played *played);
void print_day_object(const struct site *site, const struct day_result *day);

#endif
