/* The answers of ftl.h by name, and a call that has to have one. */
#ifndef ANSWER_H
#define ANSWER_H

#include <stdint.h>

const char *answer_name(uint32_t answer);
/* Ends the program where an answer is not the one wanted. */
void want_at(uint32_t wanted, uint32_t got, const char *call, const char *file, int line);
void that_at(int holds, const char *what, const char *file, int line);
#define WANT(wanted, call) want_at(wanted, call, #call, __FILE__, __LINE__)
#define THAT(what) that_at((what) != 0, #what, __FILE__, __LINE__)

#endif
