/* Lisqotay for C programs. Link target/staticlib/librate.a, which `rt staticlib rate` makes. */
#ifndef LISQOTAY_H
#define LISQOTAY_H

#include <stdint.h>

#ifdef __cplusplus
extern "C" {
#endif

/* Hardware swaps for each 1,000 finished calls, rounded to the nearest whole number, an exact half to the even neighbour;
   0 if no call is finished. It takes any two numbers, keeps nothing and always returns. */
uint64_t lisqotay_rate(uint32_t hardware_swaps, uint32_t finished_calls);

#ifdef __cplusplus
}
#endif

#endif
