/* Real frames, and what is forged of them. */
#ifndef FORGE_H
#define FORGE_H

#include "frames.h"

/* Chance: all of a run comes of its seed. */
void chance_begin(uint64_t seed);
uint64_t chance(void);
/* A number below this one. */
uint64_t below(uint64_t most);
/* Whether it is one of so many times. */
bool one_of(uint64_t most);
/* A number of so many bits, often one at a bound. */
uint64_t any_number(unsigned bits);

/* Forgets all real frames. */
void forge_begin(void);
/* Keeps a real frame. */
void forge_keep(const uint8_t *octets, size_t len);
/* Forges a frame for the host with this MAC and address: a real one that was changed, and repaired in half of all cases, or one of the harness's own. */
void forge(struct frame *frame, const uint8_t mac[6], uint32_t addr);

#endif
