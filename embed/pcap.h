/* A capture in the classic format of tcpdump: magic a1b2c3d4, version 2.4, moments in microseconds, link type 1 (Ethernet). */
#ifndef PCAP_H
#define PCAP_H

#include <stddef.h>
#include <stdint.h>
#include <stdio.h>

/* Begins a capture in a file of this name: NULL, and errno, where it can't. */
FILE *pcap_begin(const char *path);
/* Adds a frame of a moment, in microseconds. A failure shows when the file is closed. */
void pcap_add(FILE *capture, uint64_t moment, const uint8_t *frame, size_t len);

#endif
