/* The frames that the rows of the Reliable Data Service are about, in the one buffer of pdus.h. */
#ifndef FRAMES_H
#define FRAMES_H

#include "pdus.h"

/* First octets of U frames: C/R 0 and 1. */
enum { U_0 = 0x70, U_1 = 0x74, UI_FRAME = 0x40 };

/* An Application ID of the longest kind, 272 octets, added; and one of 17. */
struct octets *longest_application(void);
struct octets *shortest_application(void);

/* MANAGE_PORT with this Action, ports octet and the longest Application ID. */
struct octets *managed(uint8_t first, uint8_t action, uint8_t ports);

/* A Notify command of the UE with 15 entries. */
struct octets *notify(void);

/* SET_PARAMETERS of the UE with as many items as there may be: 760, each without a value. */
struct octets *parameters(void);

/* A response to a Reserve or Release. */
struct octets *answered(uint8_t first, uint8_t action, uint8_t status);

/* Random octets, most of them like a MANAGE_PORT or SET_PARAMETERS; the same for the same k. */
struct octets *hostile_frame(uint64_t k);

#endif
