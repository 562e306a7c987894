/* What the cases of second-edition lists share. */
#ifndef WEIGHTS_H
#define WEIGHTS_H

#include "cases.h"

/* The same byte so many times. */
#define FOUR(byte) byte, byte, byte, byte
#define FIFTEEN(byte) FOUR(byte), FOUR(byte), FOUR(byte), byte, byte, byte
#define SIXTEEN(byte) FIFTEEN(byte), byte

/* Three sites that weigh 1, C = A = 2, all willing: 11 bytes. */
#define ONES SECOND(3, 2, 2, 7), 1, 1, 1

/* Weights of 3, 2 and 2: W 7, h 3, so C = A = 4 and no other. Weights of 10, 20, 30 and 40: W 100, h 40, so each at most 60, and 101 together. */
#define SEVEN(c, a) SECOND(3, c, a, 7), 3, 2, 2
#define HUNDRED(c, a) SECOND(4, c, a, 15), 10, 20, 30, 40

/* Weights of 200: W 600, h 200. Sixteen of 255: W 4,080, h 255. */
#define SIX_HUNDRED(c, a) SECOND(3, c, a, 7), 200, 200, 200
#define MOST(c, a) SECOND(16, c, a, 0xffff), SIXTEEN(255)

#endif
