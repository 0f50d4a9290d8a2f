/* The text of outputs. */
#ifndef PLAY_TEXT_H
#define PLAY_TEXT_H
#include <tcap.h>

/* Octets as hexadecimal, `-` where there are none. */
void print_hex(tcap_octets of);
/* The words of an output that isn't a TCAP_SEND, without the side's letter. */
void print_output(const tcap_output *output);
#endif
