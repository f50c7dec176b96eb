#ifndef REFUSALS_H
#define REFUSALS_H

#include "baseline.h"

// Whether the decoder makes each test of a decode.
int refuses_rightly(decode_call *decode);

#endif
