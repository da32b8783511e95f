// What plotters.rs offers: the function of an operation's name and a kind, or null. It takes what our export takes, but for
// the kind. With numbers asked for, it answers our export's struct, for a pixel an ordered_number, since it has no flags; else
// plotters' own answer stays in its memory, and the function answers an ordered_number: the status, or a list's count.
// It stands in a library of its own, so that no call is inlined into the loop, as no call of the archive is.
#pragma once

#include <cstdint>

extern "C" void *plotters_find(const char *name, int64_t kind, bool numbers);
