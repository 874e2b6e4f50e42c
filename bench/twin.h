/* The C twin has our names: it gets its own, here and where bench/run compiles it. */
#define sbp_counts twin_counts
#define sbp_collator twin_collator
#define sbp_crc twin_crc
#define sbp_answer twin_answer
#define sbp_feed twin_feed
#define sbp_list twin_list
#include "../twins/c/fast.h"
