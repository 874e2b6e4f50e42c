/* The C twin's closed reading once more, with the folded CRC, where bench/run compiles it: all names are changed, and its own CRC is weak, so that
 * that of twins/c/folded.c is linked instead. */
#define sbp_crc folded_crc
#define sbp_read_closed folded_read_closed
#define sbp_answer folded_answer
#define sbp_collator_make folded_collator_make
#define sbp_feed folded_feed
#define sbp_list folded_list
#pragma weak folded_crc
