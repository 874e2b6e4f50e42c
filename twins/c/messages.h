/* The messages without a tail, in one list. */
#ifndef MESSAGES_H
#define MESSAGES_H

/* What may stand in a message's last column: the highest fix mode, or one of
 * these: any, and GPS_TIME's range. */
enum { ANY_MODE = 7, NS_RANGE = 8 };

/* A field's letter is 1, 2, 4 or 8 for so many unsigned bytes, h for two
 * signed ones and s for four. */
#define TIME_OF_WEEK "42"
#define THREE_DOUBLES "888"
#define MOTION THREE_DOUBLES THREE_DOUBLES THREE_DOUBLES
#define EPHEMERIS_COMMON "211" TIME_OF_WEEK "8411"

/* Type, letters of the fields in order, length, and the highest fix mode, the
 * low three bits of flags, which is then the last field. */
#define SBP_MESSAGES(MESSAGE)                                                  \
    MESSAGE(0x0100, "24s1", 11, NS_RANGE)                                      \
    MESSAGE(0x0206, "422222", 14, ANY_MODE)                                    \
    MESSAGE(0x0200, "4" THREE_DOUBLES "211", 32, 2)                            \
    MESSAGE(0x0201, "4" THREE_DOUBLES "2211", 34, 2)                           \
    MESSAGE(0x0202, "4sss211", 20, 1)                                          \
    MESSAGE(0x0204, "4sss211", 20, ANY_MODE)                                   \
    MESSAGE(0x0203, "4sss2211", 22, 1)                                         \
    MESSAGE(0x0205, "4sss2211", 22, ANY_MODE)                                  \
    MESSAGE(0x0207, "4411", 10, 1)                                             \
    MESSAGE(0x0044, THREE_DOUBLES, 24, ANY_MODE)                               \
    MESSAGE(0x0048, THREE_DOUBLES, 24, ANY_MODE)                               \
    MESSAGE(0x0081, EPHEMERIS_COMMON "8888888888888888888" TIME_OF_WEEK "12",  \
            185, ANY_MODE)                                                     \
    MESSAGE(0x0082, EPHEMERIS_COMMON MOTION "88", 112, ANY_MODE)               \
    MESSAGE(0x0083, EPHEMERIS_COMMON "88" MOTION, 112, ANY_MODE)               \
    MESSAGE(0x0090, TIME_OF_WEEK "88888888", 70, ANY_MODE)                     \
    MESSAGE(0x0091, TIME_OF_WEEK "4", 10, ANY_MODE)                            \
    MESSAGE(0x0092, TIME_OF_WEEK "11hhh", 14, ANY_MODE)                        \
    MESSAGE(0x00A1, "", 0, ANY_MODE)                                           \
    MESSAGE(0x00A6, "", 0, ANY_MODE)                                           \
    MESSAGE(0x00A2, "2", 2, ANY_MODE)                                          \
    MESSAGE(0xFF00, "4", 4, ANY_MODE)                                          \
    MESSAGE(0xFFFF, "4", 4, ANY_MODE)

#endif
