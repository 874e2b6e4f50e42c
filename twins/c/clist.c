/* Reads standard input to its end and prints its listing. One byte past the
 * limit is enough to know that the input is too long. */
#include "fast.h"

#include <stdio.h>

static uint8_t capture[SBP_INPUT_MAX + 1];
static char text[SBP_LIST_MAX];

int main(void)
{
    size_t length = fread(capture, 1, sizeof capture, stdin);
    if (ferror(stdin))
        return 1;
    size_t size = sbp_list(capture, length, text);
    return fwrite(text, 1, size, stdout) == size && fflush(stdout) == 0 ? 0 : 1;
}
