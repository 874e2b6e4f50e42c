/* Asks the linked functions for the values that twins/python/answers.py works out (its asked()), and prints them, line by line. The caller
 * compares (tests/values.py). Nothing here knows an answer: a message is told by its name, type and fields, and all else is inputs. */
#include "values.h"

int main(void) {
    published();
    sums();
    captures();
    written();
    senders();
    each();
    orbits();
    flags();
    observations();
    logs();
    types();
    collated();
    out_of_order();
    indexed();
    return 0;
}
