/* Prints the header's version, and its text for each number from 0 to 255. Nothing is linked. */
#include <perchmellow.h>
#include <stdio.h>

int main(void) {
    puts(PERCHMELLOW_VERSION);
    for (unsigned number = 0; number < 256; number++)
        puts(perchmellow_refusal_text(number));
    return 0;
}
