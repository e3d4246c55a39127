/* Prints the largest text, for the programs that read one. */
#include <stdio.h>
#include <stdlib.h>

#include "text.h"

int main(void)
{
    static uint8_t text[LARGEST_TEXT + 1];
    size_t length = largest_text(text);
    return fwrite(text, 1, length, stdout) == length ? EXIT_SUCCESS : EXIT_FAILURE;
}
