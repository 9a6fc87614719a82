#include <stdio.h>
#include "clearing.h"

/* Says whether the bytes on standard input are a valid book. */
int main(void)
{
    static uint8_t book[CLEARING_LONGEST_BOOK + 1];
    size_t length = fread(book, 1, sizeof book, stdin);
    uint8_t answer = clearing_check(book, length);
    puts(answer == 0 ? "valid" : "not valid");
    return answer;
}
