/* A program that only reads: what the C library alone takes. */
#include <unistd.h>

int main(void)
{
    char byte;
    while (read(0, &byte, 1) > 0) {
    }
    return 0;
}
