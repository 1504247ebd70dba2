/* The list of names that is due at the virtual gate, from gate/map.h alone. */
#include "../gate/map.h"

#include <stdio.h>

static const char *in_words(int type)
{
    return type == UNSIGNED_1 ? "unsigned 1 byte" : type == UNSIGNED_2 ? "unsigned 2 bytes" : "unsigned 4 bytes";
}

#define DUE(symbol, address, bytes, type, access, name, what)                    \
    printf("%-16s  %-25s  %7d  %5d  %s\n", name, in_words(type), address, bytes, \
           access == WRITABLE ? "may be written" : "read only");

int main(void)
{
    printf("Name              type                       address  bytes  access (read only is not kept yet: a write is carried out)\n");
    GATE_MAP(DUE)
    return 0;
}
