/* The first word says which driver runs; a second word, "changed", flips a bit of the first byte that is written. */
#include "again.h"

#include <stdio.h>
#include <string.h>

int main(int count, char **words)
{
    static const struct {
        const char *name;
        int (*run)(void);
    } kinds[] = {
        { "requests", requests }, { "silent", silent }, { "vanishes", vanishes }, { "tells", tells }, { "lists", lists },
        { "waits", waits }, { "threads", threads }, { "stalls", stalls }, { "halts", halts }, { "resets", resets }, { "returns", returns },
        { "loader", loader }, { "large", large }, { "counts", counts }, { "readies", readies }, { "twice", twice },
        { "otherwise", otherwise }, { "moves", moves }, { "moves_later", moves_later },
    };
    setvbuf(stdout, NULL, _IOLBF, 0);
    flips = count > 2 && !strcmp(words[2], "changed");
    for (size_t i = 0; count > 1 && i < sizeof kinds / sizeof *kinds; i++)
        if (!strcmp(words[1], kinds[i].name))
            return kinds[i].run();
    return 20;
}
