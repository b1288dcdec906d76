/* firmware RECORDED: the calls of include/store.h, by the rules and beside the Rust. */
#include "calls.h"

#include <stdio.h>

int main(int argc, char **argv)
{
    long own, calls;
    if (argc != 2) {
        puts("firmware RECORDED");
        return 2;
    }
    rules();
    own = checks;
    calls = recorded(argv[1]);
    if (failures != 0) {
        printf("%ld of %ld checks failed\n", failures, checks);
        return 1;
    }
    printf("%ld checks; %ld calls answered as the Rust did", own, calls);
    if (deepest[0] != 0)
        printf("; stack at most: mount %zu, format %zu, delete %zu, list %zu bytes", deepest[0], deepest[1], deepest[2], deepest[3]);
    puts("");
    return 0;
}
