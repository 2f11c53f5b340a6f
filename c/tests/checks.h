/* What a test counts: its checks, and those that fail, each with a line of its file. */
#include <stdio.h>

static long checks, wrong;

static void check(int holds, const char *file, int line)
{
    checks++;
    if (!holds) {
        wrong++;
        printf("%s:%d\n", file, line);
    }
}
#define CHECK(holds) check((holds), __FILE__, __LINE__)
