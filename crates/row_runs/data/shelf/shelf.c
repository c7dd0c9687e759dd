/* Answers the streams `spot` and `apart`. Build: cc -o shelf shelf.c */
#include <stdio.h>
#include <string.h>

int main(void) {
    char line[4096], stream[256];
    unsigned long turn;
    int place;
    while (fgets(line, sizeof line, stdin)) {
        if (sscanf(line, "next %lu %255s", &turn, stream) != 2)
            puts("end");
        else if (strcmp(stream, "spot") == 0 && turn < 4) /* 2, 4, 6 and 8 */
            printf("yield %lu\n", 2 * turn + 2);
        else if (sscanf(line, "next 0 apart %*s #%d", &place) == 1 && place > 2)
            puts("yield"); /* the lamp stands at 0 */
        else
            puts("end");
        fflush(stdout); /* each answer at once */
    }
    return 0;
}
