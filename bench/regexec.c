/* Searches for each pattern of a file, one a line, in so many idents, from 0 to below a limit in turn. Prints the microseconds of
   processor time that an ident takes, and how many patterns were found. Called as: regexec PATTERNS COUNT LIMIT. */
#include <regex.h>
#include <stdio.h>
#include <stdlib.h>
#include <string.h>
#include <time.h>

int main(int argc, char **argv)
{
    static regex_t patterns[100000];
    char line[256];
    long many = 0, found = 0;
    FILE *file = argc == 4 ? fopen(argv[1], "r") : NULL;

    if (file == NULL)
        return 64;
    while (fgets(line, sizeof line, file) != NULL) {
        line[strcspn(line, "\n")] = 0;
        if (many == 100000 || regcomp(&patterns[many++], line, REG_EXTENDED) != 0)
            return 65;
    }
    fclose(file);

    long count = atol(argv[2]), limit = atol(argv[3]);
    struct timespec start, end;
    clock_gettime(CLOCK_PROCESS_CPUTIME_ID, &start);
    for (long i = 0; i < count; i++) {
        regmatch_t groups[10];
        snprintf(line, sizeof line, "%ld", i % limit);
        for (long j = 0; j < many; j++)
            found += regexec(&patterns[j], line, 10, groups, 0) == 0;
    }
    clock_gettime(CLOCK_PROCESS_CPUTIME_ID, &end);
    printf("%.4f %ld\n", ((end.tv_sec - start.tv_sec) * 1e6 + (end.tv_nsec - start.tv_nsec) / 1e3) / count, found);
    return 0;
}
