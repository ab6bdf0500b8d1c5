/*
 * Runs a program's main on each question of a file (see inputs.py), each in a process of its own, and puts down a line for each: how it
 * ended, and a number made of what it printed.
 */
#include "trial.h"

#include <sys/wait.h>

/* Says 1 in a child, which is to run the program's main, and 0 once there is no further question. */
int trial_child(void)
{
    static unsigned char question[100000], part[65536];
    static char line[100];
    uint32_t length;
    opened();
    while (fread(&length, sizeof length, 1, inputs) == 1) {
        FILE *in = tmpfile();
        int ends[2], status;
        ssize_t count;
        unsigned long long h = hash(part, 0);
        if (length > sizeof question || fread(question, 1, length, inputs) != length || !in || pipe(ends))
            exit(2);
        fwrite(question, 1, length, in);
        rewind(in);
        pid_t child = fork();
        if (child < 0)
            exit(2);
        if (child == 0) {
            alarm(PATIENCE);
            dup2(fileno(in), 0);
            dup2(ends[1], 1);
            close(ends[0]);
            return 1;
        }
        close(ends[1]);
        fclose(in);
        while ((count = read(ends[0], part, sizeof part)) > 0)
            h = hash_on(h, part, (size_t)count);
        close(ends[0]);
        if (waitpid(child, &status, 0) < 0)
            exit(2);
        sprintf(line, "%d %llx", status, h);
        if (!answered(line))
            return 0;
    }
    return 0;
}

/* The end of a child. */
void trial_end(void)
{
    _exit(0);
}
