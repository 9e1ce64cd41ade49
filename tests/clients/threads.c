/*
 * Models opened by several threads at once: none of their programs holds an end of another's. The client's own file is
 * included for the number of its process.
 */
#include "fusb302.c"

#include <dirent.h>

enum { THREADS = 4, MODELS = 800 };

/* What a program has that is started while no other is. */
static int alone;

/* How many descriptors a process has open. */
static int descriptors(pid_t process)
{
    char path[64];
    int found = 0;
    snprintf(path, sizeof path, "/proc/%ld/fd", (long)process);
    DIR *folder = opendir(path);
    if (folder == NULL)
        return -1;
    for (const struct dirent *entry = readdir(folder); entry != NULL; entry = readdir(folder))
        found += entry->d_name[0] != '.';
    closedir(folder);
    return found;
}

/* Opens a model, reads its Device ID, and closes it. Gives back how many descriptors its program had. */
static int open_and_close(const char *bench)
{
    fusb302 *model;
    fusb302_outcome outcome;
    fusb302_open(&model, bench, 0);
    fusb302_status status = fusb302_read(model, 0x01, &outcome);
    int found = status == FUSB302_OK && outcome.value == 0x91 ? descriptors(model->bench) : 0;
    fusb302_status closed = fusb302_close(model);
    if (closed != FUSB302_OK)
        puts(fusb302_status_text(closed));
    return found;
}

static void *many(void *bench)
{
    for (int i = 0; i < MODELS; i++) {
        int found = open_and_close(bench);
        if (found != alone)
            printf("%d descriptors in the program of a model, %d if it is started alone\n", found, alone);
    }
    return NULL;
}

int main(int argc, char **argv)
{
    pthread_t threads[THREADS];
    if (argc != 2)
        return 2;
    alone = open_and_close(argv[1]);
    if (alone < 3) {
        printf("%d descriptors in the program of a model\n", alone);
        return 1;
    }
    for (int i = 0; i < THREADS; i++)
        if (pthread_create(&threads[i], NULL, many, argv[1]) != 0)
            return 2;
    for (int i = 0; i < THREADS; i++)
        pthread_join(threads[i], NULL);
    return 0;
}
