/* Starts and joins threads as `run` does, and nothing else: in each round one for each core, joined from the last on. */
#include <pthread.h>
#include <stdlib.h>

#define MOST_CORES 32

static void *nothing(void *none)
{
    return none;
}

int main(int count, char **words)
{
    pthread_t threads[MOST_CORES];
    long cores = count == 3 ? atol(words[2]) : 0;
    if (cores < 1 || cores > MOST_CORES)
        return 2;
    for (long round = atol(words[1]); round > 0; round--) {
        for (long core = 0; core < cores; core++)
            if (pthread_create(&threads[core], NULL, nothing, NULL) != 0)
                return 1;
        for (long core = cores; core > 0; core--)
            pthread_join(threads[core - 1], NULL);
    }
    return 0;
}
