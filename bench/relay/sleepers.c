/* Three threads that do nothing but sleep, 10 ms at a time. */
#include <pthread.h>
#include <time.h>

static void *sleep_on(void *unused) {
    for (;;)
        nanosleep(&(struct timespec){0, 10000000}, NULL);
    return unused;
}

int main(void) {
    pthread_t it;
    for (int i = 0; i < 2; i++)
        pthread_create(&it, NULL, sleep_on, NULL);
    sleep_on(NULL);
}
