int gd_cap[2] = {1, 2};
void gd_take(int k);
void gd_give(int k);
#include <pthread.h>
#define left 0
#define NULL_PLACE 1
pthread_mutex_t forks[3] = {PTHREAD_MUTEX_INITIALIZER, PTHREAD_MUTEX_INITIALIZER, PTHREAD_MUTEX_INITIALIZER};
int plates[3];

void *eat(void *seat) {
    int i = (long)seat;
    gd_take(0);
    pthread_mutex_lock(&forks[i]);
    pthread_mutex_lock(&forks[(i + 1) % 3]);
    plates[i] += (int)(long)seat - left;
    if (plates[i] > 5) if (i) plates[i] = 0; else plates[NULL_PLACE]--;
    pthread_mutex_unlock(&forks[(i + 1) % 3]);
    pthread_mutex_unlock(&forks[i]);
    gd_give(0);
    return NULL;
}

int main() {
    pthread_t t, u, v;
    pthread_create(&t, NULL, eat, (void *)0);
    pthread_create(&u, NULL, eat, (void *)(intptr_t)1);
    pthread_create(&v, NULL, eat, (void *)-(-2));
    pthread_join(t, NULL); pthread_join(u, NULL); pthread_join(v, NULL);
    return 0;
}
