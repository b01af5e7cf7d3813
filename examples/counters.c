#include <pthread.h>
pthread_mutex_t hits_lock = PTHREAD_MUTEX_INITIALIZER;
pthread_mutex_t errors_lock = PTHREAD_MUTEX_INITIALIZER;
int hits;
int errors;
void *serve(void *arg) {
    pthread_mutex_lock(&hits_lock);
    hits = hits + 1;
    pthread_mutex_unlock(&hits_lock);
    pthread_mutex_lock(&errors_lock);
    errors = errors + 1;
    pthread_mutex_unlock(&errors_lock);
    return NULL;
}
void *retry(void *arg) {
    pthread_mutex_lock(&errors_lock);
    errors = errors + 1;
    pthread_mutex_unlock(&errors_lock);
    pthread_mutex_lock(&hits_lock);
    hits = hits + 1;
    pthread_mutex_unlock(&hits_lock);
    return NULL;
}
int main(void) {
    pthread_t workers[2];
    pthread_create(&workers[0], NULL, serve, NULL);
    pthread_create(&workers[1], NULL, retry, NULL);
    pthread_join(workers[0], NULL);
    pthread_join(workers[1], NULL);
    return 0;
}
