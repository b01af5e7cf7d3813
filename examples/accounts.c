#include <pthread.h>
pthread_mutex_t checking_lock = PTHREAD_MUTEX_INITIALIZER;
pthread_mutex_t savings_lock = PTHREAD_MUTEX_INITIALIZER;
int checking;
int savings;
void *pay_in(void *arg) {
    pthread_mutex_lock(&checking_lock);
    checking = checking + 50;
    pthread_mutex_lock(&savings_lock);
    savings = savings + 50;
    pthread_mutex_unlock(&savings_lock);
    pthread_mutex_unlock(&checking_lock);
    return NULL;
}
void *add_interest(void *arg) {
    pthread_mutex_lock(&savings_lock);
    savings = savings + 2;
    pthread_mutex_lock(&checking_lock);
    checking = checking + 1;
    pthread_mutex_unlock(&checking_lock);
    pthread_mutex_unlock(&savings_lock);
    return NULL;
}
int main(void) {
    pthread_t clerks[2];
    pthread_create(&clerks[0], NULL, pay_in, NULL);
    pthread_create(&clerks[1], NULL, add_interest, NULL);
    pthread_join(clerks[0], NULL);
    pthread_join(clerks[1], NULL);
    return 0;
}
