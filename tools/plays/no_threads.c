// Preloaded into a program: no thread can be started. Each refusal is told by an octet on the descriptor REFUSED.
#include <errno.h>
#include <pthread.h>
#include <stdlib.h>
#include <unistd.h>

int pthread_create(pthread_t *thread, const pthread_attr_t *attributes, void *(*start)(void *), void *argument) {
    const char *descriptor = getenv("REFUSED");
    (void)thread, (void)attributes, (void)start, (void)argument;
    if (descriptor && write(atoi(descriptor), "!", 1) != 1) {
        abort();
    }
    return EAGAIN;
}
