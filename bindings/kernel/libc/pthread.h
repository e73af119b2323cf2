/* As much as the examples and the stress use, over this kernel's threads. */
#ifndef KERNEL_PTHREAD_H
#define KERNEL_PTHREAD_H
typedef struct thread *pthread_t;
int pthread_create(pthread_t *id, const void *attributes, void *(*body)(void *), void *with);
int pthread_join(pthread_t id, void **result);
int pthread_detach(pthread_t id);
#endif
