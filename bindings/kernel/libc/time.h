#ifndef KERNEL_TIME_H
#define KERNEL_TIME_H
struct timespec {
    long tv_sec, tv_nsec;
};
int nanosleep(const struct timespec *time, struct timespec *left);
#endif
