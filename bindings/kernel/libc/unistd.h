#ifndef KERNEL_UNISTD_H
#define KERNEL_UNISTD_H
unsigned sleep(unsigned seconds);
#endif
