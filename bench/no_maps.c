/* For the emulator: a program of Rust reads /proc/self/maps by this function as it starts, and there the emulator fails
   (QEMU 8.2). The program goes on where it is told that it cannot. */
#include <errno.h>

int pthread_getattr_np(unsigned long thread, void *attributes) {
    (void)thread;
    (void)attributes;
    return ENOSYS;
}
