/* Loaded before a program that runs under the emulator. A Rust program asks at its start where its stack is; the C library then reads
 * /proc/self/maps, at which the emulator (8.2.2) ends with a fault of its own. Told that it cannot be known (ENOSYS), Rust goes on without. */
int pthread_getattr_np(unsigned long thread, void *attributes)
{
    (void)thread;
    (void)attributes;
    return 38;
}
