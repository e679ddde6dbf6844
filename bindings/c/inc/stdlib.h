void *malloc(__SIZE_TYPE__);
void exit(int) __attribute__((noreturn));
unsigned long strtoul(const char *, char **, int);
