#ifndef STDLIB_H
#define STDLIB_H
unsigned long long strtoull(const char *, char **, int);
#endif
