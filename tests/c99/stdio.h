#ifndef STDIO_H
#define STDIO_H

#define EOF (-1)

int getchar(void);
int printf(const char *restrict format, ...) __attribute__((format(printf, 1, 2)));
int putchar(int character);

#endif
