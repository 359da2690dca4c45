/* What packages want of <stdio.h>: each stream that is written is the console, and none can be read. */
#include "k.h"
#include <stdio.h>

FILE *stdin, *stdout, *stderr;

int vsnprintf(char *to, size_t room, const char *format, va_list arguments) {
    return kvformat(to, room, format, arguments);
}

int snprintf(char *to, size_t room, const char *format, ...) {
    va_list arguments;
    va_start(arguments, format);
    int n = kvformat(to, room, format, arguments);
    va_end(arguments);
    return n;
}

int sprintf(char *to, const char *format, ...) {
    va_list arguments;
    va_start(arguments, format);
    int n = kvformat(to, (size_t)-1 / 2, format, arguments);
    va_end(arguments);
    return n;
}

/* A line longer than the room is cut. */
int vprintf(const char *format, va_list arguments) {
    char room[2048];
    int n = kvformat(room, sizeof room, format, arguments);
    put(room);
    return n;
}

int printf(const char *format, ...) {
    va_list arguments;
    va_start(arguments, format);
    int n = vprintf(format, arguments);
    va_end(arguments);
    return n;
}

int vfprintf(FILE *to, const char *format, va_list arguments) {
    return vprintf(format, arguments);
}

int fprintf(FILE *to, const char *format, ...) {
    va_list arguments;
    va_start(arguments, format);
    int n = vprintf(format, arguments);
    va_end(arguments);
    return n;
}

int putchar(int c) {
    putch(c);
    return (unsigned char)c;
}

int putc(int c, FILE *to) {
    return putchar(c);
}

int fputc(int c, FILE *to) {
    return putchar(c);
}

int fputs(const char *s, FILE *to) {
    put(s);
    return 0;
}

int puts(const char *s) {
    put(s);
    putch('\n');
    return 0;
}

size_t fwrite(const void *from, size_t size, size_t n, FILE *to) {
    const char *s = from;
    for (size_t i = 0; i < size * n; i++)
        putch(s[i]);
    return n;
}

size_t fread(void *to, size_t size, size_t n, FILE *from) {
    return 0;
}

int getc(FILE *from) {
    return EOF;
}

int fflush(FILE *to) {
    return 0;
}

int fclose(FILE *of) {
    return 0;
}

int feof(FILE *of) {
    return 1;
}

int ferror(FILE *of) {
    return 0;
}
