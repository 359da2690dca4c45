#ifndef STDIO_H
#define STDIO_H
#include <stdarg.h>
#include <stddef.h>
typedef struct stream FILE;
extern FILE *stdin, *stdout, *stderr;
enum { EOF = -1 };
#define EOF EOF
int printf(const char *format, ...) __attribute__((format(printf, 1, 2)));
int vprintf(const char *format, va_list arguments);
int fprintf(FILE *to, const char *format, ...);
int vfprintf(FILE *to, const char *format, va_list arguments);
int sprintf(char *to, const char *format, ...);
int snprintf(char *to, size_t room, const char *format, ...);
int vsnprintf(char *to, size_t room, const char *format, va_list arguments);
int putchar(int c);
int puts(const char *s);
int putc(int c, FILE *to);
int fputc(int c, FILE *to);
int fputs(const char *s, FILE *to);
size_t fwrite(const void *from, size_t size, size_t n, FILE *to);
size_t fread(void *to, size_t size, size_t n, FILE *from);
int getc(FILE *from);
int fflush(FILE *to);
int fclose(FILE *of);
int feof(FILE *of);
int ferror(FILE *of);
#endif
