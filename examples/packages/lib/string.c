/* What packages want of <string.h> and <ctype.h>, beside the functions of k.c. */
#include <ctype.h>
#include <stdlib.h>
#include <string.h>

char *strncpy(char *to, const char *from, size_t n) {
    size_t i = 0;
    for (; i < n && from[i]; i++)
        to[i] = from[i];
    for (; i < n; i++)
        to[i] = 0;
    return to;
}

char *strcat(char *to, const char *from) {
    strcpy(to + strlen(to), from);
    return to;
}

char *strrchr(const char *s, int c) {
    const char *found = 0;
    do
        if (*s == (char)c)
            found = s;
    while (*s++);
    return (char *)found;
}

char *strstr(const char *s, const char *what) {
    size_t n = strlen(what);
    do
        if (!strncmp(s, what, n))
            return (char *)s;
    while (*s++);
    return 0;
}

char *strdup(const char *s) {
    size_t n = strlen(s) + 1;
    char *it = malloc(n);
    return it ? memcpy(it, s, n) : 0;
}

int isdigit(int c) {
    return c >= '0' && c <= '9';
}

int islower(int c) {
    return c >= 'a' && c <= 'z';
}

int isupper(int c) {
    return c >= 'A' && c <= 'Z';
}

int isalpha(int c) {
    return islower(c) || isupper(c);
}

int isalnum(int c) {
    return isalpha(c) || isdigit(c);
}

int isxdigit(int c) {
    return isdigit(c) || (c >= 'a' && c <= 'f') || (c >= 'A' && c <= 'F');
}

int isprint(int c) {
    return c >= ' ' && c <= '~';
}

int isspace(int c) {
    return c == ' ' || (c >= '\t' && c <= '\r');
}

int tolower(int c) {
    return isupper(c) ? c + 'a' - 'A' : c;
}

int toupper(int c) {
    return islower(c) ? c + 'A' - 'a' : c;
}
