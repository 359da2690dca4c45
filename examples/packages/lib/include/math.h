#ifndef MATH_H
#define MATH_H
#define isnan(x) __builtin_isnan(x)
#endif
