#ifndef ERRNO_H
#define ERRNO_H
extern int errno;
enum { EIO = 5, ENOMEM = 12, EINVAL = 22, ERANGE = 34 };
#define EIO EIO
#define ENOMEM ENOMEM
#define EINVAL EINVAL
#define ERANGE ERANGE
#endif
