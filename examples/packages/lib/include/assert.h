#undef assert
#ifdef NDEBUG
#define assert(e) ((void)0)
#else
void assertion_failed(const char *what, const char *file, int line);
#define assert(e) ((e) ? (void)0 : assertion_failed(#e, __FILE__, __LINE__))
#endif
