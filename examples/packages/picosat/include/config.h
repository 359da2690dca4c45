/* What picosat's own build says of itself. */
#define PICOSAT_CC "gcc"
#define PICOSAT_CFLAGS ""
#define PICOSAT_VERSION "965"
