/* In place of a dictionary that pForth has saved: there is none, main.c has it build one. */
#define HEADERPTR 0
#define RELCONTEXT 0
#define CODEPTR 0
#define NAME_BASE 0
#define IF_LITTLE_ENDIAN 1
static const unsigned char MinDicNames[1], MinDicCode[1];
