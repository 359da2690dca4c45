/* A machine of byte codes: a loop with a switch, a table of functions for calls out, and programs for it. */
#include "../lib/k.h"
enum {
    PUSH,
    PUSH4,
    LOAD,
    STORE,
    ADD,
    SUB,
    MUL,
    MOD,
    LESS,
    EQUAL,
    JUMP,
    BRANCH,
    CALL,
    RETURN,
    OUT,
    DUP,
    DROP,
    SWAP,
    INDEX,
    SET,
    HALT
};

static int stack[256], frame[64], memory[256];
static void out_number(int v) {
    kprintf("%d ", v);
}

static void out_char(int v) {
    putch(v);
}

static void out_hex(int v) {
    kprintf("%08x ", v);
}

static void (*const outs[])(int) = {out_number, out_char, out_hex};
static unsigned run(const uint8_t *code) {
    int sp = 0, fp = 0;
    unsigned pc = 0, steps = 0;
    for (;;) {
        steps++;
        switch (code[pc++]) {
        case PUSH:
            stack[sp++] = (int8_t)code[pc++];
            break;
        case PUSH4:
            stack[sp++] = code[pc] | code[pc + 1] << 8 | code[pc + 2] << 16 | (unsigned)code[pc + 3] << 24;
            pc += 4;
            break;
        case LOAD:
            stack[sp++] = memory[code[pc++]];
            break;
        case STORE:
            memory[code[pc++]] = stack[--sp];
            break;
        case ADD:
            sp--;
            stack[sp - 1] += stack[sp];
            break;
        case SUB:
            sp--;
            stack[sp - 1] -= stack[sp];
            break;
        case MUL:
            sp--;
            stack[sp - 1] *= stack[sp];
            break;
        case MOD:
            sp--;
            stack[sp - 1] %= stack[sp];
            break;
        case LESS:
            sp--;
            stack[sp - 1] = stack[sp - 1] < stack[sp];
            break;
        case EQUAL:
            sp--;
            stack[sp - 1] = stack[sp - 1] == stack[sp];
            break;
        case JUMP:
            pc = code[pc];
            break;
        case BRANCH:
            if (stack[--sp])
                pc = code[pc];
            else
                pc++;
            break;
        case CALL:
            frame[fp++] = pc + 1;
            pc = code[pc];
            break;
        case RETURN:
            pc = frame[--fp];
            break;
        case OUT:
            outs[code[pc++]](stack[--sp]);
            break;
        case DUP:
            stack[sp] = stack[sp - 1];
            sp++;
            break;
        case DROP:
            sp--;
            break;
        case SWAP: {
            int t = stack[sp - 1];
            stack[sp - 1] = stack[sp - 2];
            stack[sp - 2] = t;
            break;
        }
        case INDEX:
            stack[sp - 1] = memory[stack[sp - 1] & 255];
            break;
        case SET:
            sp -= 2;
            memory[stack[sp + 1] & 255] = stack[sp];
            break;
        case HALT:
            return steps;
        default:
            put("bad code\n");
            return steps;
        }
    }
}

/* Fibonacci numbers, the first twenty. */
static const uint8_t fibonacci[] = {PUSH, 0, STORE, 0, PUSH, 1, STORE, 1, PUSH, 20, STORE, 2,
    /* 12 */ LOAD, 0, OUT, 0, LOAD, 1, DUP, LOAD, 0, ADD, STORE, 1, STORE, 0, LOAD, 2, PUSH, 1, SUB, DUP,
    STORE, 2, BRANCH, 12, PUSH, 10, OUT, 1, HALT};
/* Ackermann's function of 2 and 3, by a stack of calls. In: m n; out: value. */
static const uint8_t ackermann[] = {PUSH, 2, PUSH, 3, CALL, 13, OUT, 0, PUSH, 10, OUT, 1, HALT,
    /* 13 */ SWAP, DUP, BRANCH, 22, DROP, PUSH, 1, ADD, RETURN,
    /* 22 */ SWAP, DUP, BRANCH, 35, DROP, PUSH, 1, SUB, PUSH, 1, CALL, 13, RETURN,
    /* 35: m n */ SWAP, DUP, PUSH, 1, SUB, /* n m m-1 */ STORE, 9, STORE, 8, STORE, 7, LOAD, 9, LOAD, 8, LOAD,
    7, PUSH, 1, SUB, CALL, 13, CALL, 13, RETURN};
/* Fills 200 words from a congruence, then adds them up in hexadecimal. */
static const uint8_t mixing[] = {PUSH, 50, STORE, 0, PUSH4, 0x39, 0x30, 0, 0, STORE, 1,
    /* 11 */ LOAD, 1, PUSH4, 0x0d, 0x66, 0x19, 0, MUL, PUSH4, 0x5f, 0xf3, 0x6e, 0x3c, ADD, DUP, STORE, 1,
    LOAD, 0, SET, LOAD, 0, PUSH, 1, ADD, DUP, STORE, 0, PUSH4, 250, 0, 0, 0, LESS, BRANCH, 11, PUSH, 50,
    STORE, 0, PUSH, 0, STORE, 2,
    /* 55 */ LOAD, 0, INDEX, LOAD, 2, ADD, STORE, 2, LOAD, 0, PUSH, 1, ADD, DUP, STORE, 0, PUSH4, 250, 0, 0,
    0, LESS, BRANCH, 55, LOAD, 2, OUT, 2, PUSH, 10, OUT, 1, HALT};
int main(void) {
    kprintf("steps %u\n", run(fibonacci));
    kprintf("steps %u\n", run(ackermann));
    kprintf("steps %u\n", run(mixing));
    return 0;
}
