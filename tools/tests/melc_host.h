/* The card as a program of this machine, in three parts: types, calls, and the loop over commands. */
#ifndef HOST_PART
#include <setjmp.h>
#include <stdio.h>
#include <stdlib.h>
#include <string.h>
typedef unsigned char BYTE, BOOL, u8, uint8;
typedef unsigned short WORD, u16;
typedef unsigned int DWORD, u32;
#define uint8_t BYTE
#define uint16_t WORD
#define uint32_t DWORD
#pragma pack(1)
#pragma scalar_storage_order big-endian

#elif HOST_PART == 2
static jmp_buf out;
static int is_open, form;
static void Exit(void) { longjmp(out, 1); }
static void SetSW(WORD sw) { pub.header.SW = sw; }
static void SetLa(WORD la) { pub.header.La = la; }
static void SetSWLa(WORD sw, WORD la) { SetSW(sw); SetLa(la); }
static void ExitSW(WORD sw) { SetSW(sw); Exit(); }
static void ExitLa(WORD la) { SetLa(la); Exit(); }
static void ExitSWLa(WORD sw, WORD la) { SetSWLa(sw, la); Exit(); }
static BOOL CheckCase(BYTE wanted) { return wanted == form; }
static void host_copy(BYTE *to, BYTE *from, int n) { memmove(to, from, n); }
static int host_compare(BYTE *x, BYTE *y, int n) { return memcmp(x, y, n); }
static void host_fill(BYTE *to, int value, int n) { memset(to, value, n); }
static void multosMemoryCopy(WORD n, BYTE *to, BYTE *from) { memmove(to, from, n); }
static BOOL multosMemoryEqual(WORD n, BYTE *x, BYTE *y) { return memcmp(x, y, n) == 0; }
static void multosSetTransactionProtection(BYTE mode)
{
    if (is_open && !(mode & 1)) melstatic = waiting;
    waiting = melstatic;
    is_open = mode >> 1;
}
#define memcpy host_copy
#define memcmp host_compare
#define memset host_fill

#else
#undef memcpy
#undef memset
static int program;

static void command(const BYTE *bytes, int n)
{
    int lc = 0, le = 0;
    memset(&pub, 0, sizeof pub);
    form = n == 4 ? 1 : n == 5 ? 2 : n == 5 + bytes[4] ? 3 : 4;
    if (form > 2) lc = bytes[4];
    if (form == 2) le = bytes[4];
    if (form == 4) le = bytes[5 + lc];
    if (form == 2 || form == 4) le = le ? le : 256;
    memcpy(pub.bytes, bytes + 5, lc);
    memcpy(pub.bytes + 1028, bytes, 4);
    pub.header.P3 = form == 1 ? 0 : bytes[4];
    pub.header.Lc = lc;
    pub.header.Le = le;
    pub.header.SW = 0x9000;
    is_open = 0;
    if (!setjmp(out)) mains[program]();
    if (is_open) melstatic = waiting;
    is_open = 0;
    if (pub.header.La > 1024) {
        printf("abend 09");
    } else {
        for (int i = 0; i < pub.header.La && i < le; i++) printf("%02X", pub.bytes[i]);
        printf("%04X", pub.header.SW);
    }
    for (size_t i = 0; i < sizeof melstatic; i++) printf("%s%02X", i ? "" : " ", ((BYTE *)&melstatic)[i]);
    printf("\n");
}

int main(void)
{
    static char line[4096];
    BYTE bytes[600];
    while (fgets(line, sizeof line, stdin)) {
        if (line[0] == 's' || line[0] == 'p') {
            memset(&melsession, 0, sizeof melsession);
            if (line[0] == 's') printf("selected\n");
            if (line[0] == 'p') program = atoi(line + 1), melstatic = first;
            continue;
        }
        int n = 0;
        unsigned one;
        for (char *at = line; sscanf(at, "%2x", &one) == 1; at += 2) bytes[n++] = one;
        command(bytes, n);
    }
    return 0;
}
#endif
