/* What an application in C has of the card. `to`, `from`, `x` and the like are an array, or `&` and an object. */
#ifndef MULTOS_H
#define MULTOS_H

typedef unsigned char BYTE;     /* one byte, 0 to 255 */
typedef unsigned char BOOL;     /* one byte that is TRUE or FALSE */
typedef unsigned short WORD;    /* two bytes, big endian in memory */
typedef unsigned int DWORD;     /* four bytes, big endian in memory */
typedef unsigned char u8;
typedef unsigned short u16;
typedef unsigned int u32;
typedef unsigned char uint8_t;
typedef unsigned short uint16_t;
typedef unsigned int uint32_t;

#define TRUE 1
#define FALSE 0

/* The header of the command. Lc is the length of the data, Le what the terminal asks for, La the length of the reply, SW its status,
   which is 9000 unless it is set. */
extern BYTE CLA, INS, P1, P2, P3;
extern WORD Lc, Le, La, SW;

/* The command ends: with the status and the length that are set, or with these. */
void Exit(void);
void ExitSW(WORD sw);
void ExitLa(WORD la);
void ExitSWLa(WORD sw, WORD la);

/* The status and the length of the reply are set, and the command goes on. */
void SetSW(WORD sw);
void SetLa(WORD la);
void SetSWLa(WORD sw, WORD la);

/* True if the command has this form: 1 no data and no reply, 2 a reply, 3 data, 4 both. */
BOOL CheckCase(BYTE form);

/* n bytes are copied by one write; n is a constant, 1 to 255. The two may overlap. */
void memcpy(void *to, const void *from, WORD n);
/* n bytes become 0 or 255 by one write. */
void memset(void *to, BYTE value, WORD n);
/* n bytes are compared as numbers; it stands against 0, as in `memcmp(x, y, 4) == 0`. */
BYTE memcmp(const void *x, const void *y, WORD n);

/* Static bytes that are written from BeginTransaction on are written whole by CommitTransaction, in one atomic write, or not at all. */
#define BeginTransaction() multosSetTransactionProtection(2)
#define CommitTransaction() multosSetTransactionProtection(1)
#define AbortTransaction() multosSetTransactionProtection(0)
/* 0 drops what waits and ends the protection, 1 commits and ends it, 2 drops and begins, 3 commits and begins. */
void multosSetTransactionProtection(BYTE mode);

/* n bytes are copied, or compared; n may be a variable. n of 0 or above 255 ends with abend 06. */
void multosMemoryCopy(WORD n, void *to, const void *from);
BOOL multosMemoryEqual(WORD n, const void *x, const void *y);

/* SHA-1 of n bytes: 20 bytes. */
void multosSecureHash(WORD n, const void *from, void *to);

/* Ciphers of n bytes, a constant multiple of the block: 8 for DES and triple DES, 16 for AES. The key has 8 bytes for DES, 16 for the others. */
void multosDESECBEncipher(BYTE n, const void *from, void *to, const void *key);
void multosDESECBDecipher(BYTE n, const void *from, void *to, const void *key);
void multos3DESECBEncipher(BYTE n, const void *from, void *to, const void *key);
void multos3DESECBDecipher(BYTE n, const void *from, void *to, const void *key);
void multosAESECBEncipher(BYTE n, const void *from, void *to, const void *key);
void multosAESECBDecipher(BYTE n, const void *from, void *to, const void *key);
/* The last block of CBC, from a first block on: a signature. */
void multosDESCBCSignature(BYTE n, const void *start, const void *from, void *to, const void *key);
void multos3DESCBCSignature(BYTE n, const void *start, const void *from, void *to, const void *key);
void multosAESCBCSignature(BYTE n, const void *start, const void *from, void *to, const void *key);

/* Another application runs on the same public bytes, and comes back. `aid` is a byte with its length and the AID. */
void multosDelegate(const void *aid);
/* True if an application has delegated to this one: its length byte and its AID are written to `to`, of 17 bytes. */
BOOL multosGetDelegatorAID(void *to);

/* Other names of the same. */
#define multosExit() Exit()
#define multosExitSW(sw) ExitSW(sw)
#define multosExitLa(la) ExitLa(la)
#define multosExitSWLa(sw, la) ExitSWLa(sw, la)
#define multosSetSW(sw) SetSW(sw)
#define multosSetLa(la) SetLa(la)
#define multosSetSWLa(sw, la) SetSWLa(sw, la)
#define multosCheckCase(form) CheckCase(form)

#endif
