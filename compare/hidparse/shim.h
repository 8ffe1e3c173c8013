/* What Wine's hidparse.sys expects of Windows' headers and of Wine around it, for a program of its own.
 * It is ours: nothing of Wine's source stands here. */
#ifndef HIDPARSE_SHIM_H
#define HIDPARSE_SHIM_H

#include <stdarg.h>
#include <stddef.h>
#include <stdint.h>
#include <stdlib.h>
#include <string.h>

/* As in Windows a LONG has 32 bits. */
typedef int8_t INT8;
typedef uint8_t UINT8, UCHAR, BYTE, BOOLEAN, *PUCHAR;
typedef int16_t INT16;
typedef uint16_t UINT16, USHORT, *PUSHORT;
typedef int32_t INT32, LONG, *PLONG, BOOL, NTSTATUS;
typedef uint32_t UINT32, UINT, ULONG, DWORD, *PULONG;
typedef char CHAR, *PCHAR;
typedef void VOID, *PVOID;

#define TRUE 1
#define FALSE 0
#define WINAPI
#define NTAPI
#define DUMMYUNIONNAME
#define DUMMYSTRUCTNAME
#define FIELD_OFFSET(type, member) offsetof(type, member)
#define max(a, b) ((a) > (b) ? (a) : (b))
#define min(a, b) ((a) < (b) ? (a) : (b))

/* Memory of the kernel. */
typedef int POOL_TYPE;
#define ExAllocatePool(pool, size) ((void)(pool), malloc((size) + 1))
#define ExFreePool(memory) free(memory)

/* What it says: each message is kept as its format, with the place of the item before it (ask.c). */
void shim_say(const char *format);
#define ERR(format, ...) shim_say(format)
#define FIXME(format, ...) shim_say(format)
#define TRACE(...) ((void)0)
#define TRACE_ON(channel) 0
#define WINE_DEFAULT_DEBUG_CHANNEL(channel) extern int shim_channel_##channel
#define wine_dbg_sprintf(...) ""

/* Where an item begins, and how many bytes of data its header tells. */
void shim_begin_item(const uint8_t *at, unsigned int size);

#endif
