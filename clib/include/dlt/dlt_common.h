/* Ids, versions and the clock. Functions of libdlt that read files and streams are not in this library. */
#ifndef DLT_COMMON_H
#define DLT_COMMON_H

#include <stddef.h>
#include <stdint.h>

#include "dlt_types.h"
#include "dlt_version.h"

/* APID, CTID and ECU have four bytes; a shorter id ends with zero bytes. */
#define DLT_ID_SIZE 4

#ifdef __cplusplus
extern "C" {
#endif

/* Writes the first four letters of a text as an id, or an id as a text of five bytes. */
void dlt_set_id(char *id, const char *text);
void dlt_print_id(char *text, const char *id);

/* The time since the machine's start in units of 0.1 ms: TMSP of messages. */
uint32_t dlt_uptime(void);

void dlt_get_version(char *text, size_t size);
void dlt_get_major_version(char *text, size_t size);
void dlt_get_minor_version(char *text, size_t size);

/* Writes bytes as a text of lines, in hexadecimal and as letters. */
DltReturnValue dlt_print_mixed_string(char *text, int text_len, const uint8_t *bytes, int len, int html);

/* Lines on standard error, for programs that print through libdlt. */
DltReturnValue dlt_log(int priority, char *text);
DltReturnValue dlt_vlog(int priority, const char *format, ...) __attribute__((format(printf, 2, 3)));

#ifdef __cplusplus
}
#endif

#endif
