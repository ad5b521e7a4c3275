/* The numbers that programs and the library exchange. */
#ifndef DLT_TYPES_H
#define DLT_TYPES_H

#include <stdint.h>

/* What calls answer. DLT_RETURN_TRUE from the start of a log call says that it passes its context's level. */
typedef enum {
    DLT_RETURN_FILESZERR = -8,
    DLT_RETURN_LOGGING_DISABLED = -7,
    DLT_RETURN_USER_BUFFER_FULL = -6,
    DLT_RETURN_WRONG_PARAMETER = -5,
    DLT_RETURN_BUFFER_FULL = -4,
    DLT_RETURN_PIPE_FULL = -3,
    DLT_RETURN_PIPE_ERROR = -2,
    DLT_RETURN_ERROR = -1,
    DLT_RETURN_OK = 0,
    DLT_RETURN_TRUE = 1
} DltReturnValue;

/* Severities of calls and levels of contexts: a call is filtered where its severity is above the level. */
typedef enum {
    DLT_USER_LOG_LEVEL_NOT_SET = -2,
    DLT_LOG_DEFAULT = -1,
    DLT_LOG_OFF = 0,
    DLT_LOG_FATAL = 1,
    DLT_LOG_ERROR = 2,
    DLT_LOG_WARN = 3,
    DLT_LOG_INFO = 4,
    DLT_LOG_DEBUG = 5,
    DLT_LOG_VERBOSE = 6,
    DLT_LOG_MAX = 7
} DltLogLevelType;

/* How numbers and bytes are to be shown. */
typedef enum {
    DLT_FORMAT_DEFAULT = 0,
    DLT_FORMAT_HEX8 = 1,
    DLT_FORMAT_HEX16 = 2,
    DLT_FORMAT_HEX32 = 3,
    DLT_FORMAT_HEX64 = 4,
    DLT_FORMAT_BIN8 = 5,
    DLT_FORMAT_BIN16 = 6,
    DLT_FORMAT_MAX = 7
} DltFormatType;

/* Whether a context traces network messages. This library's contexts never do. */
typedef enum {
    DLT_TRACE_STATUS_DEFAULT = -1,
    DLT_TRACE_STATUS_OFF = 0,
    DLT_TRACE_STATUS_ON = 1,
    DLT_TRACE_STATUS_MAX = 2
} DltTraceStatusType;

typedef enum {
    DLT_NW_TRACE_IPC = 1,
    DLT_NW_TRACE_CAN = 2,
    DLT_NW_TRACE_FLEXRAY = 3,
    DLT_NW_TRACE_MOST = 4,
    DLT_NW_TRACE_RESERVED0 = 5,
    DLT_NW_TRACE_RESERVED1 = 6,
    DLT_NW_TRACE_RESERVED2 = 7,
    DLT_NW_TRACE_USER_DEFINED0 = 8,
    DLT_NW_TRACE_USER_DEFINED1 = 9,
    DLT_NW_TRACE_USER_DEFINED2 = 10,
    DLT_NW_TRACE_USER_DEFINED3 = 11,
    DLT_NW_TRACE_USER_DEFINED4 = 12,
    DLT_NW_TRACE_USER_DEFINED5 = 13,
    DLT_NW_TRACE_USER_DEFINED6 = 14,
    DLT_NW_TRACE_RESEND = 15,
    DLT_NW_TRACE_MAX = 16
} DltNetworkTraceType;

/* Where the daemon writes what a program logs. */
typedef enum {
    DLT_USER_MODE_UNDEFINED = -1,
    DLT_USER_MODE_OFF = 0,
    DLT_USER_MODE_EXTERNAL = 1,
    DLT_USER_MODE_INTERNAL = 2,
    DLT_USER_MODE_BOTH = 3,
    DLT_USER_MODE_MAX = 4
} DltUserLogMode;

/* Whose time a message has: the library's, or the caller's. */
typedef enum {
    DLT_AUTO_TIMESTAMP = 0,
    DLT_USER_TIMESTAMP = 1
} DltTimestampType;

typedef float float32_t;
typedef double float64_t;

#endif
