/* What programs call of the library. Most do by the macros of dlt_user_macros.h. */
#ifndef DLT_USER_H
#define DLT_USER_H

#include <stddef.h>
#include <stdint.h>

#include "dlt_common.h"
#include "dlt_types.h"
#include "dlt_user_macros.h"

#ifdef __cplusplus
extern "C" {
#endif

/* The most bytes of a call's payload. */
#define DLT_USER_BUF_MAX_SIZE 1390

/* A program's handle of a context. Its layout is that of libdlt, since macros read the level and the trace status in the program. */
typedef struct {
    char contextID[DLT_ID_SIZE];
    int32_t log_level_pos;
    int8_t *log_level_ptr;
    int8_t *trace_status_ptr;
    uint8_t mcnt;
} DltContext;

/* One log call between its start and its finish, of libdlt's layout too. */
typedef struct {
    DltContext *handle;
    unsigned char *buffer;
    int32_t size;
    int32_t log_level;
    int32_t trace_status;
    int32_t args_num;
    char *context_description;
    DltTimestampType use_timestamp;
    uint32_t user_timestamp;
    int8_t verbose_mode;
} DltContextData;

/* Injected bytes, with their service, and with the pointer that was given with the function. */
typedef int (*dlt_injection_callback)(uint32_t service, void *bytes, uint32_t len);
typedef int (*dlt_injection_callback_id)(uint32_t service, void *bytes, uint32_t len, void *mine);

/* Beginning and end. A program need not call dlt_init; at its exit what waits is given a bounded time. */
DltReturnValue dlt_init(void);
DltReturnValue dlt_free(void);
DltReturnValue dlt_check_library_version(const char *major, const char *minor);
DltReturnValue dlt_user_check_library_version(const char *major, const char *minor);
int dlt_set_resend_timeout_atexit(uint32_t milliseconds);

/* Applications and contexts. Descriptions have at most 255 bytes; what is longer is cut. */
DltReturnValue dlt_register_app(const char *apid, const char *description);
DltReturnValue dlt_unregister_app(void);
DltReturnValue dlt_unregister_app_flush_buffered_logs(void);
DltReturnValue dlt_get_appid(char *apid);
DltReturnValue dlt_register_context(DltContext *handle, const char *ctid, const char *description);
DltReturnValue dlt_register_context_ll_ts(DltContext *handle, const char *ctid, const char *description, int level, int trace_status);
DltReturnValue dlt_register_context_llccb(DltContext *handle, const char *ctid, const char *description,
                                          void (*changed)(char ctid[DLT_ID_SIZE], uint8_t level, uint8_t trace_status));
DltReturnValue dlt_unregister_context(DltContext *handle);

/* What is called back, on a thread of the library. */
DltReturnValue dlt_register_injection_callback(DltContext *handle, uint32_t service, dlt_injection_callback call);
DltReturnValue dlt_register_injection_callback_with_id(DltContext *handle, uint32_t service, dlt_injection_callback_id call, void *mine);
DltReturnValue dlt_register_log_level_changed_callback(DltContext *handle,
                                                       void (*changed)(char ctid[DLT_ID_SIZE], uint8_t level, uint8_t trace_status));

/* One log call: its start says whether it passes the context's level; then come its arguments, and its finish. */
DltReturnValue dlt_user_log_write_start(DltContext *handle, DltContextData *log, DltLogLevelType level);
DltReturnValue dlt_user_log_write_start_id(DltContext *handle, DltContextData *log, DltLogLevelType level, uint32_t id);
DltReturnValue dlt_user_log_write_finish(DltContextData *log);

/* The same with a payload that the caller made. */
DltReturnValue dlt_user_log_write_start_w_given_buffer(DltContext *handle, DltContextData *log, DltLogLevelType level, char *payload, size_t len,
                                                       int32_t args);
DltReturnValue dlt_user_log_write_finish_w_given_buffer(DltContextData *log);

/* Numbers. */
DltReturnValue dlt_user_log_write_bool(DltContextData *log, uint8_t value);
DltReturnValue dlt_user_log_write_bool_attr(DltContextData *log, uint8_t value, const char *name);
DltReturnValue dlt_user_log_write_float32(DltContextData *log, float32_t value);
DltReturnValue dlt_user_log_write_float64(DltContextData *log, float64_t value);
DltReturnValue dlt_user_log_write_float32_attr(DltContextData *log, float32_t value, const char *name, const char *unit);
DltReturnValue dlt_user_log_write_float64_attr(DltContextData *log, float64_t value, const char *name, const char *unit);
DltReturnValue dlt_user_log_write_uint(DltContextData *log, unsigned int value);
DltReturnValue dlt_user_log_write_uint8(DltContextData *log, uint8_t value);
DltReturnValue dlt_user_log_write_uint16(DltContextData *log, uint16_t value);
DltReturnValue dlt_user_log_write_uint32(DltContextData *log, uint32_t value);
DltReturnValue dlt_user_log_write_uint64(DltContextData *log, uint64_t value);
DltReturnValue dlt_user_log_write_int(DltContextData *log, int value);
DltReturnValue dlt_user_log_write_int8(DltContextData *log, int8_t value);
DltReturnValue dlt_user_log_write_int16(DltContextData *log, int16_t value);
DltReturnValue dlt_user_log_write_int32(DltContextData *log, int32_t value);
DltReturnValue dlt_user_log_write_int64(DltContextData *log, int64_t value);
DltReturnValue dlt_user_log_write_uint_attr(DltContextData *log, unsigned int value, const char *name, const char *unit);
DltReturnValue dlt_user_log_write_uint8_attr(DltContextData *log, uint8_t value, const char *name, const char *unit);
DltReturnValue dlt_user_log_write_uint16_attr(DltContextData *log, uint16_t value, const char *name, const char *unit);
DltReturnValue dlt_user_log_write_uint32_attr(DltContextData *log, uint32_t value, const char *name, const char *unit);
DltReturnValue dlt_user_log_write_uint64_attr(DltContextData *log, uint64_t value, const char *name, const char *unit);
DltReturnValue dlt_user_log_write_int_attr(DltContextData *log, int value, const char *name, const char *unit);
DltReturnValue dlt_user_log_write_int8_attr(DltContextData *log, int8_t value, const char *name, const char *unit);
DltReturnValue dlt_user_log_write_int16_attr(DltContextData *log, int16_t value, const char *name, const char *unit);
DltReturnValue dlt_user_log_write_int32_attr(DltContextData *log, int32_t value, const char *name, const char *unit);
DltReturnValue dlt_user_log_write_int64_attr(DltContextData *log, int64_t value, const char *name, const char *unit);
DltReturnValue dlt_user_log_write_uint8_formatted(DltContextData *log, uint8_t value, DltFormatType format);
DltReturnValue dlt_user_log_write_uint16_formatted(DltContextData *log, uint16_t value, DltFormatType format);
DltReturnValue dlt_user_log_write_uint32_formatted(DltContextData *log, uint32_t value, DltFormatType format);
DltReturnValue dlt_user_log_write_uint64_formatted(DltContextData *log, uint64_t value, DltFormatType format);
DltReturnValue dlt_user_log_write_ptr(DltContextData *log, void *value);

/* Texts, in ASCII or UTF-8. Constant ones are left out of a message that is not verbose. What is too long is cut, and says so. */
DltReturnValue dlt_user_log_write_string(DltContextData *log, const char *text);
DltReturnValue dlt_user_log_write_string_attr(DltContextData *log, const char *text, const char *name);
DltReturnValue dlt_user_log_write_sized_string(DltContextData *log, const char *text, uint16_t len);
DltReturnValue dlt_user_log_write_sized_string_attr(DltContextData *log, const char *text, uint16_t len, const char *name);
DltReturnValue dlt_user_log_write_utf8_string(DltContextData *log, const char *text);
DltReturnValue dlt_user_log_write_utf8_string_attr(DltContextData *log, const char *text, const char *name);
DltReturnValue dlt_user_log_write_sized_utf8_string(DltContextData *log, const char *text, uint16_t len);
DltReturnValue dlt_user_log_write_sized_utf8_string_attr(DltContextData *log, const char *text, uint16_t len, const char *name);
DltReturnValue dlt_user_log_write_constant_string(DltContextData *log, const char *text);
DltReturnValue dlt_user_log_write_constant_string_attr(DltContextData *log, const char *text, const char *name);
DltReturnValue dlt_user_log_write_sized_constant_string(DltContextData *log, const char *text, uint16_t len);
DltReturnValue dlt_user_log_write_sized_constant_string_attr(DltContextData *log, const char *text, uint16_t len, const char *name);
DltReturnValue dlt_user_log_write_constant_utf8_string(DltContextData *log, const char *text);
DltReturnValue dlt_user_log_write_constant_utf8_string_attr(DltContextData *log, const char *text, const char *name);
DltReturnValue dlt_user_log_write_sized_constant_utf8_string(DltContextData *log, const char *text, uint16_t len);
DltReturnValue dlt_user_log_write_sized_constant_utf8_string_attr(DltContextData *log, const char *text, uint16_t len, const char *name);

/* Bytes of any meaning. */
DltReturnValue dlt_user_log_write_raw(DltContextData *log, void *bytes, uint16_t len);
DltReturnValue dlt_user_log_write_raw_attr(DltContextData *log, const void *bytes, uint16_t len, const char *name);
DltReturnValue dlt_user_log_write_raw_formatted(DltContextData *log, void *bytes, uint16_t len, DltFormatType format);
DltReturnValue dlt_user_log_write_raw_formatted_attr(DltContextData *log, const void *bytes, uint16_t len, DltFormatType format, const char *name);

/* A whole call at once. */
DltReturnValue dlt_log_string(DltContext *handle, DltLogLevelType level, const char *text);
DltReturnValue dlt_log_string_int(DltContext *handle, DltLogLevelType level, const char *text, int value);
DltReturnValue dlt_log_string_uint(DltContext *handle, DltLogLevelType level, const char *text, unsigned int value);
DltReturnValue dlt_log_int(DltContext *handle, DltLogLevelType level, int value);
DltReturnValue dlt_log_uint(DltContext *handle, DltLogLevelType level, unsigned int value);
DltReturnValue dlt_log_raw(DltContext *handle, DltLogLevelType level, void *bytes, uint16_t len);

/* Whether calls with an id are verbose, and the levels of all contexts. */
DltReturnValue dlt_verbose_mode(void);
DltReturnValue dlt_nonverbose_mode(void);
DltReturnValue dlt_set_application_ll_ts_limit(DltLogLevelType level, DltTraceStatusType trace_status);

/* The queue: its bytes and those that wait, a hint to send them, and at most so long as at exit until they are sent. */
DltReturnValue dlt_user_check_buffer(int *total, int *used);
DltReturnValue dlt_user_log_resend_buffer(void);
int dlt_user_atexit_blow_out_user_buffer(void);

/* Whether there is a link to the daemon: 1, or -1. */
int dlt_get_log_state(void);

/* Taken, and without effect: each message has ECU, SEID, TMSP and an extended header, nothing is printed, and no network message is traced. */
DltReturnValue dlt_use_extended_header_for_non_verbose(int8_t with);
DltReturnValue dlt_with_session_id(int8_t with);
DltReturnValue dlt_with_timestamp(int8_t with);
DltReturnValue dlt_with_ecu_id(int8_t with);
DltReturnValue dlt_enable_local_print(void);
DltReturnValue dlt_disable_local_print(void);
DltReturnValue dlt_user_trace_network(DltContext *handle, DltNetworkTraceType type, uint16_t header_len, void *header, uint16_t len, void *payload);
DltReturnValue dlt_user_trace_network_truncated(DltContext *handle, DltNetworkTraceType type, uint16_t header_len, void *header, uint16_t len,
                                                void *payload, int may_cut);
DltReturnValue dlt_user_trace_network_segmented(DltContext *handle, DltNetworkTraceType type, uint16_t header_len, void *header, uint16_t len,
                                                void *payload);

/* Refused with DLT_RETURN_ERROR: logging into a file, modes of the daemon, and markers. */
DltReturnValue dlt_init_file(const char *name);
DltReturnValue dlt_set_filesize_max(unsigned int bytes);
DltReturnValue dlt_set_log_mode(DltUserLogMode mode);
DltReturnValue dlt_log_marker(void);

/* Whether a call of this severity passes. It is answered in the program, so what is not let through is not counted. */
static inline DltReturnValue dlt_user_is_logLevel_enabled(DltContext *handle, DltLogLevelType level) {
    if (!handle || !handle->log_level_ptr || level < DLT_LOG_DEFAULT || level >= DLT_LOG_MAX)
        return DLT_RETURN_WRONG_PARAMETER;
    if (level == DLT_LOG_OFF || (int)level > __atomic_load_n(handle->log_level_ptr, __ATOMIC_RELAXED))
        return DLT_RETURN_LOGGING_DISABLED;
    return DLT_RETURN_TRUE;
}

#ifdef __cplusplus
}
#endif

#endif
