/* What programs write of log calls. Each argument of DLT_LOG is one of the argument macros below. */
#ifndef DLT_USER_MACROS_H
#define DLT_USER_MACROS_H

#include "dlt_types.h"
#include "dlt_version.h"

#define DLT_DECLARE_CONTEXT(CONTEXT) DltContext CONTEXT;
#define DLT_IMPORT_CONTEXT(CONTEXT) extern DltContext CONTEXT;

#define DLT_DO_(...)       \
    do {                   \
        (void)__VA_ARGS__; \
    } while (0)

/* Applications and contexts. */
#define DLT_REGISTER_APP(APID, TEXT) DLT_DO_(dlt_check_library_version(_DLT_PACKAGE_MAJOR_VERSION, _DLT_PACKAGE_MINOR_VERSION), dlt_register_app(APID, TEXT))
#define DLT_UNREGISTER_APP() DLT_DO_(dlt_unregister_app())
#define DLT_UNREGISTER_APP_FLUSH_BUFFERED_LOGS() DLT_DO_(dlt_unregister_app_flush_buffered_logs())
#define DLT_GET_APPID(APID) DLT_DO_(dlt_get_appid(APID))
#define DLT_REGISTER_CONTEXT(CONTEXT, CTID, TEXT) DLT_DO_(dlt_register_context(&(CONTEXT), CTID, TEXT))
#define DLT_REGISTER_CONTEXT_LL_TS(CONTEXT, CTID, TEXT, LEVEL, TRACE) DLT_DO_(dlt_register_context_ll_ts(&(CONTEXT), CTID, TEXT, LEVEL, TRACE))
#define DLT_REGISTER_CONTEXT_LLCCB(CONTEXT, CTID, TEXT, CHANGED) DLT_DO_(dlt_register_context_llccb(&(CONTEXT), CTID, TEXT, CHANGED))
#define DLT_UNREGISTER_CONTEXT(CONTEXT) DLT_DO_(dlt_unregister_context(&(CONTEXT)))

/* What is called back. */
#define DLT_REGISTER_INJECTION_CALLBACK(CONTEXT, SERVICE, CALL) DLT_DO_(dlt_register_injection_callback(&(CONTEXT), SERVICE, CALL))
#define DLT_REGISTER_INJECTION_CALLBACK_WITH_ID(CONTEXT, SERVICE, CALL, MINE) \
    DLT_DO_(dlt_register_injection_callback_with_id(&(CONTEXT), SERVICE, CALL, MINE))
#define DLT_REGISTER_LOG_LEVEL_CHANGED_CALLBACK(CONTEXT, CHANGED) DLT_DO_(dlt_register_log_level_changed_callback(&(CONTEXT), CHANGED))

/* A call, whose arguments name it log_local, and what is done before its finish. */
#define DLT_CALL_(START, BEFORE, ...)                     \
    do {                                                  \
        DltContextData log_local;                         \
        if (START == DLT_RETURN_TRUE) {                   \
            __VA_ARGS__;                                  \
            BEFORE;                                       \
            (void)dlt_user_log_write_finish(&log_local);  \
        }                                                 \
    } while (0)
#define DLT_AT_(TIME) log_local.use_timestamp = DLT_USER_TIMESTAMP, log_local.user_timestamp = (uint32_t)(TIME)

/* Log calls: with a time in units of 0.1 ms, with an id, and with both. */
#define DLT_LOG(CONTEXT, LEVEL, ...) DLT_CALL_(dlt_user_log_write_start(&(CONTEXT), &log_local, LEVEL), (void)0, __VA_ARGS__)
#define DLT_LOG_TS(CONTEXT, LEVEL, TIME, ...) DLT_CALL_(dlt_user_log_write_start(&(CONTEXT), &log_local, LEVEL), DLT_AT_(TIME), __VA_ARGS__)
#define DLT_LOG_ID(CONTEXT, LEVEL, ID, ...) DLT_CALL_(dlt_user_log_write_start_id(&(CONTEXT), &log_local, LEVEL, ID), (void)0, __VA_ARGS__)
#define DLT_LOG_ID_TS(CONTEXT, LEVEL, ID, TIME, ...) \
    DLT_CALL_(dlt_user_log_write_start_id(&(CONTEXT), &log_local, LEVEL, ID), DLT_AT_(TIME), __VA_ARGS__)

/* An argument of a call. */
#define DLT_ARG_(KIND, ...) (void)dlt_user_log_write_##KIND(&log_local, __VA_ARGS__)

#define DLT_STRING(TEXT) DLT_ARG_(string, TEXT)
#define DLT_SIZED_STRING(TEXT, LEN) DLT_ARG_(sized_string, TEXT, LEN)
#define DLT_STRING_ATTR(TEXT, NAME) DLT_ARG_(string_attr, TEXT, NAME)
#define DLT_SIZED_STRING_ATTR(TEXT, LEN, NAME) DLT_ARG_(sized_string_attr, TEXT, LEN, NAME)
#define DLT_CSTRING(TEXT) DLT_ARG_(constant_string, TEXT)
#define DLT_SIZED_CSTRING(TEXT, LEN) DLT_ARG_(sized_constant_string, TEXT, LEN)
#define DLT_CSTRING_ATTR(TEXT, NAME) DLT_ARG_(constant_string_attr, TEXT, NAME)
#define DLT_SIZED_CSTRING_ATTR(TEXT, LEN, NAME) DLT_ARG_(sized_constant_string_attr, TEXT, LEN, NAME)
#define DLT_UTF8(TEXT) DLT_ARG_(utf8_string, TEXT)
#define DLT_SIZED_UTF8(TEXT, LEN) DLT_ARG_(sized_utf8_string, TEXT, LEN)
#define DLT_UTF8_ATTR(TEXT, NAME) DLT_ARG_(utf8_string_attr, TEXT, NAME)
#define DLT_SIZED_UTF8_ATTR(TEXT, LEN, NAME) DLT_ARG_(sized_utf8_string_attr, TEXT, LEN, NAME)
#define DLT_CUTF8(TEXT) DLT_ARG_(constant_utf8_string, TEXT)
#define DLT_SIZED_CUTF8(TEXT, LEN) DLT_ARG_(sized_constant_utf8_string, TEXT, LEN)
#define DLT_CUTF8_ATTR(TEXT, NAME) DLT_ARG_(constant_utf8_string_attr, TEXT, NAME)
#define DLT_SIZED_CUTF8_ATTR(TEXT, LEN, NAME) DLT_ARG_(sized_constant_utf8_string_attr, TEXT, LEN, NAME)

#define DLT_BOOL(VALUE) DLT_ARG_(bool, VALUE)
#define DLT_BOOL_ATTR(VALUE, NAME) DLT_ARG_(bool_attr, VALUE, NAME)
#define DLT_FLOAT32(VALUE) DLT_ARG_(float32, VALUE)
#define DLT_FLOAT32_ATTR(VALUE, NAME, UNIT) DLT_ARG_(float32_attr, VALUE, NAME, UNIT)
#define DLT_FLOAT64(VALUE) DLT_ARG_(float64, VALUE)
#define DLT_FLOAT64_ATTR(VALUE, NAME, UNIT) DLT_ARG_(float64_attr, VALUE, NAME, UNIT)
#define DLT_UINT(VALUE) DLT_ARG_(uint, VALUE)
#define DLT_UINT_ATTR(VALUE, NAME, UNIT) DLT_ARG_(uint_attr, VALUE, NAME, UNIT)
#define DLT_UINT8(VALUE) DLT_ARG_(uint8, VALUE)
#define DLT_UINT8_ATTR(VALUE, NAME, UNIT) DLT_ARG_(uint8_attr, VALUE, NAME, UNIT)
#define DLT_UINT16(VALUE) DLT_ARG_(uint16, VALUE)
#define DLT_UINT16_ATTR(VALUE, NAME, UNIT) DLT_ARG_(uint16_attr, VALUE, NAME, UNIT)
#define DLT_UINT32(VALUE) DLT_ARG_(uint32, VALUE)
#define DLT_UINT32_ATTR(VALUE, NAME, UNIT) DLT_ARG_(uint32_attr, VALUE, NAME, UNIT)
#define DLT_UINT64(VALUE) DLT_ARG_(uint64, VALUE)
#define DLT_UINT64_ATTR(VALUE, NAME, UNIT) DLT_ARG_(uint64_attr, VALUE, NAME, UNIT)
#define DLT_INT(VALUE) DLT_ARG_(int, VALUE)
#define DLT_INT_ATTR(VALUE, NAME, UNIT) DLT_ARG_(int_attr, VALUE, NAME, UNIT)
#define DLT_INT8(VALUE) DLT_ARG_(int8, VALUE)
#define DLT_INT8_ATTR(VALUE, NAME, UNIT) DLT_ARG_(int8_attr, VALUE, NAME, UNIT)
#define DLT_INT16(VALUE) DLT_ARG_(int16, VALUE)
#define DLT_INT16_ATTR(VALUE, NAME, UNIT) DLT_ARG_(int16_attr, VALUE, NAME, UNIT)
#define DLT_INT32(VALUE) DLT_ARG_(int32, VALUE)
#define DLT_INT32_ATTR(VALUE, NAME, UNIT) DLT_ARG_(int32_attr, VALUE, NAME, UNIT)
#define DLT_INT64(VALUE) DLT_ARG_(int64, VALUE)
#define DLT_INT64_ATTR(VALUE, NAME, UNIT) DLT_ARG_(int64_attr, VALUE, NAME, UNIT)
#define DLT_HEX8(VALUE) DLT_ARG_(uint8_formatted, VALUE, DLT_FORMAT_HEX8)
#define DLT_HEX16(VALUE) DLT_ARG_(uint16_formatted, VALUE, DLT_FORMAT_HEX16)
#define DLT_HEX32(VALUE) DLT_ARG_(uint32_formatted, VALUE, DLT_FORMAT_HEX32)
#define DLT_HEX64(VALUE) DLT_ARG_(uint64_formatted, VALUE, DLT_FORMAT_HEX64)
#define DLT_BIN8(VALUE) DLT_ARG_(uint8_formatted, VALUE, DLT_FORMAT_BIN8)
#define DLT_BIN16(VALUE) DLT_ARG_(uint16_formatted, VALUE, DLT_FORMAT_BIN16)
#define DLT_PTR(VALUE) DLT_ARG_(ptr, VALUE)
#define DLT_RAW(BYTES, LEN) DLT_ARG_(raw, BYTES, LEN)
#define DLT_RAW_ATTR(BYTES, LEN, NAME) DLT_ARG_(raw_attr, BYTES, LEN, NAME)

/* Calls whose level is looked at in the program. */
#define DLT_IS_LOG_LEVEL_ENABLED(CONTEXT, LEVEL) (dlt_user_is_logLevel_enabled(&(CONTEXT), LEVEL) == DLT_RETURN_TRUE)
#define DLT_WHERE_(CONTEXT, LEVEL, CALL)                \
    do {                                                \
        if (DLT_IS_LOG_LEVEL_ENABLED(CONTEXT, LEVEL))   \
            (void)CALL;                                 \
    } while (0)
#define DLT_LOG_STRING(CONTEXT, LEVEL, TEXT) DLT_WHERE_(CONTEXT, LEVEL, dlt_log_string(&(CONTEXT), LEVEL, TEXT))
#define DLT_LOG_STRING_INT(CONTEXT, LEVEL, TEXT, VALUE) DLT_WHERE_(CONTEXT, LEVEL, dlt_log_string_int(&(CONTEXT), LEVEL, TEXT, VALUE))
#define DLT_LOG_STRING_UINT(CONTEXT, LEVEL, TEXT, VALUE) DLT_WHERE_(CONTEXT, LEVEL, dlt_log_string_uint(&(CONTEXT), LEVEL, TEXT, VALUE))
#define DLT_LOG_INT(CONTEXT, LEVEL, VALUE) DLT_WHERE_(CONTEXT, LEVEL, dlt_log_int(&(CONTEXT), LEVEL, VALUE))
#define DLT_LOG_UINT(CONTEXT, LEVEL, VALUE) DLT_WHERE_(CONTEXT, LEVEL, dlt_log_uint(&(CONTEXT), LEVEL, VALUE))
#define DLT_LOG_RAW(CONTEXT, LEVEL, BYTES, LEN) DLT_WHERE_(CONTEXT, LEVEL, dlt_log_raw(&(CONTEXT), LEVEL, BYTES, LEN))
#define DLT_LOG_MARKER() DLT_DO_(dlt_log_marker())

/* Network messages, where the context traces them. */
#define DLT_TRACED_(CONTEXT, CALL)                                                                               \
    do {                                                                                                         \
        if ((CONTEXT).trace_status_ptr && *(CONTEXT).trace_status_ptr == DLT_TRACE_STATUS_ON)                    \
            (void)CALL;                                                                                          \
    } while (0)
#define DLT_TRACE_NETWORK(CONTEXT, TYPE, HEADER_LEN, HEADER, LEN, PAYLOAD) \
    DLT_TRACED_(CONTEXT, dlt_user_trace_network(&(CONTEXT), TYPE, HEADER_LEN, HEADER, LEN, PAYLOAD))
#define DLT_TRACE_NETWORK_TRUNCATED(CONTEXT, TYPE, HEADER_LEN, HEADER, LEN, PAYLOAD) \
    DLT_TRACED_(CONTEXT, dlt_user_trace_network_truncated(&(CONTEXT), TYPE, HEADER_LEN, HEADER, LEN, PAYLOAD, 1))
#define DLT_TRACE_NETWORK_SEGMENTED(CONTEXT, TYPE, HEADER_LEN, HEADER, LEN, PAYLOAD) \
    DLT_TRACED_(CONTEXT, dlt_user_trace_network_segmented(&(CONTEXT), TYPE, HEADER_LEN, HEADER, LEN, PAYLOAD))

/* How all calls are made. */
#define DLT_VERBOSE_MODE() DLT_DO_(dlt_verbose_mode())
#define DLT_NONVERBOSE_MODE() DLT_DO_(dlt_nonverbose_mode())
#define DLT_SET_APPLICATION_LL_TS_LIMIT(LEVEL, TRACE) DLT_DO_(dlt_set_application_ll_ts_limit(LEVEL, TRACE))
#define DLT_ENABLE_LOCAL_PRINT() DLT_DO_(dlt_enable_local_print())
#define DLT_DISABLE_LOCAL_PRINT() DLT_DO_(dlt_disable_local_print())

#endif
