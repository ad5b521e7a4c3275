/*
 * Log calls: whether one passes its context's level, its arguments, and its finish. The proved library decides, encodes and counts;
 * here are buffers for payloads, and what becomes of texts that are too long.
 */
#include "inside.h"

#include <pthread.h>
#include <stdarg.h>
#include <stdio.h>
#include <stdlib.h>
#include <string.h>

/* ---- memory of payloads: each thread keeps one for its next call */

static __thread unsigned char *kept __attribute__((tls_model("initial-exec")));
static __thread bool is_known __attribute__((tls_model("initial-exec")));
static pthread_key_t at_thread_end;
static pthread_once_t key_once = PTHREAD_ONCE_INIT;

static void let_kept_go(void *unused) {
    (void)unused;
    free(kept);
    kept = NULL;
    is_known = false;
}

static void make_key(void) { pthread_key_create(&at_thread_end, let_kept_go); }

static void know_thread(void) {
    pthread_once(&key_once, make_key);
    is_known = pthread_setspecific(at_thread_end, &kept) == 0;
}

static unsigned char *take_buffer(void) {
    unsigned char *buffer = kept;
    kept = NULL;
    return buffer ? buffer : malloc(PAYLOAD_BYTES);
}

static void give_buffer(unsigned char *buffer) {
    if (!is_known)
        know_thread();
    if (kept || !is_known)
        free(buffer);
    else
        kept = buffer;
}

/* ---- start and finish */

/* Whether a call is filtered by its context's level; then it is counted. */
static inline bool is_filtered(DltContext *handle, DltContextData *log, DltLogLevelType level) {
    if (!handle || !log || (unsigned)level > DLT_LOG_VERBOSE || (uint32_t)handle->log_level_pos >= PLACES)
        return false;
    _Atomic uint64_t *sieve = &sieves[handle->log_level_pos];
    uint64_t seen = atomic_load_explicit(sieve, memory_order_relaxed);
    while ((int)(seen >> LEVEL_BIT) < (int)level) {
        if (atomic_compare_exchange_weak(sieve, &seen, seen + 1)) {
            log->handle = NULL;
            return true;
        }
    }
    return false;
}

/* Begins a call that is not filtered, with this memory for its payload. */
static __attribute__((noinline)) DltReturnValue begin(DltContext *handle, DltContextData *log, DltLogLevelType level, unsigned char *buffer) {
    if (!handle || !log || (unsigned)level > DLT_LOG_VERBOSE || (uint32_t)handle->log_level_pos >= PLACES || !places[handle->log_level_pos].taken)
        return DLT_RETURN_WRONG_PARAMETER;
    log->handle = NULL;
    if (level == DLT_LOG_OFF)
        return DLT_RETURN_OK;
    log->buffer = buffer ? buffer : take_buffer();
    if (!log->buffer)
        return DLT_RETURN_ERROR;
    log->handle = handle;
    log->log_level = level;
    log->args_num = 0;
    log->size = 0;
    log->use_timestamp = DLT_AUTO_TIMESTAMP;
    log->verbose_mode = 1;
    return DLT_RETURN_TRUE;
}

EXPORT DltReturnValue dlt_user_log_write_start(DltContext *handle, DltContextData *log, DltLogLevelType level) {
    return is_filtered(handle, log, level) ? DLT_RETURN_OK : begin(handle, log, level, NULL);
}

EXPORT DltReturnValue dlt_user_log_write_start_id(DltContext *handle, DltContextData *log, DltLogLevelType level, uint32_t id) {
    /* a call with an id is not verbose where the program asks for that; one without an id always is */
    DltReturnValue answer = dlt_user_log_write_start(handle, log, level);
    if (answer == DLT_RETURN_TRUE && !is_verbose) {
        log->verbose_mode = 0;
        for (int i = 0; i < 4; i++)
            log->buffer[i] = (unsigned char)(id >> 8 * i);
        log->size = 4;
    }
    return answer;
}

EXPORT DltReturnValue dlt_user_log_write_start_w_given_buffer(DltContext *handle, DltContextData *log, DltLogLevelType level, char *payload, size_t len,
                                                              int32_t args) {
    if (!payload || len > PAYLOAD_BYTES || args < 0 || args > 255)
        return DLT_RETURN_WRONG_PARAMETER;
    if (is_filtered(handle, log, level))
        return DLT_RETURN_OK;
    DltReturnValue answer = begin(handle, log, level, (unsigned char *)payload);
    if (answer == DLT_RETURN_TRUE) {
        log->size = (int32_t)len;
        log->args_num = args;
    }
    return answer;
}

EXPORT DltReturnValue dlt_user_log_write_finish_w_given_buffer(DltContextData *log) {
    if (!log || !log->handle || !log->buffer)
        return DLT_RETURN_WRONG_PARAMETER;
    unsigned p = (unsigned)log->handle->log_level_pos;
    log->handle = NULL;
    lock();
    // in here, so that times don't step back where counters go on
    Call call = {(uint8_t)log->log_level, log->verbose_mode != 0, (uint8_t)log->args_num, log->use_timestamp ? log->user_timestamp : ticks_now()};
    bool is_first = client.queue.used == 0, is_there = p < PLACES && places[p].taken;
    uint8_t logged = is_there ? dl_client_c_log(&client, p, &call, log->buffer, (size_t)log->size) : NO_CALL;
    if (is_first)
        wake_for_first();
    unlock();
    return logged == QUEUED || logged == FILTERED ? DLT_RETURN_OK : logged == LOST ? DLT_RETURN_BUFFER_FULL : DLT_RETURN_ERROR;
}

EXPORT DltReturnValue dlt_user_log_write_finish(DltContextData *log) {
    DltReturnValue answer = dlt_user_log_write_finish_w_given_buffer(log);
    if (answer == DLT_RETURN_WRONG_PARAMETER)
        return answer;
    give_buffer(log->buffer);
    log->buffer = NULL;
    return answer;
}

/* ---- arguments */

static Area area_of(DltContextData *log) { return (Area){log->buffer, PAYLOAD_BYTES, (size_t)log->size}; }

static bool is_open(const DltContextData *log) { return log && log->handle && log->buffer; }

static DltReturnValue added(DltContextData *log, const Area *area, bool has_room) {
    if (!has_room)
        return DLT_RETURN_USER_BUFFER_FULL;
    log->size = (int32_t)area->used;
    log->args_num++;
    return DLT_RETURN_OK;
}

/* how many bytes a name or a unit has with its closing zero byte, and none where it isn't there */
static size_t closed_len(const char *text) { return text ? strlen(text) + 1 : 0; }

static DltReturnValue add_number(DltContextData *log, uint8_t kind, uint8_t format, const void *bytes, size_t len, const char *name, const char *unit) {
    if (!is_open(log))
        return DLT_RETURN_WRONG_PARAMETER;
    Area area = area_of(log);
    bool has_room = !log->verbose_mode ? dl_client_c_add_plain(&area, bytes, len)
                    : name || unit
                        ? dl_client_c_add_named_number(&area, kind, (const uint8_t *)(name ? name : ""), closed_len(name),
                                                       (const uint8_t *)(unit ? unit : ""), closed_len(unit), bytes, len)
                        : dl_client_c_add_number(&area, kind, format, bytes, len);
    return added(log, &area, has_room);
}

/* The numbers of DLT_INT and DLT_UINT carry an empty name and unit, as libdlt's do. */
static DltReturnValue add_unnamed(DltContextData *log, uint8_t kind, const void *bytes, size_t len) {
    if (!is_open(log) || !log->verbose_mode)
        return add_number(log, kind, FORMAT_PLAIN, bytes, len, NULL, NULL);
    Area area = area_of(log);
    return added(log, &area, dl_client_c_add_named_number(&area, kind, (const uint8_t *)"", 0, (const uint8_t *)"", 0, bytes, len));
}

EXPORT DltReturnValue dlt_user_log_write_int(DltContextData *log, int value) { return add_unnamed(log, KIND_SIGNED, &value, sizeof value); }

EXPORT DltReturnValue dlt_user_log_write_uint(DltContextData *log, unsigned int value) { return add_unnamed(log, KIND_UNSIGNED, &value, sizeof value); }

#define NUMBER(name, type, kind)                                                                    \
    EXPORT DltReturnValue dlt_user_log_write_##name(DltContextData *log, type value) {              \
        return add_number(log, kind, FORMAT_PLAIN, &value, sizeof value, NULL, NULL);               \
    }                                                                                               \
    NAMED(name, type, kind)

#define NAMED(name, type, kind)                                                                                                         \
    EXPORT DltReturnValue dlt_user_log_write_##name##_attr(DltContextData *log, type value, const char *label, const char *unit) {      \
        return add_number(log, kind, FORMAT_PLAIN, &value, sizeof value, label, unit);                                                   \
    }

NUMBER(float32, float32_t, KIND_FLOAT)
NUMBER(float64, float64_t, KIND_FLOAT)
NAMED(uint, unsigned int, KIND_UNSIGNED)
NUMBER(uint8, uint8_t, KIND_UNSIGNED)
NUMBER(uint16, uint16_t, KIND_UNSIGNED)
NUMBER(uint32, uint32_t, KIND_UNSIGNED)
NUMBER(uint64, uint64_t, KIND_UNSIGNED)
NAMED(int, int, KIND_SIGNED)
NUMBER(int8, int8_t, KIND_SIGNED)
NUMBER(int16, int16_t, KIND_SIGNED)
NUMBER(int32, int32_t, KIND_SIGNED)
NUMBER(int64, int64_t, KIND_SIGNED)

static uint8_t format_of(DltFormatType format) {
    return format >= DLT_FORMAT_HEX8 && format <= DLT_FORMAT_HEX64 ? FORMAT_HEX : format >= DLT_FORMAT_BIN8 ? FORMAT_BINARY : FORMAT_PLAIN;
}

/* how many bytes a unit of bytes has that are to be shown so, or 0 */
static size_t unit_of(DltFormatType format) {
    static const uint8_t bytes[] = {0, 1, 2, 4, 8, 1, 2};
    return format > DLT_FORMAT_DEFAULT && format < DLT_FORMAT_MAX ? bytes[format] : 0;
}

#define FORMATTED(name, type)                                                                                           \
    EXPORT DltReturnValue dlt_user_log_write_##name##_formatted(DltContextData *log, type value, DltFormatType format) { \
        return add_number(log, KIND_UNSIGNED, format_of(format), &value, sizeof value, NULL, NULL);                     \
    }

FORMATTED(uint8, uint8_t)
FORMATTED(uint16, uint16_t)
FORMATTED(uint32, uint32_t)
FORMATTED(uint64, uint64_t)

EXPORT DltReturnValue dlt_user_log_write_ptr(DltContextData *log, void *value) {
    uintptr_t number = (uintptr_t)value;
    return add_number(log, KIND_UNSIGNED, FORMAT_HEX, &number, sizeof number, NULL, NULL);
}

EXPORT DltReturnValue dlt_user_log_write_bool(DltContextData *log, uint8_t value) {
    uint8_t truth = value != 0;
    return add_number(log, KIND_BOOL, FORMAT_PLAIN, &truth, 1, NULL, NULL);
}

EXPORT DltReturnValue dlt_user_log_write_bool_attr(DltContextData *log, uint8_t value, const char *name) {
    if (!is_open(log) || !log->verbose_mode || !name)
        return dlt_user_log_write_bool(log, value);
    Area area = area_of(log);
    return added(log, &area, dl_client_c_add_named_bool(&area, (const uint8_t *)name, closed_len(name), value != 0));
}

/* ---- texts and bytes */

static const char TOO_LONG[] = "... <<Message truncated, too long>>";

static bool put_text(DltContextData *log, Area *area, bool utf8, const char *text, size_t len, const char *name) {
    const uint8_t *bytes = (const uint8_t *)text, size[2] = {(uint8_t)(len + 1), (uint8_t)((len + 1) >> 8)};
    if (log->verbose_mode)
        return name ? dl_client_c_add_named_text(area, utf8, (const uint8_t *)name, closed_len(name), bytes, len) : dl_client_c_add_text(area, utf8, bytes, len);
    return dl_client_c_add_plain(area, size, 2) && dl_client_c_add_plain(area, bytes, len) && dl_client_c_add_plain(area, (const uint8_t *)"", 1);
}

/* A text that has no room is cut, and ends with a remark. */
static DltReturnValue add_text(DltContextData *log, bool utf8, const char *text, size_t len, const char *name) {
    if (!is_open(log) || !text)
        return DLT_RETURN_WRONG_PARAMETER;
    size_t front = log->verbose_mode ? 7 + (name ? closed_len(name) + 2 : 0) : 3, left = PAYLOAD_BYTES - (size_t)log->size, remark = sizeof TOO_LONG - 1;
    Area area = area_of(log);
    if (front + len <= left)
        return added(log, &area, put_text(log, &area, utf8, text, len, name));
    char cut[PAYLOAD_BYTES];
    if (front + remark >= left)
        return DLT_RETURN_USER_BUFFER_FULL;
    size_t keep = left - front - remark;
    memcpy(cut, text, keep);
    memcpy(cut + keep, TOO_LONG, remark);
    added(log, &area, put_text(log, &area, utf8, cut, keep + remark, name));
    return DLT_RETURN_USER_BUFFER_FULL;
}

static size_t text_len(const char *text) { return text ? strlen(text) : 0; }

/* a constant text is left out of a payload that is not verbose */
static DltReturnValue add_constant(DltContextData *log, bool utf8, const char *text, size_t len, const char *name) {
    return is_open(log) && !log->verbose_mode ? DLT_RETURN_OK : add_text(log, utf8, text, len, name);
}

#define TEXTS(part, utf8, add)                                                                                                                        \
    EXPORT DltReturnValue dlt_user_log_write_##part##string(DltContextData *log, const char *text) {                                                  \
        return add(log, utf8, text, text_len(text), NULL);                                                                                            \
    }                                                                                                                                                 \
    EXPORT DltReturnValue dlt_user_log_write_sized_##part##string(DltContextData *log, const char *text, uint16_t len) {                              \
        return add(log, utf8, text, len, NULL);                                                                                                       \
    }                                                                                                                                                 \
    EXPORT DltReturnValue dlt_user_log_write_##part##string_attr(DltContextData *log, const char *text, const char *name) {                           \
        return add(log, utf8, text, text_len(text), name);                                                                                            \
    }                                                                                                                                                 \
    EXPORT DltReturnValue dlt_user_log_write_sized_##part##string_attr(DltContextData *log, const char *text, uint16_t len, const char *name) {       \
        return add(log, utf8, text, len, name);                                                                                                       \
    }

TEXTS(, false, add_text)
TEXTS(utf8_, true, add_text)
TEXTS(constant_, false, add_constant)
TEXTS(constant_utf8_, true, add_constant)

static DltReturnValue add_raw(DltContextData *log, const void *bytes, uint16_t len, DltFormatType format, const char *name) {
    if (!is_open(log) || (!bytes && len))
        return DLT_RETURN_WRONG_PARAMETER;
    Area area = area_of(log);
    const uint8_t size[2] = {(uint8_t)len, (uint8_t)(len >> 8)}, *from = bytes ? bytes : size;
    bool has_room = !log->verbose_mode ? dl_client_c_add_plain(&area, size, 2) && dl_client_c_add_plain(&area, from, len)
                    : name             ? dl_client_c_add_named_raw(&area, format_of(format), unit_of(format), (const uint8_t *)name, closed_len(name), from, len)
                                       : dl_client_c_add_raw(&area, format_of(format), unit_of(format), from, len);
    return added(log, &area, has_room);
}

EXPORT DltReturnValue dlt_user_log_write_raw(DltContextData *log, void *bytes, uint16_t len) { return add_raw(log, bytes, len, DLT_FORMAT_DEFAULT, NULL); }

EXPORT DltReturnValue dlt_user_log_write_raw_attr(DltContextData *log, const void *bytes, uint16_t len, const char *name) {
    return add_raw(log, bytes, len, DLT_FORMAT_DEFAULT, name);
}

EXPORT DltReturnValue dlt_user_log_write_raw_formatted(DltContextData *log, void *bytes, uint16_t len, DltFormatType format) {
    return add_raw(log, bytes, len, format, NULL);
}

EXPORT DltReturnValue dlt_user_log_write_raw_formatted_attr(DltContextData *log, const void *bytes, uint16_t len, DltFormatType format, const char *name) {
    return add_raw(log, bytes, len, format, name);
}

/* ---- whole calls, which are not made where a program is not verbose */

#define WHOLE(...)                                                                                          \
    DltContextData log;                                                                                     \
    DltReturnValue answer = is_verbose ? dlt_user_log_write_start(handle, &log, level) : DLT_RETURN_ERROR; \
    if (answer != DLT_RETURN_TRUE)                                                                          \
        return answer;                                                                                      \
    answer = (__VA_ARGS__);                                                                                 \
    DltReturnValue finished = dlt_user_log_write_finish(&log);                                              \
    return answer != DLT_RETURN_OK ? answer : finished;

EXPORT DltReturnValue dlt_log_string(DltContext *handle, DltLogLevelType level, const char *text) { WHOLE(dlt_user_log_write_string(&log, text)) }

EXPORT DltReturnValue dlt_log_int(DltContext *handle, DltLogLevelType level, int value) { WHOLE(dlt_user_log_write_int(&log, value)) }

EXPORT DltReturnValue dlt_log_uint(DltContext *handle, DltLogLevelType level, unsigned int value) { WHOLE(dlt_user_log_write_uint(&log, value)) }

EXPORT DltReturnValue dlt_log_string_int(DltContext *handle, DltLogLevelType level, const char *text, int value) {
    WHOLE((void)dlt_user_log_write_string(&log, text), dlt_user_log_write_int(&log, value))
}

EXPORT DltReturnValue dlt_log_string_uint(DltContext *handle, DltLogLevelType level, const char *text, unsigned int value) {
    WHOLE((void)dlt_user_log_write_string(&log, text), dlt_user_log_write_uint(&log, value))
}

EXPORT DltReturnValue dlt_log_raw(DltContext *handle, DltLogLevelType level, void *bytes, uint16_t len) { WHOLE(dlt_user_log_write_raw(&log, bytes, len)) }

EXPORT DltReturnValue dlt_verbose_mode(void) {
    is_verbose = true;
    return DLT_RETURN_OK;
}

EXPORT DltReturnValue dlt_nonverbose_mode(void) {
    is_verbose = false;
    return DLT_RETURN_OK;
}

/* ---- what is taken without effect: messages always have ECU, SEID, TMSP and an extended header, and no network message is traced */

#define TAKEN(name)                            \
    EXPORT DltReturnValue name(int8_t with) {  \
        (void)with;                            \
        return DLT_RETURN_OK;                  \
    }

TAKEN(dlt_with_session_id)
TAKEN(dlt_with_timestamp)
TAKEN(dlt_with_ecu_id)
TAKEN(dlt_use_extended_header_for_non_verbose)

EXPORT DltReturnValue dlt_enable_local_print(void) { return DLT_RETURN_OK; }

EXPORT DltReturnValue dlt_disable_local_print(void) { return DLT_RETURN_OK; }

EXPORT DltReturnValue dlt_user_trace_network_truncated(DltContext *handle, DltNetworkTraceType type, uint16_t header_len, void *header, uint16_t len,
                                                       void *payload, int may_cut) {
    (void)type, (void)header_len, (void)header, (void)len, (void)payload, (void)may_cut;
    return handle ? DLT_RETURN_OK : DLT_RETURN_WRONG_PARAMETER;
}

EXPORT DltReturnValue dlt_user_trace_network(DltContext *handle, DltNetworkTraceType type, uint16_t header_len, void *header, uint16_t len, void *payload) {
    return dlt_user_trace_network_truncated(handle, type, header_len, header, len, payload, 0);
}

EXPORT DltReturnValue dlt_user_trace_network_segmented(DltContext *handle, DltNetworkTraceType type, uint16_t header_len, void *header, uint16_t len,
                                                       void *payload) {
    return dlt_user_trace_network_truncated(handle, type, header_len, header, len, payload, 0);
}

/* ---- what is refused */

EXPORT DltReturnValue dlt_init_file(const char *name) {
    (void)name;
    return DLT_RETURN_ERROR;
}

EXPORT DltReturnValue dlt_set_filesize_max(unsigned int bytes) {
    (void)bytes;
    return DLT_RETURN_ERROR;
}

EXPORT DltReturnValue dlt_set_log_mode(DltUserLogMode mode) {
    (void)mode;
    return DLT_RETURN_ERROR;
}

EXPORT DltReturnValue dlt_log_marker(void) { return DLT_RETURN_ERROR; }

/* ---- ids, versions, the clock, and lines of programs that print through the library */

EXPORT void dlt_set_id(char *id, const char *text) {
    for (int i = 0; id && i < DLT_ID_SIZE; i++)
        id[i] = text && *text ? *text++ : 0;
}

EXPORT void dlt_print_id(char *text, const char *id) {
    for (int i = 0; text && id && i < DLT_ID_SIZE; i++)
        text[i] = id[i] ? id[i] : '-';
    if (text)
        text[DLT_ID_SIZE] = 0;
}

EXPORT uint32_t dlt_uptime(void) { return ticks_now(); }

EXPORT void dlt_get_version(char *text, size_t size) {
    if (text && size)
        snprintf(text, size, "libdlt of Komdashai, with the interface of libdlt %s\n", _DLT_PACKAGE_VERSION);
}

EXPORT void dlt_get_major_version(char *text, size_t size) {
    if (text && size)
        snprintf(text, size, "%s", _DLT_PACKAGE_MAJOR_VERSION);
}

EXPORT void dlt_get_minor_version(char *text, size_t size) {
    if (text && size)
        snprintf(text, size, "%s", _DLT_PACKAGE_MINOR_VERSION);
}

/* Bytes in lines of sixteen, in hexadecimal and as letters. */
EXPORT DltReturnValue dlt_print_mixed_string(char *text, int text_len, const uint8_t *bytes, int len, int html) {
    if (!text || text_len <= 0 || !bytes || len < 0)
        return DLT_RETURN_WRONG_PARAMETER;
    size_t at = 0, room = (size_t)text_len;
    text[0] = 0;
    for (int line = 0; line < len; line += 16) {
        char hex[3 * 16 + 1] = "", letters[17] = "";
        for (int i = 0; i < 16 && line + i < len; i++) {
            snprintf(hex + 3 * i, 4, "%02x ", bytes[line + i]);
            letters[i] = bytes[line + i] >= ' ' && bytes[line + i] < 127 ? (char)bytes[line + i] : '.';
        }
        int more = snprintf(text + at, room - at, "%06x: %-48s %s%s", line, hex, letters, html ? "<br>" : "\n");
        if (more < 0 || (size_t)more >= room - at)
            return DLT_RETURN_USER_BUFFER_FULL;
        at += (size_t)more;
    }
    return DLT_RETURN_OK;
}

EXPORT DltReturnValue dlt_log(int priority, char *text) { return text ? dlt_vlog(priority, "%s", text) : DLT_RETURN_WRONG_PARAMETER; }

EXPORT DltReturnValue dlt_vlog(int priority, const char *format, ...) {
    va_list values;
    (void)priority;
    if (!format)
        return DLT_RETURN_WRONG_PARAMETER;
    va_start(values, format);
    int printed = vfprintf(stderr, format, values);
    va_end(values);
    return printed < 0 ? DLT_RETURN_ERROR : DLT_RETURN_OK;
}
